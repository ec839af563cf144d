//! Order 5: the two first lines, and the tie rule that each names.

use crate::{followed, pair, planned, read_refusal, result_of, rubbish, sheet, used, Builder};

const AWAY: &str = "kind name a b c";
const EVEN: &str = "kind2 name a b c";

/// The sheet under another first line.
fn under(line: &str, text: &[u8]) -> Vec<u8> {
    let end = text.iter().position(|&byte| byte == b'\n');
    [line.as_bytes(), &text[end.expect("a line")..]].concat()
}

/// The sheet under each of the two lines.
fn both(text: &[u8]) -> [Vec<u8>; 2] {
    [AWAY, EVEN].map(|line| under(line, text))
}

/// State, number and steps of a value with this body, under each of the two.
fn value(body: &str) -> [[i64; 3]; 2] {
    let mut builder = Builder::new();
    builder.define("F", "half", 1, "D P 2");
    builder.define("V", "far", 1, "A 1000000000 1");
    let label = builder.define("V", "v", 1, body);
    both(&builder.text()).map(|text| result_of(&text, label))
}

/// The number of a / b under each of the two.
fn quotient(a: i64, b: i64) -> [i64; 2] {
    value(&format!("D {a} {b}")).map(|[state, number, steps]| {
        assert_eq!((state, steps), (1, 3), "{a} / {b}");
        number
    })
}

/// "Refusal 2 now allows either line."
#[test]
fn either_line() {
    for text in both(&sheet("G - 0 - -")) {
        assert_eq!(read_refusal(&text), None);
    }
}

/// Lines that are taken for one of the two.
const OTHERS: [&str; 38] = [
    "kind3 name a b c",
    "kind1 name a b c",
    "kind0 name a b c",
    "kind02 name a b c",
    "kind22 name a b c",
    "kind20 name a b c",
    "kind-2 name a b c",
    "kind2. name a b c",
    "2kind name a b c",
    "2 name a b c",
    "Kind2 name a b c",
    "KIND2 name a b c",
    "kInd2 name a b c",
    "kind 2 name a b c",
    "kind2name a b c",
    " kind2 name a b c",
    "kind2 name a b c ",
    "kind2  name a b c",
    "kind2 name  a b c",
    "kind2 name a b  c",
    "kind2 Name a b c",
    "kind2 name2 a b c",
    "kind name2 a b c",
    "kind2 name A b c",
    "kind2 name a b C",
    "kind2 name a b c2",
    "kind name a b c2",
    "kind2 name a b c d",
    "kind2 name a b cc",
    "kind2,name,a,b,c",
    "kind kind2 name a b c",
    "kind2 kind name a b c",
    "kind2 name a c b",
    "kind2 name a b",
    "kind2 name",
    "kind2",
    "kin2 name a b c",
    "ind2 name a b c",
];

#[test]
fn every_other_line_is_refused() {
    for line in OTHERS {
        let text = under(line, &sheet("G - 0 - -"));
        assert_eq!(read_refusal(&text), Some((2, 0)), "{line:?}");
    }
}

/// Every text of which one byte of a line is left out, doubled or another is
/// refused with 2, but where that makes it the other line.
#[test]
fn every_line_one_byte_from_either() {
    for line in [AWAY, EVEN] {
        for at in 0..line.len() {
            for byte in 32..=126u8 {
                let (before, after) = line.as_bytes().split_at(at);
                let lines = [
                    [before, &after[1..]].concat(),
                    [before, &[byte], after].concat(),
                    [before, &[byte], &after[1..]].concat(),
                ];
                for other in lines {
                    let allowed = [AWAY, EVEN].map(str::as_bytes).contains(&&other[..]);
                    let text = [&other[..], b"\nG - 0 - -\n"].concat();
                    let wanted = (!allowed).then_some((2, 0));
                    assert_eq!(read_refusal(&text), wanted, "{text:?}");
                }
            }
        }
    }
}

/// Each line cut short anywhere; with its end, refused with 2 or, whole, with 3.
#[test]
fn lines_cut_short() {
    for line in [AWAY, EVEN] {
        for length in 0..=line.len() {
            let cut = &line.as_bytes()[..length];
            assert_eq!(read_refusal(cut), Some((1, 0)), "{cut:?}");
            let number = if length == line.len() { 3 } else { 2 };
            let ended = [cut, b"\n"].concat();
            assert_eq!(read_refusal(&ended), Some((number, 0)), "{ended:?}");
        }
    }
}

/// Row 1 is judged first: a carriage return is a byte not allowed.
#[test]
fn row_1_before_line_one() {
    for line in [AWAY, EVEN, "kind3 name a b c"] {
        let text = format!("{line}\r\nG - 0 - -\r\n");
        assert_eq!(read_refusal(text.as_bytes()), Some((1, 0)), "{line}");
    }
}

/// Of both lines one after the other, the first names the rule and the second is
/// a line of fields, whose kind is unknown.
#[test]
fn both_lines_one_after_the_other() {
    for [first, second] in [[AWAY, EVEN], [EVEN, AWAY], [EVEN, EVEN]] {
        let text = format!("{first}\n{second}\nG - 0 - -\n");
        assert_eq!(read_refusal(text.as_bytes()), Some((6, 1)));
    }
}

/// Rows 1 and 3 at their limits: the byte more of the line counts.
#[test]
fn limits_under_the_longer_line() {
    let lines = |count: usize| under(EVEN, &sheet(&"G - 0 - -\n".repeat(count)));
    assert_eq!(read_refusal(&lines(1_024)), Some((7, 2)));
    assert_eq!(read_refusal(&lines(1_025)), Some((3, 0)));
    let mut text = lines(1);
    text.resize(65_535, b'x');
    text.push(b'\n');
    assert_eq!(read_refusal(&text), Some((5, 2)));
    assert_eq!(read_refusal(&under(AWAY, &text)), Some((5, 2)));
    text.insert(100, b'x');
    assert_eq!(read_refusal(&text), Some((1, 0)));
    assert_eq!(read_refusal(&under(AWAY, &text)), Some((5, 2)));
}

/// "Byte start (from 0)" of the text as sent: one higher under the longer line.
/// All else of the table is the same.
#[test]
fn byte_starts_are_one_higher() {
    let text =
        sheet("G - 0 - -\nV total 1 3 -\nR right.x - - -\nG right 1 - -\nV x 4 6 -\nN - 7 - -");
    let [away, even] = both(&text).map(|text| {
        let mut table = rubbish(8 * 6);
        assert_eq!(reference::read(&text, &mut table), Ok(6));
        for label in [2, 3, 4, 5] {
            let name = reference::name(&text, &mut table, label);
            let start = table[8 * (label as usize - 1) + 1] as usize;
            assert_eq!(name.as_ptr(), text[start..].as_ptr());
        }
        table
    });
    for (at, (&away, &even)) in away.iter().zip(&even).enumerate() {
        let is_start = at % 8 == 1 && away != 0;
        assert_eq!(even, away + i64::from(is_start), "cell {at}");
    }
    let starts: Vec<i64> = even.iter().skip(1).step_by(8).copied().collect();
    assert_eq!(starts, [0, 29, 43, 59, 73, 0]);
}

/// "-3250 / 100 is -32 under the new rule", and its neighbours.
#[test]
fn the_papers_halves() {
    assert_eq!(quotient(-3250, 100), [-33, -32]);
    assert_eq!(quotient(3250, 100), [33, 32]);
    assert_eq!(quotient(3249, 100), [32, 32]);
    assert_eq!(quotient(3251, 100), [33, 33]);
    assert_eq!(quotient(50, 100), [1, 0]);
    assert_eq!(quotient(150, 100), [2, 2]);
    assert_eq!(quotient(-50, 100), [-1, 0]);
    assert_eq!(quotient(-150, 100), [-2, -2]);
    assert_eq!(quotient(350, -100), [-4, -4]);
    assert_eq!(quotient(250, -100), [-3, -2]);
    assert_eq!(quotient(-250, -100), [3, 2]);
    assert_eq!(quotient(-350, -100), [4, 4]);
}

/// The plain definition on every pair of a square: no whole number is nearer, of
/// two as near the one away from zero or the even one.
#[test]
fn every_small_quotient() {
    for a in -30i64..=30 {
        for b in (-9i64..=9).filter(|&b| b != 0) {
            let distance = |q: i64| (q * b - a).abs();
            let nearest = (-31..=31).map(distance).min();
            let near: Vec<i64> = (-31..=31)
                .filter(|&q| Some(distance(q)) == nearest)
                .collect();
            let away = near.iter().copied().max_by_key(|q| q.abs());
            let even = near.iter().copied().max_by_key(|q| q % 2 == 0);
            assert_eq!(quotient(a, b).map(Some), [away, even], "{a} / {b}");
        }
    }
}

#[test]
fn the_largest_quotients() {
    let most = 1_000_000_000;
    assert_eq!(quotient(most, 1), [most, most]);
    assert_eq!(quotient(-most, -1), [most, most]);
    assert_eq!(quotient(most, -most), [-1, -1]);
    assert_eq!(quotient(most / 2, most), [1, 0]);
    assert_eq!(quotient(-most / 2, most), [-1, 0]);
    assert_eq!(quotient(most / 2 + 1, most), [1, 1]);
    assert_eq!(quotient(most / 2 - 1, -most), [0, 0]);
    assert_eq!(quotient(most - 1, 2), [most / 2, most / 2]);
    assert_eq!(quotient(most - 3, 2), [most / 2 - 1, most / 2 - 2]);
    assert_eq!(quotient(3 - most, 2), [1 - most / 2, 2 - most / 2]);
}

/// "A zero b is state 3", a failing operand comes first, steps are the same.
#[test]
fn failures_stay() {
    assert_eq!(value("D 1 0"), [[3, 0, 3]; 2]);
    assert_eq!(value("D 0 0"), [[3, 0, 3]; 2]);
    assert_eq!(value("D R:far 0"), [[2, 0, 2]; 2]);
    assert_eq!(value("D 1 R:far"), [[2, 0, 3]; 2]);
    assert_eq!(
        value("A D 1 2 1000000000"),
        [[2, 0, 5], [1, 1_000_000_000, 5]]
    );
}

/// "Use it in D": no other operation goes by the rule.
#[test]
fn other_operations_stay() {
    for (body, wanted) in [
        ("A 3 2", [1, 5, 3]),
        ("S 3 2", [1, 1, 3]),
        ("M 3 -5", [1, -15, 3]),
        ("M 31623 31623", [2, 0, 3]),
        ("I 1 3 5", [1, 3, 3]),
        ("C:half 6", [1, 3, 5]),
        ("R:far", [2, 0, 1]),
        ("-5", [1, -5, 1]),
    ] {
        assert_eq!(value(body), [wanted; 2], "{body}");
    }
}

/// In a function, under an operation, as a test: there the branch differs.
#[test]
fn wherever_a_quotient_stands() {
    assert_eq!(value("C:half 5"), [[1, 3, 5], [1, 2, 5]]);
    assert_eq!(value("C:half C:half 10"), [[1, 3, 9], [1, 2, 9]]);
    assert_eq!(value("M D 5 2 D 7 -2"), [[1, -12, 7], [1, -8, 7]]);
    assert_eq!(value("D D 5 2 2"), [[1, 2, 5], [1, 1, 5]]);
    assert_eq!(value("I D 1 2 7 A 8 9"), [[1, 7, 5], [1, 17, 7]]);
    assert_eq!(value("D 1 D 1 2"), [[1, 1, 5], [3, 0, 5]]);
}

/// 2 a = 5 / 2, 6 b = a and a / 2; the numbers of a are labels 4 and 5.
fn quotients() -> Vec<u8> {
    let mut builder = Builder::new();
    builder.define("V", "a", 1, "D 5 2");
    builder.define("V", "b", 1, "A R:a D R:a 2");
    builder.text()
}

/// "Values are judged under the rule that the sheet's own first line names."
#[test]
fn follow_goes_by_the_line() {
    let numbers = both(&quotients()).map(|text| {
        assert_eq!(planned(&text), Ok((vec![2, 6], reference::Order::Whole)));
        let results = followed(&text, &[2, 6]).expect("a proper order");
        assert_eq!(results[3..6], result_of(&text, 2));
        assert_eq!(results[15..18], result_of(&text, 6));
        [results[4], results[16]]
    });
    assert_eq!(numbers, [[3, 5], [2, 3]]);
}

/// Table, results and changes after Retouch.
fn retouched(text: &[u8], pairs: &[i64]) -> [Vec<i64>; 3] {
    let mut buffers = [8 * 11, 11, 3 * 11, 3 * 8].map(rubbish);
    let [table, plan, results, changes] = &mut buffers;
    let answer = reference::retouch(text, pairs, table, plan, results, changes);
    assert_eq!(answer.map_err(pair), Ok((2, reference::Order::Whole)));
    let [table, _, results, changes] = buffers;
    [table, results, changes]
}

/// Before a pair and after each: 5 / 2, then 7 / 2, then 7 / -2, then 9 / -6.
#[test]
fn retouch_goes_by_the_line() {
    let numbers = |text: &[u8], pairs: &[i64]| {
        let [_, results, changes] = retouched(text, pairs);
        let redone: Vec<i64> = used(&changes).iter().step_by(3).copied().collect();
        assert_eq!(redone, vec![2; pairs.len() / 2]);
        [results[4], results[16]]
    };
    let [away, even] = both(&quotients());
    let pairs = [4, 7, 5, -2, 4, 9, 5, -6];
    for (pairs, wanted) in [
        (&pairs[..0], [[3, 5], [2, 3]]),
        (&pairs[..2], [[4, 6], [4, 6]]),
        (&pairs[..4], [[-4, -6], [-4, -6]]),
        (&pairs[..6], [[-5, -8], [-4, -6]]),
        (&pairs[..8], [[-2, -3], [-2, -3]]),
        (&[4, 3, 5, 6][..], [[1, 2], [0, 0]]),
    ] {
        assert_eq!([&away, &even].map(|text| numbers(text, pairs)), wanted);
    }
}

/// "Table and plan are Run's": byte starts are those of the sheet's own line.
#[test]
fn retouch_keeps_the_line() {
    let [away, even] = both(&quotients()).map(|text| retouched(&text, &[4, 7])[0].clone());
    assert_eq!([away[9], even[9]], [28, 29]);
    assert_eq!([away[8 * 3 + 3], even[8 * 3 + 3]], [7, 7]);
}

#[test]
fn the_print_goes_by_the_line() {
    let prints = both(&quotients()).map(|text| reference::print(&text));
    let head = "label name order state number steps\n";
    let wanted = [
        "2 a whole 1 3 3\n6 b whole 1 5 5\n",
        "2 a whole 1 2 3\n6 b whole 1 3 5\n",
    ];
    assert_eq!(
        prints,
        wanted.map(|lines| [head, lines].concat().into_bytes())
    );
    let refused = under("kind3 name a b c", &quotients());
    assert_eq!(reference::print(&refused), b"refusal place\n2 0\n");
}
