//! Every fault of a sheet: the first is the library's, none is said that only
//! follows from another, and each points at the text.

mod common;

use common::is_in_text;
use generator::rows::{self, Row};
use generator::{recased, Rng};
use lindypo::{faults, Kind, Refusal, Sheet, Ties};

const CASES: u64 = 4_000;

/// What the library says of a text.
fn verdict(text: &[u8]) -> Option<Refusal> {
    let plan = Sheet::read(text).and_then(|sheet| sheet.plan());
    plan.err()
}

/// Number and place of each fault.
fn places(faults: &[Refusal]) -> Vec<(u64, u64)> {
    let place = |fault: &Refusal| (fault.number(), fault.place());
    faults.iter().map(place).collect()
}

/// What is so of every list of faults.
fn is_proper(text: &[u8], faults: &[Refusal]) {
    assert_eq!(faults.first(), verdict(text).as_ref());
    for fault in faults {
        is_in_text(text, fault);
    }
    // refusals 5 to 7 are one pass
    let stage = |fault: &Refusal| match fault.number() {
        5..=7 => (5, fault.place()),
        number => (number, fault.place()),
    };
    assert!(faults.is_sorted_by_key(stage), "{:?}", places(faults));
    let all: std::collections::HashSet<&Refusal> = faults.iter().collect();
    assert_eq!(all.len(), faults.len());
}

#[test]
fn random_sheets() {
    let (mut met, mut many) = ([0; 17], 0);
    for seed in 0..CASES {
        let text = generator::case(seed).text;
        let faults = faults(&text);
        is_proper(&text, &faults);
        for fault in &faults {
            met[fault.number() as usize] += 1;
        }
        many += usize::from(faults.len() > 1);
    }
    println!("{many} sheets with several faults, by refusal {met:?}");
    assert!(many > 300);
    for number in (1..=16).filter(|&number| number != 4) {
        assert!(met[number] > 0, "refusal {number} was not met");
    }
}

/// Whichever rule line one names, the faults are the same, but for the length of a
/// text.
#[test]
fn either_line_one() {
    let mut met = [0; 17];
    for seed in 0..CASES {
        let text = generator::case(seed).text;
        let Some(ties) = Ties::of_text(&text) else {
            continue;
        };
        let rest = &text[ties.first_line().len()..];
        let [away, even] = Ties::ALL.map(|ties| {
            let text = [ties.first_line().as_bytes(), rest].concat();
            let faults = faults(&text);
            is_proper(&text, &faults);
            faults
        });
        if text.len() < 65_536 {
            assert_eq!(places(&away), places(&even), "seed {seed}");
        }
        for fault in &even {
            met[fault.number() as usize] += 1;
        }
    }
    println!("by refusal {met:?}");
    for number in (1..=16).filter(|number| ![2, 4].contains(number)) {
        assert!(met[number] > 0, "refusal {number} was not met");
    }
}

/// Whatever the case of names and paths, the faults are the same.
#[test]
fn names_in_any_case() {
    let mut met = [0; 17];
    for seed in 0..CASES {
        let rng = &mut Rng::new(seed);
        let mut text = generator::sheet_within(rng, 60);
        for _ in 0..rng.range(1, 6) {
            text = generator::damage(rng, text);
        }
        let recased = recased(rng, &text);
        let (found, again) = (faults(&text), faults(&recased));
        is_proper(&recased, &again);
        let shown = String::from_utf8_lossy(&recased);
        assert_eq!(places(&found), places(&again), "seed {seed}\n{shown}");
        for fault in &again {
            met[fault.number() as usize] += 1;
        }
    }
    println!("by refusal {met:?}");
    assert!(met[12..=15].iter().all(|&count| count > 50));
}

/// Damage upon damage.
#[test]
fn sheets_with_many_faults() {
    let mut most = 0;
    for seed in 0..CASES / 4 {
        let rng = &mut Rng::new(seed);
        let mut text = generator::sheet_within(rng, 60);
        for _ in 0..rng.range(3, 12) {
            text = generator::damage(rng, text);
        }
        let faults = faults(&text);
        is_proper(&text, &faults);
        most = most.max(faults.len());
    }
    assert!(most > 10, "{most} faults at most");
}

/// Pieces of other encodings, and of none.
const PIECES: [&[u8]; 8] = [
    "é".as_bytes(),
    "−".as_bytes(),
    "\u{202e}".as_bytes(),
    b"\xef\xbb\xbf",
    b"\xff\xfe",
    b"\xc3",
    b"\r\n",
    b"\0\0",
];

/// Sheets with any bytes put in anywhere, and texts of nothing else.
#[test]
fn any_bytes() {
    let is_clean = |byte: &u8| *byte == b'\n' || (32..=126).contains(byte);
    for seed in 0..CASES / 2 {
        let rng = &mut Rng::new(seed);
        let mut text = match rng.below(4) {
            0 => (0..rng.below(200)).map(|_| rng.below(256) as u8).collect(),
            _ => generator::sheet_within(rng, 30),
        };
        for _ in 0..rng.range(1, 6) {
            let at = rng.below(text.len() + 1);
            let piece = *rng.pick(&PIECES);
            text.splice(at..at, piece.iter().copied());
        }
        let faults = faults(&text);
        is_proper(&text, &faults);
        let is_bytes = faults.first().is_some_and(|fault| fault.number() == 1);
        assert_eq!(
            is_bytes,
            !text.iter().all(is_clean) || !text.ends_with(b"\n")
        );
    }
}

/// A field that has not its form, whatever the kind.
const MISFITS: [&str; 7] = ["?", "1.5", "01", "a..b", "a_b", "99999", "--"];

/// Breaks one line by itself: its fields, its kind or the form of one.
fn break_line(rng: &mut Rng, row: &mut Row) {
    let at = rng.range(1, 4);
    match rng.below(6) {
        0 => row[0] = b"X".to_vec(),
        1 => row[0].make_ascii_lowercase(),
        2 => row[at] = vec![],
        3 => row[at].extend_from_slice(b" -"),
        4 => row[at].push(b'\t'),
        _ => row[at] = rng.pick(&MISFITS).as_bytes().to_vec(),
    }
}

/// The rows of a random sheet that runs.
fn good_rows(rng: &mut Rng) -> Vec<Row> {
    loop {
        let text = generator::sheet_within(rng, 40);
        if verdict(&text).is_none() {
            return rows::split(&text).expect("a sheet that runs");
        }
    }
}

/// Spoils what a line leads to, where that is one line's fault alone: a link
/// upward, a name of nobody, an argument in a value. Answers its label.
fn spoil_link(rng: &mut Rng, rows: &mut [Row]) -> Option<u64> {
    let at = rng.range(0, rows.len() - 1);
    let owner_is_value = |rows: &[Row]| {
        let text = rows::join(rows);
        let sheet = Sheet::read(&text).ok()?;
        let owner = sheet.line(at + 1)?.owner?;
        Some(sheet.line(owner)?.kind == Kind::Value)
    };
    match (rows[at][0][0], rng.below(2)) {
        (b'A' | b'S' | b'M' | b'D' | b'I', field) => rows[at][2 + field] = b"1".to_vec(),
        (b'V' | b'F', _) => rows[at][3] = b"1".to_vec(),
        (b'R' | b'C', 0) => rows[at][1] = b"nosuch".to_vec(),
        (b'R' | b'N', _) if owner_is_value(rows)? => {
            rows[at] = ["P", "-", "-", "-", "-"].map(|field| field.as_bytes().to_vec());
        }
        _ => return None,
    }
    Some(at as u64 + 1)
}

/// In a sheet that runs, breaks lines and spoils a link, as is asked.
fn only_there(seed: u64, most_broken: usize, is_spoilt: bool) {
    let rng = &mut Rng::new(seed);
    let mut rows = good_rows(rng);
    let mut meant: Vec<u64> = vec![];
    if is_spoilt {
        meant.extend(spoil_link(rng, &mut rows));
    }
    for _ in 0..rng.range(0, most_broken) {
        let at = rng.below(rows.len());
        break_line(rng, &mut rows[at]);
        meant.push(at as u64 + 1);
    }
    let text = rows::join(&rows);
    let faults = faults(&text);
    is_proper(&text, &faults);
    let is_meant = |fault: &Refusal| fault.number() == 1 || meant.contains(&fault.place());
    let (found, shown) = (places(&faults), String::from_utf8_lossy(&text));
    assert!(
        faults.iter().all(is_meant),
        "seed {seed}: broken {meant:?}, found {found:?}\n{shown}"
    );
}

/// Nothing is found but at the lines that are broken.
#[test]
fn broken_lines_alone() {
    (0..CASES).for_each(|seed| only_there(seed, 3, false));
}

/// Nothing is found but at the line that leads astray, and at those broken.
#[test]
fn links_astray_alone() {
    (0..CASES).for_each(|seed| only_there(seed, 2, true));
}
