//! New inputs from old ones that stay near a sheet. Most changes of bytes spoil
//! a sheet, and what it takes to come to planning or to working out would be met
//! too seldom.

use generator::rows::{self, Row};
use generator::{first_line, Rng};

use crate::settings::Settings;

/// The input with one change.
pub fn change(rng: &mut Rng, input: &[u8]) -> Vec<u8> {
    let (mut settings, text) = Settings::split(input);
    let mut text = text.to_vec();
    match rng.below(40) {
        0 => settings = Settings::random(rng),
        1..=7 => settings.change(rng),
        8 => text = generator::any_sheet(rng),
        9..=13 => text = generator::damage(rng, text),
        14 => text = generator::damage_line_one(rng, text),
        _ => text = vary(rng, text),
    }
    [settings.to_bytes(), text].concat()
}

/// The settings and line one of the first input, and the lines of both: the second's
/// after the first's, with one outermost Group for all.
pub fn join(first: &[u8], second: &[u8]) -> Vec<u8> {
    let (settings, text) = Settings::split(first);
    let (_, other) = Settings::split(second);
    let (Some(mut rows), Some(mut more)) = (rows::split(text), rows::split(other)) else {
        return first.to_vec();
    };
    let by = rows.len() - 1;
    relabel(&mut more, |label| if label == 1 { 1 } else { label + by });
    rows.extend(more.into_iter().skip(1));
    let joined = rows::join_under(first_line(text), &rows);
    [settings.to_bytes(), joined].concat()
}

/// A change after which a sheet that read will often still read.
fn vary(rng: &mut Rng, text: Vec<u8>) -> Vec<u8> {
    let Some(mut rows) = rows::split(&text) else {
        return generator::damage(rng, text);
    };
    match rng.below(15) {
        0 | 1 => swap_labels(rng, &mut rows),
        2 => grow(rng, &mut rows),
        3 => change_number(rng, &mut rows),
        4 => change_operation(rng, &mut rows),
        5 => change_group(rng, &mut rows),
        6 => read_another(rng, &mut rows),
        7 => return generator::recased(rng, &text),
        8 => recase_one(rng, &mut rows),
        9 => tangle(rng, &mut rows),
        10 => define_near(rng, &mut rows),
        11 => make_near(rng, &mut rows),
        12 => halve(rng, &mut rows),
        13 => return generator::under_other(&text).unwrap_or(text),
        _ => define(rng, &mut rows),
    }
    rows::join_under(first_line(&text), &rows)
}

fn row(fields: [&str; 5]) -> Row {
    fields.map(|field| field.as_bytes().to_vec())
}

fn number(number: impl ToString) -> Vec<u8> {
    number.to_string().into_bytes()
}

/// The fields of a row that are labels, by its kind.
fn label_fields(row: &Row) -> &'static [usize] {
    match &row[0][..] {
        b"G" | b"C" => &[2],
        b"V" | b"F" | b"A" | b"S" | b"M" | b"D" => &[2, 3],
        b"I" => &[2, 3, 4],
        _ => &[],
    }
}

/// Every label that a row mentions replaced by what `new` gives for it.
fn relabel(rows: &mut [Row], new: impl Fn(usize) -> usize) {
    for row in rows {
        for &field in label_fields(row) {
            let old = std::str::from_utf8(&row[field]).ok();
            if let Some(label) = old.and_then(|word| word.parse().ok()) {
                row[field] = number(new(label));
            }
        }
    }
}

/// Where a row of one of these kinds stands, from 0.
fn find(rng: &mut Rng, rows: &[Row], kinds: &[u8]) -> Option<usize> {
    let has = |row: &Row| row[0].len() == 1 && kinds.contains(&row[0][0]);
    let found: Vec<usize> = (0..rows.len()).filter(|&at| has(&rows[at])).collect();
    (!found.is_empty()).then(|| *rng.pick(&found))
}

/// Two lines that stand together change places, and all labels with them.
fn swap_labels(rng: &mut Rng, rows: &mut [Row]) {
    if rows.len() < 3 {
        return;
    }
    let first = rng.range(2, rows.len() - 1);
    rows.swap(first - 1, first);
    relabel(rows, |label| match label {
        _ if label == first => first + 1,
        _ if label == first + 1 => first,
        _ => label,
    });
}

/// A leaf becomes the first operand of an operation.
fn grow(rng: &mut Rng, rows: &mut Vec<Row>) {
    let Some(at) = find(rng, rows, b"NPR") else {
        return;
    };
    let next = rows.len() + 1;
    let kind = *rng.pick(&["A", "S", "M", "D", "I"]);
    let mut grown = row([kind, "-", "-", "-", "-"]);
    for (operand, &field) in label_fields(&grown.clone()).iter().enumerate() {
        grown[field] = number(next + operand);
        let small = rng.below(5).to_string();
        rows.push(match operand {
            0 => rows[at].clone(),
            _ => row(["N", "-", &small, "-", "-"]),
        });
    }
    rows[at] = grown;
}

/// A number becomes a half: an odd number of times half an even one, by that.
fn halve(rng: &mut Rng, rows: &mut Vec<Row>) {
    let Some(at) = find(rng, rows, b"N") else {
        return;
    };
    let half = *rng.pick(&[1, 1, -1, 2, 50, 250_000_000]);
    let odd = *rng.pick(&[1, -1, 3, -3]);
    let next = rows.len() + 1;
    for number in [half * odd, 2 * half] {
        rows.push(row(["N", "-", &number.to_string(), "-", "-"]));
    }
    let operands = [next, next + 1].map(|label| label.to_string());
    rows[at] = row(["D", "-", &operands[0], &operands[1], "-"]);
}

/// A number near an edge, now and then in a form that is not allowed.
fn change_number(rng: &mut Rng, rows: &mut [Row]) {
    const FORMS: [&str; 8] = [
        "-0",
        "-01",
        "01",
        "00",
        "-",
        "+1",
        "1000000001",
        "-1000000001",
    ];
    if let Some(at) = find(rng, rows, b"N") {
        let near = *rng.pick(&[0, 0, 63, 31_623, 500_000_000, 999_999_998]);
        let sign = *rng.pick(&[1, 1, -1]);
        rows[at][2] = match rng.below(10) {
            0 => rng.pick(&FORMS).as_bytes().to_vec(),
            _ => number(sign * (near + rng.below(3) as i64)),
        };
    }
}

fn change_operation(rng: &mut Rng, rows: &mut [Row]) {
    if let Some(at) = find(rng, rows, b"ASMD") {
        rows[at][0] = rng.pick(&["A", "S", "M", "D"]).as_bytes().to_vec();
    }
}

/// A definition moves to another Group.
fn change_group(rng: &mut Rng, rows: &mut [Row]) {
    let Some(at) = find(rng, &rows[1..], b"GVF").map(|at| at + 1) else {
        return;
    };
    if let Some(group) = find(rng, &rows[..at], b"G") {
        rows[at][2] = number(group + 1);
    }
}

/// The case of letters changes in one name or path.
fn recase_one(rng: &mut Rng, rows: &mut [Row]) {
    if let Some(at) = find(rng, rows, b"GVFRC") {
        generator::recase(rng, &mut rows[at][1]);
    }
}

/// One byte changes in the name of a definition, or in some name of a path.
fn make_near(rng: &mut Rng, rows: &mut [Row]) {
    let kinds: &[u8] = if rng.chance(70) { b"GVF" } else { b"RC" };
    if let Some(at) = find(rng, &rows[1..], kinds) {
        let names = rows[at + 1][1].split_mut(|&byte| byte == b'.');
        let mut names: Vec<&mut [u8]> = names.collect();
        let any = rng.below(names.len());
        generator::make_near(rng, names[any]);
    }
}

/// One more value beside another, which it reads and from whose name its own differs
/// in one byte; beside a new one with a long name where that has a short one.
fn define_near(rng: &mut Rng, rows: &mut Vec<Row>) {
    let Some(at) = find(rng, &rows[1..], b"V").map(|at| at + 1) else {
        return;
    };
    let group = std::str::from_utf8(&rows[at][2]).ok();
    let Some(group) = group.and_then(|word| word.parse::<usize>().ok()?.checked_sub(1)) else {
        return;
    };
    let mut name = rows[at][1].clone();
    if name.len() <= 8 {
        name = generator::long_name(rng);
        define_with(rows, "V", &name, group, row(SEVEN));
    }
    let mut read = row(["R", "-", "-", "-", "-"]);
    read[1] = name.clone();
    if rng.chance(30) {
        generator::recase(rng, &mut read[1]);
    }
    generator::make_near(rng, &mut name);
    define_with(rows, "V", &name, group, read);
}

/// A leaf becomes a read of some definition's name, by way of its Group's too,
/// now and then in other letters.
fn read_another(rng: &mut Rng, rows: &mut [Row]) {
    let leaf = find(rng, rows, b"NPR");
    let (Some(at), Some(target)) = (leaf, find(rng, &rows[1..], b"GVF")) else {
        return;
    };
    let mut path = rows[target + 1][1].clone();
    if let Some(group) = find(rng, &rows[1..], b"G").filter(|_| rng.chance(40)) {
        path = [&rows[group + 1][1][..], &path].join(&b'.');
    }
    if rng.chance(30) {
        generator::recase(rng, &mut path);
    }
    rows[at] = row(["R", "-", "-", "-", "-"]);
    rows[at][1] = path;
}

/// Two Groups side by side come to need each other: a value of the first reads
/// one of the second, which reads another one of the first.
fn tangle(rng: &mut Rng, rows: &mut Vec<Row>) {
    let Some(first) = find(rng, &rows[1..], b"G").map(|at| at + 1) else {
        return;
    };
    let is_beside =
        |&at: &usize| at != first && rows[at][0] == rows[first][0] && rows[at][2] == rows[first][2];
    let beside: Vec<usize> = (1..rows.len()).filter(is_beside).collect();
    if beside.is_empty() {
        return;
    }
    let second = *rng.pick(&beside);
    let (value, end) = (format!("t{}", rng.below(30)), format!("e{}", rng.below(30)));
    let read = |group: usize, name: &str| {
        let mut read = row(["R", "-", "-", "-", "-"]);
        read[1] = [&rows[group][1][..], name.as_bytes()].join(&b'.');
        read
    };
    let bodies = [read(second, &value), read(first, &end), row(SEVEN)];
    let places = [(first, &value), (second, &value), (first, &end)];
    for ((group, name), body) in places.into_iter().zip(bodies) {
        define_with(rows, "V", name.as_bytes(), group, body);
    }
}

/// A number's line.
const SEVEN: [&str; 5] = ["N", "-", "7", "-", "-"];

/// One more definition, with a body that is a leaf.
fn define(rng: &mut Rng, rows: &mut Vec<Row>) {
    let Some(group) = find(rng, rows, b"G") else {
        return;
    };
    let kind = *rng.pick(&["G", "V", "V", "V", "F"]);
    let name = format!("{}{}", rng.pick(&["n", "N"]), rng.below(30));
    match kind {
        "G" => rows.push(row([kind, &name, &(group + 1).to_string(), "-", "-"])),
        _ => define_with(rows, kind, name.as_bytes(), group, row(SEVEN)),
    }
}

/// A definition of the Group that stands at `group`, from 0, and its body.
fn define_with(rows: &mut Vec<Row>, kind: &str, name: &[u8], group: usize, body: Row) {
    let [group, label] = [group + 1, rows.len() + 2].map(|label| label.to_string());
    let mut definition = row([kind, "-", &group, &label, "-"]);
    definition[1] = name.to_vec();
    rows.push(definition);
    rows.push(body);
}

#[cfg(test)]
mod tests {
    use super::*;

    fn reads(input: &[u8]) -> bool {
        let case = crate::decode(input);
        let trial = checks::Trial::new(&case.text, &[]);
        trial.wanted()[0].reply.refusal == 0
    }

    /// Changes are of use only where many of the sheets still read.
    #[test]
    fn about_half_of_the_changed_sheets_read() {
        let rng = &mut Rng::new(3);
        let mut read = 0;
        for seed in 0..1_000 {
            let sheet = generator::sheet(&mut Rng::new(seed));
            let input = [Settings::default().to_bytes(), sheet].concat();
            assert!(reads(&input));
            read += usize::from(reads(&change(rng, &input)));
        }
        assert!((400..800).contains(&read), "{read} of 1,000");
    }

    /// Sheets that read with paths in other letters than their definitions come
    /// of sheets without.
    #[test]
    fn changed_sheets_have_other_letters() {
        let rng = &mut Rng::new(4);
        let mut met = 0;
        for _ in 0..1_000 {
            let input = [Settings::default().to_bytes(), generator::flat(3)].concat();
            let case = crate::decode(&change(rng, &input));
            let mut table = vec![0; 8 * generator::line_count(&case.text)];
            let count = reference::read(&case.text, &mut table);
            let others = generator::OtherLetters::of(&case.text, &table);
            met += usize::from(count.is_ok() && others.heads > 0);
        }
        assert!(met > 50, "{met} of 1,000");
    }

    /// Sheets that read with names that are nearly the same, members and paths, come
    /// of sheets without.
    #[test]
    fn changed_sheets_have_near_names() {
        let rng = &mut Rng::new(6);
        let mut met = [[0; generator::NearNames::COUNT]; 2];
        for seed in 0..1_000 {
            let mut text = generator::everyday(40, seed);
            for _ in 0..20 {
                let varied = vary(rng, text.clone());
                if checks::Trial::new(&varied, &[]).wanted()[0].reply.refusal == 0 {
                    text = varied;
                }
            }
            let wanted = checks::Trial::new(&text, &[]).wanted();
            let near = generator::NearNames::of(&text, &wanted[0].buffers[0]);
            for (met, more) in met.iter_mut().zip(near.counts()) {
                met.iter_mut()
                    .zip(more)
                    .for_each(|(met, more)| *met += more);
            }
        }
        for [members, paths, _, recased] in met {
            assert!(members > 100 && paths > 100 && recased > 50, "{met:?}");
        }
    }

    /// Sheets that plan and are tangled in every way come of sheets that are not,
    /// by steps that leave them reading.
    #[test]
    fn changed_sheets_are_tangled() {
        let rng = &mut Rng::new(5);
        let mut met = [0; generator::Tangles::COUNT];
        for seed in 0..1_000 {
            let mut text = generator::everyday(40, seed);
            for _ in 0..40 {
                let varied = vary(rng, text.clone());
                if checks::Trial::new(&varied, &[]).wanted()[1].reply.refusal == 0 {
                    text = varied;
                }
            }
            let wanted = checks::Trial::new(&text, &[]).wanted();
            let tangles = generator::Tangles::of(&wanted[1].buffers[0]);
            for (count, more) in met.iter_mut().zip(tangles.counts()) {
                *count += more;
            }
        }
        assert!(met.iter().all(|&count| count > 10), "{met:?}");
    }

    /// Sheets that run under the other line than those they come of, and of these
    /// some on which the tie rules part, by steps that leave them running.
    #[test]
    fn changed_sheets_go_by_both_rules() {
        let rng = &mut Rng::new(7);
        let mut met = [[0; 2]; 2];
        for seed in 0..1_000 {
            let mut text = generator::everyday(40, seed);
            for _ in 0..20 {
                let varied = vary(rng, text.clone());
                if checks::Trial::new(&varied, &[]).wanted()[2].reply.refusal == 0 {
                    text = varied;
                }
            }
            let trial = checks::Trial::new(&text, &[]);
            let expected = trial.expected(|_| vec![1]).expect("one table for all");
            let checks::Halves { reads, run, .. } = checks::Outcome::new(&trial, &expected).halves;
            for line in [0, 1] {
                met[line][0] += usize::from(reads[line]);
                met[line][1] += usize::from(run[line]);
            }
        }
        for [sheets, parted] in met {
            assert!(sheets > 300 && parted > 100, "{met:?}");
        }
    }

    /// Refusal 2 by lines that are nearly one of the two or both comes of sheets.
    #[test]
    fn changed_sheets_have_near_first_lines() {
        let rng = &mut Rng::new(8);
        let mut met = [0; 3];
        for _ in 0..4_000 {
            let input = [Settings::default().to_bytes(), generator::flat(3)].concat();
            let case = crate::decode(&change(rng, &input));
            let line = first_line(&case.text);
            match generator::FIRST_LINES.map(|known| generator::is_one_byte_off(line, known)) {
                _ if generator::FIRST_LINES.contains(&line) => {}
                [true, true] => met[2] += 1,
                [near, near_even] => {
                    met[0] += usize::from(near);
                    met[1] += usize::from(near_even);
                }
            }
        }
        assert!(met.iter().all(|&count| count > 5), "{met:?}");
    }

    #[test]
    fn joined_sheets_have_the_lines_of_both() {
        let head = Settings::default().to_bytes();
        let first = b"kind name a b c\nG - 0 - -\nV a 1 3 -\nN - 7 - -\n";
        let second = b"kind name a b c\nG - 0 - -\nV b 1 3 -\nA - 4 5 -\nR a - - -\nN - 1 - -\n";
        let joined = join(
            &[&head, &first[..]].concat(),
            &[&head, &second[..]].concat(),
        );
        let wanted = b"kind name a b c\nG - 0 - -\nV a 1 3 -\nN - 7 - -\n\
            V b 1 5 -\nA - 6 7 -\nR a - - -\nN - 1 - -\n";
        assert_eq!(joined[Settings::BYTES..], wanted[..]);
        assert!(reads(&joined));
        assert_eq!(join(b"any", &joined), b"any");
        let even = generator::under(generator::EVEN, first);
        let joined = join(&[&head, &even[..]].concat(), &joined);
        assert_eq!(first_line(&joined[Settings::BYTES..]), generator::EVEN);
    }
}
