//! Names that are nearly one: they differ in one byte alone. Where names are compared
//! by the word, a difference at any place has to count, and the case of a letter at
//! none.

use crate::rng::Rng;
use crate::rows::{self, Row};

/// How many bytes are compared as one.
const WORD: usize = 8;

/// Bytes of names, those first that a name may begin with.
const BYTES: &[u8; 36] = b"abcdefghijklmnopqrstuvwxyz0123456789";
const LETTERS: usize = 26;

/// A name of 8 to 16 bytes.
pub fn long_name(rng: &mut Rng) -> Vec<u8> {
    let length = rng.range(WORD, 2 * WORD);
    (0..length).map(|at| byte_at(rng, at)).collect()
}

/// A byte that a name may have at this place.
fn byte_at(rng: &mut Rng, at: usize) -> u8 {
    let count = if at == 0 { LETTERS } else { BYTES.len() };
    *rng.pick(&BYTES[..count])
}

/// Changes one byte of a name, at any place, so that it is another name. In about half
/// of them both have the same low five bits, of which the library makes its hash: then
/// the comparison alone tells them apart.
pub fn make_near(rng: &mut Rng, name: &mut [u8]) {
    if name.is_empty() {
        return;
    }
    let at = rng.below(name.len());
    let before = name[at];
    match twin(before).filter(|_| at > 0 && rng.chance(80)) {
        Some(twin) => name[at] = twin,
        None => {
            while name[at].eq_ignore_ascii_case(&before) {
                name[at] = byte_at(rng, at);
            }
        }
    }
}

/// The digit that has the low five bits of a letter, the letter that has those of a
/// digit.
fn twin(byte: u8) -> Option<u8> {
    match byte.to_ascii_lowercase() {
        letter @ b'p'..=b'y' => Some(letter - b'p' + b'0'),
        digit @ b'0'..=b'9' => Some(digit - b'0' + b'p'),
        _ => None,
    }
}

/// Where names longer than a word met others that they are nearly the same as, or the
/// same but for the case of letters. Each twice: in the first word, and after it.
#[derive(Debug, Default, Clone, Copy, PartialEq, Eq)]
pub struct NearNames {
    /// Two members of one Group are near.
    pub members: [bool; 2],
    /// A path leads through one of two such members.
    pub paths: [bool; 2],
    /// A path is refused, and a name of it is near a definition's.
    pub missed: [bool; 2],
    /// A name in a path is in other letters than the definition that it leads to.
    pub recased: [bool; 2],
}

impl NearNames {
    /// How many of them there are.
    pub const COUNT: usize = 4;

    /// Those of a sheet that reads, by its table.
    pub fn of(text: &[u8], table: &[i64]) -> Self {
        let lines: Vec<Line> = table
            .chunks_exact(8)
            .map(|row| Line { text, row })
            .collect();
        let near: Vec<[bool; 2]> = (0..lines.len())
            .map(|at| near_members(&lines, at))
            .collect();
        let mut met = NearNames::default();
        for near in &near {
            add(&mut met.members, *near);
        }
        for path in lines.iter().filter(|line| line.row[7] != 0) {
            // A member's owner is the Group that the name before it leads to.
            let mut label = path.row[7] as usize;
            for written in path.name().rsplit(|&byte| byte == b'.') {
                let definition = &lines[label - 1];
                add(&mut met.paths, near[label - 1]);
                add(&mut met.recased, recased_at(written, definition.name()));
                label = definition.row[6] as usize;
            }
        }
        met
    }

    /// Those of a sheet whose path at this label leads nowhere.
    pub fn of_missed(text: &[u8], label: usize) -> Self {
        let rows = rows::split(text).expect("lines of five fields");
        let is_definition = |row: &&Row| matches!(row[0][..], [b'G' | b'V' | b'F']);
        let mut met = NearNames::default();
        for definition in rows.iter().filter(is_definition) {
            for name in rows[label - 1][1].split(|&byte| byte == b'.') {
                add(&mut met.missed, near_at(name, &definition[1]));
            }
        }
        met
    }

    /// Those in the first word, then those after it.
    pub fn counts(self) -> [[u64; Self::COUNT]; 2] {
        let all = [self.members, self.paths, self.missed, self.recased];
        [0, 1].map(|place| all.map(|met| u64::from(met[place])))
    }
}

fn add(met: &mut [bool; 2], more: [bool; 2]) {
    met[0] |= more[0];
    met[1] |= more[1];
}

/// A line of a table.
struct Line<'a> {
    text: &'a [u8],
    row: &'a [i64],
}

impl<'a> Line<'a> {
    fn name(&self) -> &'a [u8] {
        &self.text[self.row[1] as usize..][..self.row[2] as usize]
    }

    fn is_member_of(&self, group: i64) -> bool {
        (1..=3).contains(&self.row[0]) && self.row[6] == group
    }
}

/// Whether another member of its Group is near this one.
fn near_members(lines: &[Line], at: usize) -> [bool; 2] {
    let mut met = [false; 2];
    let line = &lines[at];
    if line.name().len() > WORD && line.is_member_of(line.row[6]) {
        let beside = lines.iter().filter(|other| other.is_member_of(line.row[6]));
        beside.for_each(|other| add(&mut met, near_at(line.name(), other.name())));
    }
    met
}

/// Whether names longer than a word differ in one byte alone, by where it is.
fn near_at(name: &[u8], other: &[u8]) -> [bool; 2] {
    if name.len() <= WORD || name.len() != other.len() {
        return [false; 2];
    }
    let differ = |(a, b): &(&u8, &u8)| !a.eq_ignore_ascii_case(b);
    let [first, later] = [0..WORD, WORD..name.len()].map(|part| {
        let pairs = name[part.clone()].iter().zip(&other[part]);
        pairs.filter(differ).count()
    });
    [(first, later) == (1, 0), (first, later) == (0, 1)]
}

/// Whether a name longer than a word is written otherwise than the definition's, in
/// its first word and after it.
fn recased_at(written: &[u8], name: &[u8]) -> [bool; 2] {
    if name.len() <= WORD {
        return [false; 2];
    }
    [
        written[..WORD] != name[..WORD],
        written[WORD..] != name[WORD..],
    ]
}
