//! Rows 12 to 15: names in their Groups, and where paths end.

use std::ops::Range;

use crate::sheet::{Kind, Label, Line, Sheet};
use crate::Refusal;

/// A name as one number, a word of 16 bytes. The name's own bytes can be read back
/// from it but for the case of letters, so two keys are equal exactly when the names
/// are.
type NameKey = u128;

const KEY_BYTES: usize = 16;

/// The bit that a small letter has and its capital has not, in every byte.
/// Digits have it, so in a name it changes capitals alone; a byte of the key
/// that no byte of the name is in becomes a space, which no name has.
const SMALL: NameKey = NameKey::from_ne_bytes([b'a' ^ b'A'; KEY_BYTES]);

/// The key of the name that stands there: the whole word is taken from the text, and
/// what comes after the name is shifted out.
fn key(text: &[u8], start: usize, length: usize) -> NameKey {
    let rest = &text[start..];
    let bytes = rest.first_chunk().copied().unwrap_or_else(|| {
        let mut bytes = [0; KEY_BYTES];
        bytes[..rest.len()].copy_from_slice(rest);
        bytes
    });
    NameKey::from_le_bytes(bytes) << (8 * (KEY_BYTES - length)) | SMALL
}

/// The keys of the names that a path is made of.
fn path_keys<'a>(sheet: &Sheet<'a>, label: Label) -> impl Iterator<Item = NameKey> + 'a {
    let text = sheet.text;
    let mut start = sheet.line(label).name.start as usize;
    sheet
        .name(label)
        .split(|&byte| byte == b'.')
        .map(move |name| {
            let key = key(text, start, name.len());
            start += name.len() + 1;
            key
        })
}

/// The members of all Groups, sorted by Group, then by name, then by label.
struct Members {
    sorted: Vec<(u32, NameKey, u32)>,
    /// Where the members of each Group lie in `sorted`, by label.
    parts: Vec<Range<u32>>,
}

impl Members {
    fn new(sheet: &Sheet) -> Self {
        let mut sorted = Vec::new();
        for label in sheet.labels().skip(1) {
            if sheet.kind(label).is_definition() {
                let Line { name, owner, .. } = sheet.line(label);
                let key = key(sheet.text, name.start as usize, name.length as usize);
                sorted.push((*owner, key, label as u32));
            }
        }
        sorted.sort_unstable();
        let mut parts = vec![0..0; sheet.count() + 1];
        for (at, &(group, _, _)) in (0..).zip(&sorted) {
            let part = &mut parts[group as usize];
            if part.end == 0 {
                part.start = at;
            }
            part.end = at + 1;
        }
        Members { sorted, parts }
    }

    /// Row 12: "a smaller label in its Group has that name".
    fn check(&self) -> Result<(), Refusal> {
        let same = |pair: &&[(u32, NameKey, u32)]| (pair[0].0, pair[0].1) == (pair[1].0, pair[1].1);
        let second = self.sorted.windows(2).filter(same).map(|pair| pair[1].2);
        match second.min() {
            Some(label) => Err(Refusal::new(12, label as Label)),
            None => Ok(()),
        }
    }

    /// The member of a Group that has this name. A V or F has no members.
    fn find(&self, group: Label, name: NameKey) -> Option<Label> {
        let Range { start, end } = self.parts[group];
        let part = &self.sorted[start as usize..end as usize];
        let at = part.binary_search_by_key(&name, |member| member.1).ok()?;
        Some(part[at].2 as Label)
    }
}

/// Checks rows 12 to 15 and fills in every target. Each row is its own pass in
/// the paper: the lowest label of the lowest row is the refusal.
pub fn resolve(sheet: &mut Sheet) -> Result<(), Refusal> {
    let members = Members::new(sheet);
    members.check()?;
    let mut first = [None; 3];
    for label in sheet.labels() {
        if !matches!(sheet.kind(label), Kind::Read | Kind::Call) {
            continue;
        }
        match find_target(sheet, &members, label) {
            Ok(target) => sheet.lines[label - 1].target = target as u32,
            Err(number) => {
                first[number as usize - 13].get_or_insert(Refusal::new(number, label));
            }
        }
    }
    match first.into_iter().flatten().next() {
        Some(refusal) => Err(refusal),
        None => Ok(()),
    }
}

/// Where the path of an R or C ends, or the number of its refusal.
fn find_target(sheet: &Sheet, members: &Members, label: Label) -> Result<Label, u64> {
    let mut names = path_keys(sheet, label);
    let start = sheet.owner(sheet.owner(label));
    let head = names
        .next()
        .and_then(|name| find_head(sheet, members, start, name));
    let mut target = head.ok_or(13u64)?;
    for name in names {
        target = members.find(target, name).ok_or(14u64)?;
    }
    let wanted = match sheet.kind(label) {
        Kind::Read => Kind::Value,
        _ => Kind::Function,
    };
    if sheet.kind(target) == wanted {
        Ok(target)
    } else {
        Err(15)
    }
}

/// "The first Group with such a member settles the head": from `group`
/// outward. The outermost Group's own owner is 0.
fn find_head(sheet: &Sheet, members: &Members, group: Label, name: NameKey) -> Option<Label> {
    let around = |&group: &Label| Some(sheet.owner(group)).filter(|&group| group != 0);
    std::iter::successors(Some(group), around).find_map(|group| members.find(group, name))
}
