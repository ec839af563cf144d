//! Names that differ by a slip: a letter or two left out, put in, changed or
//! swapped; a name cut short. The case of letters makes no slip.

use crate::names::lowercase;

/// A name that is cut short has at least this many letters.
const SHORT: usize = 3;

/// The most slips between names that are near, and the letters for each: in a
/// short name a letter changed makes another name.
const SLIPS: usize = 2;
const LETTERS: usize = 3;

/// The nearest of the names to this one; the first where several are as near.
/// `None` where none is near.
pub fn nearest<T, N: AsRef<str>>(name: &str, names: impl IntoIterator<Item = (T, N)>) -> Option<T> {
    let name = lowercase(name);
    let near = |(item, other): (T, N)| Some((slips(&name, &lowercase(other.as_ref()))?, item));
    let near = names.into_iter().filter_map(near);
    near.min_by_key(|(slips, _)| *slips).map(|(_, item)| item)
}

/// How many slips lie between two names in small letters, where they are few.
fn slips(a: &str, b: &str) -> Option<usize> {
    let [a, b] = [a, b].map(str::as_bytes);
    let (least, longest) = (a.len().min(b.len()), a.len().max(b.len()));
    let most = SLIPS.min(longest / LETTERS);
    let is_short = least >= SHORT && a[..least] == b[..least];
    // each letter more is a slip
    let is_near = a.len().abs_diff(b.len()) <= most;
    match is_short {
        true => Some(a.len().abs_diff(b.len())),
        false if is_near => distance(a, b, most),
        false => None,
    }
}

/// The least number of letters put in, left out or changed, and of neighbours
/// swapped, that leads from one name to the other, where it is not above `most`.
fn distance(a: &[u8], b: &[u8], most: usize) -> Option<usize> {
    let mut before = vec![0; b.len() + 1];
    let mut last: Vec<usize> = (0..=b.len()).collect();
    let mut row = before.clone();
    for (i, &letter) in (1..).zip(a) {
        row[0] = i;
        for (j, &other) in (1..).zip(b) {
            let changed = last[j - 1] + usize::from(letter != other);
            let moved = (last[j] + 1).min(row[j - 1] + 1);
            let is_swap = i > 1 && j > 1 && letter == b[j - 2] && a[i - 2] == other;
            let swapped = if is_swap { before[j - 2] + 1 } else { changed };
            row[j] = changed.min(moved).min(swapped);
        }
        // the row before the last is written over next
        std::mem::swap(&mut before, &mut last);
        std::mem::swap(&mut last, &mut row);
        if last.iter().chain(&before).all(|&slips| slips > most) {
            return None;
        }
    }
    Some(last[b.len()]).filter(|&slips| slips <= most)
}

#[cfg(test)]
mod tests {
    use super::*;

    #[test]
    fn slips_are_counted() {
        for (a, b, wanted) in [
            ("size", "size", Some(0)),
            ("centre", "center", Some(1)),
            ("decentration", "dezentrasion", Some(2)),
            ("decentration", "dezentrazzion", None),
            ("sphere", "sphre", Some(1)),
            ("sphere", "spheer", Some(1)),
            ("cylinder", "cyl", Some(5)),
            ("prism", "total", None),
            ("x", "y", None),
            ("", "right", None),
        ] {
            assert_eq!(slips(a, b), wanted, "{a} {b}");
            assert_eq!(slips(b, a), wanted, "{b} {a}");
        }
    }

    #[test]
    fn the_nearest_is_found() {
        let names = ["left", "sphere", "sphere2"].map(|name| (name, name));
        assert_eq!(nearest("Sphere2", names), Some("sphere2"));
        assert_eq!(nearest("LETF", names), Some("left"));
        assert_eq!(nearest("spere", names), Some("sphere"));
        assert_eq!(nearest("bridge", names), None);
    }
}
