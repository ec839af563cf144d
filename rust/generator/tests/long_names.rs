//! The sheets whose names are hard to tell apart are what they are called.

use std::collections::BTreeSet;

use generator::{line_count, near_names, near_paths, one_hash, one_slot, rows, slots};
use reference::Order;

/// The names of a sheet's values, and of its Groups but the outermost.
fn names(text: &[u8]) -> Vec<Vec<u8>> {
    let rows = rows::split(text).expect("a sheet");
    let definitions = rows.into_iter().skip(1);
    let named = definitions.filter(|row| matches!(row[0][..], [b'G' | b'V']));
    named.map(|[_, name, ..]| name).collect()
}

/// The length of the plan of a sheet, which is whole.
fn planned(text: &[u8]) -> usize {
    let lines = line_count(text);
    let (mut table, mut plan) = (vec![0; 8 * lines], vec![0; lines]);
    match reference::plan(text, &mut table, &mut plan) {
        Ok((length, Order::Whole)) => length,
        other => panic!("{other:?}"),
    }
}

/// Whether names are 16 bytes long, all of them different, and begin alike.
fn begin_alike(names: &[Vec<u8>], shared: usize) -> bool {
    let different: BTreeSet<&Vec<u8>> = names.iter().collect();
    let is_alike = |name: &Vec<u8>| name.len() == 16 && name[..shared] == names[0][..shared];
    different.len() == names.len() && names.iter().all(is_alike)
}

#[test]
fn names_that_differ_in_their_last_letter() {
    let text = near_names(19);
    assert_eq!((line_count(&text), planned(&text)), (1_008, 19 * 26));
    for members in names(&text).chunks(27) {
        assert!(begin_alike(&members[1..], 15));
    }
}

#[test]
fn paths_of_eight_names() {
    let text = near_paths(360);
    assert_eq!((line_count(&text), planned(&text)), (955, 26 + 360));
    let rows = rows::split(&text).expect("a sheet");
    let paths = rows.iter().filter(|row| row[0] == b"R");
    let lengths: Vec<usize> = paths.map(|row| row[1].len()).collect();
    assert_eq!(lengths, [8 * 17 - 1; 360]);
}

/// It would not hold of the names that another hash puts into one slot.
#[test]
fn names_in_one_slot() {
    for count in [127, 511] {
        let text = one_slot(count);
        assert_eq!((line_count(&text), planned(&text)), (1 + 2 * count, count));
        let names = names(&text);
        assert!(names.len() == count && begin_alike(&names, 12));
        let slot_of = |name: &Vec<u8>| slots::slot(slots::hash(name), count);
        let slots: BTreeSet<u64> = names.iter().map(slot_of).collect();
        assert_eq!(slots.len(), 1);
    }
}

#[test]
fn names_of_one_hash() {
    let text = one_hash();
    assert_eq!((line_count(&text), planned(&text)), (1_021, 255));
    let names = names(&text);
    assert!(names.len() == 255 && begin_alike(&names, 8));
    let low_bits = |name: &Vec<u8>| name.iter().map(|byte| byte % 32).collect::<Vec<u8>>();
    assert!(names
        .iter()
        .all(|name| low_bits(name) == low_bits(&names[0])));
    let hashes: BTreeSet<u64> = names.iter().map(|name| slots::hash(name)).collect();
    assert_eq!(hashes.len(), 1);
}

/// Worked out by hand: `b` is 2 in the lowest byte of a word; `abcdefgh` and `i`.
#[test]
fn hashes() {
    let low = |word: u64| word * slots::LOW_FACTOR;
    assert_eq!(slots::hash(b"b"), low(2) / 16 % (1 << 32));
    assert_eq!(slots::hash(b"B"), slots::hash(b"b"));
    let first = low(0x0403_0201) + 0x0807_0605 * slots::HIGH_FACTOR;
    let first = first / 16 % (1 << 32);
    assert_eq!(slots::hash(b"abcdefghi"), low(first + 9) / 16 % (1 << 32));
    assert_eq!(slots::slot(u64::from(u32::MAX), 5), 9);
}
