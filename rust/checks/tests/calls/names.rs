//! Name and Read, in cells counted by hand.

use crate::{example, RUBBISH};

/// Labels that no sheet has.
const NO_LABELS: [i64; 5] = [i64::MIN, -1, 0, 1_025, i64::MAX];

/// The example's cells, counted by hand.
#[test]
fn the_example_in_full() {
    let mut table = vec![RUBBISH; 8 * 14 + 3];
    assert_eq!(lindypo::raw::read(&example(), &mut table), Ok(14));
    let rows: Vec<&[i64]> = table.chunks(8).collect();
    assert_eq!(rows[0], [1, 0, 0, 0, 0, 0, 0, 0]);
    assert_eq!(rows[1], [2, 28, 5, 1, 6, 0, 1, 0]);
    assert_eq!(rows[6], [6, 96, 11, 0, 0, 0, 2, 4]);
    assert_eq!(rows[13], [4, 0, 0, -325, 0, 0, 5, 0]);
    assert_eq!(rows[14], [0; 3]);
}

/// Name hands back the caller's own bytes, and an empty part for every label
/// that the sheet has not.
#[test]
fn names_are_parts_of_the_text() {
    let text = example();
    let mut table = vec![RUBBISH; 8 * 14];
    let wanted = [(2, 28, "total"), (7, 96, "right.prism"), (8, 0, "")];
    for (label, start, name) in wanted {
        let part = lindypo::raw::name(&text, &mut table, label);
        assert_eq!(part, name.as_bytes(), "label {label}");
        assert_eq!(part.as_ptr(), text[start..].as_ptr(), "label {label}");
    }
    for label in NO_LABELS.into_iter().chain([15]) {
        assert_eq!(lindypo::raw::name(&text, &mut table, label), b"");
        assert_eq!(table[0], 1, "the table is as Read leaves it");
    }
    assert_eq!(lindypo::raw::name(&text, &mut table[1..], 2), b"");
    assert_eq!(table[1..], [0; 8 * 14 - 1]);
    assert_eq!(lindypo::raw::name(b"", &mut [], 1), b"");
}
