//! A sheet as rows of fields, for changes to it.

use crate::first_lines::AWAY;

/// The five fields of a line.
pub type Row = [Vec<u8>; 5];

/// The lines after line one, if each has five fields and there is one.
pub fn split(text: &[u8]) -> Option<Vec<Row>> {
    let lines = text.strip_suffix(b"\n")?.split(|&byte| byte == b'\n');
    let rows: Option<Vec<Row>> = lines
        .skip(1)
        .map(|line| {
            let fields: Vec<Vec<u8>> = line.split(|&b| b == b' ').map(<[u8]>::to_vec).collect();
            fields.try_into().ok()
        })
        .collect();
    rows.filter(|rows| !rows.is_empty())
}

/// The sheet of these rows, halves away from zero.
pub fn join(rows: &[Row]) -> Vec<u8> {
    join_under(AWAY, rows)
}

/// The sheet of these rows under this line one.
pub fn join_under(first_line: &[u8], rows: &[Row]) -> Vec<u8> {
    let mut text = [first_line, b"\n"].concat();
    for row in rows {
        text.extend_from_slice(&row.join(&b' '));
        text.push(b'\n');
    }
    text
}
