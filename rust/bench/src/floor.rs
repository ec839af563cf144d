//! The floor: one pass over the bytes of a sheet, with nothing judged. It cuts lines
//! and fields, reads numbers and writes the eight cells of each line. What Read and
//! Run take beside it is what their rules cost.

/// Cells for each line.
const CELLS: usize = 8;

/// Writes, for each line after the first, its kind's letter, where its name field
/// starts and how long it is, its numbers a, b and c, and twice 0. A field without
/// digits is 0. Answers how many lines there are.
pub fn floor(text: &[u8], table: &mut [i64]) -> usize {
    let mut at = line_one(text);
    let mut lines = 0;
    for cells in table.chunks_exact_mut(CELLS) {
        let Some(&kind) = text.get(at) else {
            break;
        };
        let name = next_field(text, at);
        let a = next_field(text, name);
        let length = a - 1 - name;
        let (a, b) = number(text, a);
        let (b, c) = number(text, b);
        let (c, next) = number(text, c);
        let [name, length] = [name, length].map(|number| number as i64);
        cells.copy_from_slice(&[i64::from(kind), name, length, a, b, c, 0, 0]);
        at = next;
        lines += 1;
    }
    lines
}

/// Where the line after the first begins.
fn line_one(text: &[u8]) -> usize {
    let end = text.iter().position(|&byte| byte == b'\n');
    end.map_or(text.len(), |end| end + 1)
}

/// Where the field after that at `at` begins: past the next space or line end.
fn next_field(text: &[u8], mut at: usize) -> usize {
    while text[at] > b' ' {
        at += 1;
    }
    at + 1
}

/// The number that the field at `at` is in decimal, and where the next one begins.
fn number(text: &[u8], mut at: usize) -> (i64, usize) {
    let is_negative = text[at] == b'-';
    at += usize::from(is_negative);
    let mut number = 0;
    while text[at] > b' ' {
        number = 10 * number + i64::from(text[at].wrapping_sub(b'0'));
        at += 1;
    }
    (if is_negative { -number } else { number }, at + 1)
}

#[cfg(test)]
mod tests {
    use super::*;

    /// What Read writes of each line: its own code for the kind, no name where the
    /// line has none, and owner and target.
    #[test]
    fn cells_are_those_of_read() {
        for lines in [1, 60, 250, 1_024] {
            let text = generator::everyday(lines, 1);
            let [mut read, mut cut] = [(); 2].map(|()| vec![-7; CELLS * lines]);
            assert_eq!(lindypo::raw::read(&text, &mut read), Ok(lines));
            assert_eq!(floor(&text, &mut cut), lines);
            for (read, cut) in read.chunks(CELLS).zip(cut.chunks(CELLS)) {
                let letter = char::from(cut[0] as u8);
                assert!("GVFNPRCASMDI".contains(letter), "{letter}");
                let name = if read[2] > 0 { &read[1..3] } else { &cut[1..3] };
                assert_eq!(cut[1..], [name, &read[3..6], &[0, 0]].concat());
                let field = &text[cut[1] as usize..][..cut[2] as usize];
                assert!(read[2] > 0 || field == b"-");
            }
        }
    }

    #[test]
    fn numbers_with_and_without_a_sign() {
        let text = b"kind name a b c\nG - 0 - -\nV aB9 1 3 -\nN - -1000000000 - -\n";
        let mut cells = vec![-7; 3 * CELLS];
        assert_eq!(floor(text, &mut cells), 3);
        let wanted = [
            [i64::from(b'G'), 18, 1, 0, 0, 0, 0, 0],
            [i64::from(b'V'), 28, 3, 1, 3, 0, 0, 0],
            [i64::from(b'N'), 40, 1, -1_000_000_000, 0, 0, 0, 0],
        ];
        assert_eq!(cells, wanted.concat());
    }
}
