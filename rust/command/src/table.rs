//! Columns beneath each other.

use crate::output::Paint;

/// A column: its title, and whether it has figures, which stand to the right.
#[derive(Debug, Clone, Copy)]
pub struct Column {
    pub title: &'static str,
    pub has_figures: bool,
}

pub const fn words(title: &'static str) -> Column {
    Column {
        title,
        has_figures: false,
    }
}

pub const fn figures(title: &'static str) -> Column {
    Column {
        title,
        has_figures: true,
    }
}

/// What stands in a column.
#[derive(Debug, Clone, Default)]
pub struct Cell {
    text: String,
    is_bad: bool,
}

impl Cell {
    /// A cell about something wrong.
    pub fn bad(text: impl ToString) -> Cell {
        Cell {
            text: text.to_string(),
            is_bad: true,
        }
    }

    fn width(&self) -> usize {
        self.text.chars().count()
    }
}

impl<T: ToString> From<T> for Cell {
    fn from(text: T) -> Cell {
        Cell {
            text: text.to_string(),
            is_bad: false,
        }
    }
}

/// The titles and the rows, each a line.
pub fn aligned<const N: usize>(columns: [Column; N], rows: &[[Cell; N]], paint: Paint) -> String {
    let titles = columns.map(|column| Cell::from(column.title));
    let widths: [usize; N] = std::array::from_fn(|at| {
        let cells = rows.iter().map(|row| row[at].width());
        cells.chain([titles[at].width()]).max().unwrap_or(0)
    });
    let line = |row: &[Cell; N], paint: Paint| {
        let padded = std::array::from_fn::<String, N, _>(|at| {
            padded(&row[at], widths[at], columns[at].has_figures, paint)
        });
        padded.join("  ").trim_end().to_string()
    };
    let heading = paint.strong(&line(&titles, Paint::default()));
    let rows = rows.iter().map(|row| format!("{}\n", line(row, paint)));
    format!("{heading}\n{}", rows.collect::<String>())
}

/// A cell in its column's width.
fn padded(cell: &Cell, width: usize, is_figure: bool, paint: Paint) -> String {
    let space = " ".repeat(width - cell.width());
    let text = match cell.is_bad {
        true => paint.bad(&cell.text),
        false => cell.text.clone(),
    };
    match is_figure {
        true => space + &text,
        false => text + &space,
    }
}

#[cfg(test)]
mod tests {
    use super::*;

    #[test]
    fn words_stand_left_and_figures_right() {
        let rows = [
            [Cell::from("a"), Cell::from(-325), Cell::from("")],
            [Cell::from("└─ bc"), Cell::from(7), Cell::bad("no")],
        ];
        let columns = [words("name"), figures("n"), words("state")];
        let wanted = "name      n  state\na      -325\n└─ bc     7  no\n";
        assert_eq!(aligned(columns, &rows, Paint::on(false)), wanted);
    }

    #[test]
    fn colours_move_nothing() {
        let rows = [[Cell::bad("x"), Cell::from("y")]];
        let painted = aligned([words("one"), words("two")], &rows, Paint::on(true));
        let wanted = "\x1b[1mone  two\x1b[0m\n\x1b[1;31mx\x1b[0m    y\n";
        assert_eq!(painted, wanted);
    }
}
