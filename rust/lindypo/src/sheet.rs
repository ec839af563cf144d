//! A sheet that reads.

use std::borrow::Cow;
use std::str;

use crate::diagnosis;
use crate::diagnosis::forms::NUMBER;
use crate::raw;
use crate::{same_name, Change, Kind, Label, Line, Plan, Refusal, Results, Retouched, Run, Ties};

/// Cells for each label in the table and in the results, and for each pair in the
/// changes.
const TABLE_CELLS: usize = 8;
const RESULT_CELLS: usize = 3;
const CHANGE_CELLS: usize = 3;

/// The most labels that a sheet may have.
const LABELS: usize = 1024;

/// A sheet in which Read finds nothing to refuse: its text and its table.
#[derive(Debug, Clone)]
pub struct Sheet<'text> {
    text: &'text [u8],
    table: Vec<i64>,
}

impl<'text> Sheet<'text> {
    /// Read: judges the text and ties every path to its definition.
    ///
    /// ```
    /// use lindypo::{Kind, Sheet};
    ///
    /// let sheet = Sheet::read(b"kind name a b c\nG - 0 - -\nV x 1 3 -\nN - 7 - -\n")?;
    /// assert_eq!(sheet.labels(), 3);
    /// let value = sheet.line(2).unwrap();
    /// assert_eq!((value.kind, value.name, value.b), (Kind::Value, Some("x"), 3));
    /// # Ok::<(), lindypo::Refusal>(())
    /// ```
    pub fn read(text: &'text [u8]) -> Result<Self, Refusal> {
        let mut table = vec![0; TABLE_CELLS * lines_after_first(text)];
        raw::read(text, &mut table).map_err(|refusal| diagnosis::of_text(text, refusal))?;
        Ok(Sheet { text, table })
    }

    /// The text that was read.
    pub fn text(&self) -> &'text [u8] {
        self.text
    }

    /// The tie rule that line one names: where a quotient goes that is a half.
    ///
    /// ```
    /// use lindypo::{Sheet, State, Ties};
    ///
    /// let lines = "G - 0 - -\nV prism 1 3 -\nD - 4 5 -\nN - -3250 - -\nN - 100 - -\n";
    /// for (ties, prism) in [(Ties::Away, -33), (Ties::Even, -32)] {
    ///     let text = format!("{}\n{lines}", ties.first_line());
    ///     let sheet = Sheet::read(text.as_bytes())?;
    ///     assert_eq!(sheet.ties(), ties);
    ///     assert_eq!(sheet.run()?.results.of(2).unwrap().state, State::Number(prism));
    /// }
    /// # Ok::<(), lindypo::Refusal>(())
    /// ```
    pub fn ties(&self) -> Ties {
        // Read lets no other line one pass
        Ties::of_text(self.text).unwrap_or_default()
    }

    /// The number n of labels, 1 to 1,024.
    pub fn labels(&self) -> usize {
        self.table.len() / TABLE_CELLS
    }

    /// The line of a label; `None` where it is not from 1 to n.
    pub fn line(&self, label: Label) -> Option<Line<'text>> {
        let cells = self.cells(label)?;
        let label_of = |cell: i64| (cell != 0).then_some(cell as Label);
        Some(Line {
            label,
            kind: Kind::of_code(cells[0])?,
            name: self.name(label),
            a: cells[3],
            b: cells[4],
            c: cells[5],
            owner: label_of(cells[6]),
            target: label_of(cells[7]),
        })
    }

    /// All lines, upward through the labels.
    pub fn lines(&self) -> impl Iterator<Item = Line<'text>> + '_ {
        (1..=self.labels()).filter_map(|label| self.line(label))
    }

    /// A definition's name or the path of an R or C, as that very part of the
    /// text, in the case in which it was sent. `None` where the field is `-` or the label is not from 1 to n.
    ///
    /// ```
    /// let text = b"kind name a b c\nG - 0 - -\nG Right 1 - -\n";
    /// let sheet = lindypo::Sheet::read(text)?;
    /// let name = sheet.name(2).unwrap();
    /// assert_eq!(name, "Right");
    /// assert_eq!(name.as_ptr(), text[28..].as_ptr());
    /// # Ok::<(), lindypo::Refusal>(())
    /// ```
    pub fn name(&self, label: Label) -> Option<&'text str> {
        let cells = self.cells(label)?;
        let field = &self.text[cells[1] as usize..][..cells[2] as usize];
        str::from_utf8(field).ok().filter(|name| !name.is_empty())
    }

    /// A definition's name with those of the Groups around it, outermost first,
    /// joined by dots, each as it was sent; empty for label 1 and for what is no
    /// definition.
    pub fn full_name(&self, label: Label) -> String {
        let mut names = Vec::new();
        let mut at = self.line(label);
        while let Some(line) = at.filter(|line| line.kind.is_definition()) {
            names.extend(line.name);
            at = line.owner.and_then(|group| self.line(group));
        }
        names.reverse();
        names.join(".")
    }

    /// The definition with this full name, in capitals or small letters.
    ///
    /// ```
    /// let text = b"kind name a b c\nG - 0 - -\nG right 1 - -\nG left 1 - -\nG Lens 3 - -\n";
    /// let sheet = lindypo::Sheet::read(text)?;
    /// assert_eq!(sheet.find("left.Lens"), Some(4));
    /// assert_eq!(sheet.find("LEFT.lens"), Some(4));
    /// assert_eq!(sheet.full_name(4), "left.Lens");
    /// assert_eq!(sheet.find("right.lens"), None);
    /// # Ok::<(), lindypo::Refusal>(())
    /// ```
    pub fn find(&self, full_name: &str) -> Option<Label> {
        full_name
            .split('.')
            .try_fold(1, |group, name| self.member(group, name))
    }

    /// The N line that is the body of the value with this full name, in capitals
    /// or small letters: what to name for it in a list of pairs. `None` where
    /// there is no such value, or its body is another expression.
    ///
    /// ```
    /// let sheet = lindypo::Sheet::read(
    ///     b"kind name a b c\nG - 0 - -\nV size 1 4 -\nV copy 1 5 -\nN - 7 - -\nR size - - -\n",
    /// )?;
    /// assert_eq!(sheet.find_number("Size"), Some(4));
    /// assert_eq!(sheet.find_number("copy"), None);
    /// # Ok::<(), lindypo::Refusal>(())
    /// ```
    pub fn find_number(&self, full_name: &str) -> Option<Label> {
        let value = self.line(self.find(full_name)?)?;
        let body = self.line(value.b as Label)?;
        (value.kind == Kind::Value && body.kind == Kind::Number).then_some(body.label)
    }

    /// The members of a Group, upward through the labels.
    pub fn members(&self, group: Label) -> impl Iterator<Item = Line<'text>> + '_ {
        let is_member = move |line: &Line| line.kind.is_definition() && line.owner == Some(group);
        self.lines().filter(is_member)
    }

    /// Every mention, a definition and the value or function that it reads or
    /// calls, upward through the labels of the R and C lines.
    pub fn mentions(&self) -> impl Iterator<Item = (Label, Label)> + '_ {
        self.lines()
            .filter_map(|line| Some((line.owner?, line.target?)))
    }

    /// Plan: settles the order in which the values are evaluated.
    ///
    /// ```
    /// use lindypo::{Order, Sheet};
    ///
    /// let sheet = Sheet::read(
    ///     b"kind name a b c\nG - 0 - -\nV total 1 3 -\nR part - - -\nV part 1 5 -\nN - 7 - -\n",
    /// )?;
    /// let plan = sheet.plan()?;
    /// assert_eq!(plan.labels, [4, 2]);
    /// assert_eq!(plan.order, Order::Whole);
    ///
    /// let itself = Sheet::read(b"kind name a b c\nG - 0 - -\nV x 1 3 -\nR x - - -\n")?;
    /// assert_eq!(
    ///     itself.plan().unwrap_err().to_string(),
    ///     "refusal 16, line 3, column 3: the value `x` reaches itself: x -> x"
    /// );
    /// # Ok::<(), lindypo::Refusal>(())
    /// ```
    pub fn plan(&self) -> Result<Plan, Refusal> {
        let (mut table, mut plan) = (self.spare_table(), vec![0; self.labels()]);
        let (length, order) = raw::plan(self.text, &mut table, &mut plan)
            .map_err(|refusal| diagnosis::of_order(self, &[], refusal))?;
        Ok(Plan::of_cells(&plan[..length], order))
    }

    /// Run: settles the order and evaluates the values down it.
    ///
    /// ```
    /// use lindypo::{Sheet, State};
    ///
    /// let sheet = Sheet::read(
    ///     b"kind name a b c\nG - 0 - -\nV x 1 3 -\nD - 4 5 -\nN - 7 - -\nN - 0 - -\n",
    /// )?;
    /// let outcome = sheet.run()?.results.of(2).unwrap();
    /// assert_eq!((outcome.state, outcome.steps), (State::ZeroDivisor, 3));
    /// # Ok::<(), lindypo::Refusal>(())
    /// ```
    pub fn run(&self) -> Result<Run, Refusal> {
        let (mut table, mut plan) = (self.spare_table(), vec![0; self.labels()]);
        let mut results = vec![0; RESULT_CELLS * self.labels()];
        let (length, order) = raw::run(self.text, &mut table, &mut plan, &mut results)
            .map_err(|refusal| diagnosis::of_order(self, &[], refusal))?;
        Ok(Run {
            plan: Plan::of_cells(&plan[..length], order),
            results: Results::of_cells(&results),
        })
    }

    /// Follow: evaluates the values down an order of the caller's. It has to
    /// list every value once, each after every value that it reaches; the
    /// results are then those of `run`, whichever such order it is.
    ///
    /// ```
    /// let sheet = lindypo::Sheet::read(
    ///     b"kind name a b c\nG - 0 - -\nV total 1 3 -\nR part - - -\nV part 1 5 -\nN - 7 - -\n",
    /// )?;
    /// assert_eq!(sheet.follow(&[4, 2])?, sheet.run()?.results);
    /// assert_eq!(
    ///     sheet.follow(&[2, 4]).unwrap_err().to_string(),
    ///     "refusal 18, position 1 of the order: `total` reaches `part`, which is not listed earlier"
    /// );
    /// # Ok::<(), lindypo::Refusal>(())
    /// ```
    pub fn follow(&self, order: &[Label]) -> Result<Results, Refusal> {
        // a label that no cell can hold is no value's, and neither is 0
        let cells = |&label: &Label| i64::try_from(label).unwrap_or(0);
        let list: Vec<i64> = order.iter().map(cells).collect();
        let mut results = vec![0; RESULT_CELLS * self.labels()];
        raw::follow(self.text, &list, &mut self.spare_table(), &mut results)
            .map_err(|refusal| diagnosis::of_order(self, order, refusal))?;
        Ok(Results::of_cells(&results))
    }

    /// Retouch: runs the sheet, then puts new numbers into N lines, one after the
    /// other. After each pair of an N line's label and its new number, the value
    /// that owns the line and all values that reach its owner are evaluated again,
    /// and no others.
    ///
    /// The results are those of `run` on the sheet with all numbers put in, which
    /// `with_numbers` writes. A line may be in several pairs; an empty list
    /// changes nothing.
    ///
    /// ```
    /// use lindypo::{Change, Sheet, State};
    ///
    /// let sheet = Sheet::read(
    ///     b"kind name a b c\n\
    ///       G - 0 - -\n\
    ///       V prism 1 5 -\n\
    ///       V decentration 1 8 -\n\
    ///       V size 1 9 -\n\
    ///       D - 6 7 -\n\
    ///       R decentration - - -\n\
    ///       N - 10 - -\n\
    ///       N - 350 - -\n\
    ///       N - 5200 - -\n",
    /// )?;
    /// let decentration = sheet.find_number("decentration").unwrap();
    /// let retouched = sheet.retouch(&[(decentration, 250), (7, 0)])?;
    ///
    /// // prism and decentration, then prism alone, which now fails
    /// assert_eq!(retouched.changes[0], Change { redone: 2, failing: 0, steps: 5 });
    /// assert_eq!(retouched.changes[1], Change { redone: 1, failing: 1, steps: 5 });
    /// assert_eq!(retouched.run.results.of(3).unwrap().state, State::Number(250));
    /// assert_eq!(retouched.run.results.of(2).unwrap().state, State::ZeroDivisor);
    ///
    /// let refusal = sheet.retouch(&[(decentration, 250), (2, 5)]).unwrap_err();
    /// assert_eq!(
    ///     refusal.to_string(),
    ///     "refusal 20, line 6, column 1, pair 2 of the list: \
    ///      the body of `prism` is not a number: line 6 is a quotient (D)"
    /// );
    /// assert_eq!(refusal.help()[0].sentence, "label 7 is here");
    /// assert_eq!(refusal.help()[1].sentence, "name an N line; the one in it is label 7");
    /// # Ok::<(), lindypo::Refusal>(())
    /// ```
    pub fn retouch(&self, pairs: &[(Label, i64)]) -> Result<Retouched, Refusal> {
        // a label that no cell can hold is no N line's, and neither is 0
        let cells = |&(label, number): &(Label, i64)| [i64::try_from(label).unwrap_or(0), number];
        let list: Vec<i64> = pairs.iter().flat_map(cells).collect();
        let (mut table, mut plan) = (self.spare_table(), vec![0; self.labels()]);
        let mut results = vec![0; RESULT_CELLS * self.labels()];
        let mut changes = vec![0; CHANGE_CELLS * pairs.len()];
        let (length, order) = raw::retouch(
            self.text,
            &list,
            &mut table,
            &mut plan,
            &mut results,
            &mut changes,
        )
        .map_err(|refusal| diagnosis::of_pairs(self, pairs, refusal))?;
        Ok(Retouched {
            run: Run {
                plan: Plan::of_cells(&plan[..length], order),
                results: Results::of_cells(&results),
            },
            changes: Change::of_cells(&changes),
        })
    }

    /// The text with new numbers in N lines, one pair after the other; pairs that
    /// `retouch` would refuse are left out. It may be longer than a sheet may be.
    ///
    /// ```
    /// let text = b"kind name a b c\nG - 0 - -\nV x 1 3 -\nN - 7 - -\n";
    /// let sheet = lindypo::Sheet::read(text)?;
    /// let retouched = sheet.with_numbers(&[(3, -40)]);
    /// assert_eq!(retouched, b"kind name a b c\nG - 0 - -\nV x 1 3 -\nN - -40 - -\n");
    /// let again = lindypo::Sheet::read(&retouched)?;
    /// assert_eq!(again.run()?, sheet.retouch(&[(3, -40)])?.run);
    /// # Ok::<(), lindypo::Refusal>(())
    /// ```
    pub fn with_numbers(&self, pairs: &[(Label, i64)]) -> Vec<u8> {
        let mut lines: Vec<Cow<[u8]>> = self
            .text
            .split_inclusive(|&byte| byte == b'\n')
            .map(Cow::from)
            .collect();
        for &(label, number) in pairs {
            let is_number = |line: Line| line.kind == Kind::Number;
            if self.line(label).is_some_and(is_number) && (-NUMBER..=NUMBER).contains(&number) {
                lines[label] = format!("N - {number} - -\n").into_bytes().into();
            }
        }
        lines.concat()
    }

    /// The text under a tie rule: with the line one that names it, and else as it
    /// is. It may be longer than a sheet may be.
    ///
    /// ```
    /// use lindypo::{Sheet, Ties};
    ///
    /// let text = b"kind name a b c\nG - 0 - -\nV x 1 3 -\nN - 7 - -\n";
    /// let sheet = Sheet::read(text)?;
    /// let even = sheet.with_ties(Ties::Even);
    /// assert_eq!(even, b"kind2 name a b c\nG - 0 - -\nV x 1 3 -\nN - 7 - -\n");
    /// assert_eq!(Sheet::read(&even)?.with_ties(sheet.ties()), text);
    /// # Ok::<(), lindypo::Refusal>(())
    /// ```
    pub fn with_ties(&self, ties: Ties) -> Vec<u8> {
        let rest = &self.text[self.ties().first_line().len()..];
        [ties.first_line().as_bytes(), rest].concat()
    }

    fn cells(&self, label: Label) -> Option<&[i64]> {
        let start = TABLE_CELLS.checked_mul(label.checked_sub(1)?)?;
        self.table.get(start..)?.get(..TABLE_CELLS)
    }

    fn member(&self, group: Label, name: &str) -> Option<Label> {
        let is_meant = |line: &Line| line.name.is_some_and(|own| same_name(own, name));
        self.members(group).find(is_meant).map(|line| line.label)
    }

    /// A table for a call that writes it once more.
    fn spare_table(&self) -> Vec<i64> {
        vec![0; self.table.len()]
    }
}

/// The number of labels, where the text has not too many.
fn lines_after_first(text: &[u8]) -> usize {
    let ends = text.iter().filter(|&&byte| byte == b'\n').count();
    ends.saturating_sub(1).min(LABELS)
}
