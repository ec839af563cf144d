//! One trial of all the calls.

use generator::{Case, NearNames, Tangles};
use lindypo::raw::{Part, Printed, Reply};

use crate::calls::{Call, Lent, MIXED};
use crate::halves::Halves;
use crate::lent::{LentCells, LentPart, SURROUNDINGS};
use crate::letters::Letters;
use crate::retouches::Retouches;

/// Name is tried with every label of a sheet up to this many lines.
const ALL_LABELS: usize = 40;

/// In other letters, with one label in so many.
const LABEL_STEP: usize = 4;

/// The buffers that a call may be lent for writing.
const BUFFERS: [&str; 4] = ["table", "plan", "results", "changes"];

/// What is lent: the text, a list for Follow, one for Retouch, the lengths of the
/// buffers, what they are full of beforehand, a label for Name besides those of
/// every trial, and how many bytes the print has room for.
#[derive(Debug, Clone, Copy)]
pub struct Trial<'a> {
    pub text: &'a [u8],
    pub order: &'a [i64],
    pub pairs: &'a [i64],
    pub table: usize,
    pub plan: usize,
    pub results: usize,
    pub changes: usize,
    pub rubbish: i64,
    pub label: i64,
    pub print: usize,
}

/// What a trial came to.
#[derive(Debug, Clone, Copy)]
pub struct Outcome {
    pub read: Reply,
    pub plan: Reply,
    pub run: Reply,
    pub follow: Reply,
    pub retouch: Reply,
    /// How many values Run left in each of the states 1 to 5.
    pub states: [u64; 5],
    /// How many labels Name was asked for, and how many of them have a name.
    pub asked: u64,
    pub named: u64,
    /// Whether there was room for the whole print.
    pub is_print_whole: bool,
    pub letters: Letters,
    pub near: NearNames,
    pub tangles: Tangles,
    pub retouches: Retouches,
    pub halves: Halves,
}

impl Outcome {
    /// What the calls of a trial, these names and the print come to by the
    /// reference.
    pub fn new(trial: &Trial, expected: &Expected) -> Self {
        let text = trial.text;
        let Expected {
            calls,
            names,
            print,
        } = expected;
        let [read, plan, run, follow, retouch] = calls.each_ref().map(|wanted| wanted.reply);
        let is_named = |wanted: &&WantedName| wanted.part.length > 0;
        Outcome {
            read,
            plan,
            run,
            follow,
            retouch,
            states: states(&calls[2].buffers[2], run),
            asked: names.len() as u64,
            named: names.iter().filter(is_named).count() as u64,
            is_print_whole: print.printed.length <= print.out.len() as u64,
            letters: Letters::of(text, &calls[0]),
            near: near_names(text, &calls[0]),
            tangles: tangles(&calls[1]),
            retouches: Retouches::of(trial.pairs, calls),
            halves: Halves::of(text, calls, trial.under_other(run).as_deref()),
        }
    }

    /// The replies in the sequence of `Call::ALL`.
    pub fn replies(&self) -> [Reply; Call::COUNT] {
        [self.read, self.plan, self.run, self.follow, self.retouch]
    }
}

/// What a call has to reply and to leave in every buffer: table, plan, results,
/// changes.
pub struct Wanted {
    pub call: Call,
    pub reply: Reply,
    pub buffers: [Vec<i64>; 4],
}

/// What Name has to give for a label.
pub struct WantedName {
    pub label: i64,
    pub part: Part,
}

/// What the print has to answer and to leave in its buffer.
pub struct WantedPrint {
    pub printed: Printed,
    pub out: Vec<u8>,
}

/// All that the reference wants of a trial: of the calls, in the sequence of
/// `Call::ALL`, of Name for each label tried, and of the print.
pub struct Expected {
    pub calls: [Wanted; Call::COUNT],
    pub names: Vec<WantedName>,
    pub print: WantedPrint,
}

impl<'a> Trial<'a> {
    /// A trial with buffers one cell longer than need be, and nothing to retouch.
    pub fn new(text: &'a [u8], order: &'a [i64]) -> Self {
        let lines = generator::line_count(text);
        Trial {
            text,
            order,
            pairs: &[],
            table: 8 * lines + 1,
            plan: lines + 1,
            results: 3 * lines + 1,
            changes: 1,
            rubbish: -77,
            label: 2,
            print: reference::print(text).len() + 1,
        }
    }

    /// The trial with these pairs, and changes one cell longer than need be.
    pub fn retouching(self, pairs: &'a [i64]) -> Self {
        let changes = 3 * (pairs.len() / 2) + 1;
        Trial {
            pairs,
            changes,
            ..self
        }
    }

    /// The trial that a case of the generator asks for.
    pub fn of(case: &'a Case) -> Self {
        Trial {
            text: &case.text,
            order: &case.order,
            pairs: &case.pairs,
            table: case.table,
            plan: case.plan,
            results: case.results,
            changes: case.changes,
            rubbish: case.rubbish,
            label: case.label,
            print: case.print,
        }
    }

    /// The reference's outcome where the library agrees with it in every cell,
    /// else the difference in words.
    pub fn run(&self) -> Result<Outcome, String> {
        let expected = self.expected_of_all()?;
        self.compare(&expected)?;
        Ok(Outcome::new(self, &expected))
    }

    /// As `run`, and the library gives the same for this text too, the same but
    /// for the case of letters in names and paths.
    pub fn run_recased(&self, recased: &[u8]) -> Result<Outcome, String> {
        let expected = self.expected_of_all()?;
        self.compare(&expected)?;
        let other = Trial {
            text: recased,
            ..*self
        };
        let in_letters = |difference| format!("in other letters: {difference}");
        other.compare_recased(&expected).map_err(in_letters)?;
        Ok(Outcome::new(self, &expected))
    }

    /// What the reference wants, with Name of these labels.
    pub fn expected(&self, labels: impl FnOnce(Reply) -> Vec<i64>) -> Result<Expected, String> {
        let calls = self.wanted();
        let names = self.names(&calls[0], labels(calls[0].reply))?;
        Ok(Expected {
            names,
            print: self.wanted_print(),
            calls,
        })
    }

    fn expected_of_all(&self) -> Result<Expected, String> {
        let lines = generator::line_count(self.text);
        self.expected(|read| labels(read, lines, self.label))
    }

    /// The library in every surrounding; Name under one and the other in turn.
    fn compare(&self, expected: &Expected) -> Result<(), String> {
        for (turn, surrounding) in SURROUNDINGS.into_iter().enumerate() {
            let names = expected.names.iter().skip(turn).step_by(SURROUNDINGS.len());
            self.compare_calls(&expected.calls, names, surrounding)?;
            let (given, bytes) = self.library_print(surrounding.0);
            compare_print(&expected.print, given, &bytes)?;
        }
        Ok(())
    }

    /// The library on this text gives what is wanted of the same in other letters;
    /// prints may differ in the case of letters.
    fn compare_recased(&self, expected: &Expected) -> Result<(), String> {
        let names = expected.names.iter().step_by(LABEL_STEP);
        self.compare_calls(&expected.calls, names, SURROUNDINGS[0])?;
        let (given, mut bytes) = self.library_print(SURROUNDINGS[0].0);
        bytes.part().make_ascii_lowercase();
        let wanted = WantedPrint {
            printed: expected.print.printed,
            out: expected.print.out.to_ascii_lowercase(),
        };
        compare_print(&wanted, given, &bytes)
    }

    /// What the reference wants of each call, in the sequence of `Call::ALL`.
    pub fn wanted(&self) -> [Wanted; Call::COUNT] {
        Call::ALL.map(|call| self.wanted_of(call))
    }

    /// As `run`, for a test that wants nothing but agreement.
    pub fn expect(&self) -> Outcome {
        match self.run() {
            Ok(outcome) => outcome,
            Err(difference) => panic!(
                "{difference}\n{:?}\norder {:?}\npairs {:?}",
                String::from_utf8_lossy(self.text),
                self.order,
                self.pairs
            ),
        }
    }

    /// What the reference wants of the calls that evaluate for the same sheet under
    /// the other first line; none where Run refuses it under its own.
    fn under_other(&self, run: Reply) -> Option<Vec<Wanted>> {
        let text = generator::under_other(self.text).filter(|_| run.refusal == 0)?;
        let other = Trial {
            text: &text,
            ..*self
        };
        let calls = [Call::Run, Call::Follow, Call::Retouch];
        Some(calls.map(|call| other.wanted_of(call)).into())
    }

    fn lengths(&self) -> [usize; 4] {
        [self.table, self.plan, self.results, self.changes]
    }

    fn wanted_of(&self, call: Call) -> Wanted {
        let mut buffers = self.lengths().map(|length| vec![self.rubbish; length]);
        let [table, plan, results, changes] = &mut buffers;
        let reply = call.reference(Lent {
            text: self.text,
            order: self.order,
            pairs: self.pairs,
            table,
            plan,
            results,
            changes,
        });
        Wanted {
            call,
            reply,
            buffers,
        }
    }

    /// What the reference's print answers and leaves.
    fn wanted_print(&self) -> WantedPrint {
        let mut out = vec![self.rubbish as u8; self.print];
        let reference::Printed { refusal, length } = reference::print_into(self.text, &mut out);
        let (refusal, place) = refusal.map_or((0, 0), |refusal| (refusal.number, refusal.place));
        let length = length as u64;
        let printed = Printed {
            refusal,
            place,
            length,
        };
        WantedPrint { printed, out }
    }

    /// What the library's print of the text between such bytes answers, and what
    /// it leaves.
    fn library_print(&self, surrounding: u8) -> (Printed, LentCells<u8>) {
        let text = LentPart::new(self.text, surrounding);
        let mut bytes = LentCells::new(self.print, self.rubbish as u8);
        let given = lindypo::raw::print(text.part(), bytes.lend());
        (given, bytes)
    }

    /// What the reference's Name gives for each of these labels.
    fn names(&self, read: &Wanted, labels: Vec<i64>) -> Result<Vec<WantedName>, String> {
        let mut table = vec![self.rubbish; self.table];
        let mut names = Vec::new();
        for label in labels {
            table.fill(self.rubbish);
            let name = reference::name(self.text, &mut table, label);
            if table != read.buffers[0] {
                return Err(format!("the reference's Name {label} has another table"));
            }
            let part = part_of(self.text, name);
            names.push(WantedName { label, part });
        }
        Ok(names)
    }

    /// The library between these surroundings: every call, then these names.
    fn compare_calls<'n>(
        &self,
        wanted: &[Wanted],
        names: impl Iterator<Item = &'n WantedName>,
        (byte, cell): (u8, i64),
    ) -> Result<(), String> {
        let text = LentPart::new(self.text, byte);
        let lists = [self.order, self.pairs].map(|list| LentPart::new(list, cell));
        let mut cells = self
            .lengths()
            .map(|length| LentCells::new(length, self.rubbish));
        for wanted in wanted {
            compare_call(wanted, text.part(), &lists, &mut cells)?;
        }
        for name in names {
            compare_name(name, text.part(), &mut cells[0], &wanted[0].buffers[0])?;
        }
        Ok(())
    }
}

fn compare_call(
    wanted: &Wanted,
    text: &[u8],
    [order, pairs]: &[LentPart<i64>; 2],
    cells: &mut [LentCells<i64>; 4],
) -> Result<(), String> {
    let Wanted {
        call,
        reply,
        buffers,
    } = wanted;
    let [table, plan, results, changes] = cells.each_mut().map(LentCells::lend);
    let given = call.library(Lent {
        text,
        order: order.part(),
        pairs: pairs.part(),
        table,
        plan,
        results,
        changes,
    });
    if given != *reply {
        return Err(format!("{call:?} replied {given:?}, wanted {reply:?}"));
    }
    for ((name, cells), wanted) in BUFFERS.iter().zip(cells).zip(buffers) {
        let with_place = |difference| format!("{name} after {call:?}: {difference}");
        cells.compare(wanted).map_err(with_place)?;
    }
    Ok(())
}

fn compare_print(
    wanted: &WantedPrint,
    given: Printed,
    bytes: &LentCells<u8>,
) -> Result<(), String> {
    let WantedPrint { printed, out } = wanted;
    if given != *printed {
        return Err(format!("the print answered {given:?}, wanted {printed:?}"));
    }
    let with_place = |difference| format!("bytes after the print: {difference}");
    bytes.compare(out).map_err(with_place)
}

fn compare_name(
    wanted: &WantedName,
    text: &[u8],
    table: &mut LentCells<i64>,
    wanted_table: &[i64],
) -> Result<(), String> {
    let WantedName { label, part } = wanted;
    let given = lindypo::raw::name_part(text, table.lend(), *label);
    if given != *part {
        return Err(format!("Name {label} gave {given:?}, wanted {part:?}"));
    }
    let with_place = |difference| format!("table after Name {label}: {difference}");
    table.compare(wanted_table).map_err(with_place)
}

/// The labels for Name: those at the edges, the one given, and of a sheet that
/// reads every one, or as many spread through a long one.
fn labels(reply: Reply, lines: usize, label: i64) -> Vec<i64> {
    let n = lines as i64;
    let mut labels = vec![i64::MIN, -1, 0, 1, n, n + 1, i64::MAX, label];
    if reply.refusal == 0 {
        let step = 1 + lines / ALL_LABELS;
        labels.extend((1..=n).step_by(step));
    }
    labels
}

/// Where in the text a part of it stands; 0, 0 for an empty one.
fn part_of(text: &[u8], part: &[u8]) -> Part {
    let start = match part.len() {
        0 => 0,
        _ => part.as_ptr() as usize - text.as_ptr() as usize,
    };
    Part {
        start: start as u64,
        length: part.len() as u64,
    }
}

/// The names of a text that are nearly one: where it reads, and where a path is
/// refused since a name is not found.
fn near_names(text: &[u8], read: &Wanted) -> NearNames {
    match read.reply.refusal {
        0 => NearNames::of(text, &read.buffers[0]),
        13 | 14 => NearNames::of_missed(text, read.reply.place as usize),
        _ => NearNames::default(),
    }
}

/// What is so of the sheet of a mixed plan.
fn tangles(plan: &Wanted) -> Tangles {
    match plan.reply.order {
        MIXED => Tangles::of(&plan.buffers[0]),
        _ => Tangles::default(),
    }
}

/// The values in each state, where Run answered.
fn states(results: &[i64], run: Reply) -> [u64; 5] {
    let mut states = [0; 5];
    if run.refusal == 0 {
        for cells in results.chunks_exact(3).filter(|cells| cells[0] != 0) {
            states[cells[0] as usize - 1] += 1;
        }
    }
    states
}
