//! The sheets that are measured.

use std::fs;
use std::path::Path;

use generator::{capital_paths, under, Rng, EVEN};

use crate::calls::Call;

const LINES: [usize; 3] = [60, 250, 1_024];

/// How many pairs Retouch is lent.
const PAIRS: usize = 1_000;

/// The code of a value in the table.
const VALUE: i64 = 2;

/// How many different sheets are taken in turn.
const SHEETS: u64 = 16;

/// A sheet, the order for Follow (the plan, or none where there is none), the
/// label for Name, the last one that has a name, and the pairs for Retouch.
pub struct Sheet {
    pub text: Vec<u8>,
    pub order: Vec<i64>,
    pub label: i64,
    pub pairs: Vec<i64>,
}

impl Sheet {
    fn new(text: Vec<u8>) -> Self {
        let lines = generator::line_count(&text);
        let (mut table, mut order) = (vec![0; 8 * lines], vec![0; lines]);
        let planned = reference::plan(&text, &mut table, &mut order);
        order.truncate(planned.map_or(0, |(length, _)| length));
        let label = 1 + table.chunks(8).rposition(|cells| cells[2] > 0).unwrap_or(0) as i64;
        Sheet {
            text,
            order,
            label,
            pairs: Vec::new(),
        }
    }
}

/// How much longer than the reference the library may take.
pub const BAR: f64 = 1.1;

/// Sheets of as many lines each, taken in turn, and the calls to measure.
pub struct Workload {
    pub name: String,
    pub calls: &'static [Call],
    pub sheets: Vec<Sheet>,
    /// The bar that it is under; none for what only somebody who means harm sends,
    /// where a hash and a sorted list cannot be compared.
    pub bar: Option<f64>,
}

impl Workload {
    fn one(name: &str, calls: &'static [Call], text: Vec<u8>) -> Self {
        Workload {
            name: name.to_string(),
            calls,
            sheets: vec![Sheet::new(text)],
            bar: Some(BAR),
        }
    }

    /// One for Retouch: pairs for an order of these labels in turn, each with a
    /// number of its own.
    fn retouched(name: &str, text: Vec<u8>, labels: Vec<i64>, count: usize) -> Self {
        let labels = labels.into_iter().cycle().take(count);
        let numbers = (0..).map(|at| at * 37 % 600 - 299);
        let pairs = labels.zip(numbers);
        let mut workload = Workload::one(name, &[Call::Retouch], text);
        workload.sheets[0].pairs = pairs.flat_map(|(label, number)| [label, number]).collect();
        workload
    }

    fn without_bar(self) -> Self {
        Workload { bar: None, ..self }
    }

    fn everyday(lines: usize, sheets: u64) -> Self {
        let name = match sheets {
            1 => "everyday order".to_string(),
            _ => format!("{sheets} everyday orders in turn"),
        };
        let texts = (1..=sheets).map(|seed| generator::everyday(lines, seed));
        Workload {
            name,
            calls: &Call::UNTOUCHED,
            sheets: texts.map(Sheet::new).collect(),
            bar: Some(BAR),
        }
    }

    pub fn lines(&self) -> usize {
        generator::line_count(&self.sheets[0].text)
    }

    /// The pairs for Retouch.
    pub fn pairs(&self) -> usize {
        self.sheets[0].pairs.len() / 2
    }

    /// The bytes of a sheet, on average.
    pub fn bytes(&self) -> usize {
        let bytes = self.sheets.iter().map(|sheet| sheet.text.len());
        bytes.sum::<usize>() / self.sheets.len()
    }
}

pub fn workloads() -> Vec<Workload> {
    let mut list = vec![Workload::one(
        "the paper's example",
        &Call::UNTOUCHED,
        example(),
    )];
    list.extend(LINES.map(|lines| Workload::everyday(lines, 1)));
    list.extend(LINES.map(|lines| Workload::everyday(lines, SHEETS)));
    list.extend(shapes());
    list.extend(tangled());
    list.extend(in_other_letters());
    list.extend(near_names());
    list.extend(halves());
    list.extend(LINES.map(everyday_to_even));
    list.extend([7, 9, 15, 16].map(refused));
    list.extend(retouched());
    list
}

/// The sheets whose instructions are counted.
pub fn counted(call: Call) -> [Workload; 2] {
    if call == Call::Retouch {
        let [each, _, _, one] = retouched();
        return [one, each];
    }
    let example = Workload::one("the paper's example", &Call::UNTOUCHED, example());
    [example, Workload::everyday(1_024, 1)]
}

fn example() -> Vec<u8> {
    let sheets = Path::new(env!("CARGO_MANIFEST_DIR")).join("../../sheets");
    fs::read(sheets.join("01-example.sheet")).expect("the example")
}

/// 171 values that reach each other through functions and 341 Groups with a
/// value are as many as 1,024 lines hold: six lines a value, three a Group.
fn shapes() -> Vec<Workload> {
    let all = &Call::UNTOUCHED;
    let planned = &Call::PLANNED;
    let evaluated = &Call::EVALUATED;
    let one = Workload::one;
    vec![
        one("flat Group of 500 values", all, generator::flat(500)),
        one("500 nested Groups", all, generator::nested(500)),
        one("chain of 500, forward", planned, generator::forward(500)),
        one("chain of 500, backward", planned, generator::backward(500)),
        one("dense: 171 by functions", planned, generator::dense(171)),
        one(
            "341 Groups, a value in each",
            all,
            generator::nested_values(341),
        ),
        one("a value of 20,000 steps", evaluated, generator::spent(1)),
        one("deepest calls", evaluated, generator::deepest_calls()),
        one("500 short values", evaluated, generator::short_values(500)),
    ]
}

/// Groups that need each other round a circle: few or all, one ring or many, side
/// by side or deep down. 340 Groups with a value and 127 rings of two are as many
/// as 1,024 lines hold.
fn tangled() -> Vec<Workload> {
    let shapes = [
        ("tangled Groups of 250 each", generator::tangled(500)),
        ("two tangled among 300 others", generator::ring_among(300)),
        ("340 Groups in one ring", generator::ring(340)),
        ("127 rings of two", generator::rings(127)),
        ("tangle under 300 Groups", generator::nested_tangle(300)),
        (
            "every second of 340 in a ring",
            generator::every_second_in_ring(340),
        ),
        (
            "rings in every second Group",
            generator::rings_in_every_second(170),
        ),
    ];
    let workload = |(name, text)| Workload::one(name, &Call::PLANNED, text);
    shapes.map(workload).into()
}

/// Paths in capitals to names in small letters, and names and paths in letters
/// of either case, as no processor can foresee them.
fn in_other_letters() -> [Workload; 4] {
    let all = &Call::UNTOUCHED;
    let everyday = |lines| {
        let text = capital_paths(&generator::everyday(lines, 1));
        Workload::one("everyday, paths in capitals", all, text)
    };
    let flat = capital_paths(&generator::flat(500));
    let mixed = (1..=SHEETS)
        .map(|seed| generator::recased(&mut Rng::new(seed), &generator::everyday(1_024, seed)));
    [
        everyday(250),
        everyday(1_024),
        Workload {
            name: format!("{SHEETS} everyday, mixed letters"),
            calls: all,
            sheets: mixed.map(Sheet::new).collect(),
            bar: Some(BAR),
        },
        Workload::one("flat Group, paths in capitals", all, flat),
    ]
}

/// Names of 16 bytes that are hard to tell apart, such as templates have; and such
/// that a hash does not tell apart.
fn near_names() -> [Workload; 4] {
    let one = |name, text| Workload::one(name, &Call::UNTOUCHED, text);
    [
        one("names that differ at their end", generator::near_names(19)),
        one("paths of eight such names", generator::near_paths(360)),
        one("names in one slot", generator::one_slot(511)).without_bar(),
        one("names of one hash", generator::one_hash()).without_bar(),
    ]
}

/// Quotients that are halves, under each tie rule: of 250 values that read little
/// else, and in the deepest calls of ten values, where they are much of the time.
fn halves() -> [Workload; 4] {
    let evaluated = &Call::EVALUATED;
    let few = generator::halves(500);
    let many = generator::halves_in_calls(10);
    let [few_even, many_even] = [&few, &many].map(|text| under(EVEN, text));
    [
        ("500 halves away from zero", few),
        ("500 halves to even", few_even),
        ("6,400 halves away from zero", many),
        ("6,400 halves to even", many_even),
    ]
    .map(|(name, text)| Workload::one(name, evaluated, text))
}

/// The everyday order under the longer first line.
fn everyday_to_even(lines: usize) -> Workload {
    let text = under(EVEN, &generator::everyday(lines, 1));
    Workload::one("everyday order, halves to even", &Call::READ_AND_RUN, text)
}

/// Everyday orders with pairs for Retouch: the first is that of which one Run after
/// another would redo most in vain.
pub fn retouched() -> [Workload; 4] {
    let everyday = |lines| generator::everyday(lines, 1);
    let on_one = generator::everyday_on_one(1_024, 1);
    let [long, short] = [1_024, 60].map(everyday);
    let [all, of_value] = [long.clone(), short.clone()].map(|text| labels(&text, |_| true));
    let alone = labels(&long, |redone| redone == 1);
    let retouched = Workload::retouched;
    [
        retouched("1,000 pairs of one value each", long.clone(), alone, PAIRS),
        retouched("1,000 pairs of every value", on_one, vec![1_024], PAIRS),
        retouched("1,000 pairs of all numbers", long, all, PAIRS),
        retouched("one pair", short, of_value, 1),
    ]
}

/// The N lines of values for which a pair redoes so many values as wanted.
fn labels(text: &[u8], is_wanted: impl Fn(i64) -> bool) -> Vec<i64> {
    let lines = generator::line_count(text);
    let mut buffers = [8 * lines, lines, 3 * lines, 3].map(|length| vec![0; length]);
    let [table, plan, results, changes] = &mut buffers;
    reference::read(text, table).expect("a sheet that reads");
    let owner_kind = |label: i64| {
        let owner = table[8 * (label as usize - 1) + 6];
        table[8 * (owner as usize - 1)]
    };
    let mut labels = generator::number_labels(table);
    labels.retain(|&label| owner_kind(label) == VALUE);
    labels.retain(|&label| {
        let answer = reference::retouch(text, &[label, 0], table, plan, results, changes);
        answer.is_ok() && is_wanted(changes[0])
    });
    labels
}

/// The everyday orders that are measured by the floor.
pub fn floored() -> [Workload; 3] {
    LINES.map(|lines| Workload::everyday(lines, 1))
}

fn refused(number: u64) -> Workload {
    let (name, calls) = match number {
        // The value whose body is the last line.
        16 => (
            "refusal 16 at the last value".to_string(),
            &Call::PLANNED[..],
        ),
        _ => (
            format!("refusal {number} at the last label"),
            &Call::UNTOUCHED[..],
        ),
    };
    Workload::one(&name, calls, generator::late_refusal(number))
}

/// A shape in two sizes: about 256 lines and about 1,024.
pub struct Growth {
    pub name: &'static str,
    pub calls: &'static [Call],
    pub sizes: [Workload; 2],
}

pub fn growths() -> Vec<Growth> {
    let all = &Call::UNTOUCHED;
    let planned = &Call::PLANNED;
    let everyday = Growth {
        name: "everyday orders",
        calls: all,
        sizes: [256, 1_024].map(|lines| Workload::everyday(lines, SHEETS)),
    };
    vec![
        everyday,
        growth("flat Group", all, generator::flat, [127, 511]),
        growth("nested Groups", all, generator::nested, [124, 500]),
        growth("names in one slot", all, generator::one_slot, [127, 511]),
        growth("chain, forward", planned, generator::forward, [127, 511]),
        growth("chain, backward", planned, generator::backward, [127, 511]),
        growth("dense", planned, generator::dense, [43, 171]),
        growth("tangled Groups", planned, generator::tangled, [126, 510]),
        growth("ring of Groups", planned, generator::ring, [84, 340]),
        growth("rings of two Groups", planned, generator::rings, [31, 127]),
        growth(
            "Groups, a value in each",
            planned,
            generator::nested_values,
            [85, 341],
        ),
    ]
}

/// A shape made with each of these counts.
fn growth(
    name: &'static str,
    calls: &'static [Call],
    shape: fn(usize) -> Vec<u8>,
    counts: [usize; 2],
) -> Growth {
    let sizes = counts.map(|count| Workload::one(name, calls, shape(count)));
    Growth { name, calls, sizes }
}

#[cfg(test)]
mod tests {
    use super::*;

    /// How many values each pair of a workload redoes, and how many there are.
    fn redone(workload: &Workload) -> (Vec<i64>, i64) {
        let Sheet { text, pairs, .. } = &workload.sheets[0];
        let lines = workload.lines();
        let lengths = [8 * lines, lines, 3 * lines, 3 * workload.pairs()];
        let mut buffers = lengths.map(|length| vec![0; length]);
        let [table, plan, results, changes] = &mut buffers;
        let answer = lindypo::raw::retouch(text, pairs, table, plan, results, changes);
        let (values, _) = answer.expect("a sheet that runs");
        (changes.iter().step_by(3).copied().collect(), values as i64)
    }

    /// The steps of all values of a workload, and the sum of their numbers.
    fn evaluated(workload: &Workload) -> (i64, i64) {
        let text = &workload.sheets[0].text;
        let lines = workload.lines();
        let mut buffers = [8 * lines, lines, 3 * lines].map(|length| vec![0; length]);
        let [table, plan, results] = &mut buffers;
        lindypo::raw::run(text, table, plan, results).expect("a sheet that runs");
        let sum = |cell: usize| results.iter().skip(cell).step_by(3).sum();
        (sum(2), sum(1))
    }

    /// Each pair of workloads of halves is one sheet under both lines: as many
    /// steps, other numbers.
    #[test]
    fn halves_go_by_both_rules() {
        let [few, few_even, many, many_even] = halves();
        for (away, even) in [(few, few_even), (many, many_even)] {
            assert_eq!(away.lines(), even.lines());
            assert_eq!(away.bytes() + 1, even.bytes());
            let [(steps, sum), (even_steps, even_sum)] = [&away, &even].map(evaluated);
            assert_eq!(steps, even_steps);
            assert_ne!(sum, even_sum);
        }
    }

    /// The pairs for Retouch are what their names say.
    #[test]
    fn pairs_redo_what_they_are_called() {
        let workloads = retouched();
        let [(each, _), (every, values), (all, _), (one, _)] = workloads.each_ref().map(redone);
        assert_eq!(each, [1; PAIRS]);
        assert_eq!(every, [values; PAIRS]);
        assert!(values > 200);
        assert!(all.contains(&1) && all.iter().any(|&redone| redone > 10));
        assert_eq!(one.len(), 1);
    }
}
