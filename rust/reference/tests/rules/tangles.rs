//! Order 2: members that need each other round a circle form one block, and only
//! blocks of several are opened.

use reference::Order::{Mixed, Whole};

use crate::{planned, Builder};

/// A sheet by the names of its values, so that a plan reads as a sentence.
struct Sheet {
    builder: Builder,
    names: Vec<(i64, &'static str)>,
}

impl Sheet {
    fn new() -> Self {
        Sheet {
            builder: Builder::new(),
            names: Vec::new(),
        }
    }

    fn groups<const N: usize>(&mut self, around: usize, names: [&str; N]) -> [usize; N] {
        names.map(|name| self.builder.group(name, around))
    }

    fn value(&mut self, name: &'static str, group: usize, body: &str) {
        let label = self.builder.define("V", name, group, body);
        self.names.push((label as i64, name));
    }

    /// The names in the sequence of the plan, which has to be mixed.
    #[track_caller]
    fn plans_mixed(&self, wanted: &str) {
        let (plan, order) = planned(&self.builder.text()).expect("a plan");
        let name = |label: &i64| self.names.iter().find(|(other, _)| other == label);
        let names: Vec<&str> = plan
            .iter()
            .filter_map(name)
            .map(|(_, name)| *name)
            .collect();
        assert_eq!((names.join(" ").as_str(), order), (wanted, Mixed));
    }
}

/// "A circle between frame and left made us list right mixed too."
#[test]
fn frame_and_left_opened_and_right_side_by_side() {
    let mut sheet = Sheet::new();
    let [frame, left, right] = sheet.groups(1, ["frame", "left", "right"]);
    sheet.value("r", right, "1");
    sheet.value("a", frame, "R:left.b");
    sheet.value("b", left, "1");
    sheet.value("s", right, "1");
    sheet.value("c", left, "R:frame.d");
    sheet.value("d", frame, "1");
    sheet.plans_mixed("b a d c r s");
}

/// The same, and frame reads right: right comes first, whatever its label.
#[test]
fn a_block_after_one_that_it_needs() {
    let mut sheet = Sheet::new();
    let [frame, left, right] = sheet.groups(1, ["frame", "left", "right"]);
    sheet.value("a", frame, "R:left.b");
    sheet.value("b", left, "R:right.r");
    sheet.value("r", right, "R:s");
    sheet.value("c", left, "R:frame.d");
    sheet.value("d", frame, "1");
    sheet.value("s", right, "1");
    sheet.plans_mixed("s r b a d c");
}

/// The block with the smallest label comes first, though its members could not
/// be placed one by one and all others could.
#[test]
fn a_block_of_several_before_members_that_were_ready() {
    let mut sheet = Sheet::new();
    let [g, h] = sheet.groups(1, ["g", "h"]);
    sheet.value("z", 1, "1");
    sheet.value("a", g, "R:h.b");
    sheet.value("b", h, "1");
    sheet.value("c", h, "R:g.d");
    sheet.value("d", g, "1");
    sheet.value("y", 1, "R:z");
    sheet.plans_mixed("b a d c z y");
}

/// Two Groups down, with a Group beside the tangle and one around it whose
/// values stay side by side.
#[test]
fn a_tangle_two_groups_down() {
    let mut sheet = Sheet::new();
    let [outer, beside] = sheet.groups(1, ["outer", "beside"]);
    let [inner] = sheet.groups(outer, ["inner"]);
    let [left, quiet, right] = sheet.groups(inner, ["left", "quiet", "right"]);
    sheet.value("q", quiet, "1");
    sheet.value("x", beside, "1");
    sheet.value("a", left, "R:right.b");
    sheet.value("o", outer, "R:inner.left.a");
    sheet.value("b", right, "R:quiet.t");
    sheet.value("y", beside, "1");
    sheet.value("c", right, "R:left.d");
    sheet.value("d", left, "1");
    sheet.value("t", quiet, "1");
    sheet.plans_mixed("q t b a d c o x y");
}

/// A value between two values of a Group is in a block with it, here with the
/// smallest label, and values that are blocks by themselves are on all sides.
#[test]
fn a_value_leads_a_block() {
    let mut sheet = Sheet::new();
    sheet.value("early", 1, "R:late");
    sheet.value("x", 1, "R:g.b");
    let [g] = sheet.groups(1, ["g"]);
    sheet.value("between", 1, "1");
    sheet.value("a", g, "R:x");
    sheet.value("b", g, "1");
    sheet.value("late", 1, "R:g.a");
    sheet.plans_mixed("b x a between late early");
}

/// Nobody needs back the one that needs it; all three do round the circle.
#[test]
fn a_ring_of_three() {
    let mut sheet = Sheet::new();
    let [p, q, r] = sheet.groups(1, ["p", "q", "r"]);
    sheet.value("a", p, "R:q.b");
    sheet.value("b", q, "1");
    sheet.value("c", q, "R:r.d");
    sheet.value("d", r, "1");
    sheet.value("e", r, "R:p.f");
    sheet.value("f", p, "1");
    sheet.plans_mixed("b a d c f e");
}

/// Rings through functions; a function is in no block.
#[test]
fn a_ring_through_functions() {
    let mut sheet = Sheet::new();
    let [p, q] = sheet.groups(1, ["p", "q"]);
    sheet.value("x", 1, "1");
    sheet.value("a", p, "C:f 1");
    sheet.value("b", p, "1");
    sheet.value("c", q, "1");
    sheet.value("d", q, "C:f 1");
    sheet.builder.define("F", "f", 1, "I P R:q.c C:g P");
    sheet.builder.define("F", "g", 1, "A R:p.b C:f P");
    sheet.plans_mixed("b c a d x");
}

/// Two rings whose labels take turns: p with r, q with s. The bodies are those
/// of a value of p and one of q.
fn two_rings(of_p: &str, of_q: &str) -> Sheet {
    let mut sheet = Sheet::new();
    let [p, q, r, s] = sheet.groups(1, ["p", "q", "r", "s"]);
    sheet.value("a", p, "R:r.b");
    sheet.value("e", q, "R:s.f");
    sheet.value("b", r, "1");
    sheet.value("f", s, "1");
    sheet.value("c", r, "R:p.d");
    sheet.value("g", s, "R:q.h");
    sheet.value("d", p, of_p);
    sheet.value("h", q, of_q);
    sheet
}

#[test]
fn blocks_whose_labels_take_turns() {
    two_rings("1", "1").plans_mixed("b a d c f e h g");
    two_rings("R:q.e", "1").plans_mixed("f e h g b a d c");
    two_rings("1", "R:p.a").plans_mixed("b a d c f e h g");
}

/// Two rings that need a value, which needs both, are one block with it.
#[test]
fn rings_that_meet_in_a_value() {
    let mut sheet = two_rings("R:v", "R:v");
    sheet.value("v", 1, "A R:p.a R:q.e");
    sheet.value("w", 1, "1");
    sheet.plans_mixed("b a f e v d c h g w");
}

/// A tangle in a Group that is opened: no block inside, one flat list.
#[test]
fn a_tangle_inside_an_opened_group() {
    let mut sheet = Sheet::new();
    let [g, h] = sheet.groups(1, ["g", "h"]);
    let [left, quiet, right] = sheet.groups(g, ["left", "quiet", "right"]);
    sheet.value("m", quiet, "1");
    sheet.value("a", left, "R:right.b");
    sheet.value("u", h, "R:g.left.d");
    sheet.value("b", right, "R:h.v");
    sheet.value("n", quiet, "1");
    sheet.value("c", right, "R:left.d");
    sheet.value("d", left, "1");
    sheet.value("v", h, "1");
    sheet.plans_mixed("m n d u c v b a");
}

/// Groups in a block of several have their values where the labels put them,
/// and a tangle beside it, in a Group by itself, stays in there.
#[test]
fn tangles_at_two_depths() {
    let mut sheet = Sheet::new();
    let [g, h, k] = sheet.groups(1, ["g", "h", "k"]);
    let [left, right] = sheet.groups(k, ["left", "right"]);
    sheet.value("a", g, "R:h.b");
    sheet.value("s", left, "R:right.t");
    sheet.value("b", h, "1");
    sheet.value("t", right, "1");
    sheet.value("c", h, "R:g.d");
    sheet.value("u", right, "R:left.v");
    sheet.value("d", g, "R:k.right.u");
    sheet.value("v", left, "1");
    sheet.plans_mixed("t s v u b a d c");
}

/// Groups that need each other one way only are no tangle, however many are
/// needed before a smaller label.
#[test]
fn one_way_needs_are_no_tangle() {
    let mut sheet = Sheet::new();
    let groups = sheet.groups(1, ["p", "q", "r"]);
    for (group, body) in groups.into_iter().zip(["R:q.v", "R:r.v", "1"]) {
        sheet.value("v", group, body);
        sheet.value("w", group, "R:v");
    }
    let labels: Vec<i64> = sheet.names.iter().map(|(label, _)| *label).collect();
    let wanted = [4, 5, 2, 3, 0, 1].map(|at| labels[at]).to_vec();
    assert_eq!(planned(&sheet.builder.text()), Ok((wanted, Whole)));
}

/// As many Groups as a sheet can hold in one ring: a value each, which reads
/// that of the next, and one more to read at the end.
#[test]
fn the_longest_ring() {
    let mut builder = Builder::new();
    let mut labels = Vec::new();
    for at in 1..=340 {
        let group = builder.group(&format!("g{at}"), 1);
        let body = match at {
            340 => "R:g1.last".to_string(),
            _ => format!("R:g{}.v", at + 1),
        };
        labels.push(builder.define("V", "v", group, &body) as i64);
    }
    labels.push(builder.define("V", "last", 2, "1") as i64);
    labels.reverse();
    assert_eq!(planned(&builder.text()), Ok((labels, Mixed)));
}
