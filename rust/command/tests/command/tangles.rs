//! What makes a plan mixed, held to document 02's words: on random sheets, which
//! members form a block, by which cycle and which lines, and what mends it.

use std::collections::{BTreeMap, BTreeSet};

use command::blocks::{self, Need, Tangle};
use command::Node;
use lindypo::{Kind, Label, Order, Sheet};

use crate::{explained, output, stdout};

const CASES: u64 = 3_000;

/// A sheet's definitions with their Groups, and all that each reaches: the rules
/// once more, as they are said and not as they are fast.
struct Rules {
    groups: BTreeMap<Label, Label>,
    values: BTreeSet<Label>,
    mentions: BTreeSet<(Label, Label)>,
}

/// The members of a block, under the label of their Group.
type Block = (Label, BTreeSet<Label>);

impl Rules {
    fn new(sheet: &Sheet) -> Self {
        let definitions = sheet.lines().filter(|line| line.kind.is_definition());
        let values = sheet.lines().filter(|line| line.kind == Kind::Value);
        Rules {
            groups: definitions
                .filter_map(|line| Some((line.label, line.owner?)))
                .collect(),
            values: values.map(|line| line.label).collect(),
            mentions: sheet.mentions().collect(),
        }
    }

    /// Whether a definition is another or is under it.
    fn is_under(&self, label: Label, other: Label) -> bool {
        let around = |at: &Label| self.groups.get(at).copied();
        std::iter::successors(Some(label), around).any(|at| at == other)
    }

    fn members(&self, group: Label) -> Vec<Label> {
        let members = self.groups.iter().filter(|(_, &around)| around == group);
        members.map(|(&label, _)| label).collect()
    }

    fn values_of(&self, member: Label) -> BTreeSet<Label> {
        let values = self.values.iter().copied();
        values
            .filter(|&value| self.is_under(value, member))
            .collect()
    }

    /// By how many mentions, at least, a value of the one leads to a value of the
    /// other.
    fn distance(&self, member: Label, needed: Label) -> Option<usize> {
        let (mut at, wanted) = (self.values_of(member), self.values_of(needed));
        (1..=self.groups.len()).find(|_| {
            let next = self.mentions.iter().filter(|(from, _)| at.contains(from));
            at = next.map(|&(_, to)| to).collect();
            !at.is_disjoint(&wanted)
        })
    }

    fn needs(&self, group: Label) -> BTreeMap<Label, BTreeSet<Label>> {
        let members = self.members(group);
        let needs = |member: Label| {
            let others = members.iter().copied().filter(|&other| other != member);
            others
                .filter(|&other| self.distance(member, other).is_some())
                .collect()
        };
        members
            .iter()
            .map(|&member| (member, needs(member)))
            .collect()
    }

    /// The blocks of several, and those in blocks that are one Group.
    fn tangles(&self, group: Label) -> BTreeSet<Block> {
        let needs = self.needs(group);
        let mut found = BTreeSet::new();
        for &member in needs.keys() {
            let after = rounds(&needs, member);
            let is_with = |&other: &Label| rounds(&needs, other).contains_key(&member);
            let mut block: BTreeSet<Label> = after.keys().copied().filter(is_with).collect();
            block.insert(member);
            match block.len() {
                1 => found.extend(self.tangles(member)),
                _ => drop(found.insert((group, block))),
            }
        }
        found
    }
}

/// Whom a member needs, directly or through others, and by how few needs.
fn rounds(needs: &BTreeMap<Label, BTreeSet<Label>>, member: Label) -> BTreeMap<Label, usize> {
    let (mut found, mut at) = (BTreeMap::new(), BTreeSet::from([member]));
    for count in 1..=needs.len() {
        at = at.iter().flat_map(|member| needs[member].clone()).collect();
        for &other in &at {
            found.entry(other).or_insert(count);
        }
    }
    found
}

fn key(tangle: &Tangle) -> Block {
    (tangle.group, tangle.members.iter().copied().collect())
}

/// A need is shown by lines of the sheet, and by as few as can be.
fn is_shown(sheet: &Sheet, rules: &Rules, need: &Need) {
    let (first, last) = (need.chain[0], need.chain[need.chain.len() - 1]);
    assert!(rules.values_of(need.member).contains(&first.from));
    assert!(rules.values_of(need.needed).contains(&last.to));
    assert!(need.chain.windows(2).all(|pair| pair[0].to == pair[1].from));
    for mention in &need.chain {
        let line = sheet.line(mention.line).expect("a line");
        let wanted = (Some(mention.from), Some(mention.to), mention.kind);
        assert_eq!((line.owner, line.target, line.kind), wanted);
    }
    let distance = rules.distance(need.member, need.needed);
    assert_eq!(distance, Some(need.chain.len()));
}

/// A cycle begins with the smallest member, and none through it is shorter.
fn is_cycle(rules: &Rules, tangle: &Tangle) {
    let (start, needs) = (tangle.members[0], rules.needs(tangle.group));
    let members: Vec<Label> = tangle.cycle.iter().map(|need| need.member).collect();
    let mut needed: Vec<Label> = tangle.cycle.iter().map(|need| need.needed).collect();
    needed.rotate_right(1);
    assert_eq!((members[0], &members), (start, &needed));
    assert!(members.iter().all(|member| tangle.has(*member)));
    assert_eq!(rounds(&needs, start)[&start], members.len());
}

/// A value that is moved undoes this tangle, and makes no other.
fn is_mended(sheet: &Sheet, rules: &Rules, tangle: &Tangle) -> bool {
    let Some(value) = blocks::mend(sheet, tangle) else {
        return false;
    };
    let mut moved = Rules::new(sheet);
    moved.groups.insert(value, tangle.group);
    let mut wanted = rules.tangles(1);
    wanted.remove(&key(tangle));
    assert_eq!(moved.tangles(1), wanted);
    true
}

#[test]
fn random_tangles() {
    let (mut tangled, mut mended, mut inner, mut long) = (0, 0, 0, 0);
    for seed in 0..CASES {
        let text = generator::sheet(&mut generator::Rng::new(seed));
        let sheet = Sheet::read(&text).expect("a sheet that reads");
        let Ok(run) = sheet.run() else { continue };
        let (tangles, rules) = (blocks::tangles(&sheet), Rules::new(&sheet));
        let found: BTreeSet<Block> = tangles.iter().map(key).collect();
        assert_eq!(found, rules.tangles(1), "seed {seed}");
        assert_eq!(found.len(), tangles.len(), "seed {seed}");
        let is_mixed = run.plan.order == Order::Mixed;
        assert_eq!(is_mixed, !tangles.is_empty(), "seed {seed}");
        assert_eq!(blocks::of_run(&sheet, &run), tangles);
        for tangle in &tangles {
            is_cycle(&rules, tangle);
            let needs = tangle.cycle.iter();
            needs.for_each(|need| is_shown(&sheet, &rules, need));
            mended += usize::from(is_mended(&sheet, &rules, tangle));
            long += usize::from(tangle.cycle.len() > 2);
            inner += usize::from(tangle.group > 1);
            tangled += 1;
        }
    }
    println!("{tangled} blocks, {mended} mended, {inner} further in, {long} long cycles");
    assert!(tangled > 400 && mended > 100 && inner > 20 && long > 5);
}

/// The values of a block stand side by side, and so do those of a Group that is
/// neither in a block of several nor within one that is.
#[test]
fn only_tangled_groups_are_opened() {
    let mut kept = 0;
    for seed in 0..CASES {
        let text = generator::sheet(&mut generator::Rng::new(seed));
        let sheet = Sheet::read(&text).expect("a sheet that reads");
        let Ok(run) = sheet.run() else { continue };
        let (outermost, rules) = (Node::outermost(&sheet, &run), Rules::new(&sheet));
        let tangles = rules.tangles(1);
        let is_together = |labels: &[Label]| {
            let span = outermost.span_of(labels);
            span.is_none_or(|span| span.count == span.last + 1 - span.first)
        };
        for (_, members) in &tangles {
            let members: Vec<Label> = members.iter().copied().collect();
            assert!(is_together(&members), "seed {seed}");
        }
        for line in sheet.lines().filter(|line| line.kind == Kind::Group) {
            let mut tangled = tangles.iter().flat_map(|(_, members)| members);
            if !tangled.any(|&member| rules.is_under(line.label, member)) {
                assert!(is_together(&[line.label]), "seed {seed}");
                kept += usize::from(!tangles.is_empty() && line.label > 1);
            }
        }
    }
    assert!(kept > 100, "{kept} Groups beside a tangle");
}

/// What is said of a text's tangles, after the tree.
fn said(text: &[u8]) -> String {
    let explained = explained(text).expect("a sheet that runs");
    let tree = explained.find("\n\ntangled").expect("a tangle");
    explained[tree + 2..].to_string()
}

#[test]
fn a_chain_through_functions() {
    let text = b"kind name a b c\nG - 0 - -\nG frame 1 - -\nG left 1 - -\nG lib 1 - -\n\
        V size 2 10 -\nV blank 2 11 -\nV dec 3 13 -\nF twice 4 14 -\nF wide 4 16 -\n\
        N - 5200 - -\nC lib.twice 12 - -\nN - 2 - -\nR frame.size - - -\nC wide 15 - -\nP - - - -\n\
        R left.dec - - -\n";
    let wanted = "\
tangled in one block, positions 1-3: `frame` and `left`
  `frame` needs `left`: `frame.blank` (line 12) calls `lib.twice`, which (line 15) calls `lib.wide`, which (line 17) reads `left.dec`
  `left` needs `frame`: `left.dec` (line 14) reads `frame.size`
  = help: moved to the outermost Group, `frame.size` (line 6) undoes the tangle; paths to it and in it then change
";
    assert_eq!(said(text), wanted);
}

/// Each Group reads two values of the other: whichever is moved, the other is
/// still read.
#[test]
fn a_tangle_that_no_move_undoes() {
    let text = b"kind name a b c\nG - 0 - -\nG right 1 - -\nG left 1 - -\n\
        V a 2 12 -\nV b 2 13 -\nV c 2 14 -\nV d 2 15 -\n\
        V a 3 16 -\nV b 3 17 -\nV c 3 18 -\nV d 3 19 -\n\
        N - 1 - -\nN - 1 - -\nR left.a - - -\nR left.b - - -\n\
        N - 1 - -\nN - 1 - -\nR right.a - - -\nR right.b - - -\n";
    let wanted = "\
tangled in one block, positions 1-8: `right` and `left`
  `right` needs `left`: `right.c` (line 15) reads `left.a`
  `left` needs `right`: `left.c` (line 19) reads `right.a`
  = help: change one of these lines, or move a value to another Group, until there is no such cycle
";
    assert_eq!(said(text), wanted);
}

/// Groups in a ring, each of which reads a value of the next, and one value of
/// each that reads nothing.
fn ring(groups: usize) -> Vec<u8> {
    let mut lines = vec!["kind name a b c".to_string(), "G - 0 - -".to_string()];
    lines.extend((0..groups).map(|at| format!("G g{at} 1 - -")));
    for at in 0..groups {
        let (group, body) = (at + 2, 3 * groups + 2 + 2 * at);
        lines.push(format!("V a {group} {body} -"));
        lines.push(format!("V b {group} {} -", body + 1));
    }
    for at in 0..groups {
        lines.push(format!("R g{}.b - - -", (at + 1) % groups));
        lines.push("N - 1 - -".to_string());
    }
    lines
        .into_iter()
        .map(|line| line + "\n")
        .collect::<String>()
        .into_bytes()
}

#[test]
fn many_members_are_cut_off() {
    let said = said(&ring(100));
    let lines: Vec<&str> = said.lines().collect();
    assert_eq!(lines.len(), 11);
    let first = "tangled in one block, positions 1-200: \
                 `g0`, `g1`, `g2`, `g3`, `g4`, `g5`, `g6` and 93 more";
    assert_eq!(lines[0], first);
    assert_eq!(
        lines[1],
        "  `g0` needs `g1`: `g0.a` (line 303) reads `g1.b`"
    );
    assert_eq!(lines[9], "  and 92 more needs, back to `g0`");
    let last = "  = help: moved to the outermost Group, `g1.b` (line 106) undoes the tangle; \
                paths to it and in it then change";
    assert_eq!(lines[10], last);
}

/// Eight members are all named.
#[test]
fn as_many_as_there_is_room_for() {
    let said = said(&ring(8));
    let first = said.lines().next();
    let names = "`g0`, `g1`, `g2`, `g3`, `g4`, `g5`, `g6` and `g7`";
    let wanted = format!("tangled in one block, positions 1-16: {names}");
    assert_eq!(first, Some(&wanted[..]));
    assert_eq!(said.lines().count(), 10);
}

/// From `right.a` by six functions to `left.b`.
#[test]
fn a_long_chain_is_cut() {
    let mut lines: Vec<String> = [
        "kind name a b c",
        "G - 0 - -",
        "G right 1 - -",
        "G left 1 - -",
        "V a 2 14 -",
        "V b 2 16 -",
        "V a 3 17 -",
        "V b 3 18 -",
    ]
    .map(str::to_string)
    .to_vec();
    lines.extend((0..6).map(|at| format!("F f{at} 1 {} -", 19 + 2 * at)));
    lines.extend(
        [
            "C f0 15 - -",
            "N - 1 - -",
            "N - 2 - -",
            "R right.b - - -",
            "N - 3 - -",
        ]
        .map(str::to_string),
    );
    lines.extend((1..6).flat_map(|at| {
        [
            format!("C f{at} {} - -", 18 + 2 * at),
            "P - - - -".to_string(),
        ]
    }));
    lines.push("R left.b - - -".to_string());
    let text: String = lines.into_iter().map(|line| line + "\n").collect();
    let wanted =
        "  `right` needs `left`: `right.a` (line 15) calls `f0`, which (line 20) calls `f1`, \
                  which (line 22) calls `f2`, which by 1 more mention leads to `f3`, \
                  which (line 26) calls `f4`, which (line 28) calls `f5`, \
                  which (line 30) reads `left.b`";
    assert_eq!(said(text.as_bytes()).lines().nth(1), Some(wanted));
}

/// Ten tangles: eight are shown.
#[test]
fn many_blocks_are_cut_off() {
    let mut lines = vec!["kind name a b c".to_string(), "G - 0 - -".to_string()];
    for pair in 0..10 {
        let first = lines.len();
        lines.extend([
            format!("G p{pair} 1 - -"),
            format!("V v{pair} 1 {} -", first + 4),
            format!("V a {first} {} -", first + 5),
            format!("V b {first} {} -", first + 6),
            format!("R p{pair}.a - - -"),
            "N - 1 - -".to_string(),
            format!("R v{pair} - - -"),
        ]);
    }
    let text: String = lines.into_iter().map(|line| line + "\n").collect();
    let said = said(text.as_bytes());
    assert_eq!(said.matches("tangled in one block").count(), 8);
    assert!(said.ends_with("\n\nand 2 more blocks\n"), "{said}");
}

/// A tree with nothing tangled has no more to say, in either form.
#[test]
fn a_whole_plan_has_no_tangles() {
    let sheet = "sheets/01-example.sheet";
    assert!(!stdout(&output(&["explain", sheet])).contains("tangled"));
    let json = stdout(&output(&["explain", "--json", sheet]));
    assert!(json.ends_with("\"tangles\":[]}\n"), "{json}");
}
