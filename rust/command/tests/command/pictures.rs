//! Pictures of random sheets: they are well-formed, and arrows run where they
//! should.

use std::collections::{BTreeMap, BTreeSet};

use command::blocks::{self, Tangle};
use command::picture;
use command::svg::{Wanted, MOST};
use lindypo::{formula, Kind, Label, Line, Sheet, State, Ties};

use crate::markup::{parts, tags, words_in, Tag};
use crate::{read, read_text};

const CASES: u64 = 1_500;

const CAPTION: &str = "a < \"b\" & 'c'\u{7}";

/// A card: left, right, top and bottom.
type Card = [f64; 4];

fn cards(tags: &[Tag]) -> Vec<Card> {
    let cards = tags.iter().filter(|tag| tag.is("rect", "card"));
    let card = |tag: &Tag| {
        let (x, y) = (tag.number("x"), tag.number("y"));
        [x, x + tag.number("width"), y, y + tag.number("height")]
    };
    cards.map(card).collect()
}

/// An arrow that turns twice: where it leaves a card, its lane, where it comes
/// in, and the trunk that it belongs to.
struct Arrow {
    from: f64,
    start: f64,
    lane: f64,
    end: f64,
    trunk: usize,
}

/// All arrows but those of the legend, which run straight.
fn arrows(tags: &[Tag]) -> Vec<Arrow> {
    let (mut arrows, mut trunk) = (vec![], 0);
    for tag in tags {
        trunk += usize::from(tag.is("path", "head"));
        if tag.is("path", "arrow") && tag.get("d").contains('Q') {
            let numbers = tag
                .get("d")
                .split(|letter: char| letter.is_alphabetic() || letter == ' ');
            let numbers: Vec<f64> = numbers.filter_map(|number| number.parse().ok()).collect();
            let [from, start, _, lane, _, _, _, _, _, end, ..] = numbers[..] else {
                panic!("{}", tag.get("d"));
            };
            arrows.push(Arrow {
                from,
                start,
                lane,
                end,
                trunk,
            });
        }
    }
    arrows
}

/// Lanes lie beside all cards, and at the height of its ends an arrow meets but
/// the card that it leaves or comes to.
fn runs_beside_cards(arrow: &Arrow, cards: &[Card]) {
    for &[left, right, ..] in cards {
        assert!(arrow.lane < left || arrow.lane > right);
    }
    let at = |y: f64| {
        let here = cards
            .iter()
            .filter(move |[_, _, top, bottom]| (*top..=*bottom).contains(&y));
        here.collect::<Vec<&Card>>()
    };
    let [source, target] = [at(arrow.start), at(arrow.end)];
    assert_eq!((source.len(), target.len()), (1, 1));
    let [left, right, ..] = *source[0];
    assert!([left, right]
        .iter()
        .any(|edge| (edge - arrow.from).abs() < 0.2));
}

/// Two trunks in one lane keep apart.
fn keep_apart(arrows: &[Arrow]) {
    for (at, one) in arrows.iter().enumerate() {
        for two in &arrows[at + 1..] {
            let ends = |arrow: &Arrow| (arrow.start.min(arrow.end), arrow.start.max(arrow.end));
            let ((top, bottom), (other_top, other_bottom)) = (ends(one), ends(two));
            let overlap = top <= other_bottom && other_top <= bottom;
            assert!(one.lane != two.lane || one.trunk == two.trunk || !overlap);
        }
    }
}

/// Everything, nothing folded.
fn all() -> Wanted {
    Wanted {
        folded: Some(BTreeSet::new()),
        ..Wanted::default()
    }
}

/// What has to be on a picture: by label the card that stands for a definition,
/// itself or a folded Group around it; none where it is not drawn.
struct Drawn<'a> {
    sheet: &'a Sheet<'a>,
    cards: Vec<Option<Label>>,
}

impl<'a> Drawn<'a> {
    /// `focus` has the definitions to draw, where these are not all.
    fn new(
        sheet: &'a Sheet<'a>,
        focus: Option<&BTreeSet<Label>>,
        folded: &BTreeSet<Label>,
    ) -> Self {
        let mut drawn = Drawn {
            sheet,
            cards: vec![None; sheet.labels() + 1],
        };
        for line in sheet.lines().filter(|line| line.kind.is_definition()) {
            let is_meant = focus.is_none_or(|focus| focus.contains(&line.label));
            let groups = drawn.groups(line.label);
            let mut folded_around = groups.into_iter().filter(|group| folded.contains(group));
            let card = folded_around.next_back().unwrap_or(line.label);
            let is_card = folded.contains(&card) || line.kind != Kind::Group;
            drawn.cards[line.label] = (is_meant && is_card).then_some(card);
        }
        drawn
    }

    /// The definition and the Groups around it, innermost first.
    fn groups(&self, label: Label) -> Vec<Label> {
        let around = |&at: &Label| self.sheet.line(at)?.owner;
        std::iter::successors(Some(label), around).collect()
    }

    fn count(&self) -> usize {
        let cards: BTreeSet<Label> = self.cards.iter().copied().flatten().collect();
        cards.len()
    }

    /// The cards of each block of several, as far as it is drawn.
    fn blocks(&self) -> BTreeSet<BTreeSet<Label>> {
        let cards = |tangle: Tangle| {
            let is_in = |&card: &Label| self.groups(card).iter().any(|&group| tangle.has(group));
            let cards = self.cards.iter().copied().flatten();
            cards.filter(is_in).collect::<BTreeSet<Label>>()
        };
        let blocks = blocks::tangles(self.sheet).into_iter().map(cards);
        blocks.filter(|cards| !cards.is_empty()).collect()
    }

    /// The arrows: from which card to which, and by which kind of line.
    fn arrows(&self, folded: &BTreeSet<Label>) -> BTreeSet<(Label, Label, i64)> {
        let arrow = |line: Line| {
            let (from, to) = (self.cards[line.owner?]?, self.cards[line.target?]?);
            let is_within = from == to && folded.contains(&from);
            (!is_within).then_some((from, to, line.kind.code()))
        };
        self.sheet.lines().filter_map(arrow).collect()
    }
}

/// The label in a title: "value right.dec, label 7, line 8".
fn label_in(title: &str) -> Option<Label> {
    let after = title.split(", label ").nth(1)?;
    after.split(',').next()?.parse().ok()
}

/// The labels of the cards, as their titles say.
fn labels(svg: &str) -> Vec<Label> {
    let (mut labels, mut label) = (vec![], None);
    for line in svg.lines() {
        if line.starts_with("<g class=") {
            label = label_in(line);
        }
        if line.starts_with("<rect class=\"card\"") {
            labels.extend(label);
        }
    }
    labels
}

/// The cards that each outline of a block has around it.
fn outlines(svg: &str) -> BTreeSet<BTreeSet<Label>> {
    let (tags, labels) = (tags(svg), labels(svg));
    let cards = cards(&tags);
    assert_eq!(labels.len(), cards.len());
    // the last one is the legend's
    let outlines: Vec<&Tag> = tags
        .iter()
        .filter(|tag| tag.is("rect", "sign block"))
        .collect();
    let outlines = outlines
        .split_last()
        .map_or(&[][..], |(_, outlines)| outlines);
    let within = |outline: &Tag| {
        let (x, y) = (outline.number("x"), outline.number("y"));
        let (right, bottom) = (x + outline.number("width"), y + outline.number("height"));
        let is_within =
            |card: &Card| x < card[0] && card[1] < right && y < card[2] && card[3] < bottom;
        let is_beside = |card: &Card| card[3] < y || bottom < card[2];
        assert!(cards.iter().all(|card| is_within(card) || is_beside(card)));
        let cards = cards
            .iter()
            .zip(&labels)
            .filter(|(card, _)| is_within(card));
        cards.map(|(_, &label)| label).collect::<BTreeSet<Label>>()
    };
    let outlines = outlines.iter().map(|outline| within(outline));
    // with a focus, a Group may be drawn without its cards
    let outlines: Vec<_> = outlines.filter(|cards| !cards.is_empty()).collect();
    let count = outlines.len();
    let found: BTreeSet<_> = outlines.into_iter().collect();
    assert_eq!(found.len(), count, "no block has two outlines");
    found
}

/// Draws a text that runs, and looks at all of the picture.
fn check(text: &[u8], wanted: &Wanted, focus: Option<&BTreeSet<Label>>) -> Option<usize> {
    let (svg, _) = picture::picture(text, wanted, CAPTION).ok()?;
    assert!(svg.contains(">a &lt; &quot;b&quot; &amp; &apos;c&apos;\u{fffd}"));
    let sheet = Sheet::read(text).expect("a sheet that reads");
    let is_even = sheet.ties() == Ties::Even;
    assert_eq!(svg.contains(" plan, halves to even<"), is_even);
    let tags = tags(&svg);
    let (cards, arrows) = (cards(&tags), arrows(&tags));
    let folded = wanted.folded.clone().unwrap_or_default();
    let drawn = Drawn::new(&sheet, focus, &folded);
    assert_eq!(cards.len(), drawn.count());
    assert_eq!(arrows.len(), drawn.arrows(&folded).len());
    for arrow in &arrows {
        runs_beside_cards(arrow, &cards);
    }
    keep_apart(&arrows);
    assert_eq!(outlines(&svg), drawn.blocks());
    let boxes = ["box", "tangle"].map(|class| tags.iter().filter(|tag| tag.is("g", class)).count());
    let titles = tags.iter().filter(|tag| tag.name == "title").count();
    let boxes: usize = boxes.iter().sum();
    assert_eq!(titles, 1 + boxes + cards.len() + arrows.len());
    Some(arrows.len())
}

/// A random sheet that runs, under either tie rule.
fn random(seed: u64) -> Option<Vec<u8>> {
    let text = generator::sheet(&mut generator::Rng::new(seed));
    let sheet = Sheet::read(&text).expect("a sheet that reads");
    let text = sheet.with_ties(Ties::ALL[seed as usize % 2]);
    let runs = Sheet::read(&text).and_then(|sheet| sheet.run()).is_ok();
    runs.then_some(text)
}

fn definitions(sheet: &Sheet) -> Vec<Label> {
    let lines = sheet.lines().filter(|line| line.kind.is_definition());
    lines.map(|line| line.label).collect()
}

#[test]
fn random_pictures() {
    let (mut drawn, mut arrows) = (0, 0);
    for text in (0..CASES).filter_map(random) {
        let count = check(&text, &all(), None).expect("a picture");
        (drawn, arrows) = (drawn + 1, arrows + count);
    }
    assert!(
        drawn > 1_000 && arrows > 5_000,
        "{drawn} pictures, {arrows} arrows"
    );
}

/// Who reaches whom, by mentions put end to end.
fn reached(sheet: &Sheet) -> BTreeSet<(Label, Label)> {
    let mut pairs: BTreeSet<(Label, Label)> = sheet.mentions().collect();
    for middle in definitions(sheet) {
        let into: Vec<Label> = pairs
            .iter()
            .filter(|pair| pair.1 == middle)
            .map(|pair| pair.0)
            .collect();
        let out: Vec<Label> = pairs
            .iter()
            .filter(|pair| pair.0 == middle)
            .map(|pair| pair.1)
            .collect();
        for from in into {
            pairs.extend(out.iter().map(|&to| (from, to)));
        }
    }
    pairs
}

/// With a focus, what it reaches and what reaches it is drawn and nothing else;
/// so it is for all that is in a Group.
#[test]
fn random_focus() {
    let (mut drawn, mut left_out) = (0, 0);
    for text in (0..CASES / 5).filter_map(random) {
        let sheet = Sheet::read(&text).expect("a sheet");
        let (reached, none) = (reached(&sheet), BTreeSet::new());
        let whole = Drawn::new(&sheet, None, &none);
        for focus in definitions(&sheet) {
            let is_under = |&label: &Label| whole.groups(label).contains(&focus);
            let under: BTreeSet<Label> = definitions(&sheet).into_iter().filter(is_under).collect();
            let has_to_do = |&label: &Label| {
                let is_linked = |&other: &Label| {
                    reached.contains(&(other, label)) || reached.contains(&(label, other))
                };
                under.contains(&label) || under.iter().any(is_linked)
            };
            let meant: BTreeSet<Label> =
                definitions(&sheet).into_iter().filter(has_to_do).collect();
            let wanted = Wanted {
                focus: Some(focus),
                ..all()
            };
            check(&text, &wanted, Some(&meant)).expect("a picture");
            drawn += 1;
            left_out +=
                usize::from(Drawn::new(&sheet, Some(&meant), &none).count() < whole.count());
        }
    }
    assert!(
        drawn > 1_500 && left_out > 500,
        "{drawn} pictures, {left_out} in part"
    );
}

/// Cards of values that have changed are marked, and say what these were; so is a
/// folded Group that has one.
#[test]
fn random_changes() {
    let mut changes = 0;
    for seed in 0..CASES / 2 {
        let Some(text) = random(seed) else { continue };
        let sheet = Sheet::read(&text).expect("a sheet");
        let rng = &mut generator::Rng::new(seed);
        let values = sheet.lines().filter(|line| line.kind == Kind::Value);
        let values: Vec<Label> = values.map(|line| line.label).collect();
        let states = [State::Number(-7), State::OutOfRange, State::TooDeep];
        let before: BTreeMap<Label, State> = values
            .into_iter()
            .filter(|_| rng.chance(30))
            .map(|label| (label, states[label % 3]))
            .collect();
        let groups = sheet.lines().filter(|line| line.kind == Kind::Group);
        let folded: BTreeSet<Label> = groups
            .map(|line| line.label)
            .filter(|&label| label > 1 && rng.chance(20))
            .collect();
        let drawn = Drawn::new(&sheet, None, &folded);
        let marked = before.keys().filter_map(|&label| drawn.cards[label]);
        let marked: BTreeSet<Label> = marked.collect();
        let open = marked.iter().filter(|&label| !folded.contains(label));
        let open = open.count();
        let wanted = Wanted {
            folded: Some(folded),
            before,
            ..Wanted::default()
        };
        check(&text, &wanted, None).expect("a picture");
        let (svg, _) = picture::picture(&text, &wanted, CAPTION).expect("a picture");
        let groups = svg.lines().filter(|line| line.starts_with("<g class=\""));
        let groups = groups.filter(|line| line.contains(" changed\">"));
        assert_eq!(groups.count(), marked.len());
        assert_eq!(svg.matches("\nbefore: ").count(), open);
        assert_eq!(
            svg.matches(" \u{2192} ").count(),
            open + usize::from(!marked.is_empty())
        );
        changes += marked.len();
    }
    assert!(changes > 500, "{changes} cards marked");
}

/// A folded Group is one card, and arrows end at it.
#[test]
fn random_folds() {
    let mut drawn = 0;
    for seed in 0..CASES {
        let Some(text) = random(seed) else { continue };
        let sheet = Sheet::read(&text).expect("a sheet");
        let rng = &mut generator::Rng::new(seed);
        let groups = sheet.lines().filter(|line| line.kind == Kind::Group);
        let folded = groups
            .map(|line| line.label)
            .filter(|&label| label > 1 && rng.chance(40));
        let folded: BTreeSet<Label> = folded.collect();
        drawn += usize::from(!folded.is_empty());
        let wanted = Wanted {
            folded: Some(folded),
            ..Wanted::default()
        };
        check(&text, &wanted, None).expect("a picture");
    }
    assert!(drawn > 300, "{drawn} pictures with folded Groups");
}

/// The labels of the Groups that a picture has as cards.
fn folded_on(svg: &str) -> BTreeSet<Label> {
    let group = |line: &str| {
        let words = ["folded", "failed"]
            .iter()
            .find_map(|class| line.strip_prefix(&format!("<g class=\"{class}\"><title>Group ")))?;
        words
            .split(", label ")
            .nth(1)?
            .split(',')
            .next()?
            .parse()
            .ok()
    };
    svg.lines().filter_map(group).collect()
}

/// As many Groups are folded as it takes, and no more.
#[test]
fn automatic_folds() {
    let mut sheets: Vec<Vec<u8>> = generator::shapes()
        .into_iter()
        .map(|shape| shape.text)
        .collect();
    sheets.extend((0..12).map(|seed| generator::everyday(200 + 60 * seed, seed as u64)));
    let mut drawn = 0;
    for text in sheets {
        let Ok((svg, count)) = picture::picture(&text, &Wanted::default(), CAPTION) else {
            continue;
        };
        let (folded, sheet) = (folded_on(&svg), Sheet::read(&text).expect("a sheet"));
        assert_eq!(folded.len(), count);
        let cards = |folded: &BTreeSet<Label>| Drawn::new(&sheet, None, folded).count();
        assert_eq!(cards_on(&svg), cards(&folded));
        for group in &folded {
            let mut fewer = folded.clone();
            fewer.remove(group);
            let (svg, _) = picture::picture(
                &text,
                &Wanted {
                    folded: Some(fewer.clone()),
                    ..Wanted::default()
                },
                "",
            )
            .expect("a picture");
            assert!(cards_on(&svg) > MOST);
        }
        let outer = sheet
            .members(1)
            .filter(|line| line.kind == Kind::Group)
            .map(|line| line.label);
        let fewest = cards(&outer.collect());
        assert!(cards(&folded) <= MOST.max(fewest), "{}", cards(&folded));
        drawn += usize::from(!folded.is_empty());
    }
    assert!(drawn > 5, "{drawn} pictures with folded Groups");
}

fn cards_on(svg: &str) -> usize {
    cards(&tags(svg)).len()
}

/// Where the pointer rests on a card: full name, label and formula.
#[test]
fn titles_say_more() {
    for text in (0..CASES / 10).filter_map(random) {
        let (svg, _) = picture::picture(&text, &all(), CAPTION).expect("a picture");
        let sheet = Sheet::read(&text).expect("a sheet");
        let parts = parts(&svg);
        let values = [
            words_in(&parts, "g", "value"),
            words_in(&parts, "g", "failed"),
        ]
        .concat();
        for line in sheet.lines().filter(|line| line.kind == Kind::Value) {
            let label = line.label;
            let (name, formula) = (sheet.full_name(label), formula::of(&sheet, label));
            let formula = formula.expect("a formula");
            let start = format!(
                "value {name}, label {label}, line {}\n= {formula}\n",
                label + 1
            );
            assert!(
                values.iter().any(|words| words.starts_with(&start)),
                "{start}"
            );
        }
    }
}

#[test]
fn everyday_pictures() {
    for lines in 1..120 {
        let text = generator::everyday(lines, lines as u64);
        check(&text, &all(), None).expect("a picture");
    }
}

/// The worst shapes come to pictures too, of whatever size.
#[test]
fn large_pictures() {
    for shape in generator::shapes() {
        if let Ok((svg, _)) = picture::picture(&shape.text, &all(), shape.name) {
            assert!(!tags(&svg).is_empty(), "{}", shape.name);
        }
    }
}

/// The pictures of the documents are what is drawn.
#[test]
fn the_pictures_on_file() {
    for (sheet, picture) in [("01-example", "example"), ("03-mixed", "mixed")] {
        let (sheet, picture) = (format!("{sheet}.sheet"), format!("docs/{picture}.svg"));
        let path = format!("sheets/{sheet}");
        let drawn = picture::picture(&read(&path), &Wanted::default(), &sheet);
        let (drawn, _) = drawn.expect("a picture");
        let again = format!("to draw it anew: ./lindypo explain --svg {picture} {path}");
        assert!(drawn == read_text(&picture), "{again}");
    }
}
