//! A small reader of HTML and SVG that ends every element it begins.

/// An element: its name, its attributes, and whether it ends at once.
pub struct Tag<'a> {
    pub name: &'a str,
    attributes: Vec<(&'a str, &'a str)>,
    is_empty: bool,
}

impl<'a> Tag<'a> {
    fn new(inside: &'a str) -> Self {
        let is_empty = inside.ends_with('/');
        let inside = inside.trim_end_matches('/');
        let (name, mut rest) = inside.split_once(' ').unwrap_or((inside, ""));
        let mut attributes = vec![];
        while let Some((key, after)) = rest.split_once("=\"") {
            let (value, after) = after.split_once('"').expect("a quote that ends");
            assert!(is_escaped(value), "{value}");
            attributes.push((key.trim(), value));
            rest = after;
        }
        assert_eq!(rest.trim(), "", "{inside}");
        assert!(name.bytes().all(|byte| byte.is_ascii_alphanumeric()));
        Tag {
            name,
            attributes,
            is_empty,
        }
    }

    pub fn get(&self, key: &str) -> &'a str {
        let found = self.attributes.iter().find(|(name, _)| *name == key);
        found
            .unwrap_or_else(|| panic!("{} has no {key}", self.name))
            .1
    }

    pub fn number(&self, key: &str) -> f64 {
        self.get(key).parse().expect("a number")
    }

    pub fn is(&self, name: &str, class: &str) -> bool {
        self.name == name && self.attributes.contains(&("class", class))
    }
}

fn is_escaped(text: &str) -> bool {
    let is_known = |after: &str| ENTITIES.iter().any(|(name, _)| after.starts_with(name));
    let is_seen = |letter: char| letter == '\n' || !letter.is_control();
    !text.contains(['<', '>']) && text.split('&').skip(1).all(is_known) && text.chars().all(is_seen)
}

const ENTITIES: [(&str, &str); 5] = [
    ("amp;", "&"),
    ("lt;", "<"),
    ("gt;", ">"),
    ("quot;", "\""),
    ("apos;", "'"),
];

fn unescaped(text: &str) -> String {
    let mut parts = text.split('&');
    let mut plain = parts.next().unwrap_or("").to_string();
    for part in parts {
        let known = ENTITIES
            .iter()
            .find_map(|(name, sign)| Some((sign, part.strip_prefix(name)?)));
        let (sign, rest) = known.expect("a known name");
        plain = plain + sign + rest;
    }
    plain
}

/// What a text is made of.
pub enum Part<'a> {
    Begin(Tag<'a>),
    Words(String),
    End,
}

/// The parts in sequence. Every element is ended where it should be, and words
/// between them are escaped.
pub fn parts(markup: &str) -> Vec<Part<'_>> {
    let (mut parts, mut open): (Vec<Part>, Vec<&str>) = (vec![], vec![]);
    let mut pieces = markup.split('<');
    assert_eq!(pieces.next(), Some(""));
    for piece in pieces {
        let (inside, words) = piece.split_once('>').expect("a tag that ends");
        assert!(is_escaped(words), "{words}");
        match inside.strip_prefix('/') {
            Some(name) => {
                assert_eq!(open.pop(), Some(name));
                parts.push(Part::End);
            }
            None => {
                let tag = Tag::new(inside);
                let (name, is_empty) = (tag.name, tag.is_empty);
                parts.push(Part::Begin(tag));
                match is_empty {
                    true => parts.push(Part::End),
                    false => open.push(name),
                }
            }
        }
        parts.push(Part::Words(unescaped(words)));
    }
    assert!(open.is_empty(), "{open:?}");
    parts
}

/// The elements alone.
pub fn tags(markup: &str) -> Vec<Tag<'_>> {
    let tag = |part| match part {
        Part::Begin(tag) => Some(tag),
        _ => None,
    };
    parts(markup).into_iter().filter_map(tag).collect()
}

/// The words in each element of this name and class, without those of tags in
/// it.
pub fn words_in(parts: &[Part], name: &str, class: &str) -> Vec<String> {
    let is_meant = |part: &&Part| matches!(part, Part::Begin(tag) if tag.is(name, class));
    let starts = parts.iter().enumerate();
    let starts = starts.filter(|(_, part)| is_meant(part));
    starts.map(|(at, _)| words_from(&parts[at..])).collect()
}

/// The words up to where the first element ends.
fn words_from(parts: &[Part]) -> String {
    let (mut depth, mut words) = (0, String::new());
    for part in parts {
        match part {
            Part::Begin(_) => depth += 1,
            Part::End => depth -= 1,
            Part::Words(more) if depth > 0 => words += more,
            Part::Words(_) => break,
        }
    }
    words
}

#[test]
fn words_of_elements() {
    let parts = parts("<p class=\"a\">x <b>&lt;y</b><wbr/>z\n</p><p class=\"b\"></p>\n");
    assert_eq!(words_in(&parts, "p", "a"), ["x <yz\n"]);
    assert_eq!(words_in(&parts, "p", "b"), [""]);
}

#[test]
#[should_panic]
fn an_element_that_is_not_ended() {
    parts("<p><b></p></b>");
}

#[test]
#[should_panic]
fn words_that_are_not_escaped() {
    parts("<p>a & b</p>");
}
