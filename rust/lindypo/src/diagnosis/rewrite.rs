//! A line as it may have been meant.

use super::forms::Form;
use super::rows::{FIELDS, NAME};
use super::words;
use crate::Kind;

/// What stands between fields in tables of other sorts.
const SEPARATORS: [char; 3] = [',', ';', '|'];

/// The words of a line up to a comment; a line without spaces is cut at another
/// separator.
fn words_of(line: &str) -> Vec<&str> {
    let is_other = |letter: char| SEPARATORS.contains(&letter);
    let parts: Vec<&str> = match line.trim().contains(' ') {
        true => line.split(' ').collect(),
        false => line.trim().split(is_other).collect(),
    };
    let words = parts.into_iter().filter(|word| !word.is_empty());
    words.take_while(|word| !is_comment(word)).collect()
}

/// `--` is a missing field of somebody else's.
fn is_comment(word: &str) -> bool {
    words::is_comment(word) && !word.starts_with("--")
}

/// The line with its words where its kind wants them, if they then have their
/// forms; none where it is that line already.
pub fn line(line: &str, count: usize) -> Option<String> {
    let words = words_of(line);
    let kind = Kind::of_field(&words.first()?.to_ascii_uppercase())?;
    let written = placed(kind, &words[1..], count)?;
    Some(written).filter(|written| written != line)
}

/// The words that are there, in the fields that the kind has.
fn placed(kind: Kind, words: &[&str], count: usize) -> Option<String> {
    let mut given = words
        .iter()
        .copied()
        .filter(|word| !word.trim_matches('-').is_empty());
    let mut fields = vec![kind.letter().to_string()];
    for form in Form::wanted(kind) {
        let field = match form {
            Form::Missing => "-",
            _ => given.next()?,
        };
        fields.push(
            Some(field)
                .filter(|field| form.fits(field, count))?
                .to_string(),
        );
    }
    given.next().is_none().then(|| fields.join(" "))
}

/// Two words where the kind has one name.
pub fn name_in_two(line: &str) -> Option<String> {
    let words = words_of(line);
    let kind = Kind::of_field(words.first()?)?;
    let has_name = Form::wanted(kind)[NAME - 1] == Form::Name;
    let [first, second] = [words.get(1)?, words.get(2)?];
    let is_word = |word: &str| word.starts_with(|letter: char| letter.is_ascii_alphabetic());
    let joined = format!("{first}{second}");
    let is_meant = has_name && words.len() > FIELDS.len() && is_word(second);
    (is_meant && Form::Name.fits(&joined, 0)).then_some(joined)
}

/// The other kinds whose forms these fields have.
pub fn other_kinds(fields: &[&str], count: usize) -> Vec<Kind> {
    let fits = |&kind: &Kind| Form::misfits(kind, fields, count).is_empty();
    Kind::ALL.into_iter().filter(fits).collect()
}
