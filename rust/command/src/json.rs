//! JSON, written. Everything outside printable ASCII is escaped, so that a line
//! of it is the same in every encoding and stays one line.

use std::fmt::{self, Write};

#[derive(Debug, Clone, PartialEq, Eq)]
pub enum Json {
    Flag(bool),
    Number(i64),
    Text(String),
    List(Vec<Json>),
    Object(Object),
}

/// Fields in the sequence in which they were added.
#[derive(Debug, Clone, Default, PartialEq, Eq)]
pub struct Object {
    fields: Vec<(&'static str, Json)>,
}

impl Object {
    pub fn new() -> Self {
        Object::default()
    }

    pub fn with(mut self, name: &'static str, value: impl Into<Json>) -> Self {
        self.fields.push((name, value.into()));
        self
    }

    /// A field that is left out where it does not apply.
    pub fn with_some(self, name: &'static str, value: Option<impl Into<Json>>) -> Self {
        match value {
            Some(value) => self.with(name, value),
            None => self,
        }
    }

    /// All fields of another after its own.
    pub fn and(mut self, other: Object) -> Self {
        self.fields.extend(other.fields);
        self
    }
}

impl From<bool> for Json {
    fn from(flag: bool) -> Json {
        Json::Flag(flag)
    }
}

impl From<i64> for Json {
    fn from(number: i64) -> Json {
        Json::Number(number)
    }
}

impl From<u32> for Json {
    fn from(number: u32) -> Json {
        Json::Number(number.into())
    }
}

/// Counts, labels and steps: all far within the range of an i64.
impl From<u64> for Json {
    fn from(number: u64) -> Json {
        Json::Number(number as i64)
    }
}

impl From<usize> for Json {
    fn from(number: usize) -> Json {
        Json::Number(number as i64)
    }
}

impl From<&str> for Json {
    fn from(text: &str) -> Json {
        Json::Text(text.to_string())
    }
}

impl From<String> for Json {
    fn from(text: String) -> Json {
        Json::Text(text)
    }
}

impl From<Object> for Json {
    fn from(object: Object) -> Json {
        Json::Object(object)
    }
}

impl<T: Into<Json>> FromIterator<T> for Json {
    fn from_iter<I: IntoIterator<Item = T>>(items: I) -> Json {
        Json::List(items.into_iter().map(Into::into).collect())
    }
}

impl fmt::Display for Json {
    fn fmt(&self, f: &mut fmt::Formatter) -> fmt::Result {
        match self {
            Json::Flag(flag) => flag.fmt(f),
            Json::Number(number) => number.fmt(f),
            Json::Text(text) => write_text(f, text),
            Json::List(items) => write_list(f, items),
            Json::Object(object) => object.fmt(f),
        }
    }
}

impl fmt::Display for Object {
    fn fmt(&self, f: &mut fmt::Formatter) -> fmt::Result {
        f.write_char('{')?;
        for (at, (name, value)) in self.fields.iter().enumerate() {
            f.write_str(if at > 0 { "," } else { "" })?;
            write_text(f, name)?;
            write!(f, ":{value}")?;
        }
        f.write_char('}')
    }
}

fn write_list(f: &mut fmt::Formatter, items: &[Json]) -> fmt::Result {
    f.write_char('[')?;
    for (at, item) in items.iter().enumerate() {
        f.write_str(if at > 0 { "," } else { "" })?;
        write!(f, "{item}")?;
    }
    f.write_char(']')
}

fn write_text(f: &mut fmt::Formatter, text: &str) -> fmt::Result {
    f.write_char('"')?;
    for unit in text.encode_utf16() {
        match char::from_u32(unit.into()) {
            Some(letter @ ('"' | '\\')) => write!(f, "\\{letter}")?,
            Some(letter @ ' '..='~') => f.write_char(letter)?,
            _ => write!(f, "\\u{unit:04x}")?,
        }
    }
    f.write_char('"')
}

#[cfg(test)]
mod tests {
    use super::*;

    #[test]
    fn fields_keep_their_sequence() {
        let inner = Object::new()
            .with("is", true)
            .with("none", Json::List(vec![]));
        let list: Json = [1_i64, -2].into_iter().collect();
        let object = Object::new()
            .with("z", list)
            .with_some("left_out", None::<i64>)
            .with("a", inner)
            .and(Object::new().with("b", "c"));
        let wanted = r#"{"z":[1,-2],"a":{"is":true,"none":[]},"b":"c"}"#;
        assert_eq!(object.to_string(), wanted);
    }

    #[test]
    fn all_but_printable_ascii_is_escaped() {
        let text = "a\"b\\c\n\u{0}\u{1b}\u{7f}\u{e9}\u{1f453}\u{fffd}";
        let wanted = r#""a\"b\\c\u000a\u0000\u001b\u007f\u00e9\ud83d\udc53\ufffd""#;
        assert_eq!(Json::from(text).to_string(), wanted);
    }
}
