//! What `--help` says.

use crate::options::{Opt, COMMON};
use crate::output::NAME;
use crate::status;
use crate::words::{Example, Word, WORDS};

/// The most letters of a line.
const WIDTH: usize = 100;

/// `lindypo --help`.
pub fn usage() -> String {
    let lines = WORDS
        .iter()
        .map(|word| (word.name.to_string(), word.summary));
    let lines: Vec<_> = lines.collect();
    format!(
        "use: {NAME} WORD [OPTION...] [FILE...]\n\n\
         Order sheets of a lens laboratory: read, planned and evaluated by proved code.\n\n\
         {}\n\
         `{NAME} WORD --help` explains a word; every word has --json. `{NAME} --version` prints\n\
         the version. FILE - is standard input, and so is none.\n\n{}",
        columns(&lines),
        status::MEANINGS
    )
}

/// `lindypo WORD --help`.
pub fn of(word: &Word) -> String {
    let options: Vec<&Opt> = word.options.iter().chain(&COMMON).collect();
    let uses = options
        .iter()
        .map(|option| format!("[{}]", option_use(option)));
    let uses: Vec<String> = uses.chain([word.operands.to_string()]).collect();
    let meanings = options
        .iter()
        .map(|option| (option_use(option), option.meaning));
    let meanings: Vec<_> = meanings.collect();
    let fields = word.fields.concat().into_iter();
    let fields: Vec<_> = fields
        .map(|(name, what)| (name.to_string(), what))
        .collect();
    format!(
        "{}\n\n{}\n{}\n{}\
         JSON; a field that does not apply is left out:\n{}\n{}",
        broken(&format!("use: {NAME} {}", word.name), &uses),
        word.about,
        columns(&meanings),
        word.examples.iter().map(example).collect::<String>(),
        columns(&fields),
        status::MEANINGS
    )
}

/// Words after others, in lines that are not too long.
fn broken(start: &str, words: &[String]) -> String {
    let (mut text, mut width) = (start.to_string(), start.len());
    for word in words {
        let (between, before) = match width + 1 + word.len() <= WIDTH {
            true => (" ".to_string(), width + 1),
            false => (
                format!("\n{}", " ".repeat(start.len() + 1)),
                start.len() + 1,
            ),
        };
        text = text + &between + word;
        width = before + word.len();
    }
    text
}

fn option_use(option: &Opt) -> String {
    match option.value {
        Some(value) => format!("{} {value}", option.name),
        None => option.name.to_string(),
    }
}

fn example(example: &Example) -> String {
    format!("$ {NAME} {}\n{}\n", example.words, example.print)
}

/// Lines of a name and its meaning, the meanings beneath each other.
fn columns(lines: &[(String, &str)]) -> String {
    let width = lines.iter().map(|(name, _)| name.len()).max().unwrap_or(0);
    let line = |(name, meaning): &(String, &str)| format!("  {name:width$}  {meaning}");
    let lines = lines
        .iter()
        .map(|pair| line(pair).trim_end().to_string() + "\n");
    lines.collect()
}
