//! What is wrong at one place, as it is put together.

use crate::{Fault, Help, Mark, Refusal};

/// What to look at, the sentence, and how to mend it.
pub struct Finding {
    mark: Option<Mark>,
    sentence: String,
    help: Vec<Help>,
}

impl Finding {
    /// Of the text as a whole, or of an order.
    pub fn new(sentence: impl Into<String>) -> Self {
        Finding {
            mark: None,
            sentence: sentence.into(),
            help: vec![],
        }
    }

    pub fn at(mark: Mark, sentence: impl Into<String>) -> Self {
        Finding {
            mark: Some(mark),
            ..Finding::new(sentence)
        }
    }

    /// With more at the end of the sentence.
    pub fn go_on(mut self, more: &str) -> Self {
        self.sentence += more;
        self
    }

    /// With a hint more.
    pub fn help(self, sentence: impl Into<String>) -> Self {
        self.may_help(Some(sentence.into()))
    }

    /// With a hint more, where there is one.
    pub fn may_help(mut self, sentence: Option<String>) -> Self {
        self.add_help(sentence);
        self
    }

    pub fn add_help(&mut self, sentence: Option<String>) {
        let help = sentence.map(|sentence| Help {
            sentence,
            mark: None,
        });
        self.help.extend(help);
    }

    /// With this hint in place of all others.
    pub fn help_only(&mut self, sentence: String) {
        self.help.clear();
        self.add_help(Some(sentence));
    }

    pub fn has_help(&self) -> bool {
        !self.help.is_empty()
    }

    /// With another place of the text.
    pub fn see(mut self, mark: Mark, sentence: impl Into<String>) -> Self {
        self.help.push(Help {
            sentence: sentence.into(),
            mark: Some(mark),
        });
        self
    }

    /// The refusal with this number and place.
    pub fn refusal(self, number: u64, place: u64) -> Refusal {
        let fault = Fault {
            place,
            mark: self.mark,
            sentence: self.sentence,
            help: self.help,
        };
        Refusal::of_number(number, fault)
    }
}
