//! What the command ends with.

use std::process::ExitCode;

/// The statuses, best first: of several sheets the highest counts.
#[derive(Debug, Clone, Copy, PartialEq, Eq, PartialOrd, Ord)]
pub enum Status {
    /// Every sheet is answered and each of its values is a number.
    Answered,
    /// A sheet is refused or a value has no number.
    Failed,
    /// A sheet cannot be read, what comes of it cannot be written, or the words
    /// on the command line are wrong.
    Unreadable,
}

/// What `--help` says of them.
pub const MEANINGS: &str = "\
Status 0: every sheet is answered, and each of its values is a number. 1: a sheet is
refused, or a value has no number. 2: a file cannot be read or written, or the words
on the command line are wrong. Of several sheets the highest counts.
";

impl Status {
    pub fn code(self) -> u8 {
        self as u8
    }
}

impl From<Status> for ExitCode {
    fn from(status: Status) -> ExitCode {
        ExitCode::from(status.code())
    }
}

#[cfg(test)]
mod tests {
    use super::*;

    #[test]
    fn the_highest_counts() {
        let all = [Status::Answered, Status::Failed, Status::Unreadable];
        assert_eq!(all.map(Status::code), [0, 1, 2]);
        assert_eq!(all.into_iter().max(), Some(Status::Unreadable));
    }
}
