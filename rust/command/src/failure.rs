//! Why the command ends without its result.

use crate::files::input;
use crate::files::signals;
use std::io::{self, Write};
use std::path::Path;

#[derive(Debug)]
pub enum Failure {
    /// The library refused.
    Refused(String),
    /// The arguments are not understood.
    Usage {
        message: String,
        /// The words that ask for what would have helped.
        help: String,
    },
    /// A file cannot be read or written.
    Trouble(String),
    /// The plan has no such path.
    Nowhere(String),
    /// Somebody else is at the file; later it may go.
    Busy(String),
    /// The reader of the output went away: there is nobody to tell.
    Unread,
}

impl Failure {
    /// The same, with the file's name where the sentence speaks of the plan. Standard input needs
    /// one only among others.
    pub fn of(self, file: Option<&Path>, among_others: bool) -> Failure {
        let named = |message| match file {
            None if !among_others => message,
            _ => format!("{}: {message}", input::name(file)),
        };
        match self {
            Failure::Refused(message) => Failure::Refused(named(message)),
            Failure::Nowhere(message) => Failure::Nowhere(named(message)),
            other => other,
        }
    }

    /// Says it on standard error, and gives the exit status.
    pub fn report(self) -> u8 {
        let (message, status) = match self {
            Failure::Refused(message) => (format!("{message}\n"), 1),
            Failure::Usage { message, help } => (
                format!("tonschnecke: {message}\nTry 'tonschnecke {help}'.\n"),
                2,
            ),
            Failure::Trouble(message) => (format!("tonschnecke: {message}\n"), 2),
            Failure::Nowhere(message) => (format!("tonschnecke: {message}\n"), 3),
            Failure::Busy(message) => (format!("tonschnecke: {message}\n"), 4),
            Failure::Unread => signals::end_by_broken_pipe(),
        };
        // Where standard error fails, the status is all that can still be told.
        let _ = io::stderr().write_all(message.as_bytes());
        status
    }
}
