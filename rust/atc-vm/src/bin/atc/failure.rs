//! How a command ends other than by success.

use crate::args::Name;
use crate::message::Message;
use std::io;

pub enum Failure {
    /// The command line is wrong.
    Usage(String, Option<Name>),
    /// A file can't be read or written, or isn't what it should be.
    File(String),
    /// A message with a place, about a file that isn't what it should be.
    Marked(Box<Message>),
    /// Whoever reads the output has closed it.
    ClosedPipe,
    /// A text is refused by the library; with notes on what was seen before.
    Refused(Box<Refused>, Vec<Message>),
    /// The command contradicts the library.
    Bug(String),
}

/// A refusal of document 01, with what is known of its place.
pub struct Refused {
    pub number: u64,
    pub carries: Vec<u64>,
    pub message: Message,
}

impl Failure {
    pub fn usage(sentence: impl Into<String>, name: Option<Name>) -> Failure {
        Failure::Usage(sentence.into(), name)
    }

    pub fn output(error: io::Error) -> Failure {
        if error.kind() == io::ErrorKind::BrokenPipe {
            return Failure::ClosedPipe;
        }
        Failure::File(format!(
            "can't write to standard output: {}",
            reason(&error)
        ))
    }
}

/// The system's words for an error, without its number.
pub fn reason(error: &io::Error) -> String {
    let words = error.to_string();
    let end = words.find(" (os error").unwrap_or(words.len());
    words[..end].to_string()
}
