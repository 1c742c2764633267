//! What is wrong, at a place in a text.

use crate::failure::Refused;
use crate::files::Source;
use crate::message::Message;
use crate::place::Place;
use atc_vm::refusal;
use std::ops::Range;
use std::str;

/// A place, and what is wrong there.
pub struct Blame<'a> {
    at: Option<(&'a Source, Range<usize>)>,
    label: String,
    helps: Vec<String>,
}

impl<'a> Blame<'a> {
    pub fn at(source: &'a Source, span: Range<usize>, label: impl Into<String>) -> Blame<'a> {
        Blame {
            at: Some((source, span)),
            label: label.into(),
            helps: Vec::new(),
        }
    }

    pub fn nowhere(label: impl Into<String>) -> Blame<'a> {
        Blame {
            at: None,
            label: label.into(),
            helps: Vec::new(),
        }
    }

    pub fn help(mut self, help: impl Into<String>) -> Blame<'a> {
        self.helps.push(help.into());
        self
    }

    pub fn help_if(self, help: Option<String>) -> Blame<'a> {
        match help {
            Some(help) => self.help(help),
            None => self,
        }
    }

    pub fn refused(self, number: u64, carries: Vec<u64>) -> Refused {
        let mut helps = self.helps;
        helps.push(format!("`atc explain {number}` tells more."));
        let message = Message {
            kind: format!("error[{number}]"),
            headline: refusal(number).map_or(String::new(), |refusal| refusal.text.to_string()),
            place: self
                .at
                .map(|(source, span)| Place::of(&source.name, &source.text, span)),
            label: self.label,
            helps,
        };
        Refused {
            number,
            carries,
            message,
        }
    }
}

/// A text that isn't UTF-8.
pub fn not_utf8(source: &Source) -> Blame<'_> {
    let offset = str::from_utf8(&source.bytes).map_or_else(|error| error.valid_up_to(), str::len);
    let marked = '\u{fffd}'.len_utf8();
    let byte = source.bytes.get(offset).copied().unwrap_or(0);
    let label = format!("Byte {offset} of the file, 0x{byte:02X}, isn't UTF-8.");
    let utf16 = source.bytes.starts_with(&[0xff, 0xfe]) || source.bytes.starts_with(&[0xfe, 0xff]);
    let help = utf16.then(|| "It begins as UTF-16 does: save it as UTF-8.".to_string());
    Blame::at(source, offset..offset + marked, label).help_if(help)
}
