//! What a run is given beside its program: gas limit, caller, storage.

use crate::args::{Arguments, Name};
use crate::failure::Failure;
use crate::files;
use crate::message::Message;
use crate::place::{quoted, Place};
use std::ffi::OsStr;
use std::str;

/// As the program `runops` has them.
pub const GAS: u64 = 1_000;
pub const CALLER: u64 = 7;

#[derive(Debug, Clone)]
pub struct Setting {
    pub gas: u64,
    pub caller: u64,
    pub storage: Vec<u64>,
}

pub fn of(arguments: &Arguments, gas: u64) -> Result<Setting, Failure> {
    let storage = match &arguments.storage {
        Some(value) => storage(value, arguments.name)?,
        None => Vec::new(),
    };
    Ok(Setting {
        gas: arguments.gas.unwrap_or(gas),
        caller: arguments.caller.unwrap_or(CALLER),
        storage,
    })
}

// Digits, commas and blanks are the slots themselves; anything else names a file of them.
fn storage(value: &OsStr, name: Name) -> Result<Vec<u64>, Failure> {
    let shown = value.to_string_lossy();
    let list = shown
        .chars()
        .all(|c| c.is_ascii_digit() || c == ',' || c == ' ');
    if !list {
        return of_file(value);
    }
    if shown.trim().is_empty() {
        return Ok(Vec::new());
    }
    let slots = shown.split(',').map(|slot| {
        slot.trim().parse().map_err(|_| {
            let sentence = format!(
                "`--storage` takes numbers up to {} with commas between, not {}",
                u64::MAX,
                quoted(&shown)
            );
            Failure::usage(sentence, Some(name))
        })
    });
    slots.collect()
}

// Numbers with commas or white space between; from `#` on a line is a remark.
fn of_file(path: &OsStr) -> Result<Vec<u64>, Failure> {
    let source = files::read(path)?;
    files::not_too_long(&source)?;
    let name = &source.name;
    let Ok(text) = str::from_utf8(&source.bytes) else {
        return Err(Failure::File(format!(
            "{name} isn't UTF-8, so it is no list of slots"
        )));
    };
    let mut slots = Vec::new();
    let mut at = 0;
    for line in text.split_inclusive('\n') {
        let numbers = line.split('#').next().unwrap_or("");
        let mut start = at;
        for part in numbers.split(|c: char| c == ',' || c.is_whitespace()) {
            if !part.is_empty() {
                let slot = part.parse().map_err(|_| {
                    let place = Place::of(name, text, start..start + part.len());
                    no_slot(place, part)
                })?;
                slots.push(slot);
            }
            // The sign behind it may be longer than one byte.
            start += part.len();
            start += text[start..].chars().next().map_or(0, char::len_utf8);
        }
        at += line.len();
    }
    Ok(slots)
}

fn no_slot(place: Place, part: &str) -> Failure {
    Failure::Marked(Box::new(Message {
        kind: "error".to_string(),
        headline: "a slot of the storage isn't a number".to_string(),
        place: Some(place),
        label: format!("{} is no number from 0 to {}.", quoted(part), u64::MAX),
        helps: Vec::new(),
    }))
}
