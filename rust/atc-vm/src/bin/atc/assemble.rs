//! `atc assemble`: a rule and its vector to ops text.

use crate::args::Arguments;
use crate::failure::Failure;
use crate::json::Json;
use crate::message::notes_json;
use crate::{files, program, report};
use std::ffi::OsStr;

pub fn assemble(arguments: &Arguments) -> Result<u8, Failure> {
    let [rule, vector] = &arguments.operands[..] else {
        return Err(Failure::usage(
            "a rule and a vector are due",
            Some(arguments.name),
        ));
    };
    let output = arguments.output.as_deref().filter(|file| *file != "-");
    for input in [rule, vector] {
        if output.is_some_and(|output| files::same(output, input)) {
            let name = input.to_string_lossy();
            return Err(Failure::File(format!(
                "{name} is to be read and can't be the output too"
            )));
        }
    }
    let accepted = program::assemble(rule, vector)?;
    let text = &accepted.assembled.text;
    if !arguments.json {
        crate::complain_all(&accepted.notes);
    }
    if let Some(file) = output {
        files::write(file, text)?;
    }
    match (arguments.json, output) {
        (true, _) => files::tell(&json(arguments, &accepted, output), 0),
        (false, None) => files::tell(text, 0),
        (false, Some(_)) => Ok(0),
    }
}

fn json(arguments: &Arguments, accepted: &program::Rule, output: Option<&OsStr>) -> String {
    let assembled = &accepted.assembled;
    let mut members = report::head_json(arguments.name, 0, None);
    members.extend([
        ("k", assembled.k.into()),
        ("p", assembled.p.into()),
        ("value", assembled.value.into()),
        ("text", assembled.text.as_str().into()),
        (
            "output",
            output
                .map(|file| file.to_string_lossy().into_owned())
                .into(),
        ),
        ("notes", notes_json(&accepted.notes)),
    ]);
    format!("{}\n", Json::Object(members))
}
