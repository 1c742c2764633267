//! The command `atc`, for people who write rules. What it tells about a rule or a run is computed by the proved library.

#![deny(unsafe_code)]

mod args;
mod ask;
mod assemble;
mod blame;
mod causes;
mod contract;
mod explain;
mod expression;
mod failure;
mod files;
mod gas;
mod help;
mod json;
mod layout;
mod lets;
mod message;
mod nearest;
mod paint;
mod place;
mod program;
mod reading;
mod report;
mod run;
mod setting;
mod slots;
mod step;
mod trace;
mod vector;
mod walk;

use args::{Arguments, Asked, Name};
use failure::Failure;
use json::Json;
use message::{notes_json, Message};
use paint::Paint;
use std::io;
use std::process::ExitCode;

const FAULT: u8 = 2;
const BUG: u8 = 3;

fn main() -> ExitCode {
    let status = match args::parse(std::env::args_os().skip(1)) {
        Ok(Asked::Help(name)) => files::tell(help::text(name), 0),
        Ok(Asked::Version) => files::tell(concat!("atc ", env!("CARGO_PKG_VERSION"), "\n"), 0),
        Ok(Asked::Work(arguments)) => work(&arguments),
        Err(failure) => Err(failure),
    };
    ExitCode::from(status.unwrap_or_else(fail))
}

fn work(arguments: &Arguments) -> Result<u8, Failure> {
    let done = match arguments.name {
        Name::Assemble => assemble::assemble(arguments),
        Name::Run => run::run(arguments),
        Name::Trace => trace::trace(arguments),
        Name::Gas => gas::gas(arguments),
        Name::Explain => explain::explain(arguments),
    };
    match done {
        Err(Failure::Refused(refused, notes)) if arguments.json => {
            let mut members = report::head_json(arguments.name, refused.number, Some(&refused));
            members.push(("notes", notes_json(&notes)));
            files::tell(&format!("{}\n", Json::Object(members)), 1)
        }
        done => done,
    }
}

/// Says why a command failed, and gives its status.
fn fail(failure: Failure) -> u8 {
    match failure {
        Failure::Usage(sentence, name) => {
            files::complain(&format!("atc: {sentence}.\n{}", help::usage(name)));
            FAULT
        }
        Failure::File(sentence) => {
            files::complain(&format!("atc: {sentence}.\n"));
            FAULT
        }
        Failure::Marked(message) => {
            complain_all([&*message]);
            FAULT
        }
        Failure::ClosedPipe => 0,
        Failure::Refused(refused, notes) => {
            complain_all(&notes);
            complain_all([&refused.message]);
            1
        }
        Failure::Bug(sentence) => {
            files::complain(&format!(
                "atc: this is a bug of atc, please report it: {sentence}.\n"
            ));
            BUG
        }
    }
}

/// Messages to standard error.
fn complain_all<'a>(messages: impl IntoIterator<Item = &'a Message>) {
    let paint = Paint::on(&io::stderr());
    for message in messages {
        files::complain(&message.shown(paint));
    }
}
