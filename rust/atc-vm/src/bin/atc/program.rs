//! The program to run: read from an ops file, or assembled from a rule and its vector.

use crate::args::Arguments;
use crate::ask;
use crate::blame::Blame;
use crate::contract;
use crate::failure::{Failure, Refused};
use crate::files::{self, Source};
use crate::layout::trimmed;
use crate::message::Message;
use crate::reading::unread;
use crate::vector::cut_numbers;
use atc_vm::{assemble_text, parse_ops_bytes, Assembled, Op, Vm, VmError};
use std::ffi::OsStr;
use std::ops::Range;
use std::path::Path;

/// A rule and its vector, accepted.
pub struct Rule {
    pub rule: Source,
    pub vector: Source,
    pub assembled: Assembled,
    /// On numbers of which only a part is read, and on lines that are skipped.
    pub notes: Vec<Message>,
}

pub fn assemble(rule: &OsStr, vector: &OsStr) -> Result<Rule, Failure> {
    if rule == "-" || vector == "-" {
        let sentence = "a rule and its vector are read from files; `-` stands for operations alone";
        return Err(Failure::File(sentence.to_string()));
    }
    let stem = Path::new(rule).file_stem().unwrap_or_default();
    let (rule, vector) = (files::read(rule)?, files::read(vector)?);
    let assembled = assemble_text(&rule.bytes, &vector.bytes, stem.as_encoded_bytes());
    let unread = assembled.as_ref().is_err_and(|error| error.number() <= 2);
    let notes = if unread {
        Vec::new()
    } else {
        let numbers = cut_numbers(&rule, &vector);
        numbers
            .into_iter()
            .chain(contract::skipped_lines(&rule))
            .collect()
    };
    match assembled {
        Ok(assembled) => Ok(Rule {
            rule,
            vector,
            assembled,
            notes,
        }),
        Err(error) => {
            let refused = contract::refused(&error, &rule, &vector, stem);
            Err(Failure::Refused(Box::new(refused), notes))
        }
    }
}

/// Operations, and the text that they were read from.
pub struct Program {
    pub ops: Vec<Op>,
    pub source: Source,
    pub notes: Vec<Message>,
}

/// One file is ops text, two are a rule and its vector.
pub fn load(arguments: &Arguments) -> Result<Program, Failure> {
    match &arguments.operands[..] {
        [rule, vector] => assemble(rule, vector).and_then(of_rule),
        [ops] => read(ops),
        _ => Err(Failure::usage(
            "one file or two are due",
            Some(arguments.name),
        )),
    }
}

pub fn of_rule(rule: Rule) -> Result<Program, Failure> {
    let name = format!("{} as assembled", rule.rule.name);
    let mut program = of_source(Source::of(name, rule.assembled.text.into_bytes()))?;
    program.notes = rule.notes;
    Ok(program)
}

fn read(path: &OsStr) -> Result<Program, Failure> {
    let source = files::read(path)?;
    files::not_too_long(&source)?;
    of_source(source)
}

fn of_source(source: Source) -> Result<Program, Failure> {
    match parse_ops_bytes(&source.bytes) {
        Ok(ops) => Ok(Program {
            ops,
            source,
            notes: Vec::new(),
        }),
        Err(error) => Err(Failure::Refused(
            Box::new(unread(error.number(), &source)),
            Vec::new(),
        )),
    }
}

impl Program {
    /// Where the operation at a position stands in the text.
    pub fn span(&self, position: usize) -> Range<usize> {
        let text = &self.source.text;
        let mut at = 0;
        let lines = text.split_inclusive('\n').map(|line| {
            let start = at;
            at += line.len();
            trimmed(text, start..at)
        });
        let read = |span: &Range<usize>| !span.is_empty() && !text[span.clone()].starts_with('#');
        lines.filter(read).nth(position).unwrap_or(0..0)
    }

    /// 42, 43 or 45: what the verifier has against the program, with the place.
    pub fn unverified(&self, error: &VmError) -> Refused {
        let number = error.number();
        match *error {
            VmError::ProgramTooLarge { size, limit } => {
                let label = format!("This is operation {limit} from 0 of {size}, one too many.");
                Blame::at(&self.source, self.span(limit), label).refused(number, vec![size as u64])
            }
            VmError::StateTooLarge { used, limit } => {
                let label =
                    format!("The storage given has {used} slots, and {limit} are the most.");
                Blame::nowhere(label).refused(number, vec![used as u64])
            }
            _ => self.bad_jump().refused(number, vec![]),
        }
    }

    // The first operation with which the verifier refuses a program of this length, `Halt` standing for all after it.
    fn bad_jump(&self) -> Blame<'_> {
        let length = self.ops.len();
        let refused = |i: usize| {
            let mut ops = self.ops.clone();
            ops[i + 1..].fill(Op::Halt);
            Vm::new(ops).verify().is_err()
        };
        let Some(position) = ask::first(length, refused) else {
            return Blame::nowhere("");
        };
        let label = format!(
            "`{}`, operation {position}, jumps beyond the last operation, {}.",
            word(&self.ops[position]),
            length - 1
        );
        Blame::at(&self.source, self.span(position), label)
            .help("Targets count operations from 0, and no remarks.")
    }
}

/// An operation as ops text has it.
pub fn word(op: &Op) -> String {
    format!("{op:?}").replace('(', " ").replace(')', "")
}
