//! `atc explain`: refusals in words.

use crate::args::Arguments;
use crate::causes::{Cause, Example, CAUSES};
use crate::failure::Failure;
use crate::files;
use crate::json::Json;
use crate::nearest::nearest;
use crate::report::{head_json, row};
use atc_vm::{Refusal, REFUSALS};
use std::ffi::OsStr;

pub fn explain(arguments: &Arguments) -> Result<u8, Failure> {
    let asked = match arguments.operands.first() {
        Some(word) => vec![found(word, arguments)?],
        None => (0..REFUSALS.len()).collect(),
    };
    let text = if arguments.json {
        let mut members = head_json(arguments.name, 0, None);
        let rows = asked.iter().map(|&i| json(&REFUSALS[i], &CAUSES[i]));
        members.push(("refusals", Json::List(rows.collect())));
        format!("{}\n", Json::Object(members))
    } else if arguments.operands.is_empty() {
        REFUSALS.iter().map(line).collect()
    } else {
        asked
            .iter()
            .map(|&i| in_words(&REFUSALS[i], &CAUSES[i]))
            .collect()
    };
    files::tell(&text, 0)
}

// The place in both tables of a number or a name.
fn found(word: &OsStr, arguments: &Arguments) -> Result<usize, Failure> {
    let shown = word.to_string_lossy();
    let named = plain(&shown);
    let by_number = shown
        .parse()
        .ok()
        .and_then(|number: u64| place_of(|refusal| refusal.number == number));
    let by_name = || place_of(|refusal| plain(refusal.name) == named);
    by_number.or_else(by_name).ok_or_else(|| {
        let names: Vec<String> = REFUSALS.iter().map(|refusal| plain(refusal.name)).collect();
        let meant = nearest(&named, names.iter().map(String::as_str));
        let meant = meant.map_or(String::new(), |name| format!("; did you mean `{name}`?"));
        let last = REFUSALS.len();
        let sentence = format!(
            "`{shown}` is no refusal: they have numbers from 1 to {last}, and names{meant}"
        );
        Failure::usage(sentence, Some(arguments.name))
    })
}

fn place_of(is: impl Fn(&Refusal) -> bool) -> Option<usize> {
    REFUSALS.iter().position(is)
}

// `ATC_OUT_OF_GAS`, `out_of_gas` and `out-of-gas` are one name.
fn plain(name: &str) -> String {
    let name = name.to_ascii_lowercase().replace(['_', ' '], "-");
    name.strip_prefix("atc-").unwrap_or(&name).to_string()
}

fn line(refusal: &Refusal) -> String {
    let text = refusal.text;
    format!(
        "{:>2}  {:<24}  {text}\n",
        refusal.number,
        plain(refusal.name)
    )
}

fn in_words(refusal: &Refusal, cause: &Cause) -> String {
    let carries = if refusal.carries.is_empty() {
        "nothing".to_string()
    } else {
        refusal.carries.join(", ")
    };
    let mut text = format!(
        "{}, {}: {}.\n\n",
        refusal.number, refusal.name, refusal.text
    );
    text += &row("carries", &format!("{carries}{}", meaning(refusal.number)));
    text += &row("leaves", leaves(refusal.number));
    text += &row("common cause", cause.cause);
    text + &shown(cause.example)
}

fn shown(example: Example) -> String {
    let indented = |text: &str| {
        text.lines()
            .map(|line| format!("    {line}\n"))
            .collect::<String>()
    };
    match example {
        Example::Words(words) => row("example", words),
        Example::Rule(rule, vector) => {
            row("example", "this rule")
                + &indented(rule)
                + &row("", "with this vector")
                + &indented(vector)
        }
        Example::Ops(ops, "") => row("example", "these operations") + &indented(ops),
        Example::Ops(ops, options) => {
            row("example", &format!("these operations, with {options}")) + &indented(ops)
        }
    }
}

// What is said of what a refusal carries.
fn meaning(number: u64) -> &'static str {
    match number {
        8..=11 => ": 0 for `expected`, n for the n-th parameter",
        12..=20 => ": from 1, the first being that of the body's `{`",
        28..=31 => ": the line from 1, the offending part in bytes of the text",
        32 => ": from 1",
        50 => ", or 2^64 - 1 for slot 2^64 - 1",
        _ => "",
    }
}

fn leaves(number: u64) -> &'static str {
    match number {
        1..=26 => "nothing is written: the output is as it was.",
        27..=33 => "no operation is handed on: the program's buffers are as they were.",
        34..=45 => "nothing has run: storage and every other buffer are as they were.",
        _ => "the storage is as before the run, whatever had been stored; nothing of the stack is left.",
    }
}

fn json(refusal: &Refusal, cause: &Cause) -> Json {
    let example = match cause.example {
        Example::Words(words) => vec![("words", words.into())],
        Example::Rule(rule, vector) => vec![("rule", rule.into()), ("vector", vector.into())],
        Example::Ops(ops, options) => vec![("ops", ops.into()), ("options", options.into())],
    };
    Json::Object(vec![
        ("number", refusal.number.into()),
        ("name", refusal.name.into()),
        ("text", refusal.text.into()),
        ("carries", refusal.carries.to_vec().into()),
        ("leaves", leaves(refusal.number).into()),
        ("cause", cause.cause.into()),
        ("example", Json::Object(example)),
    ])
}
