//! Where a text of operations is refused.

use crate::blame::{not_utf8, Blame};
use crate::failure::Refused;
use crate::files::Source;
use crate::nearest::nearest;
use crate::place::quoted;
use atc_vm::{parse_ops_bytes, sys};
use std::ops::Range;

/// 27 to 33, with the place that the answer carries.
pub fn unread(number: u64, source: &Source) -> Refused {
    let room = 1 + source.bytes.iter().filter(|byte| **byte == b'\n').count();
    let answer = sys::parse_ops(&source.bytes, &mut vec![0; room], &mut vec![0; room]);
    let [line, place, length, ..] = answer.words;
    let span = place as usize..(place + length) as usize;
    let blame = match number {
        27 => return not_utf8(source).refused(27, vec![]),
        33 => {
            let blame = Blame::at(
                source,
                0..0,
                "From here on there are but empty lines and remarks.",
            );
            return blame.refused(33, vec![]);
        }
        30 => no_operation(source, span),
        _ => no_number(source, span),
    };
    blame.refused(number, vec![line, place, length])
}

fn no_operation(source: &Source, span: Range<usize>) -> Blame<'_> {
    let line = &source.text[span.clone()];
    let word = line.split_whitespace().next().unwrap_or(line);
    let shown = quoted(line);
    let blame = Blame::at(source, span, format!("{shown} is no operation."));
    if line.starts_with("fn ") || line.starts_with("let ") || line.starts_with("return ") {
        return blame.help("One file is read as operations. A rule needs its vector beside it.");
    }
    // The reader knows an operation by itself or with a number behind it.
    let reads = |text: String| parse_ops_bytes(text.as_bytes()).is_ok();
    if reads(format!("{word} 0")) {
        return blame.help(format!("`{word}` is followed by one space and a number."));
    }
    if reads(word.to_string()) {
        return blame.help(format!(
            "`{word}` stands alone on its line; a remark has a line of its own, with `#`."
        ));
    }
    const WORDS: [&str; 16] = [
        "Push",
        "Add",
        "Sub",
        "Mul",
        "Div",
        "Dup",
        "Swap",
        "Jump",
        "JumpIfNotZero",
        "Eq",
        "Lt",
        "Load",
        "Store",
        "Caller",
        "JumpIfZero",
        "Halt",
    ];
    let like = WORDS
        .into_iter()
        .find(|known| known.eq_ignore_ascii_case(word));
    match like.or_else(|| nearest(word, WORDS.into_iter())) {
        Some(known) => blame.help(format!("Is `{known}` meant?")),
        None => blame,
    }
}

fn no_number(source: &Source, span: Range<usize>) -> Blame<'_> {
    let part = &source.text[span.clone()];
    let digits = part.strip_prefix('+').unwrap_or(part);
    let all = !digits.is_empty() && digits.bytes().all(|byte| byte.is_ascii_digit());
    let why = if all {
        format!("exceeds {}", u64::MAX)
    } else {
        format!("is no number from 0 to {}", u64::MAX)
    };
    Blame::at(source, span, format!("{} {why}.", quoted(part)))
}
