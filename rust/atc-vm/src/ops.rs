//! The reader of ops text.

use crate::vm::Op;
use crate::{refusal, sys};
use std::fmt;

/// Why a text is no program. Lines count from 1.
#[derive(Debug, Clone, PartialEq, Eq)]
pub enum OpsError {
    /// 30: the trimmed line is no operation.
    UnknownOp {
        /// The line's number.
        line: usize,
        /// The trimmed line.
        text: String,
    },
    /// 28: a `Push ` value isn't a number.
    BadPush {
        /// The line's number.
        line: usize,
        /// What follows the word, trimmed.
        value: String,
    },
    /// 29: a `Load ` or `Store ` slot isn't a number.
    BadSlot {
        /// The line's number.
        line: usize,
        /// What follows the word, trimmed.
        value: String,
    },
    /// 31: a jump target isn't a number.
    BadTarget {
        /// The line's number.
        line: usize,
        /// What follows the word, trimmed.
        value: String,
    },
    /// 33: no operation was read.
    Empty,
    /// 27: the bytes aren't UTF-8. Only [`parse_ops_bytes`] gives it.
    NotUtf8,
}

impl OpsError {
    /// Document 01's number.
    pub fn number(&self) -> u64 {
        match self {
            OpsError::NotUtf8 => 27,
            OpsError::BadPush { .. } => 28,
            OpsError::BadSlot { .. } => 29,
            OpsError::UnknownOp { .. } => 30,
            OpsError::BadTarget { .. } => 31,
            OpsError::Empty => 33,
        }
    }
}

impl fmt::Display for OpsError {
    fn fmt(&self, f: &mut fmt::Formatter<'_>) -> fmt::Result {
        match self {
            OpsError::UnknownOp { line, text } => write!(f, "line {line} is no operation: {text}"),
            OpsError::BadPush { line, value } => {
                write!(f, "line {line}: the value isn't a number: {value}")
            }
            OpsError::BadSlot { line, value } => {
                write!(f, "line {line}: the slot isn't a number: {value}")
            }
            OpsError::BadTarget { line, value } => {
                write!(f, "line {line}: the jump target isn't a number: {value}")
            }
            OpsError::Empty | OpsError::NotUtf8 => f.write_str(refusal::text(self.number())),
        }
    }
}

impl std::error::Error for OpsError {}

/// Reads ops text.
///
/// ```
/// use atc_vm::{parse_ops, Op, OpsError};
///
/// assert_eq!(parse_ops("# a remark\nPush +5\n\n  Halt\n"), Ok(vec![Op::Push(5), Op::Halt]));
///
/// let refused = parse_ops("Halt\nPush -0\n").unwrap_err();
/// assert_eq!(refused, OpsError::BadPush { line: 2, value: "-0".into() });
/// assert_eq!(refused.number(), 28);
/// ```
pub fn parse_ops(text: &str) -> Result<Vec<Op>, OpsError> {
    parse_ops_bytes(text.as_bytes())
}

/// Reads ops text from bytes, which may turn out not to be UTF-8.
pub fn parse_ops_bytes(text: &[u8]) -> Result<Vec<Op>, OpsError> {
    // Room for an operation on every line, so that 32 is never given. Proved: crates/relied, `read_relied` (lent, within).
    let room = 1 + line_feeds(text);
    let mut kinds = vec![0; room];
    let mut operands = vec![0; room];
    let answer = sys::parse_ops(text, &mut kinds, &mut operands);
    if answer.number == 0 {
        let read = kinds.iter().zip(&operands).take(answer.word(0));
        return Ok(read
            .map(|(&kind, &operand)| Op::decode(kind, operand))
            .collect());
    }
    let line = answer.word(0);
    let part = || {
        let (place, length) = (answer.word(1), answer.word(2));
        String::from_utf8_lossy(&text[place..place + length]).into_owned()
    };
    Err(match answer.number {
        27 => OpsError::NotUtf8,
        28 => OpsError::BadPush {
            line,
            value: part(),
        },
        29 => OpsError::BadSlot {
            line,
            value: part(),
        },
        30 => OpsError::UnknownOp { line, text: part() },
        31 => OpsError::BadTarget {
            line,
            value: part(),
        },
        33 => OpsError::Empty,
        // Proved: crates/relied, `read_relied` (lent).
        number => unreachable!("the reader gives 27 to 31 or 33 where it has room, not {number}"),
    })
}

// Counted in parts of 255 bytes, whose counts fit a byte: so the compiler makes vector code of it.
fn line_feeds(text: &[u8]) -> usize {
    let in_part = |part: &[u8]| part.iter().map(|&byte| u8::from(byte == b'\n')).sum::<u8>();
    text.chunks(255)
        .map(|part| usize::from(in_part(part)))
        .sum()
}

/// The trimmed line of a number from 1, as a part of the text; empty where there is no such line.
///
/// ```
/// assert_eq!(atc_vm::trimmed_line("Halt\n\t Push  5 \r\n", 2), "Push  5");
/// assert_eq!(atc_vm::trimmed_line("Halt", 2), "");
/// ```
pub fn trimmed_line(text: &str, line: usize) -> &str {
    let answer = sys::trimmed_line(text.as_bytes(), line as u64);
    let place = answer.word(0);
    &text[place..place + answer.word(1)]
}
