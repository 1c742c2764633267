//! The assembler of contract texts.

use crate::{refusal, sys};
use std::fmt;
use std::fs::{self, File};
use std::io::{self, Read};
use std::path::{Path, PathBuf};

/// A contract and a vector have at most this many bytes.
pub const MAX_TEXT: usize = 65_536;

/// No output is longer, so with this much room [`sys::assemble`] never gives 26.
// At most 32,768 times `Push `, twenty digits, a line feed, and an operator's line of four; two remarks with a stem of 255
// bytes and twenty digits; and `Halt`.
pub const MAX_OUTPUT: usize = 30 * 32_768 + 400;

// Most outputs are far shorter. This much is lent first.
const FIRST_ROOM: usize = 16_384;

/// An accepted contract.
#[derive(Debug, Clone, PartialEq, Eq)]
pub struct Assembled {
    /// The ops text.
    pub text: String,
    /// How many literals and parameters the operations push. With `Halt` they are 2k, and their run spends 3k − 2 gas.
    pub k: u64,
    /// How many stack items their run needs.
    pub p: u64,
    /// The value of the last `return ` line, which is the expected one.
    pub value: u64,
}

/// Why a contract isn't accepted.
///
/// `key` is the place of the vector's key: 0 for `expected`, n for the contract's n-th parameter. `line` is that of the
/// body, counted from 1 at the `{`.
#[derive(Debug, Clone, PartialEq, Eq)]
#[allow(missing_docs)]
pub enum AssembleError {
    /// 1: the contract exceeds 65,536 bytes or isn't UTF-8.
    BadContract,
    /// 2: the vector exceeds 65,536 bytes or isn't UTF-8.
    BadVector,
    /// 3: `fn ` is absent.
    NoFunction,
    /// 4: no `(` follows it.
    NoParameters,
    /// 5: no `)` follows that.
    UnclosedParameters,
    /// 6: no `{` follows that.
    NoBody,
    /// 7: no `}` follows that.
    UnclosedBody,
    /// 8: the key in double quotes is absent from the vector.
    NoKey { key: u64 },
    /// 9: no `:` follows it.
    NoColon { key: u64 },
    /// 10: no ASCII digit comes next.
    NoDigit { key: u64 },
    /// 11: the digits exceed 2^64 − 1.
    ValueTooLarge { key: u64 },
    /// 12: a `let` line has no `=`.
    NoEquals { line: u64 },
    /// 13: a character of the expression is in no token.
    InvalidCharacter { line: u64 },
    /// 14: the expression ends where a factor or `)` is due.
    UnexpectedEnd { line: u64 },
    /// 15: another token is where `)` is due.
    UnbalancedParenthesis { line: u64 },
    /// 16: a literal met as a factor exceeds 2^64 − 1.
    InvalidLiteral { line: u64 },
    /// 17: the token met as a factor is no `(`, literal or bound name.
    UnknownIdentifier { line: u64 },
    /// 18: a 65th parenthesis is open.
    TooDeep { line: u64 },
    /// 19: tokens are left over.
    UnconsumedTokens { line: u64 },
    /// 20: k of the expression exceeds 32,768.
    TooLong { line: u64 },
    /// 21: a 257th binding is made.
    TooManyBindings,
    /// 22: no `return ` line stands in the body.
    NoReturn,
    /// 23: the return value is none: a division by 0.
    NoValue,
    /// 24: the return value differs from `expected`.
    NotExpected,
    /// 25: the stem is empty, over 255 bytes, not UTF-8 or holds a line feed.
    BadStem,
}

impl AssembleError {
    /// Document 01's number.
    pub fn number(&self) -> u64 {
        match self {
            AssembleError::BadContract => 1,
            AssembleError::BadVector => 2,
            AssembleError::NoFunction => 3,
            AssembleError::NoParameters => 4,
            AssembleError::UnclosedParameters => 5,
            AssembleError::NoBody => 6,
            AssembleError::UnclosedBody => 7,
            AssembleError::NoKey { .. } => 8,
            AssembleError::NoColon { .. } => 9,
            AssembleError::NoDigit { .. } => 10,
            AssembleError::ValueTooLarge { .. } => 11,
            AssembleError::NoEquals { .. } => 12,
            AssembleError::InvalidCharacter { .. } => 13,
            AssembleError::UnexpectedEnd { .. } => 14,
            AssembleError::UnbalancedParenthesis { .. } => 15,
            AssembleError::InvalidLiteral { .. } => 16,
            AssembleError::UnknownIdentifier { .. } => 17,
            AssembleError::TooDeep { .. } => 18,
            AssembleError::UnconsumedTokens { .. } => 19,
            AssembleError::TooLong { .. } => 20,
            AssembleError::TooManyBindings => 21,
            AssembleError::NoReturn => 22,
            AssembleError::NoValue => 23,
            AssembleError::NotExpected => 24,
            AssembleError::BadStem => 25,
        }
    }

    fn of(answer: sys::Answer) -> AssembleError {
        let key = answer.words[0];
        let line = answer.words[0];
        match answer.number {
            1 => AssembleError::BadContract,
            2 => AssembleError::BadVector,
            3 => AssembleError::NoFunction,
            4 => AssembleError::NoParameters,
            5 => AssembleError::UnclosedParameters,
            6 => AssembleError::NoBody,
            7 => AssembleError::UnclosedBody,
            8 => AssembleError::NoKey { key },
            9 => AssembleError::NoColon { key },
            10 => AssembleError::NoDigit { key },
            11 => AssembleError::ValueTooLarge { key },
            12 => AssembleError::NoEquals { line },
            13 => AssembleError::InvalidCharacter { line },
            14 => AssembleError::UnexpectedEnd { line },
            15 => AssembleError::UnbalancedParenthesis { line },
            16 => AssembleError::InvalidLiteral { line },
            17 => AssembleError::UnknownIdentifier { line },
            18 => AssembleError::TooDeep { line },
            19 => AssembleError::UnconsumedTokens { line },
            20 => AssembleError::TooLong { line },
            21 => AssembleError::TooManyBindings,
            22 => AssembleError::NoReturn,
            23 => AssembleError::NoValue,
            24 => AssembleError::NotExpected,
            25 => AssembleError::BadStem,
            // Proved: crates/assembler/proofs/Bounds.antt, `never_26`.
            number => unreachable!("the assembler gives 1 to 25 where it has room, not {number}"),
        }
    }
}

impl fmt::Display for AssembleError {
    fn fmt(&self, f: &mut fmt::Formatter<'_>) -> fmt::Result {
        let text = refusal::text(self.number());
        let named = |key: &u64| match key {
            0 => "the key `expected`".to_string(),
            n => format!("the key of parameter {n}"),
        };
        match self {
            AssembleError::NoKey { key } => write!(f, "{} is absent from the vector", named(key)),
            AssembleError::NoColon { key } => write!(f, "no `:` follows {}", named(key)),
            AssembleError::NoDigit { key } => write!(f, "no digit follows {}", named(key)),
            AssembleError::ValueTooLarge { key } => {
                write!(f, "the value of {} exceeds 2^64 - 1", named(key))
            }
            AssembleError::NoEquals { line }
            | AssembleError::InvalidCharacter { line }
            | AssembleError::UnexpectedEnd { line }
            | AssembleError::UnbalancedParenthesis { line }
            | AssembleError::InvalidLiteral { line }
            | AssembleError::UnknownIdentifier { line }
            | AssembleError::TooDeep { line }
            | AssembleError::UnconsumedTokens { line }
            | AssembleError::TooLong { line } => write!(f, "line {line} of the body: {text}"),
            _ => f.write_str(text),
        }
    }
}

impl std::error::Error for AssembleError {}

impl From<AssembleError> for String {
    fn from(error: AssembleError) -> String {
        error.to_string()
    }
}

/// Why [`assemble`] has written no file.
#[derive(Debug)]
pub enum AssembleFileError {
    /// The contract can't be read.
    ReadContract(io::Error),
    /// The vector can't be read.
    ReadVector(io::Error),
    /// The contract isn't accepted.
    Refused(AssembleError),
    /// The output's folder can't be made.
    CreateFolder(io::Error),
    /// The output can't be written.
    WriteOutput(io::Error),
}

impl AssembleFileError {
    /// Document 01's number, where it is the contract that is refused and not a file.
    pub fn number(&self) -> Option<u64> {
        match self {
            AssembleFileError::Refused(error) => Some(error.number()),
            _ => None,
        }
    }
}

impl fmt::Display for AssembleFileError {
    fn fmt(&self, f: &mut fmt::Formatter<'_>) -> fmt::Result {
        match self {
            AssembleFileError::ReadContract(error) => write!(f, "cannot read contract: {error}"),
            AssembleFileError::ReadVector(error) => write!(f, "cannot read vector: {error}"),
            AssembleFileError::Refused(error) => error.fmt(f),
            AssembleFileError::CreateFolder(error) => {
                write!(f, "cannot create output directory: {error}")
            }
            AssembleFileError::WriteOutput(error) => write!(f, "cannot write ops output: {error}"),
        }
    }
}

impl std::error::Error for AssembleFileError {
    fn source(&self) -> Option<&(dyn std::error::Error + 'static)> {
        match self {
            AssembleFileError::Refused(error) => Some(error),
            AssembleFileError::ReadContract(error)
            | AssembleFileError::ReadVector(error)
            | AssembleFileError::CreateFolder(error)
            | AssembleFileError::WriteOutput(error) => Some(error),
        }
    }
}

impl From<AssembleFileError> for String {
    fn from(error: AssembleFileError) -> String {
        error.to_string()
    }
}

/// Assembles a contract and its vector in memory. The first line of the output names the stem.
///
/// ```
/// use atc_vm::{assemble_text, AssembleError};
///
/// let assembled = assemble_text("fn f (a) {\n  return a - 1\n}", r#"{"a": 3, "expected": 2}"#, "less")?;
/// assert_eq!(assembled.text, "# contract: less\n# expected: 2\nPush 3\nPush 1\nSub\nHalt\n");
/// assert_eq!((assembled.k, assembled.p, assembled.value), (2, 2, 2));
///
/// let refused = assemble_text("fn f (a) {\n  return a;\n}", r#"{"a": 3, "expected": 3}"#, "less").unwrap_err();
/// assert_eq!(refused, AssembleError::InvalidCharacter { line: 2 });
/// assert_eq!(refused.number(), 13);
/// # Ok::<(), AssembleError>(())
/// ```
pub fn assemble_text(
    contract: impl AsRef<[u8]>,
    vector: impl AsRef<[u8]>,
    stem: impl AsRef<[u8]>,
) -> Result<Assembled, AssembleError> {
    let (contract, vector, stem) = (contract.as_ref(), vector.as_ref(), stem.as_ref());
    let mut out = vec![0; FIRST_ROOM];
    let mut answer = sys::assemble(contract, vector, stem, &mut out);
    if answer.number == 26 {
        out = vec![0; MAX_OUTPUT];
        answer = sys::assemble(contract, vector, stem, &mut out);
    }
    if answer.number != 0 {
        return Err(AssembleError::of(answer));
    }
    let [written, k, p, value, ..] = answer.words;
    // A stem that is accepted is UTF-8, and all else is ASCII.
    let text = String::from_utf8_lossy(&out[..written as usize]).into_owned();
    Ok(Assembled { text, k, p, value })
}

/// Assembles the contract and the vector in two files to a file of the contract's stem and `.ops` in a folder, which is
/// made if it is absent.
///
/// ```
/// use std::fs;
///
/// let folder = std::env::temp_dir().join(format!("atc-vm-example-{}", std::process::id()));
/// fs::create_dir_all(&folder)?;
/// fs::write(folder.join("twice.rule"), "fn twice (a) {\n  return a + a\n}\n")?;
/// fs::write(folder.join("vector.json"), r#"{"a": 4, "expected": 8}"#)?;
/// let written = atc_vm::assemble(&folder.join("twice.rule"), &folder.join("vector.json"), &folder.join("out"))?;
/// assert_eq!(written, folder.join("out/twice.ops"));
/// assert_eq!(fs::read_to_string(&written)?, "# contract: twice\n# expected: 8\nPush 4\nPush 4\nAdd\nHalt\n");
/// fs::remove_dir_all(&folder)?;
/// # Ok::<(), Box<dyn std::error::Error>>(())
/// ```
pub fn assemble(
    contract: &Path,
    vector: &Path,
    out_dir: &Path,
) -> Result<PathBuf, AssembleFileError> {
    let source = read(contract).map_err(AssembleFileError::ReadContract)?;
    let values = read(vector).map_err(AssembleFileError::ReadVector)?;
    let stem = contract.file_stem().unwrap_or_default();
    let assembled = assemble_text(source, values, stem.as_encoded_bytes())
        .map_err(AssembleFileError::Refused)?;
    fs::create_dir_all(out_dir).map_err(AssembleFileError::CreateFolder)?;
    let mut name = stem.to_os_string();
    name.push(".ops");
    let out = out_dir.join(name);
    fs::write(&out, assembled.text).map_err(AssembleFileError::WriteOutput)?;
    Ok(out)
}

// A file that is too long is read far enough to be refused.
fn read(path: &Path) -> io::Result<Vec<u8>> {
    let mut bytes = Vec::new();
    File::open(path)?
        .take(MAX_TEXT as u64 + 1)
        .read_to_end(&mut bytes)?;
    Ok(bytes)
}
