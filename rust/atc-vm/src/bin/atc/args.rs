//! The command line: a command, its files and its options, in any order.

use crate::failure::Failure;
use crate::nearest::nearest;
use std::ffi::{OsStr, OsString};
use std::os::unix::ffi::OsStrExt;

#[derive(Clone, Copy, PartialEq, Eq, Debug)]
pub enum Name {
    Assemble,
    Run,
    Trace,
    Gas,
    Explain,
}

pub const NAMES: [(Name, &str); 5] = [
    (Name::Assemble, "assemble"),
    (Name::Run, "run"),
    (Name::Trace, "trace"),
    (Name::Gas, "gas"),
    (Name::Explain, "explain"),
];

impl Name {
    pub fn word(self) -> &'static str {
        NAMES
            .iter()
            .find(|(name, _)| *name == self)
            .map_or("", |(_, word)| word)
    }

    fn of(word: &str) -> Option<Name> {
        NAMES
            .iter()
            .find(|(_, w)| *w == word)
            .map(|(name, _)| *name)
    }

    // How many files, or numbers, a command takes.
    fn operands(self) -> (usize, usize) {
        match self {
            Name::Assemble => (2, 2),
            Name::Run | Name::Trace | Name::Gas => (1, 2),
            Name::Explain => (0, 1),
        }
    }

    fn options(self) -> &'static [&'static str] {
        match self {
            Name::Assemble => &["--output", "--json"],
            Name::Run | Name::Trace | Name::Gas => &["--gas", "--caller", "--storage", "--json"],
            Name::Explain => &["--json"],
        }
    }
}

/// A command to be carried out.
#[derive(Debug)]
pub struct Arguments {
    pub name: Name,
    pub operands: Vec<OsString>,
    pub json: bool,
    pub gas: Option<u64>,
    pub caller: Option<u64>,
    pub storage: Option<OsString>,
    pub output: Option<OsString>,
}

#[derive(Debug)]
pub enum Asked {
    Work(Arguments),
    Help(Option<Name>),
    Version,
}

const LONG: [&str; 7] = [
    "--gas",
    "--caller",
    "--storage",
    "--output",
    "--json",
    "--help",
    "--version",
];

fn takes_value(option: &str) -> bool {
    ["--gas", "--caller", "--storage", "--output"].contains(&option)
}

#[derive(Default)]
struct Words {
    operands: Vec<OsString>,
    options: Vec<(&'static str, OsString)>,
}

pub fn parse(words: impl Iterator<Item = OsString>) -> Result<Asked, Failure> {
    let Words { operands, options } = sorted(words)?;
    let given = |option: &str| options.iter().any(|(name, _)| *name == option);
    let mut operands = operands.into_iter();
    let first = operands.next();
    if given("--version") {
        return Ok(Asked::Version);
    }
    let Some(word) = first else {
        return if given("--help") {
            Ok(Asked::Help(None))
        } else {
            Err(Failure::usage("a command is missing", None))
        };
    };
    let operands: Vec<OsString> = operands.collect();
    if word == "help" {
        return help(&operands);
    }
    let name = command(&word)?;
    if given("--help") {
        return Ok(Asked::Help(Some(name)));
    }
    work(name, operands, options).map(Asked::Work)
}

fn help(operands: &[OsString]) -> Result<Asked, Failure> {
    match operands {
        [] => Ok(Asked::Help(None)),
        [word] => Ok(Asked::Help(Some(command(word)?))),
        _ => Err(Failure::usage("`atc help` takes one command", None)),
    }
}

fn command(word: &OsStr) -> Result<Name, Failure> {
    let shown = word.to_string_lossy();
    Name::of(&shown).ok_or_else(|| {
        let commands = NAMES.iter().map(|(_, word)| *word).chain(["help"]);
        let meant = meant(&shown, commands);
        Failure::usage(format!("`{shown}` is no command{meant}"), None)
    })
}

fn meant<'a>(word: &str, known: impl Iterator<Item = &'a str>) -> String {
    nearest(word, known).map_or(String::new(), |near| format!("; did you mean `{near}`?"))
}

// Parts options, with their values, from the rest.
fn sorted(mut words: impl Iterator<Item = OsString>) -> Result<Words, Failure> {
    let mut found = Words::default();
    while let Some(word) = words.next() {
        if word == "--" {
            found.operands.extend(words.by_ref());
        } else if word == "-" || !word.as_bytes().starts_with(b"-") {
            found.operands.push(word);
        } else {
            let (option, value) = option_of(&word)?;
            let value = match value {
                Some(value) => value,
                None if takes_value(option) => words
                    .next()
                    .ok_or_else(|| Failure::usage(format!("`{option}` needs a value"), None))?,
                None => OsString::new(),
            };
            if found.options.iter().any(|(name, _)| *name == option) {
                return Err(Failure::usage(format!("`{option}` is given twice"), None));
            }
            found.options.push((option, value));
        }
    }
    Ok(found)
}

// `--gas`, `--gas=5`, `-o`, `-oFILE`: the option and its value, if that is joined to it.
fn option_of(word: &OsStr) -> Result<(&'static str, Option<OsString>), Failure> {
    let bytes = word.as_bytes();
    let owned = |bytes: &[u8]| Some(OsStr::from_bytes(bytes).to_os_string());
    match bytes {
        b"-h" => return Ok(("--help", None)),
        b"-V" => return Ok(("--version", None)),
        b"-o" => return Ok(("--output", None)),
        [b'-', b'o', file @ ..] => return Ok(("--output", owned(file))),
        _ => (),
    }
    let equals = bytes.iter().position(|byte| *byte == b'=');
    let (name, value) = match equals {
        Some(at) => (&bytes[..at], owned(&bytes[at + 1..])),
        None => (bytes, None),
    };
    let shown = String::from_utf8_lossy(name);
    let Some(option) = LONG.into_iter().find(|option| *option == shown) else {
        let meant = meant(&shown, LONG.into_iter());
        return Err(Failure::usage(
            format!("`{shown}` is no option{meant}"),
            None,
        ));
    };
    if value.is_some() && !takes_value(option) {
        return Err(Failure::usage(format!("`{option}` takes no value"), None));
    }
    Ok((option, value))
}

fn work(
    name: Name,
    operands: Vec<OsString>,
    options: Vec<(&'static str, OsString)>,
) -> Result<Arguments, Failure> {
    let wrong = |sentence: String| Err(Failure::usage(sentence, Some(name)));
    let word = name.word();
    let (least, most) = name.operands();
    if operands.len() < least {
        return wrong(format!("`atc {word}` needs more than it is given"));
    }
    if operands.len() > most {
        let extra = operands[most].to_string_lossy();
        return wrong(format!(
            "`atc {word}` takes no more than {most}, and `{extra}` is one more"
        ));
    }
    let mut arguments = Arguments {
        name,
        operands,
        json: false,
        gas: None,
        caller: None,
        storage: None,
        output: None,
    };
    for (option, value) in options {
        if !name.options().contains(&option) {
            return wrong(format!("`atc {word}` has no option `{option}`"));
        }
        match option {
            "--gas" => arguments.gas = Some(number(option, &value, name)?),
            "--caller" => arguments.caller = Some(number(option, &value, name)?),
            "--storage" => arguments.storage = Some(value),
            "--output" => arguments.output = Some(value),
            _ => arguments.json = true,
        }
    }
    Ok(arguments)
}

fn number(option: &str, value: &OsStr, name: Name) -> Result<u64, Failure> {
    let shown = value.to_string_lossy();
    let digits = !shown.is_empty() && shown.bytes().all(|byte| byte.is_ascii_digit());
    let parsed = shown.parse().ok().filter(|_| digits);
    parsed.ok_or_else(|| {
        let sentence = format!(
            "`{option}` takes a number from 0 to {}, not `{shown}`",
            u64::MAX
        );
        Failure::usage(sentence, Some(name))
    })
}
