//! From a refusal of a contract to its place, in the file's lines and columns. Where the answer doesn't carry it, the
//! library is asked about contracts that are cut short.

use crate::ask;
use crate::blame::{not_utf8, Blame};
use crate::failure::Refused;
use crate::files::Source;
use crate::layout::{parameter_name, Head, Line, Member, Statement};
use crate::message::Message;
use crate::nearest::nearest;
use crate::place::{on_one_line, quoted, Place};
use atc_vm::assembler::MAX_TEXT;
use atc_vm::AssembleError;
use std::ffi::OsStr;
use std::ops::Range;
use std::os::unix::ffi::OsStrExt;
use std::str;

/// A contract with its vector that is refused.
pub struct Case<'a> {
    pub rule: &'a Source,
    pub vector: &'a Source,
    pub head: Head,
    pub number: u64,
}

pub fn refused(error: &AssembleError, rule: &Source, vector: &Source, stem: &OsStr) -> Refused {
    let case = Case {
        rule,
        vector,
        head: Head::of(&rule.text),
        number: error.number(),
    };
    let (blame, carries) = match error {
        AssembleError::NoKey { key }
        | AssembleError::NoColon { key }
        | AssembleError::NoDigit { key }
        | AssembleError::ValueTooLarge { key } => (case.key(*key), vec![*key]),
        AssembleError::NoEquals { line }
        | AssembleError::InvalidCharacter { line }
        | AssembleError::UnexpectedEnd { line }
        | AssembleError::UnbalancedParenthesis { line }
        | AssembleError::InvalidLiteral { line }
        | AssembleError::UnknownIdentifier { line }
        | AssembleError::TooDeep { line }
        | AssembleError::UnconsumedTokens { line }
        | AssembleError::TooLong { line } => (case.line(*line), vec![*line]),
        AssembleError::BadContract => (unreadable(rule), vec![]),
        AssembleError::BadVector => (unreadable(vector), vec![]),
        AssembleError::TooManyBindings => (case.binding(), vec![]),
        AssembleError::NoReturn => (case.no_return(), vec![]),
        AssembleError::NoValue => (case.no_value(), vec![]),
        AssembleError::NotExpected => (case.not_expected(), vec![]),
        AssembleError::BadStem => (bad_stem(stem), vec![]),
        AssembleError::NoFunction
        | AssembleError::NoParameters
        | AssembleError::UnclosedParameters
        | AssembleError::NoBody
        | AssembleError::UnclosedBody => (case.head(), vec![]),
    };
    blame.refused(case.number, carries)
}

fn unreadable(source: &Source) -> Blame<'_> {
    let length = source.bytes.len();
    if length > MAX_TEXT {
        return Blame::nowhere(format!(
            "{} has {length} bytes, {} too many.",
            source.name,
            length - MAX_TEXT
        ));
    }
    not_utf8(source)
}

fn bad_stem<'a>(stem: &OsStr) -> Blame<'a> {
    let shown = on_one_line(&stem.to_string_lossy());
    let bytes = stem.as_bytes();
    let why = if bytes.is_empty() {
        "is empty".to_string()
    } else if bytes.len() > 255 {
        format!("has {} bytes", bytes.len())
    } else if str::from_utf8(bytes).is_err() {
        "isn't UTF-8".to_string()
    } else {
        "holds a line feed".to_string()
    };
    Blame::nowhere(format!(
        "The stem `{shown}`, the rule's file name without its ending, {why}."
    ))
    .help("Give the file another name.")
}

// Of so many skipped lines a note is made.
const MOST_NOTES: usize = 3;

/// Lines of the body that are skipped, though they start nearly as a `let` or a `return` does.
pub fn skipped_lines(rule: &Source) -> Vec<Message> {
    let lines = Head::of(&rule.text).lines(&rule.text).into_iter();
    let slips = lines.filter_map(|line| slip(rule, &line));
    slips.take(MOST_NOTES).collect()
}

fn slip(rule: &Source, line: &Line) -> Option<Message> {
    const WORDS: [&str; 2] = ["let", "return"];
    if !matches!(line.statement, Statement::Other) {
        return None;
    }
    let first = rule.text[line.span.clone()]
        .split(char::is_whitespace)
        .next()?;
    let same = WORDS.into_iter().find(|word| *word == first);
    let word = same.or_else(|| nearest(first, WORDS.into_iter()))?;
    let span = line.span.start..line.span.start + first.len();
    let place = Place::of(&rule.name, &rule.text, span);
    let headline = format!("line {} is skipped", place.line);
    let label = format!("Is `{word} ` meant, with a space behind it?");
    Some(Message::note(headline, place, label))
}

impl<'a> Case<'a> {
    pub fn text(&self) -> &'a str {
        &self.rule.text
    }

    pub fn in_rule(&self, span: Range<usize>, label: impl Into<String>) -> Blame<'a> {
        Blame::at(self.rule, span, label)
    }

    /// The contract up to a place, its body closed there.
    pub fn cut(&self, end: usize, more: &str) -> String {
        format!("{}{more}}}", &self.text()[..end])
    }

    // 3 to 7: from where on something was looked for.
    fn head(&self) -> Blame<'a> {
        let one = |at: Option<usize>| at.map_or(0..0, |at| at..at + 1);
        let (span, label) = match self.number {
            3 => (0..0, "From here to the end of the file there is no `fn `."),
            4 => (
                self.head.function.clone().unwrap_or(0..0),
                "No `(` stands behind this.",
            ),
            5 => (one(self.head.open), "This `(` has no `)` behind it."),
            6 => (one(self.head.close), "No `{` stands behind this."),
            _ => (one(self.head.brace), "This `{` has no `}` behind it."),
        };
        self.in_rule(span, label)
    }

    // 21: the first parameter, or line, with which the contract is refused so.
    fn binding(&self) -> Blame<'a> {
        let text = self.text();
        let parts = self.head.parameters(text);
        let closed = |i: usize| format!("{}) {{}}", &text[..parts[i].end]);
        let part = ask::first(parts.len(), |i| ask::number(&closed(i), self.vector) == 21);
        if let Some(i) = part {
            let name = parameter_name(text, parts[i].clone());
            return self.in_rule(name, "This parameter is the 257th binding.");
        }
        let lines = self.head.lines(text);
        let refused = |i: usize| ask::number(&self.cut(lines[i].span.end, ""), self.vector) == 21;
        match ask::first(lines.len(), refused) {
            Some(i) => self.in_rule(lines[i].span.clone(), "This `let` makes the 257th binding."),
            None => Blame::nowhere("Parameters and `let` lines make 256 bindings at most."),
        }
    }

    fn no_return(&self) -> Blame<'a> {
        let brace = self.head.brace.unwrap_or(0);
        self.in_rule(
            brace..brace + 1,
            "No line of this body starts with `return ` (and a space).",
        )
    }

    fn last_return(&self) -> Option<(Line, Range<usize>)> {
        let lines = self.head.lines(self.text()).into_iter().rev();
        let mut returns = lines.filter_map(|line| match line.statement.clone() {
            Statement::Return(expression) => Some((line, expression)),
            _ => None,
        });
        returns.next()
    }

    fn no_value(&self) -> Blame<'a> {
        let Some((line, expression)) = self.last_return() else {
            return Blame::nowhere("The return value divides by 0.");
        };
        self.in_rule(expression, "This divides by 0.")
            .help_if(self.none_above(&line))
    }

    // The first `let` that has no value, and without which the return would have one.
    fn none_above(&self, last: &Line) -> Option<String> {
        let text = self.text();
        let lines = self.head.lines(text);
        let above = lines
            .iter()
            .take_while(|line| line.span.start < last.span.start);
        let mut lets = above.filter_map(|line| line.binding());
        let (name, end) = lets.find(|(name, end)| {
            let (before, after) = text.split_at(*end);
            let name = &text[name.clone()];
            ask::number(&format!("{before}\nreturn {name}}}"), self.vector) == 23
                && ask::number(&format!("{before}\nlet {name} = 1{after}"), self.vector) != 23
        })?;
        let place = Place::of(&self.rule.name, text, name.start..end);
        let name = quoted(&text[name]);
        Some(format!(
            "{name} of line {} has no value already: it divides by 0.",
            place.line
        ))
    }

    fn not_expected(&self) -> Blame<'a> {
        let Some((line, expression)) = self.last_return() else {
            return Blame::nowhere("");
        };
        let member = Member::of(&self.vector.text, "expected");
        let expected = member.map_or("", |member| &self.vector.text[member.digits]);
        let label = match self.value(&line, expression.clone()) {
            Some(value) => format!("The value is {value}, and `expected` is {expected}."),
            None => format!("The value isn't {expected}, which is `expected`."),
        };
        let place = Member::of(&self.vector.text, "expected")
            .map(|member| Place::of(&self.vector.name, &self.vector.text, member.digits).shown());
        self.in_rule(expression, label)
            .help_if(place.map(|place| format!("`expected` stands at {place}.")))
    }

    // In parentheses, or where 64 are open already by a `let`.
    fn value(&self, line: &Line, expression: Range<usize>) -> Option<u64> {
        let text = self.text();
        let before = &text[..line.span.start];
        let expression = &text[expression];
        let named = format!("{before}let atc_ = {expression}\n");
        let worked = ask::worked(before, &format!("({expression})"), self.vector)
            .or_else(|_| ask::worked(&named, "atc_", self.vector));
        worked.ok().map(|worked| worked.value)
    }
}
