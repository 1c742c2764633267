//! Where the parts of a contract and a vector stand. This places marks and puts lines in; what a part means, and whether
//! it is accepted, is asked of the library.

use std::ops::Range;

/// The head and body of a contract, as far as they are there.
#[derive(Debug, Default)]
pub struct Head {
    /// `fn `.
    pub function: Option<Range<usize>>,
    pub open: Option<usize>,
    pub close: Option<usize>,
    pub brace: Option<usize>,
    pub end: Option<usize>,
}

impl Head {
    pub fn of(text: &str) -> Head {
        let after = |from: Option<usize>, sign: char| {
            let from = from?;
            text[from..].find(sign).map(|at| from + at)
        };
        let function = text.find("fn ").map(|at| at..at + 3);
        let open = after(function.as_ref().map(|f| f.end), '(');
        let close = after(open.map(|at| at + 1), ')');
        let brace = after(close.map(|at| at + 1), '{');
        let end = after(brace.map(|at| at + 1), '}');
        Head {
            function,
            open,
            close,
            brace,
            end,
        }
    }

    /// The parts of the parameter list between its commas.
    pub fn parameters(&self, text: &str) -> Vec<Range<usize>> {
        let (Some(open), Some(close)) = (self.open, self.close) else {
            return Vec::new();
        };
        let mut at = open + 1;
        let parts = text[at..close].split(',').map(|part| {
            let span = at..at + part.len();
            at = span.end + 1;
            span
        });
        parts.collect()
    }

    /// The lines of the body.
    pub fn lines(&self, text: &str) -> Vec<Line> {
        let (Some(brace), Some(end)) = (self.brace, self.end) else {
            return Vec::new();
        };
        let mut at = brace + 1;
        let lines = text[at..end].split_inclusive('\n').map(|line| {
            let start = at;
            at += line.len();
            Line::of(text, trimmed(text, start..at))
        });
        lines.collect()
    }
}

/// The name in a part of the parameter list.
pub fn parameter_name(text: &str, part: Range<usize>) -> Range<usize> {
    let part = trimmed(text, part);
    let end = text[part.clone()]
        .find(':')
        .map_or(part.end, |at| part.start + at);
    trimmed(text, part.start..end)
}

/// A line of the body, without the white space around it.
#[derive(Debug, Clone)]
pub struct Line {
    pub span: Range<usize>,
    pub statement: Statement,
}

#[derive(Debug, Clone)]
pub enum Statement {
    /// `let` without `=` has neither name nor expression.
    Let(Option<(Range<usize>, Range<usize>)>),
    Return(Range<usize>),
    Other,
}

impl Line {
    fn of(text: &str, span: Range<usize>) -> Line {
        let line = &text[span.clone()];
        let statement = if let Some(rest) = line.strip_prefix("let ") {
            let start = span.end - rest.len();
            Statement::Let(rest.find('=').map(|at| {
                let name = trimmed(text, start..start + at);
                (name, trimmed(text, start + at + 1..span.end))
            }))
        } else if let Some(rest) = line.strip_prefix("return ") {
            Statement::Return(trimmed(text, span.end - rest.len()..span.end))
        } else {
            Statement::Other
        };
        Line { span, statement }
    }

    pub fn expression(&self) -> Option<Range<usize>> {
        match &self.statement {
            Statement::Let(Some((_, expression))) | Statement::Return(expression) => {
                Some(expression.clone())
            }
            _ => None,
        }
    }

    /// The name and the line's end, of a `let`.
    pub fn binding(&self) -> Option<(Range<usize>, usize)> {
        match &self.statement {
            Statement::Let(Some((name, _))) => Some((name.clone(), self.span.end)),
            _ => None,
        }
    }
}

/// The span without the white space at its ends.
pub fn trimmed(text: &str, span: Range<usize>) -> Range<usize> {
    let start = span.end - text[span.clone()].trim_start().len();
    start..start + text[start..span.end].trim_end().len()
}

/// The tokens of an expression, and the characters between them one by one.
pub fn pieces(text: &str, expression: Range<usize>) -> Vec<Range<usize>> {
    let mut pieces = Vec::new();
    let mut at = expression.start;
    while at < expression.end {
        let length = token_length(&text[at..expression.end]);
        pieces.push(at..at + length);
        at += length;
    }
    pieces
}

/// Where the tokens of an expression end.
pub fn token_ends(text: &str, expression: Range<usize>) -> Vec<usize> {
    let pieces = pieces(text, expression).into_iter();
    let tokens = pieces.filter(|piece| !text[piece.clone()].trim().is_empty());
    tokens.map(|token| token.end).collect()
}

// Of the token, or of the character that is in none, that a text starts with.
fn token_length(text: &str) -> usize {
    let run = |within: fn(char) -> bool| text.find(|c| !within(c)).unwrap_or(text.len());
    let digit = |c: char| c.is_ascii_digit();
    let name = |c: char| c.is_ascii_alphanumeric() || c == '_';
    match text.chars().next() {
        Some(c) if digit(c) => run(digit),
        Some(c) if name(c) => run(name),
        Some('=') if text.starts_with("==") => 2,
        Some(c) => c.len_utf8(),
        None => 0,
    }
}

/// A key of the vector and what stands behind it, as far as it is there.
#[derive(Debug)]
pub struct Member {
    /// With its quotes.
    pub key: Range<usize>,
    /// From behind the colon's white space on.
    pub value: Option<usize>,
    /// The digits there.
    pub digits: Range<usize>,
}

impl Member {
    pub fn of(vector: &str, name: &str) -> Option<Member> {
        let quoted = format!("\"{name}\"");
        let at = vector.find(&quoted)?;
        let key = at..at + quoted.len();
        let colon = vector[key.end..].find(':').map(|at| key.end + at + 1);
        let value = colon.map(|at| trimmed(vector, at..vector.len()).start);
        let digits = value.map_or(0..0, |at| {
            let rest = &vector[at..];
            at..at
                + rest
                    .find(|c: char| !c.is_ascii_digit())
                    .unwrap_or(rest.len())
        });
        Some(Member { key, value, digits })
    }
}
