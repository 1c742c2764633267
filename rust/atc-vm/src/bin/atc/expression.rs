//! Where in a line of the body an expression is refused.

use crate::ask;
use crate::blame::Blame;
use crate::contract::Case;
use crate::layout::{parameter_name, pieces, token_ends, Line};
use crate::nearest::nearest;
use crate::place::{named, quoted};
use std::ops::Range;

impl<'a> Case<'a> {
    /// 12 to 20, in a line of the body.
    pub fn line(&self, number: u64) -> Blame<'a> {
        let lines = self.head.lines(self.text());
        let Some(line) = lines.get((number as usize).wrapping_sub(1)) else {
            return Blame::nowhere(format!("It is line {number} of the body."));
        };
        let Some(expression) = line.expression() else {
            return self.in_rule(line.span.clone(), "This `let` has no `=`.");
        };
        match self.number {
            13 => self.character(expression),
            14 => self.in_rule(
                expression.end..expression.end,
                "The expression ends here, where a number, a name, `(` or `)` is due.",
            ),
            20 => self
                .in_rule(expression, "This pushes more than 32768 numbers.")
                .help("A name counts as all that it stands for, at each use."),
            _ => self.token(expression, &lines, line),
        }
    }

    // 13: the shortest beginning of the expression, in tokens and single characters, that is refused so ends with the
    // character. The digit behind it keeps white space at its end from being trimmed.
    fn character(&self, expression: Range<usize>) -> Blame<'a> {
        let pieces = pieces(self.text(), expression.clone());
        let found = ask::first(pieces.len(), |i| {
            ask::number(&self.cut(pieces[i].end, "0"), self.vector) == 13
        });
        let Some(piece) = found.map(|i| pieces[i].clone()) else {
            return self.in_rule(expression, "A character of this is in no token.");
        };
        // No token is refused so: this piece is a single character.
        let c = self.text()[piece.clone()]
            .chars()
            .next()
            .unwrap_or_default();
        let help = match c {
            ';' => Some("An expression ends with its line, without a sign."),
            '.' => Some("Numbers are whole."),
            '=' if self.text()[..piece.start].ends_with('<') => {
                Some("There is no `<=`: `a <= b` is `(b < a) == 0`.")
            }
            '=' => Some("Two of them compare, as in `a == b`."),
            '>' => Some("There is no `>`: `a > b` is `b < a`."),
            '!' => Some("There is no `!`: `a != b` is `(a == b) == 0`."),
            _ => None,
        };
        self.in_rule(piece, format!("{} is in no token.", named(c)))
            .help_if(help.map(String::from))
    }

    // 15 to 19: the shortest beginning of the expression, in tokens, that is refused so ends with the token.
    fn token(&self, expression: Range<usize>, lines: &[Line], line: &Line) -> Blame<'a> {
        let ends = token_ends(self.text(), expression.clone());
        let refused = |i: usize| ask::number(&self.cut(ends[i], ""), self.vector) == self.number;
        let Some(i) = ask::first(ends.len(), refused) else {
            return self.in_rule(expression, "");
        };
        let from = if i == 0 {
            expression.start
        } else {
            ends[i - 1]
        };
        let start = ends[i] - self.text()[from..ends[i]].trim_start().len();
        let token = &self.text()[start..ends[i]];
        let shown = quoted(token);
        let label = match self.number {
            15 => format!("{shown} stands where `)` is due."),
            16 => format!("{shown} exceeds {}.", u64::MAX),
            17 if token.starts_with(|c: char| c == '_' || c.is_ascii_alphabetic()) => {
                format!("{shown} is neither a parameter nor bound by a `let` above.")
            }
            17 => format!("{shown} stands where a number, a name or `(` is due."),
            18 => "This is the 65th parenthesis that is open.".to_string(),
            _ if token == ")" => "This `)` closes nothing.".to_string(),
            _ => format!("{shown} is left over: no operator stands before it."),
        };
        let remark = token == "/" && self.text()[..start].ends_with('/');
        let help = if remark {
            Some("A remark stands on a line of its own.".to_string())
        } else if self.number == 17 {
            self.like(token, lines, line)
        } else {
            None
        };
        self.in_rule(start..ends[i], label).help_if(help)
    }

    // A bound name that is spelt like this one.
    fn like(&self, token: &str, lines: &[Line], line: &Line) -> Option<String> {
        let text = self.text();
        let parameters = self.head.parameters(text).into_iter();
        let parameters = parameters.map(|part| parameter_name(text, part));
        let above = lines
            .iter()
            .take_while(|other| other.span.start < line.span.start);
        let bound = above
            .filter_map(|line| line.binding())
            .map(|(name, _)| name);
        let names: Vec<&str> = parameters.chain(bound).map(|span| &text[span]).collect();
        nearest(token, names.into_iter()).map(|name| format!("Is {} meant?", quoted(name)))
    }
}
