//! The vector: where a key or its value is refused, and where only a part of a number is read.

use crate::ask;
use crate::blame::Blame;
use crate::contract::Case;
use crate::files::Source;
use crate::layout::{parameter_name, Head, Member};
use crate::message::Message;
use crate::nearest::nearest;
use crate::place::{named, quoted, Place};
use std::collections::HashSet;
use std::ops::Range;

// Of which the parameters are the first.
const MOST_BINDINGS: usize = 256;

impl<'a> Case<'a> {
    /// 8 to 11: the key of `expected`, or of the n-th parameter.
    pub fn key(&self, key: u64) -> Blame<'a> {
        let parameter = if key == 0 { None } else { self.parameter() };
        let name = match (key, &parameter) {
            (0, _) => "expected",
            (_, Some(span)) => &self.text()[span.clone()],
            (_, None) => return Blame::nowhere(format!("It is the key of parameter {key}.")),
        };
        let Some(member) = Member::of(&self.vector.text, name) else {
            return self.no_key(name, parameter);
        };
        let label = match self.number {
            9 => format!("No `:` stands behind the key {}.", quoted(name)),
            10 => return self.no_digit(name, &member),
            _ => format!("The value of {} exceeds {}.", quoted(name), u64::MAX),
        };
        let span = if self.number == 9 {
            member.key
        } else {
            member.digits
        };
        Blame::at(self.vector, span, label)
    }

    // The name of the first parameter that alone is refused so.
    fn parameter(&self) -> Option<Range<usize>> {
        let parts = self.head.parameters(self.text()).into_iter();
        let mut names = parts.map(|part| parameter_name(self.text(), part));
        names.find(|name| {
            let contract = format!("fn f ({}) {{}}", &self.text()[name.clone()]);
            !name.is_empty() && ask::number(&contract, self.vector) == self.number
        })
    }

    fn no_key(&self, name: &str, parameter: Option<Range<usize>>) -> Blame<'a> {
        let vector = &self.vector.text;
        let keys = vector.split('"').skip(1).step_by(2);
        let like = nearest(name, keys)
            .map(|key| format!("{} has the key {}.", self.vector.name, quoted(key)));
        match parameter {
            Some(span) => {
                let label = format!("{} has no key `\"{name}\"`.", self.vector.name);
                self.in_rule(span, label)
            }
            None => Blame::at(
                self.vector,
                0..0,
                format!("There is no key `\"{name}\"` from here on."),
            ),
        }
        .help_if(like)
    }

    fn no_digit(&self, name: &str, member: &Member) -> Blame<'a> {
        let vector = &self.vector.text;
        let at = member.value.unwrap_or(vector.len());
        let Some(c) = vector[at..].chars().next() else {
            let end = vector.trim_end().len();
            let label = format!(
                "The vector ends where the digits of {} are due.",
                quoted(name)
            );
            return Blame::at(self.vector, end..end, label);
        };
        let label = format!(
            "{} stands where the digits of {} are due.",
            named(c),
            quoted(name)
        );
        let help = match c {
            '-' | '+' | '.' => Some("A number of a vector is whole and has no sign."),
            '"' => Some("A number stands without quotes."),
            _ => None,
        };
        Blame::at(self.vector, at..at + c.len_utf8(), label).help_if(help.map(String::from))
    }
}

/// Numbers of the vector of which only a part is read.
pub fn cut_numbers(rule: &Source, vector: &Source) -> Vec<Message> {
    let text = &rule.text;
    let parts = Head::of(text).parameters(text).into_iter();
    let names = parts.map(|part| &text[parameter_name(text, part)]);
    let names = names.filter(|name| !name.is_empty()).take(MOST_BINDINGS);
    let mut seen = HashSet::new();
    let keys = ["expected"].into_iter().chain(names);
    keys.filter(|key| seen.insert(*key))
        .filter_map(|key| cut_number(key, vector))
        .collect()
}

fn cut_number(key: &str, vector: &Source) -> Option<Message> {
    let text = &vector.text;
    let digits = Member::of(text, key)?.digits;
    let tail = tail(&text[digits.end..]);
    if digits.is_empty() || tail.is_empty() {
        return None;
    }
    let place = Place::of(&vector.name, text, digits.end..digits.end + tail.len());
    let headline = format!("{} is read as {}", quoted(key), &text[digits]);
    let label = format!("{} is left out: numbers are whole.", quoted(tail));
    Some(Message::note(headline, place, label))
}

// What a writer would take for more of the number: all up to a comma, a bracket or white space; or a comma with digits
// behind it, for no comma between members is followed by one.
fn tail(rest: &str) -> &str {
    let digit = |c: char| c.is_ascii_digit();
    let after_comma = rest.strip_prefix(',').unwrap_or("");
    if after_comma.starts_with(digit) {
        let digits = after_comma.find(|c| !digit(c)).unwrap_or(after_comma.len());
        return &rest[..1 + digits];
    }
    let ends = |c: char| c.is_whitespace() || ",}]".contains(c);
    &rest[..rest.find(ends).unwrap_or(rest.len())]
}
