//! What each `let` of a rule costs, asked of the assembler by a contract with one line more.

use crate::ask::{self, Worked};
use crate::json::Json;
use crate::layout::Head;
use crate::place::{on_one_line, Place};
use crate::program::Rule;
use atc_vm::assemble_text;

pub struct Let {
    name: String,
    line: usize,
    /// How often it is copied into the return expression, or why that can't be told.
    copies: Result<u64, &'static str>,
    /// What one copy is, or why that can't be told.
    each: Result<Worked, &'static str>,
}

pub fn lets(rule: &Rule) -> Vec<Let> {
    let text = &rule.rule.text;
    let lines = Head::of(text).lines(text).into_iter();
    let lets = lines.filter_map(|line| line.binding()).map(|(name, end)| {
        let line = Place::of("", text, name.clone()).line;
        let name = &text[name];
        let before = format!("{}\n", &text[..end]);
        Let {
            name: on_one_line(name),
            line,
            copies: copies(rule, name, end),
            each: ask::worked(&before, name, &rule.vector).map_err(why),
        }
    });
    lets.collect()
}

// `let x = x + 0` behind the line makes each copy push one number more.
fn copies(rule: &Rule, name: &str, end: usize) -> Result<u64, &'static str> {
    let (before, after) = rule.rule.text.split_at(end);
    let contract = format!("{before}\nlet {name} = {name} + 0{after}");
    match assemble_text(contract, &rule.vector.bytes, "x") {
        Ok(longer) => Ok(longer.k - rule.assembled.k),
        Err(error) => match error.number() {
            number @ (1 | 20 | 21) => Err(why(number)),
            // The name is no token, so no expression can use it.
            _ => Ok(0),
        },
    }
}

// Why a contract with one line more is refused.
fn why(number: u64) -> &'static str {
    match number {
        1 => "the rule is too long for one line more",
        20 => "one number more would make k exceed 32768",
        21 => "256 bindings are made, and one more is refused",
        23 => "it has no value: it divides by 0",
        48 => "it needs more than 4096 stack items",
        _ => "its name is no token, so nothing can use it",
    }
}

impl Let {
    fn gas(&self) -> Option<u64> {
        match (&self.copies, &self.each) {
            (Ok(0), _) => Some(0),
            (Ok(copies), Ok(each)) => Some(copies * each.gas),
            _ => None,
        }
    }

    fn unknown(&self) -> Option<&'static str> {
        let copies = self.copies.as_ref().err();
        copies.or(self.each.as_ref().err()).copied()
    }

    pub fn json(&self) -> Json {
        let each = self.each.as_ref().ok();
        Json::Object(vec![
            ("name", self.name.as_str().into()),
            ("line", self.line.into()),
            ("copies", self.copies.ok().into()),
            ("k", each.map(|each| each.k).into()),
            ("gas_a_copy", each.map(|each| each.gas).into()),
            ("gas", self.gas().into()),
            ("why_unknown", self.unknown().into()),
        ])
    }
}

pub fn table(lets: &[Let]) -> String {
    let longest = lets.iter().map(|row| row.name.chars().count()).max();
    let width = longest.unwrap_or(0).clamp(3, 30);
    let row = |cells: [&str; 5], rest: &str| {
        let [name, line, copies, each, all] = cells;
        let row = format!("{name:<width$}  {line:>4}  {copies:>6}  {each:>10}  {all:>10}  {rest}");
        row.trim_end().to_string() + "\n"
    };
    let mut table = row(["let", "line", "copies", "gas a copy", "gas in all"], "");
    for line in lets {
        let shown =
            |number: Option<u64>| number.map_or("?".to_string(), |number| number.to_string());
        let cells = [
            &line.name[..],
            &line.line.to_string(),
            &shown(line.copies.ok()),
            &shown(line.each.as_ref().ok().map(|each| each.gas)),
            &shown(line.gas()),
        ];
        let why = line
            .unknown()
            .map_or(String::new(), |why| format!("can't be told: {why}"));
        table += &row(cells, &why);
    }
    table
}
