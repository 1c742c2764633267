//! Expressions of document 02, drawn as trees and written out from them: what a text means is known without reading it.

/// What an expression means.
pub enum Tree {
    Number(u64),
    Join(&'static Operator, Box<Tree>, Box<Tree>),
}

/// An operator: the looser, the higher its level.
pub struct Operator {
    pub sign: &'static str,
    level: u8,
    word: &'static str,
    value: fn(u64, u64) -> Option<u64>,
}

pub static OPERATORS: [Operator; 6] = [
    Operator { sign: "*", level: 1, word: "Mul", value: |a, b| Some(a.wrapping_mul(b)) },
    Operator { sign: "/", level: 1, word: "Div", value: |a, b| a.checked_div(b) },
    Operator { sign: "+", level: 2, word: "Add", value: |a, b| Some(a.wrapping_add(b)) },
    Operator { sign: "-", level: 2, word: "Sub", value: |a, b| Some(a.wrapping_sub(b)) },
    Operator { sign: "<", level: 3, word: "Lt", value: |a, b| Some(u64::from(a < b)) },
    Operator { sign: "==", level: 3, word: "Eq", value: |a, b| Some(u64::from(a == b)) },
];

impl Tree {
    pub fn drawn(next: &mut dyn FnMut() -> usize, depth: usize) -> Tree {
        if depth == 0 || next() % 6 == 0 {
            let numbers = [0, 1, 2, 3, 400, u64::MAX];
            return Tree::Number(numbers[next() % numbers.len()]);
        }
        // every other operator compares
        let among = if next() % 2 == 0 { &OPERATORS[4..] } else { &OPERATORS[..] };
        let operator = &among[next() % among.len()];
        Tree::Join(operator, Box::new(Tree::drawn(next, depth - 1)), Box::new(Tree::drawn(next, depth - 1)))
    }

    pub fn value(&self) -> Option<u64> {
        match self {
            Tree::Number(n) => Some(*n),
            Tree::Join(o, a, b) => (o.value)(a.value()?, b.value()?),
        }
    }

    pub fn k(&self) -> u64 {
        match self {
            Tree::Number(_) => 1,
            Tree::Join(_, a, b) => a.k() + b.k(),
        }
    }

    pub fn p(&self) -> u64 {
        match self {
            Tree::Number(_) => 1,
            Tree::Join(_, a, b) => a.p().max(b.p() + 1),
        }
    }

    pub fn operations(&self) -> String {
        match self {
            Tree::Number(n) => format!("Push {n}\n"),
            Tree::Join(o, a, b) => format!("{}{}{}\n", a.operations(), b.operations(), o.word),
        }
    }

    /// As an expression, in parentheses where its operator is looser than a level.
    pub fn written(&self, next: &mut dyn FnMut() -> usize, level: u8) -> String {
        match self {
            Tree::Number(n) => n.to_string(),
            Tree::Join(o, a, b) => {
                let blank = ["", " ", "\t", "  "];
                let mut around = || blank[next() % 4];
                let (before, behind) = (around(), around());
                let inner = format!("{}{before}{}{behind}{}", a.written(next, o.level), o.sign, b.written(next, o.level - 1));
                if o.level <= level && next() % 8 > 0 {
                    inner
                } else {
                    format!("({inner})")
                }
            }
        }
    }
}
