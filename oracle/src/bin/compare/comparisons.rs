//! `assemble` on contracts with `<` and `==`, which the original doesn't have: drawn trees, written out as expressions.
use crate::tally::*;
use atc_vm::sys::{self, Answer};
use original::domain::free_of_both_signs;
use original::tree::Tree;

fn check(tree: &Tree, expression: &str, out: &mut Buffer<u8>) -> Result<Seen, String> {
    let expected = tree.value().unwrap_or(0);
    let text = format!("# contract: t\n# expected: {expected}\n{}Halt\n", tree.operations());
    let (number, words, front) = match tree.value() {
        None => (23, [0; 8], ""),
        Some(value) => (0, [text.len() as u64, tree.k(), tree.p(), value, 0, 0, 0, 0], text.as_str()),
    };
    out.lend(text.len() + 3);
    let contract = format!("fn t(){{return {expression}}}");
    let vector = format!("{{\"expected\":{expected}}}");
    let answer = sys::assemble(contract.as_bytes(), vector.as_bytes(), b"t", out.lent());
    if answer != (Answer { number, words }) {
        return Err(format!("library {answer:?}, document 02 {number} {words:?}"));
    }
    if !out.holds(front.as_bytes()) {
        return Err(format!("answer {number}, but the lent buffer differs"));
    }
    Ok(Seen::Compared(number))
}

pub fn compare(rounds: u64) -> Tally {
    let mut tally = Tally::new("assemble, drawn trees with `<` and `==`");
    let mut out = Buffer::new(|i| (i * 131 % 251) as u8);
    for round in 0..rounds {
        let mut d = Draw::new(5000 + round);
        for i in 0..220_000 {
            let tree = Tree::drawn(&mut || d.below(1 << 20), 1 + i % 7);
            let expression = tree.written(&mut || d.below(1 << 20), 3);
            if free_of_both_signs(expression.as_bytes()) {
                continue;
            }
            match check(&tree, &expression, &mut out) {
                Ok(seen) => tally.saw(seen),
                Err(what) => tally.differs(|| (expression.len(), format!("expression {expression}\n{what}"))),
            }
        }
    }
    tally
}
