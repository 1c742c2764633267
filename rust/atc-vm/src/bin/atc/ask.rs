//! Questions to the proved assembler and machine, put as contracts of the reader's own with a part changed.

use crate::files::Source;
use crate::layout::Member;
use atc_vm::{assemble_text, parse_ops, Op, Vm};

/// The number with which a contract ends: 0 where it is accepted.
pub fn number(contract: &str, vector: &Source) -> u64 {
    assemble_text(contract, &vector.bytes, "x").map_or_else(|refused| refused.number(), |_| 0)
}

/// The least of 0 to n - 1 of which something holds that holds of all after it.
pub fn first(n: usize, holds: impl Fn(usize) -> bool) -> Option<usize> {
    let (mut low, mut high) = (0, n);
    while low < high {
        let middle = low + (high - low) / 2;
        if holds(middle) {
            high = middle;
        } else {
            low = middle + 1;
        }
    }
    (low < n).then_some(low)
}

/// What an expression comes to.
#[derive(Debug)]
pub struct Worked {
    pub value: u64,
    pub gas: u64,
    pub k: u64,
}

/// Works out an expression behind a beginning of the contract, or gives the refusal. The contract that is assembled
/// returns the expected number, whatever the expression's value: `E * 0 + expected`. So it is accepted, and the
/// operations of E are those before the five of ` * 0 + expected` and `Halt`.
pub fn worked(before: &str, expression: &str, vector: &Source) -> Result<Worked, u64> {
    let member = Member::of(&vector.text, "expected");
    let expected = member.map_or("", |member| &vector.text[member.digits]);
    let contract = format!("{before}return {expression} * 0 + {expected}}}");
    let refused = |error: atc_vm::AssembleError| error.number();
    let assembled = assemble_text(contract, &vector.bytes, "x").map_err(refused)?;
    let mut ops = parse_ops(&assembled.text).map_err(|error| error.number())?;
    ops.truncate(ops.len().saturating_sub(5));
    let pushes = ops.iter().filter(|op| matches!(op, Op::Push(_))).count();
    let mut vm = Vm::new(ops);
    let stack = vm.run_with_gas(u64::MAX).map_err(|error| error.number())?;
    Ok(Worked {
        value: stack.last().copied().unwrap_or(0),
        gas: vm.receipt().map_or(0, |receipt| receipt.gas_spent),
        k: pushes as u64,
    })
}
