//! One operation at a time, each worked out by the proved library.
//!
//! A run has no way to start in its midst. So a step from a position, a stack, a storage and the gas left is a run of its
//! own: it pushes the items of the stack, makes the one operation, and halts, under the gas left and what the pushes cost.
//! What an operation does and costs is nowhere written here.

use atc_vm::{Op, Vm, VmError};

/// A run in its midst.
#[derive(Debug, Clone, PartialEq, Eq)]
pub struct State {
    pub position: usize,
    pub stack: Vec<u64>,
    pub storage: Vec<u64>,
    pub gas: u64,
}

/// What an operation did.
#[derive(Debug)]
pub enum Step {
    /// It cost so much, and led here; or it ended the run.
    Done {
        price: u64,
        after: State,
        ended: bool,
    },
    Refused {
        price: u64,
        error: VmError,
    },
}

#[derive(Debug)]
pub struct Stepper<'a> {
    program: &'a [Op],
    caller: u64,
    // The price of a push.
    push: u64,
}

impl<'a> Stepper<'a> {
    pub fn new(program: &'a [Op], caller: u64) -> Stepper<'a> {
        let mut vm = Vm::new(vec![Op::Push(0)]);
        let push = match vm.run_with_gas(u64::MAX) {
            Ok(_) => vm.receipt().map_or(0, |receipt| receipt.gas_spent),
            Err(_) => 0,
        };
        Stepper {
            program,
            caller,
            push,
        }
    }

    pub fn step(&self, state: &State) -> Step {
        let op = &self.program[state.position];
        let pushes = state.stack.len() as u64 * self.push;
        // No price comes near the most that a limit can be, so nothing is lost there.
        let limit = pushes.saturating_add(state.gas);
        let mut vm = self.machine(op, state, Op::Halt);
        match vm.run_with_gas(limit) {
            Err(error) => Step::Refused {
                price: self.price(op, state, pushes),
                error,
            },
            Ok(stack) => {
                let (spent, operations) = receipt(&vm);
                let price = spent - pushes;
                // `Halt` is the last itself; behind any other the added one is.
                let ended = operations == state.stack.len() as u64 + 1;
                let position = match target(op) {
                    Some(target) if self.jumps(op, state) => target,
                    _ => state.position + 1,
                };
                let after = State {
                    position,
                    stack,
                    storage: vm.state().to_vec(),
                    gas: state.gas - price,
                };
                let ended = ended || position >= self.program.len();
                Step::Done {
                    price,
                    after,
                    ended,
                }
            }
        }
    }

    // Pushes, the operation, `Halt`, and where a jump leads.
    fn machine(&self, op: &Op, state: &State, behind: Op) -> Vm {
        let mut ops: Vec<Op> = state.stack.iter().copied().map(Op::Push).collect();
        let there = ops.len() + 2;
        ops.extend([aimed(op, there), Op::Halt, behind]);
        Vm::with_context(ops, self.caller, state.storage.clone())
    }

    // What 46 carries under a limit for the pushes alone.
    fn price(&self, op: &Op, state: &State, pushes: u64) -> u64 {
        match self.machine(op, state, Op::Halt).run_with_gas(pushes) {
            Err(VmError::OutOfGas { required, .. }) => required,
            _ => 0,
        }
    }

    // Whether it jumps: one operation more is made then, a jump back to the `Halt` behind it.
    fn jumps(&self, op: &Op, state: &State) -> bool {
        let items = state.stack.len();
        let mut vm = self.machine(op, state, Op::Jump(items + 1));
        vm.run_with_gas(u64::MAX).is_ok() && receipt(&vm).1 == items as u64 + 3
    }
}

fn receipt(vm: &Vm) -> (u64, u64) {
    vm.receipt()
        .map_or((0, 0), |receipt| (receipt.gas_spent, receipt.operations))
}

fn target(op: &Op) -> Option<usize> {
    match *op {
        Op::Jump(target) | Op::JumpIfNotZero(target) | Op::JumpIfZero(target) => Some(target),
        _ => None,
    }
}

/// The operation, with another target if it is a jump.
pub fn aimed(op: &Op, target: usize) -> Op {
    match op {
        Op::Jump(_) => Op::Jump(target),
        Op::JumpIfNotZero(_) => Op::JumpIfNotZero(target),
        Op::JumpIfZero(_) => Op::JumpIfZero(target),
        other => other.clone(),
    }
}
