//! A run: whole, and step by step.

use crate::failure::Failure;
use crate::setting::Setting;
use crate::step::{State, Step, Stepper};
use atc_vm::{Op, Receipt, Vm, VmError};

/// A run by one call of the library.
#[derive(Debug)]
pub struct Whole {
    pub result: Result<Vec<u64>, VmError>,
    pub storage: Vec<u64>,
    pub receipt: Option<Receipt>,
}

pub fn whole(program: &[Op], setting: &Setting) -> Whole {
    let mut vm = Vm::with_context(program.to_vec(), setting.caller, setting.storage.clone());
    let result = vm.run_with_gas(setting.gas);
    Whole {
        result,
        storage: vm.state().to_vec(),
        receipt: vm.receipt(),
    }
}

/// How a run that was followed step by step ended.
#[derive(Debug)]
pub struct End {
    /// Operations done.
    pub operations: u64,
    /// After the last of them.
    pub state: State,
    /// The price and the refusal of the operation there.
    pub refused: Option<(u64, VmError)>,
}

/// Follows a run that the verifier accepts. `each` sees the state before a step and the step; the walk ends early, with
/// nothing, where it says no.
pub fn walk(
    program: &[Op],
    setting: &Setting,
    mut each: impl FnMut(&State, &Step) -> Result<bool, Failure>,
) -> Result<Option<End>, Failure> {
    let stepper = Stepper::new(program, setting.caller);
    let mut operations = 0;
    let mut state = State {
        position: 0,
        stack: Vec::new(),
        storage: setting.storage.clone(),
        gas: setting.gas,
    };
    loop {
        let step = stepper.step(&state);
        if !each(&state, &step)? {
            return Ok(None);
        }
        let (ended, refused) = match step {
            Step::Refused { price, error } => (true, Some((price, error))),
            Step::Done { after, ended, .. } => {
                operations += 1;
                state = after;
                (ended, None)
            }
        };
        if ended {
            return Ok(Some(End {
                operations,
                state,
                refused,
            }));
        }
    }
}

// In numbers that steps copy: less than a second's worth.
const PATIENCE: usize = 1 << 30;
// What a step copies whatever its stack and storage.
const LEAST: usize = 4_096;

/// The end of a run, unless it is so far that following it there would take long.
pub fn end(program: &[Op], setting: &Setting) -> Option<End> {
    let mut left = PATIENCE;
    let ended = walk(program, setting, |before, _| {
        let cost = LEAST + 8 * (before.stack.len() + before.storage.len());
        left = left.saturating_sub(cost);
        Ok(left > 0)
    });
    ended.ok().flatten()
}

/// Holds the steps against the run by one call: what differs, if anything does.
pub fn difference(end: &End, whole: &Whole, setting: &Setting) -> Option<String> {
    let steps = match &end.refused {
        Some((_, error)) => Whole {
            result: Err(error.clone()),
            storage: setting.storage.clone(),
            receipt: None,
        },
        None => Whole {
            result: Ok(end.state.stack.clone()),
            storage: end.state.storage.clone(),
            receipt: Some(Receipt {
                gas_spent: setting.gas - end.state.gas,
                operations: end.operations,
            }),
        },
    };
    let same = steps.result == whole.result
        && steps.storage == whole.storage
        && steps.receipt == whole.receipt;
    (!same).then(|| {
        let told = |run: &Whole| match &run.result {
            Ok(stack) => format!("success with {} items, {:?}", stack.len(), run.receipt),
            Err(error) => format!("{}: {error}", error.number()),
        };
        format!(
            "the steps end with {}, and the run with {}",
            told(&steps),
            told(whole)
        )
    })
}

#[cfg(test)]
mod tests {
    use super::*;
    use std::collections::BTreeMap;

    // The same numbers in every test run.
    struct Dice(u64);

    impl Dice {
        fn below(&mut self, n: u64) -> u64 {
            let next = self.0.wrapping_mul(6_364_136_223_846_793_005);
            self.0 = next.wrapping_add(1_442_695_040_888_963_407);
            (self.0 >> 33) % n
        }

        fn one_of<T: Copy>(&mut self, all: &[T]) -> T {
            all[self.below(all.len() as u64) as usize]
        }

        fn op(&mut self, length: usize) -> Op {
            let target = self.below(length as u64) as usize;
            let slot = self.one_of(&[0, 1, 2, 5, 40]);
            match self.below(24) {
                0..=7 => Op::Push(self.one_of(&[0, 1, 2, 3, u64::MAX])),
                8 => Op::Add,
                9 => Op::Sub,
                10 => Op::Mul,
                11 => Op::Div,
                12 => Op::Dup,
                13 => Op::Swap,
                14 => Op::Jump(target),
                15 => Op::JumpIfNotZero(target),
                16 => Op::JumpIfZero(target),
                17 => Op::Eq,
                18 => Op::Lt,
                19 => Op::Load(slot),
                20 => Op::Store(slot),
                21 => Op::Store(self.one_of(&[0, 65_535, 65_536, usize::MAX])),
                22 => Op::Caller,
                _ => Op::Halt,
            }
        }

        fn program(&mut self) -> Vec<Op> {
            let length = 1 + self.below(16) as usize;
            let pushes = self.below(3) as usize;
            let of = |at| match at {
                at if at < pushes => Op::Push(self.below(3)),
                _ => self.op(length),
            };
            (0..length).map(of).collect()
        }

        fn setting(&mut self) -> Setting {
            let most = self.one_of(&[1, 10, 30, 300]);
            Setting {
                gas: self.below(most),
                caller: self.below(9),
                storage: (0..self.below(4)).collect(),
            }
        }
    }

    fn number(program: &[Op], setting: &Setting) -> u64 {
        let whole = whole(program, setting);
        let end = end(program, setting).expect("it isn't long");
        let differs = difference(&end, &whole, setting);
        assert_eq!(differs, None, "{program:?} {setting:?}");
        whole.result.map_or_else(|error| error.number(), |_| 0)
    }

    #[test]
    fn steps_end_as_runs_do() {
        let mut dice = Dice(15);
        let mut met = BTreeMap::new();
        for _ in 0..6_000 {
            let (program, setting) = (dice.program(), dice.setting());
            *met.entry(number(&program, &setting)).or_insert(0) += 1;
        }
        for number in [0, 46, 47, 49, 50] {
            assert!(met.get(&number).is_some_and(|times| *times > 20), "{met:?}");
        }
    }

    #[test]
    fn full_stacks() {
        let setting = Setting {
            gas: 20_000,
            caller: 7,
            storage: vec![],
        };
        assert_eq!(number(&[Op::Push(1), Op::Jump(0)], &setting), 48);
        // A jump of either kind with 4,096 items.
        for (jump, ended) in [
            (Op::Jump(4_098), 0),
            (Op::JumpIfZero(4_098), 48),
            (Op::JumpIfNotZero(4_098), 0),
        ] {
            let mut program = vec![Op::Push(1); 4_096];
            program.extend([jump, Op::Push(2), Op::Halt, Op::Push(3)]);
            program[4_097] = Op::Jump(4_099);
            program.extend([Op::Push(4), Op::Push(5)]);
            assert_eq!(number(&program, &setting), ended);
        }
    }

    #[test]
    fn a_difference_is_seen() {
        let setting = Setting {
            gas: 9,
            caller: 7,
            storage: vec![1],
        };
        let program = [Op::Push(1), Op::Push(2)];
        let run = whole(&program, &setting);
        let alter = |change: fn(&mut End)| {
            let mut end = end(&program, &setting).unwrap();
            change(&mut end);
            difference(&end, &run, &setting)
        };
        assert_eq!(alter(|_| ()), None);
        assert!(alter(|end| end.operations += 1).is_some());
        assert!(alter(|end| end.state.gas -= 1).is_some());
        assert!(alter(|end| end.state.stack[0] = 5).is_some());
        assert!(alter(|end| end.state.storage[0] = 5).is_some());
        assert!(alter(|end| end.refused = Some((2, VmError::DivisionByZero))).is_some());
    }
}
