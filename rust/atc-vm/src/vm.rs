//! The verifier and the metered stack machine.

use crate::context::{ChainContext, ContextError};
use crate::{refusal, sys};
use std::cell::Cell;
use std::fmt;

/// A program has at most this many operations.
pub const MAX_PROGRAM_OPS: usize = 65_536;
/// The stack has at most this many items.
pub const MAX_STACK_ITEMS: usize = 4_096;
/// The storage has at most this many slots.
pub const MAX_STORAGE_SLOTS: usize = 65_536;

/// An operation, in the order of document 01's kinds 0 to 15.
#[derive(Debug, Clone, PartialEq, Eq)]
#[allow(missing_docs)]
pub enum Op {
    Push(u64),
    Add,
    Sub,
    Mul,
    Div,
    Dup,
    Swap,
    Jump(usize),
    JumpIfNotZero(usize),
    Eq,
    Lt,
    Load(usize),
    Store(usize),
    Caller,
    JumpIfZero(usize),
    Halt,
}

const STORE: u8 = 12;

impl Op {
    fn encode(&self) -> (u8, u64) {
        match *self {
            Op::Push(value) => (0, value),
            Op::Add => (1, 0),
            Op::Sub => (2, 0),
            Op::Mul => (3, 0),
            Op::Div => (4, 0),
            Op::Dup => (5, 0),
            Op::Swap => (6, 0),
            Op::Jump(target) => (7, target as u64),
            Op::JumpIfNotZero(target) => (8, target as u64),
            Op::Eq => (9, 0),
            Op::Lt => (10, 0),
            Op::Load(slot) => (11, slot as u64),
            Op::Store(slot) => (STORE, slot as u64),
            Op::Caller => (13, 0),
            Op::JumpIfZero(target) => (14, target as u64),
            Op::Halt => (15, 0),
        }
    }

    pub(crate) fn decode(kind: u8, operand: u64) -> Op {
        match kind {
            0 => Op::Push(operand),
            1 => Op::Add,
            2 => Op::Sub,
            3 => Op::Mul,
            4 => Op::Div,
            5 => Op::Dup,
            6 => Op::Swap,
            7 => Op::Jump(operand as usize),
            8 => Op::JumpIfNotZero(operand as usize),
            9 => Op::Eq,
            10 => Op::Lt,
            11 => Op::Load(operand as usize),
            STORE => Op::Store(operand as usize),
            13 => Op::Caller,
            14 => Op::JumpIfZero(operand as usize),
            15 => Op::Halt,
            // Proved: crates/relied, `read_relied` (kinds).
            _ => unreachable!("the reader gives kinds 0 to 15, not {kind}"),
        }
    }

    // How many slots a storage needs for this to be stored in it; none where it can't be.
    fn reach(&self) -> usize {
        match *self {
            Op::Store(slot) if slot < MAX_STORAGE_SLOTS => slot + 1,
            _ => 0,
        }
    }
}

const EMPTY_PROGRAM: &str = "empty program";
const JUMP_OUT_OF_RANGE: &str = "jump target out of range";

/// Why a program is refused or a run fails. The storage is then as it was.
#[derive(Debug, Clone, PartialEq, Eq)]
pub enum VmError {
    /// 47: the stack has too few items.
    StackUnderflow,
    /// 48: a push meets 4,096 items.
    StackLimitExceeded,
    /// 50: a stored slot is 65,536 or more.
    StorageLimitExceeded {
        /// The slot and one, or 2^64 − 1 for slot 2^64 − 1.
        requested: usize,
        /// [`MAX_STORAGE_SLOTS`].
        limit: usize,
    },
    /// 43: the storage has more than 65,536 slots before the run.
    StateTooLarge {
        /// How many it has.
        used: usize,
        /// [`MAX_STORAGE_SLOTS`].
        limit: usize,
    },
    /// 42: the program has more than 65,536 operations.
    ProgramTooLarge {
        /// How many it has.
        size: usize,
        /// [`MAX_PROGRAM_OPS`].
        limit: usize,
    },
    /// 49: the divisor is 0.
    DivisionByZero,
    /// 46: the price of an operation exceeds the gas left.
    OutOfGas {
        /// The price.
        required: u64,
        /// The gas left.
        remaining: u64,
    },
    /// 41 with `empty program`, 45 with `jump target out of range`.
    InvalidProgram(&'static str),
    /// 35 to 40: the context doesn't pass the chain gate.
    Context(ContextError),
}

impl VmError {
    /// Document 01's number.
    pub fn number(&self) -> u64 {
        match self {
            VmError::Context(error) => error.number(),
            VmError::InvalidProgram(EMPTY_PROGRAM) => 41,
            VmError::ProgramTooLarge { .. } => 42,
            VmError::StateTooLarge { .. } => 43,
            VmError::InvalidProgram(_) => 45,
            VmError::OutOfGas { .. } => 46,
            VmError::StackUnderflow => 47,
            VmError::StackLimitExceeded => 48,
            VmError::DivisionByZero => 49,
            VmError::StorageLimitExceeded { .. } => 50,
        }
    }

    fn of(answer: sys::Answer) -> VmError {
        if let Some(error) = ContextError::of(answer.number) {
            return VmError::Context(error);
        }
        match answer.number {
            41 => VmError::InvalidProgram(EMPTY_PROGRAM),
            42 => VmError::ProgramTooLarge {
                size: answer.word(0),
                limit: MAX_PROGRAM_OPS,
            },
            43 => VmError::StateTooLarge {
                used: answer.word(0),
                limit: MAX_STORAGE_SLOTS,
            },
            45 => VmError::InvalidProgram(JUMP_OUT_OF_RANGE),
            46 => VmError::OutOfGas {
                required: answer.words[0],
                remaining: answer.words[1],
            },
            47 => VmError::StackUnderflow,
            48 => VmError::StackLimitExceeded,
            49 => VmError::DivisionByZero,
            50 => VmError::StorageLimitExceeded {
                requested: answer.word(0),
                limit: MAX_STORAGE_SLOTS,
            },
            // Proved: crates/relied, `verify_relied` (known), `run_relied` (metered_handed, transition_handed).
            number => unreachable!(
                "a program of known kinds with enough memory lent is not refused with {number}"
            ),
        }
    }
}

impl fmt::Display for VmError {
    fn fmt(&self, f: &mut fmt::Formatter<'_>) -> fmt::Result {
        match self {
            VmError::StackUnderflow | VmError::StackLimitExceeded | VmError::DivisionByZero => {
                f.write_str(refusal::text(self.number()))
            }
            VmError::StorageLimitExceeded { requested, limit } => {
                write!(
                    f,
                    "a store needs {requested} slots, and {limit} are the limit"
                )
            }
            VmError::StateTooLarge { used, limit } => {
                write!(f, "the storage has {used} slots, and {limit} are the limit")
            }
            VmError::ProgramTooLarge { size, limit } => {
                write!(
                    f,
                    "the program has {size} operations, and {limit} are the limit"
                )
            }
            VmError::OutOfGas {
                required,
                remaining,
            } => {
                write!(
                    f,
                    "an operation costs {required} gas, and {remaining} is left"
                )
            }
            VmError::InvalidProgram(why) => write!(f, "invalid program: {why}"),
            VmError::Context(error) => error.fmt(f),
        }
    }
}

impl std::error::Error for VmError {
    fn source(&self) -> Option<&(dyn std::error::Error + 'static)> {
        match self {
            VmError::Context(error) => Some(error),
            _ => None,
        }
    }
}

/// What a successful run took.
#[derive(Debug, Clone, Copy, PartialEq, Eq)]
pub struct Receipt {
    /// The gas spent.
    pub gas_spent: u64,
    /// The operations executed, `Halt` included.
    pub operations: u64,
}

/// A program, its caller and its storage.
///
/// Every run starts with an empty stack at the first operation. A run that fails leaves the storage as it was.
///
/// A run is lent a stack of 4,096 items, and as many slots as the storage has or the program may store to, whichever is
/// more. Each thread keeps what it lends for its next run, 1,056 KiB at most. A machine keeps memory for at most twice
/// the slots that are used, whatever slots its program names, or what the storage had room for when it was given.
///
/// ```
/// use atc_vm::{Op, Vm, VmError};
///
/// let mut vm = Vm::with_context(vec![Op::Caller, Op::Store(2), Op::Push(1), Op::Push(0), Op::Div], 9, vec![4]);
/// assert_eq!(vm.run_with_gas(100), Err(VmError::DivisionByZero));
/// assert_eq!(vm.state(), [4]);
///
/// let mut vm = Vm::with_context(vec![Op::Caller, Op::Store(2), Op::Load(0)], 9, vec![4]);
/// assert_eq!(vm.run_with_gas(100), Ok(vec![4]));
/// assert_eq!(vm.state(), [4, 0, 9]);
/// assert_eq!(vm.receipt().unwrap().gas_spent, 7);
/// ```
#[derive(Debug, Clone)]
pub struct Vm {
    program: Program,
    caller: u64,
    storage: Vec<u64>,
    receipt: Option<Receipt>,
}

// Made of `Op`s alone: kinds and operands have one length, and no kind is above 15. Each `Store` names a slot below
// `reach`, or one past the limit.
#[derive(Debug, Clone)]
struct Program {
    kinds: Vec<u8>,
    operands: Vec<u64>,
    reach: usize,
}

impl Program {
    fn of(ops: &[Op]) -> Program {
        let (kinds, operands) = ops.iter().map(Op::encode).unzip();
        let reach = ops.iter().map(Op::reach).max().unwrap_or(0);
        Program {
            kinds,
            operands,
            reach,
        }
    }
}

impl Vm {
    /// A program with caller 0 and no storage.
    pub fn new(program: Vec<Op>) -> Self {
        Vm::with_context(program, 0, Vec::new())
    }

    /// A program with its caller and the storage that it finds.
    pub fn with_context(program: Vec<Op>, caller: u64, storage: Vec<u64>) -> Self {
        Vm {
            program: Program::of(&program),
            caller,
            storage,
            receipt: None,
        }
    }

    /// What the operation `Caller` pushes.
    pub fn caller(&self) -> u64 {
        self.caller
    }

    /// The used slots of the storage.
    pub fn state(&self) -> &[u64] {
        &self.storage
    }

    /// Gas and operations of the last run, if it succeeded.
    pub fn receipt(&self) -> Option<Receipt> {
        self.receipt
    }

    /// The transition with no gas: only a program that starts with `Halt` succeeds.
    pub fn execute_state_transition(
        &mut self,
        context: &ChainContext,
        computed_genesis_id: &str,
        expected_protocol: &str,
        expected_vm: &str,
    ) -> Result<Vec<u64>, VmError> {
        let gate = context.gate(computed_genesis_id, expected_protocol, expected_vm);
        self.perform(|run| sys::execute_state_transition(gate, run))
    }

    /// The chain gate, the verifier and the run under a gas limit: the items of the stack, bottom first.
    ///
    /// ```
    /// use atc_vm::{ChainContext, ContextError, Op, Vm, VmError};
    ///
    /// let genesis = "0123456789abcdef".repeat(4);
    /// let mut context = ChainContext {
    ///     chain_id: "atc".into(),
    ///     network_id: "mainnet".into(),
    ///     genesis_id: genesis.clone(),
    ///     protocol_version: "1".into(),
    ///     vm_version: "1".into(),
    /// };
    /// let mut vm = Vm::new(vec![Op::Push(2), Op::Push(3), Op::Mul]);
    /// assert_eq!(vm.execute_state_transition_with_gas(&context, &genesis, "1", "1", 4), Ok(vec![6]));
    /// assert_eq!(
    ///     vm.execute_state_transition_with_gas(&context, &genesis, "1", "1", 3),
    ///     Err(VmError::OutOfGas { required: 2, remaining: 1 })
    /// );
    /// context.network_id = "moon".into();
    /// assert_eq!(
    ///     vm.execute_state_transition_with_gas(&context, &genesis, "1", "1", 4),
    ///     Err(VmError::Context(ContextError::InvalidNetworkId))
    /// );
    /// ```
    pub fn execute_state_transition_with_gas(
        &mut self,
        context: &ChainContext,
        computed_genesis_id: &str,
        expected_protocol: &str,
        expected_vm: &str,
        gas_limit: u64,
    ) -> Result<Vec<u64>, VmError> {
        let gate = context.gate(computed_genesis_id, expected_protocol, expected_vm);
        self.perform(|run| sys::execute_state_transition_with_gas(gate, run, gas_limit))
    }

    /// The verifier alone: 41, 42, 43, 45.
    ///
    /// ```
    /// use atc_vm::{Op, Vm};
    ///
    /// assert_eq!(Vm::new(vec![Op::Push(9)]).verify(), Ok(()));
    /// assert_eq!(Vm::new(vec![]).verify().unwrap_err().number(), 41);
    /// assert_eq!(Vm::new(vec![Op::Jump(1)]).verify().unwrap_err().number(), 45);
    /// ```
    pub fn verify(&self) -> Result<(), VmError> {
        let Program {
            kinds, operands, ..
        } = &self.program;
        let answer = sys::verify(kinds, operands, self.storage.len() as u64);
        if answer.number == 0 {
            Ok(())
        } else {
            Err(VmError::of(answer))
        }
    }

    /// The verifier and the run under a gas limit, without the chain gate: the items of the stack, bottom first.
    pub fn run_with_gas(&mut self, gas_limit: u64) -> Result<Vec<u64>, VmError> {
        self.perform(|run| sys::run_with_gas(run, gas_limit))
    }

    // Lends what a run needs and no more, since all that is lent is cleared: 4,096 items, and one number of slots, which
    // holds those used and those that the program may store to. So 34 and 51 can't be given; nor can 44. That items and used
    // slots lie in what is lent, and that what former runs left there never shows, is proved in crates/relied
    // (`success_within`, `same_run`).
    fn perform(
        &mut self,
        call: impl FnOnce(sys::Run<'_>) -> sys::Answer,
    ) -> Result<Vec<u64>, VmError> {
        let used = self.storage.len();
        let slots = used.max(self.program.reach);
        let mut lent: Box<Lent> = LENT.try_with(Cell::take).ok().flatten().unwrap_or_default();
        // A program may name slots that no run uses. Where they would take more than the used ones, the thread lends them.
        let own = slots <= self.storage.capacity().max(2 * used);
        let storage = if own {
            self.storage.reserve_exact(slots - used);
            self.storage.resize(slots, 0);
            &mut self.storage[..]
        } else {
            let storage = first(&mut lent.storage, slots);
            storage[..used].copy_from_slice(&self.storage);
            storage
        };
        let answer = call(sys::Run {
            kinds: &self.program.kinds,
            operands: &self.program.operands,
            caller: self.caller,
            stack: first(&mut lent.stack, MAX_STACK_ITEMS),
            work: first(&mut lent.work, slots),
            storage,
            used: used as u64,
        });
        let succeeded = answer.number == 0;
        let after = if succeeded { answer.word(3) } else { used };
        if own {
            self.storage.truncate(after);
        } else if succeeded {
            self.storage.clear();
            self.storage.reserve_exact(after);
            self.storage.extend_from_slice(&lent.storage[..after]);
        }
        self.receipt = succeeded.then_some(Receipt {
            gas_spent: answer.words[0],
            operations: answer.words[1],
        });
        let result = if succeeded {
            Ok(lent.stack[..answer.word(2)].to_vec())
        } else {
            Err(VmError::of(answer))
        };
        if slots <= MAX_STORAGE_SLOTS {
            // On a thread that is ending there is nothing to keep them for.
            let _ = LENT.try_with(|kept| kept.set(Some(lent)));
        }
        result
    }
}

// The first n words of a buffer, or of a new one where it has fewer. What they hold to begin with does not matter.
fn first(buffer: &mut Vec<u64>, n: usize) -> &mut [u64] {
    if buffer.len() < n {
        *buffer = vec![0; n];
    }
    &mut buffer[..n]
}

// The buffers of a run. Each thread keeps those of its last run for its next.
#[derive(Default)]
struct Lent {
    stack: Vec<u64>,
    work: Vec<u64>,
    storage: Vec<u64>,
}

thread_local! {
    static LENT: Cell<Option<Box<Lent>>> = const { Cell::new(None) };
}
