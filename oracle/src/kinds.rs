//! The original's operations as kind numbers with operands.
use crate::vm::Op;

pub fn kind_and_operand(op: &Op) -> (u8, u64) {
    match *op {
        Op::Push(v) => (0, v),
        Op::Add => (1, 0),
        Op::Sub => (2, 0),
        Op::Mul => (3, 0),
        Op::Div => (4, 0),
        Op::Dup => (5, 0),
        Op::Swap => (6, 0),
        Op::Jump(t) => (7, t as u64),
        Op::JumpIfNotZero(t) => (8, t as u64),
        Op::Eq => (9, 0),
        Op::Lt => (10, 0),
        Op::Load(s) => (11, s as u64),
        Op::Store(s) => (12, s as u64),
        Op::Caller => (13, 0),
        Op::JumpIfZero(t) => (14, t as u64),
        Op::Halt => (15, 0),
    }
}

pub fn op(&(kind, n): &(u8, u64)) -> Op {
    let at = n as usize;
    match kind {
        0 => Op::Push(n),
        1 => Op::Add,
        2 => Op::Sub,
        3 => Op::Mul,
        4 => Op::Div,
        5 => Op::Dup,
        6 => Op::Swap,
        7 => Op::Jump(at),
        8 => Op::JumpIfNotZero(at),
        9 => Op::Eq,
        10 => Op::Lt,
        11 => Op::Load(at),
        12 => Op::Store(at),
        13 => Op::Caller,
        14 => Op::JumpIfZero(at),
        15 => Op::Halt,
        _ => panic!("the original has no kind {kind}"),
    }
}
