//! The cases of crates/replay that call the verifier, the machine and the transitions. The original gives neither gas spent nor
//! operations executed. The gas spent is the least limit under which the run succeeds. Below it the original names the gas left,
//! so every operation with a price shows as one sum of gas spent before it; Halt, which is free, shows when every Halt is
//! replaced by a jump to itself. What becomes of lent buffers past items and used slots can't be asked, and is left open.
use crate::cases::{self, list, told};
use crate::draw::next;
use original::context::ChainContext;
use original::kinds::op;
use original::numbers::context_number;
use original::vm::{Vm, VmError};
use std::collections::HashSet;

type Operation = (u8, u64);

const PUSH: u8 = 0;
const ADD: u8 = 1;
const DIV: u8 = 4;
const DUP: u8 = 5;
const SWAP: u8 = 6;
const JUMP: u8 = 7;
const JUMP_IF_NOT_ZERO: u8 = 8;
const LT: u8 = 10;
const LOAD: u8 = 11;
const STORE: u8 = 12;
const CALLER: u8 = 13;
const JUMP_IF_ZERO: u8 = 14;
const HALT: u8 = 15;

/// Document 01's number of a refusal, and the values that it carries. The original has one name for 43 and 50: 43 is its verifier's.
fn refusal(e: &VmError, verifier: bool) -> Vec<u64> {
    match e {
        VmError::Context(e) => vec![context_number(e)],
        VmError::InvalidProgram("empty program") => vec![41],
        VmError::ProgramTooLarge { size, .. } => vec![42, *size as u64],
        VmError::StorageLimitExceeded { requested, .. } if verifier => vec![43, *requested as u64],
        VmError::InvalidProgram(_) => vec![45],
        VmError::OutOfGas { required, remaining } => vec![46, *required, *remaining],
        VmError::StackUnderflow => vec![47],
        VmError::StackLimitExceeded => vec![48],
        VmError::DivisionByZero => vec![49],
        VmError::StorageLimitExceeded { requested, .. } => vec![50, *requested as u64],
        VmError::InvalidJump(_) => unreachable!(),
    }
}

/// What a run or a transition is given. The lent storage is `slots`, of which `used` are the state.
#[derive(Clone)]
struct Case {
    program: Vec<Operation>,
    caller: u64,
    limit: u64,
    used: usize,
    slots: Vec<u64>,
}

fn case(program: &[Operation], limit: u64) -> Case {
    Case { program: program.to_vec(), caller: 7, limit, used: 0, slots: vec![7; 4] }
}

type Texts = [String; 8];

struct Cases<'a> {
    all: &'a mut cases::Cases,
    seen: HashSet<(char, Vec<String>)>,
}

impl Cases<'_> {
    fn new(&mut self, call: char, arguments: &[String], answer: &str) {
        if self.seen.insert((call, arguments.to_vec())) {
            self.all.add('o', call, arguments, answer);
        }
    }

    fn verify(&mut self, program: &[Operation], used: usize) {
        let vm = Vm::with_context(program.iter().map(op).collect(), 0, vec![0; used]);
        let answer = vm.verify().map_or_else(|e| refusal(&e, true), |()| vec![0]);
        self.new('C', &[&lists(program)[..], &[used.to_string()]].concat(), &told(answer[0], &answer[1..]));
    }

    /// The call's result, whether the verifier refuses, and the state after it.
    fn ask(call: char, texts: &Texts, c: &Case, limit: u64) -> (Result<Vec<u64>, VmError>, bool, Vec<u64>) {
        let mut vm = Vm::with_context(c.program.iter().map(op).collect(), c.caller, c.slots[..c.used].to_vec());
        let verifier = vm.verify().is_err();
        let context = ChainContext {
            chain_id: texts[0].clone(),
            network_id: texts[1].clone(),
            genesis_id: texts[2].clone(),
            protocol_version: texts[3].clone(),
            vm_version: texts[4].clone(),
        };
        let answer = match call {
            'R' => vm.run_with_gas(limit),
            'T' => vm.execute_state_transition_with_gas(&context, &texts[5], &texts[6], &texts[7], limit),
            'S' => vm.execute_state_transition(&context, &texts[5], &texts[6], &texts[7]),
            _ => unreachable!(),
        };
        let state = vm.state().to_vec();
        (answer, verifier, state)
    }

    /// The least limit under which the run succeeds, given one under which it does.
    fn gas_spent(call: char, texts: &Texts, c: &Case) -> u64 {
        if call == 'S' {
            return 0;
        }
        let (mut low, mut high) = (0, c.limit);
        while low < high {
            let middle = low + (high - low) / 2;
            match Self::ask(call, texts, c, middle).0 {
                Ok(_) => high = middle,
                Err(VmError::OutOfGas { .. }) => low = middle + 1,
                Err(e) => panic!("{e:?}"),
            }
        }
        low
    }

    /// Every limit below the gas spent ends at one operation more, or at the same.
    fn operations(call: char, texts: &Texts, c: &Case, spent: u64) -> u64 {
        let before = |limit| match Self::ask(call, texts, c, limit).0 {
            Err(VmError::OutOfGas { remaining, .. }) => limit - remaining,
            other => panic!("{other:?}"),
        };
        let priced = (0..spent).map(before).collect::<HashSet<_>>().len() as u64;
        let endless = |(i, o): (usize, &Operation)| if o.0 == HALT { (JUMP, i as u64) } else { *o };
        let endless = Case { program: c.program.iter().enumerate().map(endless).collect(), ..c.clone() };
        priced + u64::from(Self::ask('R', texts, &endless, spent + 1).0.is_err())
    }

    fn add(&mut self, call: char, texts: &Texts, c: &Case) {
        let (answer, verifier, state) = Self::ask(call, texts, c, c.limit);
        let (numbers, items) = match &answer {
            Ok(stack) => {
                let spent = Self::gas_spent(call, texts, c);
                let operations = Self::operations(call, texts, c, spent);
                (vec![0, spent, operations, stack.len() as u64, state.len() as u64], &stack[..])
            }
            Err(e) => (refusal(e, verifier), &[][..]),
        };
        assert!(answer.is_ok() || state == c.slots[..c.used]);
        assert!(state.len() <= c.slots.len(), "51 is document 01's own");
        let given = [c.used as u64, c.caller, c.limit, 4096, c.slots.len() as u64].map(|n| n.to_string());
        let mut arguments = [&lists(&c.program)[..], &given, &[list(&c.slots)]].concat();
        if call != 'R' {
            arguments.push(cases::texts(texts));
        }
        self.new(call, &arguments, &format!("{} | {} | {}", told(numbers[0], &numbers[1..]), list(items), list(&state)));
    }

    fn run(&mut self, c: &Case) {
        self.add('R', &Texts::default(), c);
    }

    fn plain(&mut self, program: &[Operation], limit: u64) {
        self.run(&case(program, limit));
    }

    /// Under every limit from 0 to one more than it needs, or to the last limit given.
    fn every_limit(&mut self, c: &Case) {
        let out_of_gas = |limit| matches!(Self::ask('R', &Texts::default(), c, limit).0, Err(VmError::OutOfGas { .. }));
        let mut limit = 0;
        while limit < c.limit && out_of_gas(limit) {
            self.run(&Case { limit, ..c.clone() });
            limit += 1;
        }
        self.run(&Case { limit, ..c.clone() });
        self.run(&Case { limit: limit + 1, ..c.clone() });
    }
}

struct Draw(u64);

impl Draw {
    fn below(&mut self, n: u64) -> u64 {
        next(&mut self.0) as u64 % n
    }

    fn value(&mut self) -> u64 {
        match self.below(8) {
            0 => u64::MAX - self.below(3),
            1 => 1 << self.below(64),
            2 => self.below(1 << 33),
            _ => self.below(5),
        }
    }

    fn slot(&mut self) -> u64 {
        match self.below(20) {
            0 => 65_536,
            1 => u64::MAX - self.below(2),
            n => n % 8,
        }
    }

    /// Pushes, then any kinds; jumps mostly within the program.
    fn program(&mut self) -> Vec<Operation> {
        let size = 1 + self.below(14);
        let pushes = self.below(5).min(size);
        (0..size)
            .map(|i| {
                let kind = if i < pushes { 0 } else { self.below(19) };
                match kind {
                    0 | 16.. => (PUSH, self.value()),
                    7 | 8 | 14 => (kind as u8, if self.below(30) == 0 { size } else { self.below(size) }),
                    11 | 12 => (kind as u8, self.slot()),
                    _ => (kind as u8, 0),
                }
            })
            .collect()
    }

    fn case(&mut self) -> Case {
        let program = self.program();
        let limit = if self.below(3) == 0 { self.below(12) } else { 12 + self.below(60) };
        let slots = (0..8).map(|_| self.value()).collect();
        Case { program, caller: self.value(), limit, used: self.below(9) as usize, slots }
    }
}

fn verifications(c: &mut Cases, d: &mut Draw) {
    for used in [0, 3, 65_536, 65_537] {
        c.verify(&[], used);
        for kind in 0..16 {
            for operand in [0, 1] {
                c.verify(&[(kind, operand)], used);
            }
        }
    }
    for kind in [JUMP, JUMP_IF_NOT_ZERO, JUMP_IF_ZERO] {
        for size in 1..5 {
            for at in 0..size {
                for target in [0, 1, 2, 3, 4, 5, 1 << 32, u64::MAX] {
                    let mut program = vec![(HALT, 0); size];
                    program[at] = (kind, target);
                    c.verify(&program, 0);
                }
            }
        }
        for (size, target) in [(65_536, 65_535), (65_536, 65_536), (65_537, 65_536), (65_537, 65_537)] {
            let mut program = vec![(HALT, 0); size];
            program[size - 1] = (kind, target);
            c.verify(&program, 0);
            c.verify(&program, 65_537);
        }
    }
    for size in [65_535, 65_536, 65_537, 65_538, 65_540] {
        for used in [0, 65_535, 65_536, 65_537, 65_538, 100_000] {
            c.verify(&vec![(HALT, 0); size], used);
            c.verify(&[(HALT, 0)], used);
        }
    }
    for _ in 0..150 {
        c.verify(&d.program(), d.below(9) as usize);
    }
}

/// Each kind on 0 to 3 items, under every limit.
fn kinds(c: &mut Cases) {
    for kind in 0..16 {
        for items in 0..4 {
            for (used, caller) in [(0, 7), (1, 0), (4, u64::MAX)] {
                let mut program: Vec<Operation> = (0..items).map(|i| (PUSH, [6, 3, 0][i])).collect();
                let operand = if matches!(kind, 7 | 8 | 14) { items as u64 + 2 } else { 2 };
                program.extend([(kind, operand), (PUSH, 1), (HALT, 0), (PUSH, 2)]);
                let one = Case { program, caller, limit: 20, used, slots: vec![11, 12, 13, 14] };
                if used == 0 {
                    c.every_limit(&one);
                } else {
                    c.run(&one);
                }
            }
        }
    }
}

fn arithmetic(c: &mut Cases) {
    let values = [0, 1, 2, 3, 10, (1 << 32) - 1, 1 << 32, 1 << 63, u64::MAX - 1, u64::MAX];
    for kind in [1, 2, 3, 4, 9, 10] {
        for a in values {
            for b in values {
                c.plain(&[(PUSH, a), (PUSH, b), (kind, 0)], 4);
            }
        }
    }
}

fn limits(c: &mut Cases) {
    let tally = [(PUSH, 5), (PUSH, 7), (ADD, 0), (PUSH, 2), (3, 0), (HALT, 0)];
    c.every_limit(&case(&tally, 100));
    for limit in [1_000, 1 << 32, u64::MAX - 1, u64::MAX] {
        c.plain(&tally, limit);
    }
    for n in 1..5 {
        let down = [(PUSH, n), (PUSH, 1), (2, 0), (DUP, 0), (JUMP_IF_NOT_ZERO, 1), (HALT, 0)];
        c.every_limit(&case(&down, 100));
        let up = [(PUSH, 0), (PUSH, 1), (ADD, 0), (DUP, 0), (PUSH, n), (9, 0), (JUMP_IF_ZERO, 1)];
        c.every_limit(&case(&up, 100));
    }
    let counter = [(LOAD, 0), (PUSH, 1), (ADD, 0), (STORE, 0), (LOAD, 0), (PUSH, 5), (LT, 0), (JUMP_IF_NOT_ZERO, 0), (LOAD, 0)];
    for used in [0, 2] {
        c.every_limit(&Case { used, slots: vec![0, 9, 8, 7], ..case(&counter, 200) });
    }
    for limit in [0, 1, 2, 3, 1_000, 1_001] {
        c.plain(&[(JUMP, 0)], limit);
        c.plain(&[(JUMP, 1), (JUMP, 0)], limit);
        c.plain(&[(HALT, 0), (JUMP, 0)], limit);
        c.plain(&[(PUSH, 0), (JUMP_IF_ZERO, 0)], limit);
        c.plain(&[(PUSH, 1), (JUMP_IF_NOT_ZERO, 0)], limit);
    }
}

fn storage(c: &mut Cases) {
    let slots: Vec<u64> = (21..29).collect();
    let on = |program: &[Operation], used| Case { used, slots: slots.clone(), ..case(program, 50) };
    for used in 0..9 {
        for slot in (0..8).chain([65_536, 65_537, 1 << 32, 1 << 63, u64::MAX - 1, u64::MAX]) {
            c.run(&on(&[(PUSH, 5), (STORE, slot)], used));
            c.run(&on(&[(LOAD, slot), (LOAD, 0)], used));
            c.run(&on(&[(PUSH, 5), (STORE, slot), (LOAD, slot), (LOAD, 1)], used));
        }
        for slot in [8, 9, 100, 65_534, 65_535] {
            c.run(&on(&[(LOAD, slot)], used));
        }
    }
    // a store before a refusal is undone
    for slot in 0..8 {
        let stores = [(PUSH, 5), (STORE, slot), (PUSH, 6), (STORE, 0)];
        for end in [&[(ADD, 0)][..], &[(PUSH, 1), (PUSH, 0), (DIV, 0)], &[(PUSH, 1), (STORE, 65_536)], &[(JUMP, 4)], &[(STORE, 1)], &[(DUP, 0)]] {
            c.run(&on(&[&stores[..], end].concat(), 3));
        }
        c.every_limit(&on(&stores, 1));
    }
    // the storage's ends
    for used in [0, 1, 65_534, 65_535, 65_536] {
        for slot in [0, 65_534, 65_535, 65_536] {
            for kind in [LOAD, STORE] {
                let program = [(PUSH, 3), (kind, slot)];
                c.run(&Case { used, slots: vec![8; 65_536], ..case(&program, 9) });
            }
        }
    }
    for used in [65_537, 65_540] {
        c.run(&Case { used, slots: vec![8; used], ..case(&[(HALT, 0)], 9) });
        c.run(&Case { used, slots: vec![8; used], ..case(&[(JUMP, 1)], 9) });
        c.run(&Case { used, slots: vec![8; used], ..case(&[], 9) });
    }
}

fn stack_limit(c: &mut Cases) {
    for pushes in [4_095, 4_096, 4_097] {
        let program = vec![(PUSH, 3); pushes];
        for limit in [4_094, 4_095, 4_096, 4_097, 5_000] {
            c.plain(&program, limit);
        }
        for kind in 0..16 {
            let operand = if matches!(kind, 7 | 8 | 14) { 0 } else { 2 };
            let last = [&program[..], &[(kind, operand)]].concat();
            for limit in [pushes as u64, pushes as u64 + 3] {
                c.plain(&last, limit);
            }
        }
    }
    for limit in [12_285, 12_286, 12_287, 12_288, 12_289, 20_000] {
        c.plain(&[(CALLER, 0), (JUMP, 0)], limit);
        c.plain(&[(PUSH, 1), (DUP, 0), (JUMP, 1)], limit);
        c.plain(&[(LOAD, 0), (JUMP, 0)], limit);
    }
    for size in [65_536, 65_537] {
        c.plain(&vec![(HALT, 0); size], 0);
        c.plain(&vec![(CALLER, 0); size], 9);
        c.plain(&vec![(CALLER, 0); size], 70_000);
    }
    c.plain(&[vec![(JUMP, 65_535)], vec![(CALLER, 0); 65_535]].concat(), 9);
    c.plain(&[vec![(JUMP, 65_536)], vec![(CALLER, 0); 65_535]].concat(), 9);
}

fn drawn(c: &mut Cases, d: &mut Draw) {
    for _ in 0..1_200 {
        let one = d.case();
        c.run(&one);
    }
    for _ in 0..40 {
        let one = d.case();
        c.every_limit(&one);
    }
    for kind in 0..16 {
        for limit in 0..4 {
            c.plain(&[(kind, 0)], limit);
        }
    }
    c.plain(&[], 0);
    c.plain(&[], 9);
    for (size, target) in [(1, 1), (2, 2), (3, 9), (2, u64::MAX)] {
        for kind in [JUMP, JUMP_IF_NOT_ZERO, JUMP_IF_ZERO] {
            let mut program = vec![(PUSH, 1); size];
            program[size - 1] = (kind, target);
            c.plain(&program, 0);
            c.plain(&program, 9);
        }
    }
    for n in [1, 2, 3, 4, 5] {
        c.plain(&[vec![(PUSH, 1), (PUSH, 2), (PUSH, 3)], vec![(SWAP, 0); n], vec![(2, 0)]].concat(), 30);
    }
}

/// How many contexts pass; they come first.
const GOOD: usize = 5;

fn contexts() -> Vec<Texts> {
    let genesis = "0123456789abcdef".repeat(4);
    let good = ["atc", "devnet", &genesis, "p1", "v1", &genesis, "p1", "v1"].map(String::from);
    let with = |changes: &[(usize, &str)]| {
        let mut texts = good.clone();
        for (i, text) in changes {
            texts[*i] = text.to_string();
        }
        texts
    };
    let mut all = vec![good.clone(), with(&[(1, "testnet")]), with(&[(1, "mainnet")])];
    let upper = genesis.to_uppercase();
    all.push(with(&[(2, &upper), (5, &upper)]));
    all.push(with(&[(3, ""), (6, "")]));
    assert_eq!(all.len(), GOOD);
    // one fault
    for chain in ["", "at", "atcc", "ATC", "atc "] {
        all.push(with(&[(0, chain)]));
    }
    for network in ["", "devne", "Devnet", "mainnets", "net"] {
        all.push(with(&[(1, network)]));
    }
    for id in ["", &genesis[1..], &format!("{genesis}0"), &format!("{}g", &genesis[1..]), &format!("{} ", &genesis[1..])] {
        all.push(with(&[(2, id), (5, id)]));
    }
    all.extend([with(&[(3, "p2")]), with(&[(6, "p2")]), with(&[(3, "")]), with(&[(6, "p")])]);
    all.extend([with(&[(4, "v2")]), with(&[(7, "v2")]), with(&[(4, "V1")]), with(&[(7, "")])]);
    all.extend([with(&[(2, &upper)]), with(&[(5, &upper)]), with(&[(5, "")]), with(&[(5, &genesis[1..])])]);
    // two faults: the first in document 01's order is given
    let faults = [(0, "x"), (1, "x"), (2, "x"), (3, "x"), (4, "x"), (5, "x")];
    for i in 0..6 {
        for j in i + 1..6 {
            all.push(with(&[faults[i], faults[j]]));
        }
    }
    all
}

fn transitions(c: &mut Cases, d: &mut Draw) {
    let slots = vec![31, 32, 33, 34];
    let programs: [&[Operation]; 6] = [
        &[(HALT, 0)],
        &[(JUMP, 1)],
        &[],
        &[(PUSH, 5), (STORE, 3), (LOAD, 1), (CALLER, 0)],
        &[(PUSH, 5), (STORE, 0), (ADD, 0)],
        &[(PUSH, 5), (STORE, 0), (JUMP, 2)],
    ];
    for (i, texts) in contexts().into_iter().enumerate() {
        for program in &programs[if i < GOOD { 0..6 } else { 2..4 }] {
            let one = Case { used: 2, slots: slots.clone(), ..case(program, 20) };
            c.add('T', &texts, &one);
            c.add('S', &texts, &Case { limit: 0, ..one });
        }
    }
    let good = &contexts()[0];
    for kind in 0..16 {
        for limit in 0..4 {
            c.add('T', good, &case(&[(kind, 0)], limit));
        }
        c.add('S', good, &case(&[(kind, 0)], 0));
        c.add('S', good, &case(&[(HALT, 0), (kind, 0)], 0));
    }
    for call in ['T', 'S'] {
        for size in [65_536, 65_537] {
            c.add(call, good, &case(&vec![(HALT, 0); size], 0));
        }
        for used in [65_536, 65_537] {
            c.add(call, good, &Case { used, slots: vec![8; used], ..case(&[(HALT, 0)], 0) });
        }
    }
    c.add('T', good, &case(&[(CALLER, 0), (JUMP, 0)], 12_289));
    c.add('T', good, &case(&[(PUSH, 1), (STORE, 0), (PUSH, 1), (PUSH, 0), (DIV, 0)], 9));
    c.add('T', good, &case(&[(PUSH, 1), (STORE, 0), (PUSH, 1), (STORE, u64::MAX)], 9));
    for _ in 0..150 {
        let one = d.case();
        c.add('T', good, &one);
    }
    for _ in 0..50 {
        let one = Case { limit: 0, ..d.case() };
        c.add('S', good, &one);
    }
}

/// The kinds and the operands.
fn lists(program: &[Operation]) -> [String; 2] {
    let (kinds, operands): (Vec<u64>, Vec<u64>) = program.iter().map(|o| (u64::from(o.0), o.1)).unzip();
    [list(&kinds), list(&operands)]
}

pub fn make(all: &mut cases::Cases) {
    let (mut c, mut d) = (Cases { all, seen: HashSet::new() }, Draw(88_172_645_463_325_252));
    verifications(&mut c, &mut d);
    kinds(&mut c);
    arithmetic(&mut c);
    limits(&mut c);
    storage(&mut c);
    stack_limit(&mut c);
    drawn(&mut c, &mut d);
    transitions(&mut c, &mut d);
}
