//! `verify`, `run_with_gas` and both transitions: answers, carried values, and the three lent buffers whole. Then the
//! machine of rust/atc-vm, which lends the buffers itself.
//! The original gives neither gas spent nor operations executed. The gas spent is the least limit that suffices. Below it
//! the original names the price and the gas left, so every operation with a price shows as one sum of gas spent
//! before it; Halt, which is free, shows when every Halt is replaced by a jump to itself.
use crate::gate::{self, Texts};
use crate::tally::*;
use atc_vm::sys::{self, Answer, Run};
use original::assembler::{assemble_text, Assembled};
use original::kinds::{kind_and_operand, op};
use original::numbers::context_number;
use original::ops::parse_ops;
use original::vm::{Op, Vm, VmError};

type Program = Vec<(u8, u64)>;

#[derive(Clone, Copy, PartialEq)]
enum Entry<'a> {
    Run,
    WithGas(&'a Texts),
    Without(&'a Texts),
}

#[derive(Clone, Copy)]
struct Setting<'a> {
    entry: Entry<'a>,
    caller: u64,
    used: usize,
    /// Lengths lent: stack, work and storage.
    stack: usize,
    storage: usize,
}

struct Buffers {
    stack: Buffer<u64>,
    work: Buffer<u64>,
    storage: Buffer<u64>,
}

impl Buffers {
    fn new() -> Self {
        let pattern = |by: u64| move |i: usize| (i as u64 + 3).wrapping_mul(by);
        Buffers {
            stack: Buffer::new(pattern(0x9E37_79B9_7F4A_7C15)),
            work: Buffer::new(pattern(0x2545_F491_4F6C_DD1D)),
            storage: Buffer::new(|i| i as u64 % 11),
        }
    }
}

struct Asked {
    result: Result<Vec<u64>, VmError>,
    storage: Vec<u64>,
}

fn ask(ops: Vec<Op>, s: &Setting, limit: u64, storage: &[u64]) -> Asked {
    let mut vm = Vm::with_context(ops, s.caller, storage.to_vec());
    let result = match s.entry {
        Entry::Run => vm.run_with_gas(limit),
        Entry::WithGas(t) => vm.execute_state_transition_with_gas(&gate::context(t), &t[5], &t[6], &t[7], limit),
        Entry::Without(t) => vm.execute_state_transition(&gate::context(t), &t[5], &t[6], &t[7]),
    };
    Asked { result, storage: vm.state().to_vec() }
}

fn number(e: &VmError, used: usize) -> (u64, [u64; 2]) {
    match *e {
        VmError::Context(ref c) => (context_number(c), [0; 2]),
        VmError::InvalidProgram("empty program") => (41, [0; 2]),
        VmError::ProgramTooLarge { size, .. } => (42, [size as u64, 0]),
        VmError::StorageLimitExceeded { requested, .. } if used > 65_536 => (43, [requested as u64, 0]),
        VmError::InvalidProgram(_) => (45, [0; 2]),
        VmError::OutOfGas { required, remaining } => (46, [required, remaining]),
        VmError::StackUnderflow => (47, [0; 2]),
        VmError::StackLimitExceeded => (48, [0; 2]),
        VmError::DivisionByZero => (49, [0; 2]),
        VmError::StorageLimitExceeded { requested, .. } => (50, [requested as u64, 0]),
        VmError::InvalidJump(_) => panic!("{e:?}"),
    }
}

/// A slot that no drawn program stores to: it stands for one beyond the lent storage.
const BEYOND: usize = usize::MAX - 500;

/// What the original answers; 51 where a run stores beyond what is lent.
fn original(program: &[(u8, u64)], s: &Setting, limit: u64, storage: &[u64]) -> (Asked, bool) {
    let stores_beyond = |o: &(u8, u64)| o.0 == 12 && o.1 >= s.storage as u64 && o.1 < 65_536;
    if program.iter().any(stores_beyond) {
        let ops = program.iter().map(|o| if stores_beyond(o) { Op::Store(BEYOND) } else { op(o) }).collect();
        let asked = ask(ops, s, limit, storage);
        let beyond = matches!(asked.result, Err(VmError::StorageLimitExceeded { requested, .. }) if requested == BEYOND + 1);
        return (asked, beyond);
    }
    (ask(program.iter().map(op).collect(), s, limit, storage), false)
}

/// One call under one limit. The counts are those of a success, where they are known.
#[allow(clippy::type_complexity)]
fn check(
    program: &[(u8, u64)],
    s: &Setting,
    limit: u64,
    b: &mut Buffers,
    (asked, beyond): &(Asked, bool),
    counts: (Option<u64>, Option<u64>),
) -> Result<Seen, String> {
    let (kinds, operands): (Vec<u8>, Vec<u64>) = program.iter().copied().unzip();
    b.stack.lend(s.stack);
    b.work.lend(s.storage);
    b.storage.lend(s.storage);
    let run = Run {
        kinds: &kinds,
        operands: &operands,
        caller: s.caller,
        stack: b.stack.lent(),
        work: b.work.lent(),
        storage: b.storage.lent(),
        used: s.used as u64,
    };
    let Answer { number: got, words: answer } = match s.entry {
        Entry::Run => sys::run_with_gas(run, limit),
        Entry::WithGas(t) => sys::execute_state_transition_with_gas(gate::texts(t), run, limit),
        Entry::Without(t) => sys::execute_state_transition(gate::texts(t), run),
    };
    let (wanted, carried) = match &asked.result {
        _ if *beyond => (51, [0; 4]),
        Ok(items) => {
            let spent = counts.0.unwrap_or(answer[0]);
            let operations = counts.1.unwrap_or(answer[1]);
            (0, [spent, operations, items.len() as u64, asked.storage.len() as u64])
        }
        Err(e) => {
            let (n, [x, y]) = number(e, s.used);
            (n, [x, y, 0, 0])
        }
    };
    if got != wanted || answer[..4] != carried || answer[4..] != [0; 4] {
        return Err(format!("limit {limit}: library {got} {answer:?}, original {wanted} {carried:?}"));
    }
    let kept = match &asked.result {
        Ok(items) if !beyond => b.stack.filled(items, 0) && b.work.filled(&[], 0) && b.storage.holds(&asked.storage),
        _ if wanted >= 46 => b.stack.filled(&[], 0) && b.work.filled(&[], 0) && b.storage.holds(&[]),
        _ => b.stack.holds(&[]) && b.work.holds(&[]) && b.storage.holds(&[]),
    };
    if !kept {
        return Err(format!("limit {limit}: answer {got}, but the lent buffers differ"));
    }
    Ok(if *beyond { Seen::Added(51) } else { Seen::Compared(got) })
}

/// Every limit from 0 to what the program needs and one more, and the largest; at most `most` limits.
fn limits(program: &[(u8, u64)], s: &Setting, most: u64, b: &mut Buffers, saw: &mut dyn FnMut(Seen)) -> Result<(), String> {
    let storage = b.storage.pattern()[..s.used].to_vec();
    let (mut priced, mut last) = (0, None);
    for limit in 0..most {
        let asked = original(program, s, limit, &storage);
        if let (false, Err(VmError::OutOfGas { remaining, .. })) = (asked.1, &asked.0.result) {
            if last != Some(limit - remaining) {
                priced += 1;
                last = Some(limit - remaining);
            }
            saw(check(program, s, limit, b, &asked, (None, None))?);
            if let Entry::Without(_) = s.entry {
                return Ok(());
            }
            continue;
        }
        let mut counts = (None, None);
        if asked.0.result.is_ok() && !asked.1 {
            let endless = program.iter().enumerate().map(|(i, o)| if o.0 == 15 { Op::Jump(i) } else { op(o) }).collect();
            let halted = ask(endless, &Setting { entry: Entry::Run, ..*s }, limit + 1, &storage).result.is_err();
            counts = (Some(limit), Some(priced + u64::from(halted)));
        }
        saw(check(program, s, limit, b, &asked, counts)?);
        for more in [limit + 1, u64::MAX] {
            saw(check(program, s, more, b, &original(program, s, more, &storage), counts)?);
        }
        return Ok(());
    }
    Ok(())
}

fn of_the_crate(op: &Op) -> atc_vm::Op {
    use atc_vm::Op as To;
    match *op {
        Op::Push(v) => To::Push(v),
        Op::Add => To::Add,
        Op::Sub => To::Sub,
        Op::Mul => To::Mul,
        Op::Div => To::Div,
        Op::Dup => To::Dup,
        Op::Swap => To::Swap,
        Op::Jump(t) => To::Jump(t),
        Op::JumpIfNotZero(t) => To::JumpIfNotZero(t),
        Op::Eq => To::Eq,
        Op::Lt => To::Lt,
        Op::Load(i) => To::Load(i),
        Op::Store(i) => To::Store(i),
        Op::Caller => To::Caller,
        Op::JumpIfZero(t) => To::JumpIfZero(t),
        Op::Halt => To::Halt,
    }
}

/// Two machines of one program, run under the limit, then with a little less and the same again, on what the run before left.
fn check_crate(program: &[(u8, u64)], caller: u64, limit: u64, storage: &[u64]) -> Result<Seen, String> {
    let ops: Vec<Op> = program.iter().map(op).collect();
    let mut ours = atc_vm::Vm::with_context(ops.iter().map(of_the_crate).collect(), caller, storage.to_vec());
    let mut vm = Vm::with_context(ops, caller, storage.to_vec());
    let mut last = 0;
    for limit in [limit, limit.saturating_sub(2), limit] {
        let used = vm.state().len();
        let wanted = vm.run_with_gas(limit).map_err(|e| number(&e, used).0);
        let got = ours.run_with_gas(limit).map_err(|e| e.number());
        if got != wanted || ours.state() != vm.state() || ours.receipt().is_some() != wanted.is_ok() {
            return Err(format!("limit {limit}: crate {got:?}, original {wanted:?}, or the storage differs"));
        }
        last = got.err().unwrap_or(0);
    }
    Ok(Seen::Compared(last))
}

fn check_verify(program: &[(u8, u64)], used: usize) -> Result<Seen, String> {
    let (kinds, operands): (Vec<u8>, Vec<u64>) = program.iter().copied().unzip();
    let vm = Vm::with_context(program.iter().map(op).collect(), 0, vec![0; used]);
    let (wanted, carried) = vm.verify().map_or_else(|e| number(&e, used), |_| (0, [0; 2]));
    let Answer { number: got, words: answer } = sys::verify(&kinds, &operands, used as u64);
    if got != wanted || answer[..2] != carried || answer[2..] != [0; 6] {
        return Err(format!("used {used}: library {got} {answer:?}, original {wanted} {carried:?}"));
    }
    Ok(Seen::Compared(got))
}

struct Comparison {
    verify: Tally,
    run: Tally,
    with_gas: Tally,
    without: Tally,
    machine: Tally,
    buffers: Buffers,
}

fn listed(program: &[(u8, u64)], s: &Setting) -> String {
    let ops: Vec<String> = program.iter().take(200).map(|o| format!("{:?}", op(o))).collect();
    let context = match s.entry {
        Entry::Run => String::new(),
        Entry::WithGas(t) | Entry::Without(t) => format!(", context {t:?}"),
    };
    format!("{} operations {ops:?}, caller {}, used {}, lent stack {}, storage {}{context}", program.len(), s.caller, s.used, s.stack, s.storage)
}

impl Comparison {
    fn verified(&mut self, program: &[(u8, u64)], used: usize) {
        match check_verify(program, used) {
            Ok(seen) => self.verify.saw(seen),
            Err(_) => self.verify.differs(|| {
                let mut less = program.to_vec();
                shrink(&mut less, |p| check_verify(p, used).is_err());
                (less.len(), format!("{:?}\n{}", &less[..less.len().min(200)], check_verify(&less, used).err().unwrap()))
            }),
        }
    }

    /// The crate's machine, under each of some limits.
    fn machine(&mut self, program: &[(u8, u64)], s: &Setting, limits: impl IntoIterator<Item = u64>) {
        let storage = &self.buffers.storage.pattern()[..s.used];
        for limit in limits {
            match check_crate(program, s.caller, limit, storage) {
                Ok(seen) => self.machine.saw(seen),
                Err(_) => self.machine.differs(|| {
                    let mut less = program.to_vec();
                    shrink(&mut less, |p| check_crate(p, s.caller, limit, storage).is_err());
                    let what = check_crate(&less, s.caller, limit, storage).err().unwrap();
                    (less.len(), format!("{}\n{what}", listed(&less, s)))
                }),
            }
        }
    }

    fn tally(&mut self, entry: Entry) -> (&mut Tally, &mut Buffers) {
        let tally = match entry {
            Entry::Run => &mut self.run,
            Entry::WithGas(_) => &mut self.with_gas,
            Entry::Without(_) => &mut self.without,
        };
        (tally, &mut self.buffers)
    }

    fn under_limits(&mut self, program: &[(u8, u64)], s: Setting, most: u64) {
        let (tally, b) = self.tally(s.entry);
        if limits(program, &s, most, b, &mut |seen| tally.saw(seen)).is_err() {
            tally.differs(|| {
                let mut less = program.to_vec();
                shrink(&mut less, |p| limits(p, &s, most, b, &mut |_| ()).is_err());
                let what = limits(&less, &s, most, b, &mut |_| ()).err().unwrap();
                (less.len(), format!("{}\n{what}", listed(&less, &s)))
            });
        }
    }

    /// One limit. Of a success the gas is asked again, by halving; the operations are not.
    fn under(&mut self, program: &[(u8, u64)], s: Setting, limit: u64) {
        let (tally, b) = self.tally(s.entry);
        let storage = b.storage.pattern()[..s.used].to_vec();
        let asked = original(program, &s, limit, &storage);
        let mut spent = None;
        if asked.0.result.is_ok() && !asked.1 {
            let (mut low, mut high) = (0, limit.min(1 << 32));
            while low < high {
                let middle = low + (high - low) / 2;
                if original(program, &s, middle, &storage).0.result.is_ok() {
                    high = middle;
                } else {
                    low = middle + 1;
                }
            }
            spent = Some(low);
        }
        match check(program, &s, limit, b, &asked, (spent, None)) {
            Ok(seen) => tally.saw(seen),
            Err(what) => tally.differs(|| (program.len(), format!("{}\n{what}", listed(program, &s)))),
        }
    }

    /// Every program of at most `most` of these operations, under its limits.
    fn every(&mut self, alphabet: &[(u8, u64)], most: usize, s: Setting, cap: u64) {
        let mut rows: Vec<Program> = vec![vec![]];
        for _ in 0..=most {
            for row in &rows {
                self.verified(row, s.used);
                self.under_limits(row, s, cap);
                if s.entry == Entry::Run {
                    self.machine(row, &s, [4, 14]);
                }
            }
            rows = rows.iter().filter(|r| r.len() < most).flat_map(|r| alphabet.iter().map(move |o| [r.as_slice(), &[*o]].concat())).collect();
        }
    }

    fn short_ones(&mut self) {
        let s = Setting { entry: Entry::Run, caller: 7, used: 2, stack: 4096, storage: 4 };
        let plain: Vec<(u8, u64)> = [1, 2, 3, 4, 5, 6, 9, 10, 13, 15].map(|k| (k, 0)).to_vec();
        let with = |kinds: &[u8], ns: &[u64]| -> Vec<(u8, u64)> { kinds.iter().flat_map(|k| ns.iter().map(move |n| (*k, *n))).collect() };
        let all = [
            plain.clone(),
            with(&[0], &[0, 1, 2, u64::MAX]),
            with(&[7, 8, 14], &[0, 1, 2, 3]),
            with(&[11, 12], &[0, 1, 2, 4, 65_535, 65_536, u64::MAX]),
        ]
        .concat();
        self.every(&all, 3, s, 14);
        let fewer = [plain, with(&[0], &[0, 3]), with(&[8], &[0]), with(&[7, 14], &[3]), with(&[11, 12], &[1]), with(&[12], &[3])].concat();
        self.every(&fewer, 4, s, 14);
        let d = &mut Draw::new(4000);
        let good = gate::good(d);
        self.every(&all, 2, Setting { entry: Entry::WithGas(&good), ..s }, 14);
        self.every(&all, 3, Setting { entry: Entry::Without(&good), ..s }, 1);
    }

    fn limits(&mut self, d: &mut Draw) {
        let s = Setting { entry: Entry::Run, caller: 7, used: 2, stack: 4096, storage: 4 };
        // program sizes, jump targets and used lengths around their limits
        for n in [1usize, 2, 65_534, 65_535, 65_536, 65_537, 65_540] {
            for used in [0, 1, 65_535, 65_536, 65_537, 70_000] {
                for target in [0, n - 1, n, n + 1, 65_535, 65_536, u64::MAX as usize] {
                    for kind in [7u8, 8, 14, 12, 0] {
                        let at = d.below(n);
                        let mut program = vec![(13u8, 0u64); n];
                        program[at] = (kind, target as u64);
                        self.verified(&program, used);
                        if target % 2 == 1 && (n < 3 || kind == 7) {
                            let limit = d.below(20) as u64;
                            let context = gate::good(d);
                            let entry = [Entry::Run, Entry::WithGas(&context), Entry::Without(&context)][d.below(3)];
                            self.under(&program, Setting { entry, used, storage: used + d.below(2), ..s }, limit);
                        }
                    }
                }
            }
        }
        for used in [0, 1, 1 << 20] {
            self.verified(&[], used);
        }
        // stack: items around 4,096, by Push, Dup, Caller, Load, in stacks lent longer; what a full stack still may do
        for items in 4094..=4098usize {
            for fill in [(0u8, 9u64), (13, 0), (5, 0), (11, 1)] {
                for end in [
                    vec![],
                    vec![(15, 0)],
                    vec![(6, 0)],
                    vec![(1, 0), (13, 0)],
                    vec![(12, 3), (5, 0)],
                    vec![(9, 0), (10, 0), (0, 1), (0, 1)],
                    vec![(4, 0)],
                ] {
                    let mut program = vec![fill; items];
                    program[0] = (0, 3);
                    program.extend(end);
                    let stack = d.of(&[&4096usize, &4097, &4098, &5000, &9000]);
                    let s = Setting { stack: *stack, ..s };
                    for limit in [u64::MAX, 4095, 4096, 4097, 4098, 4 * 4096] {
                        self.under(&program, s, limit);
                    }
                }
            }
        }
        for (a, b) in [(13u8, 0u64), (5, 0), (11, 0), (0, 5)].into_iter().zip([3u64, 2, 5, 3]) {
            let program = vec![(0, 1), a, (7, 1)];
            for limit in 0..12 {
                self.under(&program, s, b * 4096 + limit);
            }
        }
        // storage: every telling slot against used and lent lengths
        for used in [0usize, 1, 4, 4096, 65_535, 65_536] {
            for lent in [used, used + 1, used + 7, 65_536, 65_540] {
                if lent < used {
                    continue;
                }
                for slot in [
                    0,
                    1,
                    used.wrapping_sub(1),
                    used,
                    used + 1,
                    lent.wrapping_sub(1),
                    lent,
                    lent + 1,
                    65_535,
                    65_536,
                    1 << 40,
                    usize::MAX - 1,
                    usize::MAX,
                ] {
                    let slot = slot as u64;
                    let s = Setting { used, storage: lent, ..s };
                    let early = d.below(12) as u64;
                    for program in [&[(0, 5), (12, slot), (11, slot), (11, 0), (0, 8), (12, 0)][..], &[(0, 5), (12, slot), (0, 1), (0, 0), (4, 0)]] {
                        for limit in [early, 1000] {
                            self.under(program, s, limit);
                        }
                        self.machine(program, &s, 0..14);
                    }
                }
            }
        }
        // long runs: counted loops on the stack and in storage
        for n in [1u64, 2, 100, 1000] {
            let stack_loop = vec![(0, n), (0, 1), (2, 0), (5, 0), (8, 1), (15, 0)];
            let storage_loop = vec![(0, n), (12, 0), (11, 0), (0, 1), (2, 0), (12, 0), (11, 0), (8, 2)];
            let mixed = vec![(0, n), (5, 0), (5, 0), (3, 0), (0, 3), (4, 0), (0, 7), (10, 0), (14, 9), (0, 1), (2, 0), (5, 0), (8, 1), (15, 0)];
            for program in [stack_loop, storage_loop, mixed] {
                self.under_limits(&program, s, if n > 100 { 3000 } else { 5000 });
                self.under(&program, s, u64::MAX);
            }
        }
    }

    fn drawn(&mut self, d: &mut Draw, n: usize) {
        for i in 0..n {
            let mut program = drawn_program(d);
            // many slots for few operations in one of six, with slots of all of them
            let lent = if d.one_in(6) { 8 * program.len() + d.below(9) } else { d.below(9) };
            let used = if lent < 9 { d.below(lent + 1) } else { lent - d.below(9) };
            for (_, slot) in program.iter_mut().filter(|o| lent > 8 && (o.0 == 11 || o.0 == 12)) {
                *slot = d.below(used + 2) as u64;
            }
            let stack = if d.one_in(8) { 4096 + d.below(40) } else { 4096 };
            let context = if d.one_in(3) { gate::drawn(d) } else { gate::good(d) };
            let entry = match i % 4 {
                0 => Entry::WithGas(&context),
                1 if i % 8 == 1 => Entry::Without(&context),
                _ => Entry::Run,
            };
            let s = Setting { entry, caller: d.word(), used, stack, storage: lent };
            self.verified(&program, if d.one_in(9) { 65_530 + d.below(12) } else { used });
            self.under_limits(&program, s, 120);
            self.machine(&program, &s, [5, 20, 60, 120]);
        }
    }

    /// Contracts: what is assembled is read, and run under the limits around 3k - 2.
    fn compiled(&mut self, d: &mut Draw, n: usize) {
        for i in 0..n {
            let mut body = String::from("let x0 = 2\n");
            let lines = 1 + d.below(8);
            for i in 1..lines {
                let (a, b) = (d.below(i), d.below(i));
                body += &format!(
                    "let x{i} = {}x{a} {} (x{b} {} {})\n",
                    d.of(&["", "3*", "7-"]),
                    d.of(&["+", "-", "*", "/"]),
                    d.of(&["+", "-", "*", "/"]),
                    1 + d.below(9)
                );
            }
            if i % 50 == 0 {
                // p near 4,096 and above: right sides nest
                body += "let y = x0\n";
                for _ in 0..64 + d.below(3) {
                    let open = 63 + d.below(2);
                    body += &format!("let y = {}y{}\n", "1+(".repeat(open), ")".repeat(open));
                }
            }
            let contract = format!("fn f(){{{body}return x{} + {}}}", lines - 1, if i % 50 == 0 { "y" } else { "1" });
            let made = |e: &str| assemble_text(contract.as_bytes(), format!("\"expected\":{e}").as_bytes(), b"t");
            let made = match made("0") {
                Assembled::Refused { message, .. } if message.starts_with("native") => made(message.split(' ').nth(3).unwrap()),
                other => other,
            };
            let Assembled::Made { text, k, .. } = made else { continue };
            let program: Program = parse_ops(&text).unwrap().iter().map(kind_and_operand).collect();
            assert_eq!(program.len() as u64, 2 * k);
            let context = gate::good(d);
            let s = Setting { entry: Entry::WithGas(&context), caller: d.word(), used: 1, stack: 4096, storage: 3 };
            for limit in [0, d.below(3 * k as usize) as u64, 3 * k - 3, 3 * k - 2, 3 * k - 1, u64::MAX] {
                self.under(&program, s, limit);
            }
        }
    }
}

/// Mostly with enough on the stack, with loops, and with slots and targets at their edges.
fn drawn_program(d: &mut Draw) -> Program {
    let most = if d.one_in(4) { 40 } else { 12 };
    let len = 1 + d.below(most);
    let wild = d.one_in(5);
    let mut items = 0i64;
    let mut program = vec![];
    for i in 0..len {
        let mut kind = if d.one_in(3) { 0 } else { d.below(16) as u8 };
        let needs = match kind {
            1..=4 | 6 | 9 | 10 => 2,
            5 | 8 | 12 | 14 => 1,
            _ => 0,
        };
        if !wild && items < needs {
            kind = [0, 13, 11][d.below(3)];
        }
        if !wild && kind == 15 && i + 3 < len && !d.one_in(4) {
            kind = 0;
        }
        items += match kind {
            0 | 5 | 11 | 13 => 1,
            1..=4 | 8..=10 | 12 | 14 => -1,
            _ => 0,
        };
        let operand = match kind {
            0 => d.word(),
            7 | 8 | 14 if d.one_in(60) => d.word(),
            7 if !wild => (i + 1 + d.below(3)).min(len - 1) as u64,
            7 | 8 | 14 => d.below(len) as u64,
            11 | 12 => match d.below(30) {
                0 => d.word() & !(1 << 63),
                1 => [8, 9, 65_535, 65_536, u64::MAX, u64::MAX - 1][d.below(6)],
                _ => d.below(9) as u64,
            },
            _ => 0,
        };
        program.push((kind, operand));
    }
    program
}

pub fn compare(rounds: u64) -> Vec<Tally> {
    let mut c = Comparison {
        verify: Tally::new("verify"),
        run: Tally::new("run_with_gas"),
        with_gas: Tally::new("execute_state_transition_with_gas"),
        without: Tally::new("execute_state_transition"),
        machine: Tally::new("the machine of rust/atc-vm"),
        buffers: Buffers::new(),
    };
    c.short_ones();
    for round in 0..rounds {
        let mut d = Draw::new(5000 + round);
        c.limits(&mut d);
        c.drawn(&mut d, 40_000);
        c.compiled(&mut d, 2000);
    }
    vec![c.verify, c.run, c.with_gas, c.without, c.machine]
}
