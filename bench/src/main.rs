//! The library beside the original, in one process, by turns on the same inputs: medians of the ratios, in Markdown.
mod inputs;
mod stack;

use atc_vm::sys::{self, Gate, Run};
use inputs::{Contract, Program};
use original::assembler::assemble_plain;
use original::context::{execution_gate, ChainContext};
use original::vm::Vm;
use original::{kinds, ops};
use std::hint::black_box;
use std::time::Instant;

const ROUNDS: usize = 15;
/// Seconds that one side of a round takes at least, by repetition; a call that takes far longer has three rounds.
const ROUND: f64 = 0.004;

fn median(mut v: Vec<f64>) -> f64 {
    v.sort_by(f64::total_cmp);
    v[v.len() / 2]
}

fn time(reps: usize, f: &mut dyn FnMut()) -> f64 {
    let t = Instant::now();
    for _ in 0..reps {
        f();
    }
    t.elapsed().as_secs_f64() / reps as f64
}

fn ratio(r: f64) -> String {
    match r {
        r if r < 0.1 => format!("{r:.4}"),
        r if r < 100.0 => format!("{r:.2}"),
        r => format!("{r:.0}"),
    }
}

fn shown(seconds: f64) -> String {
    match seconds {
        s if s < 1e-6 => format!("{:.0} ns", s * 1e9),
        s if s < 1e-3 => format!("{:.2} µs", s * 1e6),
        s => format!("{:.2} ms", s * 1e3),
    }
}

/// A row of the table. `clear` is a memset of the same buffers.
fn row(name: &str, original: &mut dyn FnMut(), ours: &mut dyn FnMut(), clear: Option<&mut dyn FnMut()>) {
    let mut nothing = || ();
    let with_clear = clear.is_some();
    let clear = clear.unwrap_or(&mut nothing);
    let once = |f: &mut dyn FnMut()| time(1, f).min(time(1, f));
    let reps = |once: f64| ((ROUND / once) as usize).clamp(1, 100_000);
    let (original_once, our_once) = (once(original), once(ours));
    let (original_reps, our_reps, clear_reps) = (reps(original_once), reps(our_once), reps(once(clear)));
    let rounds = if original_once.max(our_once) > 50.0 * ROUND { 3 } else { ROUNDS };
    let (mut originals, mut all_ours, mut ratios, mut over) = (vec![], vec![], vec![], vec![]);
    for round in 0..rounds {
        let (a, b);
        if round % 2 == 0 {
            a = time(original_reps, original);
            b = time(our_reps, ours);
        } else {
            b = time(our_reps, ours);
            a = time(original_reps, original);
        }
        originals.push(a);
        all_ours.push(b);
        ratios.push(a / b);
        if with_clear {
            over.push(b / time(clear_reps, clear));
        }
    }
    let last = if with_clear { format!(" {:.2} |", median(over)) } else { String::new() };
    println!("| {name} | {} | {} | {} |{last}", shown(median(originals)), shown(median(all_ours)), ratio(median(ratios)));
}

fn head(title: &str, clear: bool) {
    println!("\n### {title}\n");
    println!("| input | original | library | original / library |{}", if clear { " library / memset |" } else { "" });
    println!("|---|---:|---:|---:|{}", if clear { "---:|" } else { "" });
}

fn assemblies(title: &str, contracts: &[Contract]) {
    head(title, false);
    let mut out = vec![7u8; 1 << 20];
    for c in contracts {
        let (contract, vector) = (c.contract.as_bytes(), c.vector.as_bytes());
        assert!(contract.len() <= 65_536 && vector.len() <= 65_536);
        let answer = sys::assemble(contract, vector, b"tally", &mut out);
        match assemble_plain(contract, vector, "tally") {
            Ok(text) => assert!(answer.number == 0 && out[..answer.words[0] as usize] == *text.as_bytes(), "{}: {answer:?}", c.name),
            Err(message) => assert!(answer.number == 8 && message.starts_with("vector missing key"), "{}: {answer:?}", c.name),
        }
        row(
            c.name,
            &mut || drop(black_box(assemble_plain(black_box(contract), vector, "tally"))),
            &mut || _ = black_box(sys::assemble(black_box(contract), vector, b"tally", &mut out).number),
            None,
        );
    }
}

fn comparisons() {
    head("Assembly, comparisons; the original reads the same text with `-` for `<` and `+` for `==`", false);
    let mut out = vec![7u8; 1 << 20];
    for (c, sums) in inputs::comparisons() {
        let (contract, vector) = (c.contract.as_bytes(), c.vector.as_bytes());
        assert!(contract.len() <= 65_536 && contract.len() == sums.contract.len());
        assert_eq!(sys::assemble(contract, vector, b"tally", &mut out).number, 0, "{}", c.name);
        let original = || assemble_plain(black_box(sums.contract.as_bytes()), sums.vector.as_bytes(), "tally");
        assert!(original().is_ok());
        row(
            c.name,
            &mut || drop(black_box(original())),
            &mut || _ = black_box(sys::assemble(black_box(contract), vector, b"tally", &mut out).number),
            None,
        );
    }
}

fn reading() {
    head("Reading 1 MB, UTF-8 checked on both sides", false);
    let (mut kinds, mut operands) = (vec![0u8; 1 << 20], vec![0u64; 1 << 20]);
    let tally = "# contract: tally\n# expected: 24\nPush 5\nPush 7\nAdd\nPush 2\nMul\nHalt\n".to_string();
    let texts = inputs::texts().into_iter().chain([("the tally, 8 lines", tally)]);
    for (name, text) in texts {
        let read = |text: &[u8]| ops::parse_ops(std::str::from_utf8(text).unwrap()).unwrap();
        let want: Program = read(text.as_bytes()).iter().map(kinds::kind_and_operand).collect();
        let answer = sys::parse_ops(text.as_bytes(), &mut kinds, &mut operands);
        assert_eq!((answer.number, answer.words[0] as usize), (0, want.len()));
        assert!(want.iter().zip(kinds.iter().zip(&operands)).all(|(w, (k, o))| w == &(*k, *o)));
        row(
            name,
            &mut || drop(black_box(read(black_box(text.as_bytes())))),
            &mut || _ = black_box(sys::parse_ops(black_box(text.as_bytes()), &mut kinds, &mut operands).number),
            None,
        );
    }
}

fn verifying() {
    head("verify", false);
    let jumps: Program = (0..65_536).map(|i| ([7, 8, 14][i % 3], (i * 7 % 65_536) as u64)).collect();
    let none: Program = (0..65_536).map(|i| ([0, 1, 5, 11, 12][i % 5], i as u64)).collect();
    let mixed: Program = (0..65_536).map(|i| (((i * 2_654_435_761usize) >> 9) as u8 % 16, (i * 7 % 65_536) as u64)).collect();
    let large: Program = none.iter().map(|&(k, v)| (k, v + 65_536)).collect();
    for (name, program) in [
        ("65,536 operations, no jumps", none),
        ("65,536 operations, no jumps, operands of 65,536 and more", large),
        ("65,536 jumps", jumps),
        ("65,536 operations of all kinds", mixed),
        ("tally, 6 operations", inputs::short().swap_remove(0).1),
    ] {
        let (kinds, operands): (Vec<u8>, Vec<u64>) = program.iter().copied().unzip();
        let vm = Vm::with_context(program.iter().map(kinds::op).collect(), 7, vec![]);
        assert!(vm.verify().is_ok() && sys::verify(&kinds, &operands, 0).number == 0);
        row(
            name,
            &mut || _ = black_box(black_box(&vm).verify().is_ok()),
            &mut || _ = black_box(sys::verify(black_box(&kinds), &operands, 0).number),
            None,
        );
    }
}

struct Machine {
    kinds: Vec<u8>,
    operands: Vec<u64>,
    stack: Vec<u64>,
    work: Vec<u64>,
    storage: Vec<u64>,
    used: u64,
}

impl Machine {
    fn new(program: &Program, used: usize, lent: usize) -> (Self, Vm) {
        let (kinds, operands) = program.iter().copied().unzip();
        let storage: Vec<u64> = (0..lent as u64).collect();
        let vm = Vm::with_context(program.iter().map(kinds::op).collect(), 7, storage[..used].to_vec());
        (Machine { kinds, operands, stack: vec![9; 4096], work: vec![9; lent], storage, used: used as u64 }, vm)
    }

    fn call(&mut self, gate: Option<Gate>, limit: u64) -> u64 {
        let run = Run {
            kinds: black_box(&self.kinds),
            operands: &self.operands,
            caller: 7,
            stack: &mut self.stack,
            work: &mut self.work,
            storage: &mut self.storage,
            used: self.used,
        };
        match gate {
            None => sys::run_with_gas(run, limit).number,
            Some(gate) => sys::execute_state_transition_with_gas(gate, run, limit).number,
        }
    }
}

fn gate(genesis: &str) -> Gate<'_> {
    Gate {
        chain_id: b"atc",
        network_id: b"devnet",
        genesis_id: genesis.as_bytes(),
        protocol_version: b"p1",
        vm_version: b"v1",
        computed_genesis_id: genesis.as_bytes(),
        expected_protocol: b"p1",
        expected_vm: b"v1",
    }
}

fn runs() {
    head("Runs: hot loops, 4,096 slots lent", false);
    for (name, program) in inputs::loops() {
        let (mut m, mut vm) = Machine::new(&program, 1, 4096);
        let items = vm.run_with_gas(u64::MAX).unwrap();
        assert!(m.call(None, u64::MAX) == 0 && m.stack[..items.len()] == items && m.storage[..1] == *vm.state());
        row(name, &mut || drop(black_box(vm.run_with_gas(u64::MAX).unwrap())), &mut || assert_eq!(m.call(None, u64::MAX), 0), None);
    }
    let genesis = "0123456789abcdef".repeat(4);
    let gate = gate(&genesis);
    let [chain_id, network_id, genesis_id, protocol_version, vm_version] = ["atc", "devnet", &genesis, "p1", "v1"].map(String::from);
    let chain = ChainContext { chain_id, network_id, genesis_id, protocol_version, vm_version };
    for transition in [false, true] {
        let what = if transition { "Transitions" } else { "Runs" };
        head(&format!("{what}: short programs; the memset is of the stack and work buffers"), true);
        let refused = [("out of gas at the third of 6 operations", inputs::short().swap_remove(0).1, 3, &[0, 4, 65_536][..])];
        let short = inputs::short().into_iter().map(|(n, p)| (n, p, 1000, &[0, 4, 65_536][..]));
        let reaching = inputs::reaching().into_iter().map(|(n, p)| (n, p, 1000, &[65_536][..]));
        for (name, program, limit, lengths) in short.chain(refused).chain(reaching) {
            for &used in lengths {
                let (m, mut vm) = Machine::new(&program, used, used);
                let m = std::cell::RefCell::new(m);
                let mut original = || match transition {
                    false => vm.run_with_gas(limit),
                    true => vm.execute_state_transition_with_gas(&chain, &genesis, "p1", "v1", limit),
                };
                let ours = || m.borrow_mut().call(transition.then_some(gate), limit);
                assert_eq!(original().is_ok(), ours() == 0);
                row(
                    &format!("{name}, {used} slots used and lent"),
                    &mut || drop(black_box(original())),
                    &mut || _ = black_box(ours()),
                    Some(&mut || {
                        let mut m = m.borrow_mut();
                        black_box(&mut m.stack).fill(0);
                        black_box(&mut m.work).fill(0);
                        black_box(&mut *m);
                    }),
                );
            }
        }
    }
    head("The chain gate, and all three calls in a row", false);
    row(
        "execution_gate, passing",
        &mut || _ = black_box(execution_gate(black_box(&chain), &genesis, "p1", "v1").is_ok()),
        &mut || _ = black_box(sys::execution_gate(black_box(gate))),
        None,
    );
    let Contract { contract, vector, .. } = inputs::contracts().swap_remove(0);
    let mut out = [0u8; 256];
    let (mut m, _) = Machine::new(&vec![(0, 0); 6], 4, 4);
    row(
        "tally assembled, read and run, 4 slots used and lent",
        &mut || {
            let text = assemble_plain(contract.as_bytes(), vector.as_bytes(), "tally").unwrap();
            let mut vm = Vm::with_context(ops::parse_ops(&text).unwrap(), 7, vec![0; 4]);
            drop(black_box(vm.execute_state_transition_with_gas(&chain, &genesis, "p1", "v1", 1000).unwrap()));
        },
        &mut || {
            let assembled = sys::assemble(contract.as_bytes(), vector.as_bytes(), b"tally", &mut out);
            assert_eq!(assembled.number, 0);
            assert_eq!(sys::parse_ops(&out[..assembled.words[0] as usize], &mut m.kinds, &mut m.operands).number, 0);
            assert_eq!(m.call(Some(gate), 1000), 0);
        },
        None,
    );
}

type Call<'a> = Box<dyn FnMut() -> u64 + Send + 'a>;

/// The most of several inputs of one call, each on a stack of its own.
fn most(call: &str, inputs: &str, calls: Vec<Call>) {
    let mut most = (0, 0);
    for mut f in calls {
        let mut number = 0;
        let used = stack::used(&mut || number = f());
        most = most.max((used, number));
    }
    println!("| {call} | {inputs} | {} | {} |", most.0, most.1);
}

fn stacks() {
    println!("\n### The real stack\n\n| call | input | bytes of stack | answer |\n|---|---|---:|---:|");
    let valued = |contract: &str| {
        let m = assemble_plain(contract.as_bytes(), b"\"expected\":0", "s").unwrap_err();
        format!("\"expected\":{}", m.split("simulation ").nth(1).unwrap().split(' ').next().unwrap())
    };
    let many: String = (0..256).map(|i| format!("p{i},")).collect();
    let keys: String = (0..256).map(|i| format!("\"p{i}\":1,")).collect();
    let one = || Some("\"expected\":1".to_string());
    let mut cases = vec![
        ("64 parentheses in each of 256 bindings, each using the one before", inputs::parentheses(256, "+1"), None),
        ("the same, two operators waiting at each parenthesis, 100 bindings", inputs::waiting(), None),
        ("k of 32,768 by doubling", inputs::doubled("1"), None),
        ("a contract of 65,536 bytes in one expression", inputs::longest(), None),
        ("256 parameters", format!("fn f({many}){{return p0}}"), Some(format!("{{{keys}\"expected\":1}}"))),
        ("60,000 open parentheses", format!("fn f(){{return {}}}", "(".repeat(60_000)), one()),
    ];
    cases.extend(inputs::unfriendly().into_iter().skip(4).map(|c| (c.name, c.contract, Some(c.vector))));
    let assemble = |contract: &str, vector: &str| -> Call {
        let (contract, vector, mut out) = (contract.to_string(), vector.to_string(), vec![7u8; 1 << 20]);
        Box::new(move || sys::assemble(contract.as_bytes(), vector.as_bytes(), b"tally", &mut out).number)
    };
    for (name, contract, vector) in cases {
        let vector = vector.unwrap_or_else(|| valued(&contract));
        most("assemble", name, vec![assemble(&contract, &vector)]);
    }
    let many = inputs::many();
    most("assemble", "the most of the contracts with many of one sort", many.iter().map(|c| assemble(&c.contract, &c.vector)).collect());
    let texts: Vec<&'static str> = inputs::texts().into_iter().map(|(_, t)| &*t.leak()).collect();
    let read = |text: &'static str| -> Call {
        let (mut kinds, mut operands) = (vec![0; 1 << 20], vec![0; 1 << 20]);
        Box::new(move || sys::parse_ops(text.as_bytes(), &mut kinds, &mut operands).number)
    };
    most("parse_ops", "1 MB, the most of the texts above", texts.iter().map(|t| read(t)).collect());
    let line = |text: &'static str| -> Call { Box::new(move || sys::trimmed_line(text.as_bytes(), 50_000).number) };
    most("trimmed_line", "1 MB, line 50,000, the most of the texts above", texts.iter().map(|t| line(t)).collect());
    let genesis: &'static str = "0123456789abcdef".repeat(4).leak();
    let gate = gate(genesis);
    most("execution_gate", "passing", vec![Box::new(|| sys::execution_gate(gate))]);
    let programs: Vec<Program> = inputs::loops().into_iter().chain(inputs::short()).map(|(_, p)| p).collect();
    let made = |p: &Program| Machine::new(p, 65_536, 65_536).0;
    let verify = |m: Machine| -> Call { Box::new(move || sys::verify(&m.kinds, &m.operands, 1).number) };
    most("verify", "the most of the programs above", programs.iter().map(|p| verify(made(p))).collect());
    let run = |mut m: Machine| -> Call { Box::new(move || m.call(None, u64::MAX)) };
    most("run_with_gas", "the most of the programs above, 65,536 slots", programs.iter().map(|p| run(made(p))).collect());
    let transition = |mut m: Machine| -> Call { Box::new(move || m.call(Some(gate), u64::MAX)) };
    most("execute_state_transition_with_gas", "the same", programs.iter().map(|p| transition(made(p))).collect());
}

fn main() {
    assemblies("Assembly", &inputs::contracts());
    assemblies("Assembly, unfriendly inputs", &inputs::unfriendly());
    assemblies("Assembly, many of one sort", &inputs::many());
    comparisons();
    reading();
    verifying();
    runs();
    stacks();
}
