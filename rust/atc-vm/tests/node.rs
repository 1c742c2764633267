//! What a node meets: every number that can reach it, storage over refusals, files, limits of text, stack and memory.
//! The imports are the original's paths.

use atc_vm::assembler::{assemble, assemble_text, AssembleError, AssembleFileError};
use atc_vm::context::{ChainContext, ContextError, CHAIN_ID};
use atc_vm::ops::{parse_ops, parse_ops_bytes, trimmed_line, OpsError};
use atc_vm::vm::{Op, Vm, VmError, MAX_PROGRAM_OPS, MAX_STACK_ITEMS, MAX_STORAGE_SLOTS};
use std::fs;

fn context() -> ChainContext {
    ChainContext {
        chain_id: CHAIN_ID.into(),
        network_id: "mainnet".into(),
        genesis_id: "0".repeat(64),
        protocol_version: "1".into(),
        vm_version: "2".into(),
    }
}

#[test]
fn assembly_gives_1_to_25() {
    let number = |contract: &[u8], vector: &[u8], stem: &[u8]| {
        assemble_text(contract, vector, stem).unwrap_err().number()
    };
    let body = |lines: &str| {
        number(
            format!("fn f () {{\n{lines}\n}}").as_bytes(),
            b"\"expected\": 1",
            b"s",
        )
    };
    let vector = |vector: &str| number(b"fn f (a) {\nreturn 1\n}", vector.as_bytes(), b"s");
    assert_eq!(number(&[0xff], b"", b""), 1);
    assert_eq!(number(&[b' '; 65_537], b"", b""), 1);
    assert_eq!(number(&[b' '; 65_536], b"", b""), 3);
    assert_eq!(number(b"", &[0xff], b""), 2);
    assert_eq!(number(b"", b"", b""), 3);
    assert_eq!(number(b"fn f", b"", b""), 4);
    assert_eq!(number(b"fn f (", b"", b""), 5);
    assert_eq!(number(b"fn f ()", b"", b""), 6);
    assert_eq!(number(b"fn f () {", b"", b""), 7);
    assert_eq!(vector(""), 8);
    assert_eq!(vector("\"expected\""), 9);
    assert_eq!(vector("\"expected\": x"), 10);
    assert_eq!(vector("\"expected\": 18446744073709551616"), 11);
    assert_eq!(body("let x"), 12);
    assert_eq!(body("return 1;"), 13);
    assert_eq!(body("return (1"), 14);
    assert_eq!(body("return (1 1)"), 15);
    assert_eq!(body("return 18446744073709551616"), 16);
    assert_eq!(body("return y"), 17);
    assert_eq!(
        body(&format!("return {}1{}", "(".repeat(65), ")".repeat(65))),
        18
    );
    assert_eq!(body("return 1 1"), 19);
    assert_eq!(body(&doubling(15, "let y = x + 1")), 20);
    assert_eq!(body(&"let x = 1\n".repeat(257)), 21);
    assert_eq!(body("let x = 1"), 22);
    assert_eq!(body("return 1 / 0"), 23);
    assert_eq!(body("return 2"), 24);
    for stem in [&b""[..], b"a\nb", &[0xff], &[b'a'; 256]] {
        assert_eq!(
            number(b"fn f () {\nreturn 1\n}", b"\"expected\": 1", stem),
            25
        );
    }
}

#[test]
fn assembly_carries_key_and_line() {
    let contract = "fn f (a, b) { let c = a\n let d = 1 +\n return a\n}";
    let refused = |vector: &str| assemble_text(contract, vector, "f").unwrap_err();
    assert_eq!(refused(r#"{"a": 1}"#), AssembleError::NoKey { key: 0 });
    assert_eq!(
        refused(r#"{"a": 1, "expected": 1}"#),
        AssembleError::NoKey { key: 2 }
    );
    assert_eq!(
        refused(r#"{"a": 1, "b": 2, "expected": 1}"#),
        AssembleError::UnexpectedEnd { line: 2 }
    );
}

// x is 2^n literals long.
fn doubling(n: usize, last: &str) -> String {
    let literal = "18446744073709551615";
    format!("let x = {literal}\n{}{last}", "let x = x * x\n".repeat(n))
}

#[test]
fn the_longest_output_has_room() {
    let contract = format!("fn f () {{\n{}\n}}", doubling(15, "return x"));
    let stem = "s".repeat(255);
    let assembled = assemble_text(contract, "\"expected\": 1", &stem).unwrap();
    assert_eq!((assembled.k, assembled.p, assembled.value), (32_768, 16, 1));
    assert_eq!(
        assembled.text.len(),
        30 * 32_768 - 4 + 12 + 255 + 13 + 1 + 1 + 5
    );
    let mut vm = Vm::new(parse_ops(&assembled.text).unwrap());
    assert_eq!(vm.run_with_gas(3 * 32_768 - 2), Ok(vec![1]));
    assert_eq!(vm.run_with_gas(3 * 32_768 - 3).unwrap_err().number(), 46);
}

#[test]
fn the_deepest_contract_runs_on_a_stack_of_512_kib() {
    let (open, close) = ("(".repeat(64), ")".repeat(64));
    let mut contract = format!("fn f () {{\nlet x = {open}1{close}\n");
    contract.push_str(&format!("let x = {open}x{close}\n").repeat(255));
    contract.push_str("return x\n}");
    let assembled = std::thread::Builder::new()
        .stack_size(512 * 1024)
        .spawn(move || assemble_text(contract, "\"expected\": 1", "deep"))
        .unwrap()
        .join()
        .unwrap();
    assert_eq!(
        assembled.unwrap().text,
        "# contract: deep\n# expected: 1\nPush 1\nHalt\n"
    );
}

#[test]
fn reading_gives_27_to_31_and_33() {
    let line = 3;
    let value = || "é x".to_string();
    assert_eq!(
        parse_ops("\n# r\n Push  é x \nbad"),
        Err(OpsError::BadPush {
            line,
            value: value()
        })
    );
    assert_eq!(
        parse_ops("\n# r\n Load  é x \nbad"),
        Err(OpsError::BadSlot {
            line,
            value: value()
        })
    );
    assert_eq!(
        parse_ops("\n# r\n Store  é x \nbad"),
        Err(OpsError::BadSlot {
            line,
            value: value()
        })
    );
    assert_eq!(
        parse_ops("\n# r\n Jump  é x \nbad"),
        Err(OpsError::BadTarget {
            line,
            value: value()
        })
    );
    assert_eq!(
        parse_ops("\n# r\n é x \nbad"),
        Err(OpsError::UnknownOp {
            line,
            text: value()
        })
    );
    assert_eq!(parse_ops("\n# r\n"), Err(OpsError::Empty));
    assert_eq!(parse_ops(""), Err(OpsError::Empty));
    assert_eq!(parse_ops_bytes(b"Halt\n\xff"), Err(OpsError::NotUtf8));
    assert_eq!(OpsError::NotUtf8.number(), 27);
    assert_eq!(parse_ops("Load x").unwrap_err().number(), 29);
    assert_eq!(parse_ops("JumpIfZero x").unwrap_err().number(), 31);
    assert_eq!(OpsError::Empty.number(), 33);
    assert_eq!(trimmed_line("\n# r\n \u{a0}é x\u{2028}\n", 3), "é x");
    assert_eq!(trimmed_line("a", 0), "");
}

#[test]
fn reading_has_room_for_the_shortest_lines() {
    for n in 0..50 {
        let text = ["Eq"].repeat(n + 1).join("\n");
        assert_eq!(parse_ops(&text), Ok(vec![Op::Eq; n + 1]));
        assert_eq!(parse_ops(&format!("{text}\n")), Ok(vec![Op::Eq; n + 1]));
    }
}

#[test]
fn reading_has_room_among_line_feeds_alone() {
    for n in [254, 255, 256, 1_000] {
        let feeds = "\n".repeat(n);
        assert_eq!(parse_ops(&feeds), Err(OpsError::Empty));
        assert_eq!(
            parse_ops(&format!("{feeds}Lt\nEq")),
            Ok(vec![Op::Lt, Op::Eq])
        );
    }
}

#[test]
fn every_operation_reads_and_runs() {
    let text = "Push 1\nPush 2\nAdd\nPush 1\nSub\nPush 5\nMul\nPush 2\nDiv\nDup\nSwap\nEq\nJumpIfNotZero 14\nHalt\n\
                Push 3\nCaller\nLt\nJumpIfZero 19\nJump 19\nLoad 1\nStore 3\nHalt";
    let due = vec![
        Op::Push(1),
        Op::Push(2),
        Op::Add,
        Op::Push(1),
        Op::Sub,
        Op::Push(5),
        Op::Mul,
        Op::Push(2),
        Op::Div,
        Op::Dup,
        Op::Swap,
        Op::Eq,
        Op::JumpIfNotZero(14),
        Op::Halt,
        Op::Push(3),
        Op::Caller,
        Op::Lt,
        Op::JumpIfZero(19),
        Op::Jump(19),
        Op::Load(1),
        Op::Store(3),
        Op::Halt,
    ];
    assert_eq!(parse_ops(text), Ok(due.clone()));
    let mut vm = Vm::with_context(due, 7, vec![8, 9]);
    assert_eq!(vm.run_with_gas(100), Ok(vec![]));
    assert_eq!(vm.caller(), 7);
    assert_eq!(vm.state(), [8, 9, 0, 9]);
    assert_eq!(vm.receipt().unwrap().operations, 21);
}

#[test]
fn a_program_gives_41_to_43_and_45_to_50() {
    let verified =
        |program: Vec<Op>, slots: usize| Vm::with_context(program, 0, vec![1; slots]).verify();
    assert_eq!(
        verified(vec![], 0),
        Err(VmError::InvalidProgram("empty program"))
    );
    assert_eq!(VmError::InvalidProgram("empty program").number(), 41);
    let size = MAX_PROGRAM_OPS + 1;
    assert_eq!(verified(vec![Op::Halt; size - 1], 0), Ok(()));
    assert_eq!(
        verified(vec![Op::Halt; size], 0),
        Err(VmError::ProgramTooLarge {
            size,
            limit: MAX_PROGRAM_OPS
        })
    );
    let used = MAX_STORAGE_SLOTS + 1;
    let refused = VmError::StateTooLarge {
        used,
        limit: MAX_STORAGE_SLOTS,
    };
    assert_eq!(refused.number(), 43);
    assert_eq!(verified(vec![Op::Halt], used - 1), Ok(()));
    assert_eq!(verified(vec![Op::Halt], used), Err(refused.clone()));
    let mut vm = Vm::with_context(vec![Op::Halt], 0, vec![1; used]);
    assert_eq!(vm.run_with_gas(0), Err(refused));
    assert_eq!(vm.state(), vec![1; used]);
    for jump in [
        Op::Jump(1),
        Op::JumpIfZero(1),
        Op::JumpIfNotZero(usize::MAX),
    ] {
        assert_eq!(
            verified(vec![jump], 0),
            Err(VmError::InvalidProgram("jump target out of range"))
        );
    }

    let ran = |program: &[Op]| {
        Vm::new(program.to_vec())
            .run_with_gas(1_000_000)
            .unwrap_err()
    };
    assert_eq!(
        ran(&[Op::Push(1), Op::Jump(0)]),
        VmError::StackLimitExceeded
    );
    assert_eq!(VmError::StackLimitExceeded.number(), 48);
    assert_eq!(
        ran(&vec![Op::Push(1); MAX_STACK_ITEMS + 1]),
        VmError::StackLimitExceeded
    );
    assert_eq!(
        Vm::new(vec![Op::Push(1); MAX_STACK_ITEMS]).run_with_gas(5_000),
        Ok(vec![1; MAX_STACK_ITEMS])
    );
    assert_eq!(
        ran(&[Op::Push(1), Op::Push(0), Op::Div]),
        VmError::DivisionByZero
    );
    assert_eq!(VmError::DivisionByZero.number(), 49);
    assert_eq!(
        ran(&[Op::Jump(0)]),
        VmError::OutOfGas {
            required: 2,
            remaining: 0
        }
    );
    let limit = MAX_STORAGE_SLOTS;
    for slot in [usize::MAX, usize::MAX - 1] {
        assert_eq!(
            ran(&[Op::Push(1), Op::Store(slot)]),
            VmError::StorageLimitExceeded {
                requested: usize::MAX,
                limit
            }
        );
    }
}

#[test]
fn a_refused_run_leaves_the_storage() {
    let program = vec![
        Op::Push(5),
        Op::Store(0),
        Op::Push(6),
        Op::Store(9),
        Op::Add,
    ];
    let mut vm = Vm::with_context(program, 0, vec![1, 2]);
    assert_eq!(vm.run_with_gas(100), Err(VmError::StackUnderflow));
    assert_eq!(vm.state(), [1, 2]);
    assert_eq!(
        vm.run_with_gas(9),
        Err(VmError::OutOfGas {
            required: 2,
            remaining: 1
        })
    );
    assert_eq!(vm.state(), [1, 2]);
}

#[test]
fn runs_one_after_another_go_on_from_the_storage() {
    let mut vm = Vm::new(vec![
        Op::Load(2),
        Op::Push(1),
        Op::Add,
        Op::Dup,
        Op::Store(2),
    ]);
    for n in 1..5 {
        assert_eq!(vm.run_with_gas(10), Ok(vec![n]));
        assert_eq!(vm.state(), [0, 0, n]);
        assert_eq!(vm.run_with_gas(9).unwrap_err().number(), 46);
        assert_eq!(vm.state(), [0, 0, n]);
    }
}

#[test]
fn a_short_rule_follows_a_long_one() {
    let mut long = Vm::new(vec![Op::Push(3), Op::Push(4), Op::Store(65_535)]);
    let mut short = Vm::with_context(
        vec![Op::Load(65_535), Op::Load(0), Op::Store(1)],
        0,
        vec![5],
    );
    assert_eq!(long.run_with_gas(100), Ok(vec![3]));
    assert_eq!(short.run_with_gas(100), Ok(vec![0]));
    assert_eq!(short.state(), [5, 5]);
    assert_eq!(long.run_with_gas(100), Ok(vec![3]));
    assert_eq!(long.state().len(), 65_536);
    assert_eq!(Vm::new(vec![Op::Halt]).run_with_gas(0), Ok(vec![]));
}

#[test]
fn slots_of_another_machine_do_not_show() {
    let mut full = Vm::with_context(vec![Op::Push(9), Op::Store(20)], 0, vec![9; 8]);
    let mut empty = Vm::new(vec![Op::Load(3), Op::Push(7), Op::Store(5)]);
    assert_eq!(full.run_with_gas(100), Ok(vec![]));
    assert_eq!(empty.run_with_gas(100), Ok(vec![0]));
    assert_eq!(empty.state(), [0, 0, 0, 0, 0, 7]);
    assert_eq!(full.state()[..9], [9, 9, 9, 9, 9, 9, 9, 9, 0]);
    assert_eq!((full.state().len(), full.state()[20]), (21, 9));
}

#[test]
fn a_transition_passes_the_gate_first() {
    let good = context();
    let genesis = good.genesis_id.clone();
    let mut vm = Vm::with_context(vec![Op::Push(1), Op::Store(0)], 0, vec![4]);
    let mut refused = |context: &ChainContext,
                       computed: &str,
                       protocol: &str,
                       version: &str,
                       due: ContextError| {
        let number = due.number();
        let error = vm
            .execute_state_transition_with_gas(context, computed, protocol, version, 100)
            .unwrap_err();
        assert_eq!(error, VmError::Context(due));
        assert_eq!(error.number(), number);
        assert_eq!(vm.state(), [4]);
    };
    let changed = |change: fn(&mut ChainContext)| {
        let mut context = context();
        change(&mut context);
        context
    };
    refused(
        &changed(|c| c.chain_id.push('x')),
        &genesis,
        "1",
        "2",
        ContextError::InvalidChainId,
    );
    refused(
        &changed(|c| c.network_id.clear()),
        &genesis,
        "1",
        "2",
        ContextError::InvalidNetworkId,
    );
    refused(
        &changed(|c| c.genesis_id.push('0')),
        &genesis,
        "1",
        "2",
        ContextError::InvalidGenesisId,
    );
    refused(&good, &genesis, "", "2", ContextError::ProtocolMismatch);
    refused(&good, &genesis, "1", "3", ContextError::VmMismatch);
    refused(
        &good,
        &"1".repeat(64),
        "1",
        "2",
        ContextError::GenesisMismatch,
    );

    let no_gas = vm.execute_state_transition(&good, &genesis, "1", "2");
    assert_eq!(
        no_gas,
        Err(VmError::OutOfGas {
            required: 1,
            remaining: 0
        })
    );
    assert_eq!(
        vm.execute_state_transition_with_gas(&good, &genesis, "1", "2", 4),
        Ok(vec![])
    );
    assert_eq!(vm.state(), [1]);
    assert_eq!(
        Vm::new(vec![Op::Halt]).execute_state_transition(&good, &genesis, "1", "2"),
        Ok(vec![])
    );

    assert_eq!(good.validate("1", "2"), Ok(()));
    assert_eq!(good.validate("1", "1"), Err(ContextError::VmMismatch));
    assert_eq!(good.verify_genesis_id(&genesis), Ok(()));
    assert_eq!(
        good.verify_genesis_id("0"),
        Err(ContextError::GenesisMismatch)
    );
}

// A node's function that passes the original's text errors on.
fn passes_errors_on(folder: &std::path::Path, contract: &str) -> Result<String, String> {
    let out = assemble(
        &folder.join(contract),
        &folder.join("v.json"),
        &folder.join("out"),
    )?;
    fs::read_to_string(out).map_err(|error| error.to_string())
}

#[test]
fn files_are_assembled() {
    let folder = std::path::Path::new(env!("CARGO_TARGET_TMPDIR")).join("files");
    let _ = fs::remove_dir_all(&folder);
    fs::create_dir_all(&folder).unwrap();
    fs::write(folder.join("v.json"), "{\"expected\": 3}").unwrap();
    fs::write(folder.join("three.rule.txt"), "fn f () {\n return 1 + 2\n}").unwrap();
    fs::write(folder.join("two.rule"), "fn f () {\n return 2\n}").unwrap();
    fs::write(folder.join("long.rule"), vec![b' '; 100_000]).unwrap();

    let refused = |contract: &str, vector: &str| {
        assemble(
            &folder.join(contract),
            &folder.join(vector),
            &folder.join("out"),
        )
        .unwrap_err()
    };
    assert_eq!(refused("two.rule", "v.json").number(), Some(24));
    assert_eq!(refused("long.rule", "v.json").number(), Some(1));
    assert!(matches!(
        refused("absent", "v.json"),
        AssembleFileError::ReadContract(_)
    ));
    assert!(matches!(
        refused("two.rule", "absent"),
        AssembleFileError::ReadVector(_)
    ));
    assert_eq!(refused("two.rule", "absent").number(), None);
    assert!(!folder.join("out").exists());

    let due = "# contract: three.rule\n# expected: 3\nPush 1\nPush 2\nAdd\nHalt\n";
    assert_eq!(
        passes_errors_on(&folder, "three.rule.txt").as_deref(),
        Ok(due)
    );
    assert_eq!(
        fs::read_to_string(folder.join("out/three.rule.ops")).unwrap(),
        due
    );
    assert!(passes_errors_on(&folder, "absent")
        .unwrap_err()
        .starts_with("cannot read contract: "));
}
