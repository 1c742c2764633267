//! Document 01's bench examples E1 to E10 through the crate.

use atc_vm::{
    assemble_text, execution_gate, parse_ops, sys, AssembleError, Assembled, ChainContext,
    ContextError, Op, OpsError, Receipt, Vm, VmError,
};

const TALLY: &str = "fn total (a, b) {\n  let s = a + b\n  return s * 2\n}\n";
const VECTOR: &str = r#"{"a": 5, "b": 7, "expected": 24}"#;

fn tally() -> Assembled {
    assemble_text(TALLY, VECTOR, "tally").unwrap()
}

#[test]
fn e1_the_tally_is_assembled() {
    let text =
        "# contract: tally\n# expected: 24\nPush 5\nPush 7\nAdd\nPush 2\nMul\nHalt\n".to_string();
    assert_eq!(
        tally(),
        Assembled {
            text,
            k: 3,
            p: 2,
            value: 24
        }
    );
}

#[test]
fn the_tally_runs() {
    let mut vm = Vm::with_context(parse_ops(&tally().text).unwrap(), 7, vec![]);
    assert_eq!(vm.run_with_gas(1_000), Ok(vec![24]));
    assert_eq!(
        vm.receipt(),
        Some(Receipt {
            gas_spent: 7,
            operations: 6
        })
    );
    assert_eq!(vm.state(), []);
}

#[test]
fn e2_the_tally_with_gas_6() {
    let mut vm = Vm::new(parse_ops(&tally().text).unwrap());
    let refused = vm.run_with_gas(6).unwrap_err();
    assert_eq!(
        refused,
        VmError::OutOfGas {
            required: 2,
            remaining: 1
        }
    );
    assert_eq!(refused.number(), 46);
    assert_eq!(vm.receipt(), None);
}

#[test]
fn e3_the_price_comes_before_the_pops() {
    let mut vm = Vm::new(vec![Op::Div]);
    assert_eq!(vm.run_with_gas(1).unwrap_err().number(), 46);
    assert_eq!(vm.run_with_gas(2).unwrap_err().number(), 47);
}

#[test]
fn e4_halt_is_free() {
    assert_eq!(Vm::new(vec![Op::Halt]).run_with_gas(0), Ok(vec![]));
}

#[test]
fn e5_passing_the_end_and_jumping_there() {
    assert_eq!(Vm::new(vec![Op::Push(9)]).run_with_gas(1_000), Ok(vec![9]));
    let refused = Vm::new(vec![Op::Jump(1)]).run_with_gas(1_000).unwrap_err();
    assert_eq!(refused, VmError::InvalidProgram("jump target out of range"));
    assert_eq!(refused.number(), 45);
}

// Push 1, Store slot, on four lent slots of which none is used.
fn stored_in_four(slot: u64) -> (sys::Answer, [u64; 4]) {
    let (mut stack, mut work, mut storage) = (vec![3; 4_096], [3; 4], [0; 4]);
    let answer = sys::run_with_gas(
        sys::Run {
            kinds: &[0, 12],
            operands: &[1, slot],
            caller: 7,
            stack: &mut stack,
            work: &mut work,
            storage: &mut storage,
            used: 0,
        },
        1_000,
    );
    assert_eq!(stack, vec![0; 4_096]);
    assert_eq!(work, [0; 4]);
    (answer, storage)
}

#[test]
fn e6_four_lent_slots() {
    let (answer, storage) = stored_in_four(3);
    assert_eq!(
        answer,
        sys::Answer {
            number: 0,
            words: [4, 2, 0, 4, 0, 0, 0, 0]
        }
    );
    assert_eq!(storage, [0, 0, 0, 1]);
    for slot in [4, 65_535] {
        let (answer, storage) = stored_in_four(slot);
        assert_eq!(
            answer,
            sys::Answer {
                number: 51,
                words: [0; 8]
            }
        );
        assert_eq!(storage, [0; 4]);
    }
    let (answer, storage) = stored_in_four(65_536);
    assert_eq!(
        answer,
        sys::Answer {
            number: 50,
            words: [65_537, 0, 0, 0, 0, 0, 0, 0]
        }
    );
    assert_eq!(storage, [0; 4]);
}

#[test]
fn e6_a_vm_lends_enough() {
    let store = |slot| Vm::new(vec![Op::Push(1), Op::Store(slot)]);
    let mut vm = store(3);
    assert_eq!(vm.run_with_gas(1_000), Ok(vec![]));
    assert_eq!(vm.state(), [0, 0, 0, 1]);
    let mut vm = store(65_535);
    assert_eq!(vm.run_with_gas(1_000), Ok(vec![]));
    assert_eq!(vm.state().len(), 65_536);
    assert_eq!(vm.state()[65_535], 1);
    let refused = store(65_536).run_with_gas(1_000).unwrap_err();
    assert_eq!(
        refused,
        VmError::StorageLimitExceeded {
            requested: 65_537,
            limit: 65_536
        }
    );
    assert_eq!(refused.number(), 50);
}

#[test]
fn e7_signs_of_numbers() {
    assert_eq!(parse_ops("Push +5"), Ok(vec![Op::Push(5)]));
    let refused = parse_ops("Push -0").unwrap_err();
    assert_eq!(
        refused,
        OpsError::BadPush {
            line: 1,
            value: "-0".into()
        }
    );
    assert_eq!(refused.number(), 28);
}

#[test]
fn e8_push_alone() {
    let refused = parse_ops("Push").unwrap_err();
    assert_eq!(
        refused,
        OpsError::UnknownOp {
            line: 1,
            text: "Push".into()
        }
    );
    assert_eq!(refused.number(), 30);
}

#[test]
fn e9_left_to_right() {
    for (expression, value) in [("7 - 2 * 3", 1), ("8 / 2 / 2", 2)] {
        let contract = format!("fn f () {{\n  return {expression}\n}}");
        let assembled = assemble_text(&contract, format!("\"expected\": {value}"), "f").unwrap();
        let mut vm = Vm::new(parse_ops(&assembled.text).unwrap());
        assert_eq!(vm.run_with_gas(7), Ok(vec![value]));
        let refused = assemble_text(&contract, "\"expected\": 3", "f").unwrap_err();
        assert_eq!(refused, AssembleError::NotExpected);
        assert_eq!(refused.number(), 24);
    }
}

#[test]
fn e10_the_genesis_id_is_compared_bytewise() {
    let context = ChainContext {
        chain_id: "atc".into(),
        network_id: "devnet".into(),
        genesis_id: "A".repeat(64),
        protocol_version: "p".into(),
        vm_version: "v".into(),
    };
    assert_eq!(execution_gate(&context, &"A".repeat(64), "p", "v"), Ok(()));
    let refused = execution_gate(&context, &"a".repeat(64), "p", "v").unwrap_err();
    assert_eq!(refused, ContextError::GenesisMismatch);
    assert_eq!(refused.number(), 40);
}
