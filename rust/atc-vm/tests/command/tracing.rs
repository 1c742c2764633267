//! Traces, held against runs.

use crate::folder::Folder;
use crate::json::Value;
use std::collections::BTreeMap;

// A generator of its own, so that every test run tries the same.
struct Dice(u64);

impl Dice {
    fn below(&mut self, n: u64) -> u64 {
        self.0 = self
            .0
            .wrapping_mul(6_364_136_223_846_793_005)
            .wrapping_add(1_442_695_040_888_963_407);
        (self.0 >> 33) % n
    }

    fn program(&mut self) -> String {
        const ALONE: [&str; 10] = [
            "Add", "Sub", "Mul", "Div", "Dup", "Swap", "Eq", "Lt", "Caller", "Halt",
        ];
        let length = 1 + self.below(14);
        let mut text = String::new();
        for at in 0..length {
            let line = match self.below(20) {
                // Values first, or most runs would end at once.
                _ if at < 2 => format!("Push {}", self.below(4)),
                0..=7 => format!("Push {}", self.below(4)),
                8 => format!("Load {}", self.below(5)),
                9 | 10 => format!("Store {}", [0, 1, 3, 6, 65_536][self.below(5) as usize]),
                11 => format!("Jump {}", self.below(length)),
                12 => format!("JumpIfZero {}", self.below(length)),
                13 => format!("JumpIfNotZero {}", self.below(length)),
                _ => ALONE[self.below(10) as usize].to_string(),
            };
            text += &line;
            text += "\n";
        }
        text
    }
}

#[test]
fn a_trace_ends_as_the_run_does() {
    let folder = Folder::new();
    let mut dice = Dice(7);
    let mut met = BTreeMap::new();
    for _ in 0..150 {
        folder.put("r.ops", dice.program());
        let gas = [40, 400][dice.below(2) as usize];
        let line = format!(
            "r.ops --gas {} --caller 3 --storage 4,0,9 --json",
            dice.below(gas)
        );
        let run = folder.say(&format!("run {line}"));
        let trace = folder.say(&format!("trace {line}"));
        assert_eq!(run.status, trace.status, "{line}");
        let (run, trace) = (run.json(), trace.json());
        for key in [
            "number",
            "gas_spent",
            "operations",
            "stack",
            "storage_after",
            "undone",
            "position",
            "operation",
        ] {
            assert_eq!(run.at(key), trace.at(key), "{key}");
        }
        steps_agree(&trace);
        *met.entry(run.at("number").number()).or_insert(0) += 1;
    }
    for number in [0, 46, 47, 49, 50] {
        assert!(met.get(&number).is_some_and(|times| *times > 2), "{met:?}");
    }
}

// Gas and storage go from step to step, and add up to the answer.
fn steps_agree(trace: &Value) {
    let mut gas = trace.at("gas_limit").number();
    let mut storage = trace.at("storage_before").numbers();
    let steps = trace.at("steps").list();
    for step in steps {
        assert_eq!(step.at("gas_before").number(), gas);
        if *step.at("refused") != Value::Null {
            assert_eq!(step.at("refused"), trace.at("number"));
            assert_eq!(*step.at("gas_after"), Value::Null);
            break;
        }
        gas -= step.at("price").number();
        assert_eq!(step.at("gas_after").number(), gas);
        storage.resize(step.at("slots").number() as usize, 0);
        for change in step.at("changes").list() {
            storage[change.at("slot").number() as usize] = change.at("after").number();
        }
    }
    if trace.at("number").number() == 0 {
        assert_eq!(
            trace.at("gas_spent").number(),
            trace.at("gas_limit").number() - gas
        );
        assert_eq!(trace.at("operations").number(), steps.len() as u64);
        assert_eq!(trace.at("storage_after").numbers(), storage);
        assert_eq!(steps.last().unwrap().at("stack"), trace.at("stack"));
    } else {
        assert_eq!(trace.at("storage_after"), trace.at("storage_before"));
    }
}

#[test]
fn a_trace_shows_each_operation() {
    let ops = "Push 75\nStore 0\nPush 180\nPush 0\nDiv\n";
    let folder = Folder::with([("half.ops", ops)]);
    let told = folder.say("trace half.ops --gas 7 --storage 50,90");
    let expected = "\
at  operation  price  gas before   gas after  stack (top right)
 0  Push 75        1           7           6  [75]
 1  Store 0        3           6           3  []   slot 0: 50 -> 75
 2  Push 180       1           3           2  [180]
 3  Push 0         1           2           1  [180, 0]
 4  Div            2           1           -  [180, 0]   refused with 46

answer          46, the price exceeds the gas left
stopped at      `Div`, operation 4, costs 2 gas, and 1 is left.
done before     4 operations, for 6 of 7 gas
stack           nothing is left of it
storage before  [50, 90]
storage after   [50, 90], as before
  slot 0        50        75 had been stored meanwhile: undone
  slot 1        90
";
    assert_eq!(told.out, expected);
    assert_eq!(told.status, 1);
}

#[test]
fn a_success_shows_stack_and_storage() {
    let folder = Folder::with([("r.ops", "Caller\nStore 2\nLoad 0\nHalt\nPush 9\n")]);
    let told = folder.say("run r.ops --caller 5 --storage 4");
    let expected = "\
answer          0, success
gas             7 of 1000 spent, 993 left
operations      4
stack           [4] (top right)
storage before  [4]
storage after   [4, 0, 5]
  changed       slot 2: unused -> 5, slots used: 1 -> 3
";
    assert_eq!(
        (told.status, told.out.as_str(), told.err.as_str()),
        (0, expected, "")
    );
}

#[test]
fn deep_stacks_are_cut_in_words_and_whole_in_json() {
    let ops: String = (0..40).map(|i| format!("Push {i}\n")).collect();
    let folder = Folder::with([("r.ops", &ops)]);
    let told = folder.say("trace r.ops");
    assert!(
        told.out
            .contains("[0, 1, 2, ..31 more.., 34, 35, 36, 37, 38, 39]\n"),
        "{}",
        told.out
    );
    let steps = folder.say("trace r.ops --json").json();
    let last = steps
        .at("steps")
        .list()
        .last()
        .unwrap()
        .at("stack")
        .numbers();
    assert_eq!(last, (0..40).collect::<Vec<u64>>());
}

#[test]
fn far_slots_are_told_in_few_words() {
    let folder = Folder::with([("r.ops", "Push 1\nStore 65535\nAdd\n")]);
    let told = folder.say("trace r.ops --storage 5");
    assert!(
        told.out
            .contains("slot 65535: unused -> 1, slots used: 1 -> 65536\n"),
        "{}",
        told.out
    );
    assert!(
        told.out
            .contains("  slot 65535    unused    1 had been stored meanwhile: undone\n"),
        "{}",
        told.out
    );
    assert!(told.out.len() < 2_000);
    let undone = folder.say("trace r.ops --storage 5 --json").json();
    assert_eq!(undone.at("undone").list().len(), 1);
    assert_eq!(undone.at("storage_after").numbers(), [5]);
}

#[test]
fn a_run_refused_late_is_told_without_its_place() {
    // Half a million times round a loop.
    let folder = Folder::with([("r.ops", "Push 1\nJumpIfNotZero 0\n")]);
    let told = folder.say("run r.ops --gas 3000000");
    assert_eq!(told.status, 1);
    assert!(told.err.contains("`atc trace` gets there"), "{}", told.err);
    let answer = folder.say("run r.ops --gas 3000000 --json").json();
    assert_eq!(*answer.at("position"), Value::Null);
}

#[test]
fn the_largest_limits() {
    let folder = Folder::with([("r.ops", "Push 2\nPush 3\nMul\n")]);
    let told = folder.say("trace r.ops --gas 18446744073709551615 --json");
    assert_eq!(told.status, 0);
    steps_agree(&told.json());
}
