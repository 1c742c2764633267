//! `atc gas`.

use crate::folder::Folder;
use crate::json::Value;

fn of_rule(rule: &str, vector: &str) -> Value {
    let folder = Folder::with([("r.rule", rule), ("v.json", vector)]);
    let told = folder.say("gas r.rule v.json --json");
    assert_eq!(told.status, 0, "{told:?}");
    told.json()
}

fn lets(answer: &Value) -> Vec<(&str, u64, u64, u64)> {
    let lets = answer.at("lets").list().iter();
    lets.map(|row| {
        let number = |key: &str| row.at(key).number();
        (
            row.at("name").text(),
            number("line"),
            number("copies"),
            number("gas"),
        )
    })
    .collect()
}

#[test]
fn a_let_is_paid_for_at_each_use() {
    let rule = "fn blank (sphere, cyl) {\n  let power = sphere + cyl\n  let twice = power * power\n  let unused = power\n  return twice + twice + power\n}\n";
    let answer = of_rule(rule, "{\"sphere\": 2, \"cyl\": 3, \"expected\": 55}");
    assert_eq!(
        (
            answer.at("k").number(),
            answer.at("p").number(),
            answer.at("value").number()
        ),
        (10, 4, 55)
    );
    assert_eq!(answer.at("least_limit").number(), 28);
    assert_eq!(answer.at("operations").number(), 20);
    assert_eq!(
        lets(&answer),
        [
            ("power", 2, 5, 20),
            ("twice", 3, 2, 20),
            ("unused", 4, 0, 0)
        ]
    );
}

#[test]
fn lets_in_words() {
    let folder = Folder::with([
        (
            "tally.rule",
            "fn total (a, b) {\n  let s = a + b\n  return s * s\n}\n",
        ),
        ("tally.json", "{\"a\": 5, \"b\": 7, \"expected\": 144}"),
    ]);
    let told = folder.say("gas tally.rule tally.json");
    let expected = "\
k               4 numbers pushed
p               3 stack items needed
value           144
operations      8
least limit     10 gas (3k - 2); under a limit of 9 the run is refused with 46

let  line  copies  gas a copy  gas in all
s       2       2           4           8
";
    assert_eq!(
        (told.status, told.out.as_str(), told.err.as_str()),
        (0, expected, "")
    );
}

#[test]
fn names_bound_anew_and_names_that_are_none() {
    let rule = "fn f () {\n let a = 1\n return a\n let a = a + a\n let * = a * a\n let b c = 9\n let 7 = 3\n let ( = 5\n let = 6\n return * * * + 7 }";
    let answer = of_rule(rule, "{\"expected\": 23}");
    let lets = lets(&answer);
    assert_eq!(lets[0], ("a", 2, 8, 8));
    assert_eq!(lets[1], ("a", 4, 4, 16));
    assert_eq!(lets[2], ("*", 5, 2, 20));
    for (_, _, copies, gas) in &lets[3..] {
        assert_eq!((*copies, *gas), (0, 0));
    }
}

#[test]
fn what_cannot_be_told_says_why() {
    let lines = "  let b = 1\n".repeat(255);
    let rule = format!("fn f () {{\n  let a = 2\n{lines}  return a\n}}");
    let answer = of_rule(&rule, "{\"expected\": 2}");
    let first = &answer.at("lets").list()[0];
    assert_eq!(*first.at("copies"), Value::Null);
    assert!(first.at("why_unknown").text().contains("256 bindings"));
    let doubled = format!(
        "fn f () {{\n  let a = 1\n{}  return a\n}}",
        "  let a = a + a\n".repeat(15)
    );
    let answer = of_rule(&doubled, "{\"expected\": 32768}");
    assert_eq!(answer.at("k").number(), 32_768);
    let lets = answer.at("lets").list();
    assert!(lets[0].at("why_unknown").text().contains("32768"));
}

#[test]
fn a_let_without_a_value_that_nobody_uses() {
    let answer = of_rule(
        "fn f () {\n  let a = 1 / 0\n  return 3\n}",
        "{\"expected\": 3}",
    );
    let row = &answer.at("lets").list()[0];
    assert_eq!((row.at("copies").number(), row.at("gas").number()), (0, 0));
    assert_eq!(*row.at("gas_a_copy"), Value::Null);
    assert!(row.at("why_unknown").text().contains("divides by 0"));
}

#[test]
fn least_limits_of_operations() {
    let folder = Folder::with([
        (
            "r.ops",
            "Caller\nStore 0\nLoad 1\nJumpIfZero 5\nHalt\nPush 1\n",
        ),
        ("h.ops", "Halt"),
    ]);
    let least = |line: &str| {
        let answer = folder.say(line).json();
        (
            answer.at("number").number(),
            answer.at("least_limit").number(),
        )
    };
    assert_eq!(least("gas r.ops --json"), (0, 10));
    assert_eq!(least("gas r.ops --json --storage 0,4"), (0, 9));
    assert_eq!(least("gas h.ops --json"), (0, 0));
    let told = folder.say("gas r.ops");
    assert!(
        told.out
            .contains("least limit     10 gas; under a limit of 9 the run is refused with 46\n"),
        "{told:?}"
    );
    // At the limit it runs, and below it doesn't.
    assert_eq!(folder.say("run r.ops --gas 10").status, 0);
    assert_eq!(folder.say("run r.ops --gas 9").status, 1);
}

#[test]
fn no_success_is_said() {
    let folder = Folder::with([("loop.ops", "Jump 0"), ("none.ops", "Add")]);
    let told = folder.say("gas loop.ops --gas 100");
    assert_eq!(told.status, 1);
    assert!(
        told.out
            .contains("none up to 100 gas: the run is refused with 46"),
        "{told:?}"
    );
    assert!(told.err.contains("No success within 100 gas."), "{told:?}");
    let told = folder.say("gas none.ops");
    assert_eq!(told.status, 1);
    assert!(told.out.contains("the run is refused with 47"), "{told:?}");
}
