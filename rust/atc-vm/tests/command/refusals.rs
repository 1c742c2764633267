//! Every refusal that the command can meet: its number, its exit status, and the place that it names.

use crate::folder::{Folder, Told};
use std::collections::BTreeSet;
use std::ffi::OsStr;
use std::os::unix::ffi::OsStrExt;

const VECTOR: &str = r#"{"expected": 150, "power": 75, "zero": 0}"#;

// A refusal by `assemble`, `run`, `trace` and `gas` alike, in words and in JSON; the place is empty where there is none.
fn refused(
    number: u64,
    rule: impl AsRef<[u8]>,
    vector: impl AsRef<[u8]>,
    place: &str,
    words: &[&str],
) {
    let folder = Folder::new();
    folder.put("r.rule", rule);
    folder.put("v.json", vector);
    for command in ["assemble", "run", "trace", "gas"] {
        told(
            number,
            &folder.atc([command, "r.rule", "v.json"]),
            place,
            words,
        );
        told_in_json(
            number,
            &folder.atc([command, "r.rule", "v.json", "--json"]),
            place,
        );
    }
}

fn told(number: u64, told: &Told, place: &str, words: &[&str]) {
    assert_eq!(told.status, 1, "{number}: {told:?}");
    let headline = atc_vm::refusal(number).unwrap().text;
    let first = format!("error[{number}]: {headline}\n");
    assert!(told.err.contains(&first), "{number}: {}", told.err);
    // Notes may stand before it.
    let error = told.err.find(&first).map_or("", |at| &told.err[at..]);
    let marked = error
        .lines()
        .find_map(|line| line.trim_start().strip_prefix("--> "));
    assert_eq!(marked.unwrap_or(""), place, "{number}: {}", told.err);
    for word in words {
        assert!(told.err.contains(word), "{number}, {word}: {}", told.err);
    }
}

fn told_in_json(number: u64, told: &Told, place: &str) {
    assert_eq!(
        (told.status, told.err.as_str()),
        (1, ""),
        "{number}: {told:?}"
    );
    let answer = told.json();
    assert_eq!(answer.at("number").number(), number);
    let refusal = answer.at("refusal");
    assert_eq!(refusal.at("number").number(), number);
    let known = atc_vm::refusal(number).unwrap();
    assert_eq!(refusal.at("name").text(), known.name);
    assert_eq!(refusal.at("headline").text(), known.text);
    assert_eq!(refusal.at("carries").list().len(), known.carries.len());
    if !place.is_empty() {
        let at = refusal.at("place");
        let (file, line, column) = (
            at.at("file").text(),
            at.at("line").number(),
            at.at("column").number(),
        );
        assert_eq!(format!("{file}:{line}:{column}"), place);
    }
}

// The body's lines begin on the file's line 4; the first two are remarks.
fn body_refused(number: u64, body: &str, place: &str, words: &[&str]) {
    let rule =
        format!("// A remark.\n\n// Another. \u{3bb}\nfn blank (power, zero) {{\n{body}\n}}\n");
    let place = format!("r.rule:{place}");
    refused(number, &rule, VECTOR, &place, words);
    // Lines may end as on Windows.
    refused(number, rule.replace('\n', "\r\n"), VECTOR, &place, words);
}

#[test]
fn contracts_and_vectors_that_cannot_be_read() {
    let rule = "fn f () {\n  return 1\n}\n";
    let long = format!("{rule}{}", "x".repeat(65_537 - rule.len()));
    refused(
        1,
        long,
        VECTOR,
        "",
        &["r.rule has 65537 bytes, 1 too many."],
    );
    refused(
        1,
        b"fn f () {\n  return \xff1\n}\n",
        VECTOR,
        "r.rule:2:10",
        &["Byte 19 of the file, 0xFF"],
    );
    refused(1, b"\xff\xfef\0n\0", VECTOR, "r.rule:1:1", &["UTF-16"]);
    refused(
        2,
        rule,
        "x".repeat(70_000),
        "",
        &["v.json has 70000 bytes, 4464 too many."],
    );
    refused(
        2,
        rule,
        b"{\n \"expected\": 1\n\x80}",
        "v.json:3:1",
        &["Byte 17 of the file, 0x80"],
    );
}

#[test]
fn heads() {
    refused(3, "", VECTOR, "r.rule:1:1", &["no `fn `"]);
    refused(
        3,
        "\nfunction f () {\n}",
        VECTOR,
        "r.rule:1:1",
        &["no `fn `"],
    );
    refused(4, "\n fn f {\n}", VECTOR, "r.rule:2:2", &["No `(`"]);
    refused(5, "fn f (a {\n}", VECTOR, "r.rule:1:6", &["no `)`"]);
    refused(6, "fn f (a\n)\n}", VECTOR, "r.rule:2:1", &["No `{`"]);
    refused(7, "fn f (a)\n\t{\n", VECTOR, "r.rule:2:2", &["no `}`"]);
}

#[test]
fn keys() {
    let rule = "fn blank (power,\n  axis: degrees) {\n  return power\n}\n";
    let with = |axis: &str| format!("{{\"expected\": 75, \"power\": 75,\n {axis}}}");
    refused(
        8,
        rule,
        "{\"power\": 1}",
        "v.json:1:1",
        &["no key `\"expected\"`"],
    );
    refused(
        8,
        rule,
        with("\"axsi\": 3"),
        "r.rule:2:3",
        &[
            "v.json has no key `\"axis\"`.",
            "v.json has the key `axsi`.",
        ],
    );
    refused(
        9,
        rule,
        with("\"axis\" 3"),
        "v.json:2:2",
        &["No `:` stands behind the key `axis`."],
    );
    refused(9, rule, "\"expected\"", "v.json:1:1", &["`expected`"]);
    refused(
        10,
        rule,
        with("\"axis\": -3"),
        "v.json:2:10",
        &["`-` stands where the digits of `axis` are due.", "no sign"],
    );
    refused(
        10,
        rule,
        with("\"axis\":\n\u{a0}\"3\""),
        "v.json:3:2",
        &["`\"` stands", "without quotes"],
    );
    refused(
        10,
        rule,
        with("\"axis\": \u{663}"),
        "v.json:2:10",
        &["(U+0663) stands"],
    );
    refused(
        10,
        rule,
        "{\"expected\": \n",
        "v.json:1:13",
        &["The vector ends"],
    );
    let large = "\"axis\": 18446744073709551616";
    refused(
        11,
        rule,
        with(large),
        "v.json:2:10",
        &["The value of `axis` exceeds 18446744073709551615."],
    );
}

#[test]
fn lines() {
    body_refused(
        12,
        "  let half power / 2\n  return half",
        "5:3",
        &["This `let` has no `=`."],
    );
    body_refused(
        14,
        "  return power +  ",
        "5:17",
        &["The expression ends here"],
    );
    body_refused(
        14,
        "\n\treturn ((power)\n  return 1",
        "6:17",
        &["The expression ends here"],
    );
    body_refused(14, "  let x =", "5:10", &["The expression ends here"]);
    body_refused(
        15,
        "  return (power 2)",
        "5:17",
        &["`2` stands where `)` is due."],
    );
    body_refused(
        16,
        "  return 1 + 18446744073709551616 + z",
        "5:14",
        &["`18446744073709551616` exceeds"],
    );
    let nested = format!("  return {}1{}", "(".repeat(65), ")".repeat(65));
    body_refused(18, &nested, "5:74", &["the 65th parenthesis"]);
    body_refused(
        19,
        "  return 2 power + power",
        "5:12",
        &["`power` is left over"],
    );
    body_refused(
        19,
        "  let a = (power)) * 2\n  return a",
        "5:18",
        &["This `)` closes nothing."],
    );
}

#[test]
fn characters() {
    body_refused(
        13,
        "  return power * 2;",
        "5:19",
        &["`;` is in no token.", "ends with its line"],
    );
    body_refused(
        13,
        "  let a = 1.5 ; 2\n  return a",
        "5:12",
        &["`.` is in no token.", "whole"],
    );
    body_refused(13, "  return power\u{a0}* 2", "5:15", &["U+00A0"]);
    body_refused(
        13,
        "  return 2 \u{2212} 1",
        "5:12",
        &["(U+2212) is in no token."],
    );
    body_refused(
        13,
        "  return 1 + \u{200b}2",
        "5:14",
        &["U+200B is in no token."],
    );
    body_refused(
        13,
        "\n\n  return 1 + x + \u{97d3}",
        "7:18",
        &["`\u{97d3}` (U+97D3)"],
    );
    // One far into a line.
    let long = format!("  return {}1 # 2", "1 + ".repeat(5_000));
    body_refused(13, &long, "5:20012", &["`#` is in no token.", "..."]);
}

#[test]
fn comparisons() {
    // A single `=`, behind a pair that is good; the odd one of three; and what other languages write.
    body_refused(
        13,
        "  return (power == 75) + power = 2",
        "5:32",
        &["`=` is in no token.", "`a == b`"],
    );
    body_refused(13, "  return power === 75", "5:18", &["`a == b`"]);
    body_refused(
        13,
        "  return power <= 75",
        "5:17",
        &["`=` is in no token.", "`(b < a) == 0`"],
    );
    body_refused(13, "  return power > 75", "5:16", &["`b < a`"]);
    body_refused(13, "  return power != 75", "5:16", &["`(a == b) == 0`"]);
    body_refused(13, "  let x == 5\n  return x", "5:10", &["`a == b`"]);
    body_refused(13, "  return power == 75;", "5:21", &["`;`"]);
    body_refused(
        17,
        "  return power ==== 75",
        "5:18",
        &["`==` stands where a number, a name or `(` is due."],
    );
    body_refused(17, "  let x === 5\n  return x", "5:10", &["`==` stands"]);
    body_refused(14, "  return power <", "5:17", &["ends here"]);
    body_refused(19, "  return 1 == 2 3", "5:17", &["`3` is left over"]);
}

#[test]
fn names() {
    body_refused(
        17,
        "  let twice = power * 2\n  return twcie",
        "6:10",
        &["`twcie` is neither a parameter", "Is `twice` meant?"],
    );
    body_refused(17, "  return pwoer * 2", "5:10", &["Is `power` meant?"]);
    body_refused(
        17,
        "  return late\n  let late = 1",
        "5:10",
        &["`late` is neither"],
    );
    body_refused(
        17,
        "  return power + * 2",
        "5:18",
        &["`*` stands where a number, a name or `(` is due."],
    );
    body_refused(
        17,
        "  return power // the blank",
        "5:17",
        &["`/` stands", "A remark stands on a line of its own."],
    );
    // A part of the token is bound, and so is its beginning's beginning.
    body_refused(
        17,
        "  let powe = 1\n  return powe + power + powers",
        "6:25",
        &["`powers` is neither"],
    );
}

#[test]
fn limits() {
    let doubled = format!("  let a = 1\n{}  return a", "  let a = a + a\n".repeat(16));
    body_refused(
        20,
        &doubled,
        "21:11",
        &["more than 32768 numbers", "at each use"],
    );
    let many = format!("{}  return 150", "  let a = 1\n".repeat(256));
    body_refused(21, &many, "259:3", &["This `let` makes the 257th binding."]);
    let names: Vec<String> = (0..300).map(|i| format!("p{i}")).collect();
    let members: Vec<String> = names.iter().map(|name| format!("\"{name}\": 1")).collect();
    let rule = format!("fn f ({}) {{\n  return 1\n}}", names.join(",\n"));
    let vector = format!("{{\"expected\": 1, {}}}", members.join(", "));
    refused(
        21,
        rule,
        vector,
        "r.rule:257:1",
        &["This parameter is the 257th binding."],
    );
}

#[test]
fn values() {
    body_refused(
        22,
        "  power * 2\n  return",
        "4:24",
        &[
            "No line of this body starts with `return `",
            "line 6 is skipped",
        ],
    );
    body_refused(22, "", "4:24", &["No line of this body"]);
    body_refused(
        23,
        "  return 1\n  return power / zero",
        "6:10",
        &["This divides by 0."],
    );
    let above =
        "  let none = 1 / zero\n  let half = power / none\n  return half + 1\n  let late = 3";
    body_refused(
        23,
        above,
        "7:10",
        &["`none` of line 5 has no value already"],
    );
    let unused = "  let none = 1 / zero\n  let d = zero\n  return power / d";
    body_refused(
        23,
        unused,
        "7:10",
        &["This divides by 0.\n  = `atc explain 23`"],
    );
    body_refused(
        24,
        "  return power + 1\n  let late = 3",
        "5:10",
        &["The value is 76, and `expected` is 150.", "v.json:1:14"],
    );
    body_refused(
        24,
        "  return 0 - 1",
        "5:10",
        &["The value is 18446744073709551615, and"],
    );
    // The value is told where 64 parentheses are open already.
    let nested = format!("  return {}1{}", "(".repeat(64), ")".repeat(64));
    body_refused(
        24,
        &nested,
        "5:10",
        &["The value is 1, and `expected` is 150."],
    );
    // A parameter may be called `expected`.
    refused(
        24,
        "fn f (expected) {\n return expected + 1\n}",
        "{\"expected\": 5}",
        "r.rule:2:9",
        &["The value is 6, and `expected` is 5."],
    );
}

#[test]
fn stems() {
    let folder = Folder::with([("v.json", "{\"expected\": 1}")]);
    let names = [&b"new\ncyl.rule"[..], &b"cyl\xff.rule"[..]];
    for (name, words) in names.into_iter().zip(["holds a line feed", "isn't UTF-8"]) {
        let name = OsStr::from_bytes(name);
        folder.put(name, "fn f () {\n  return 1\n}\n");
        for command in ["assemble", "run", "trace", "gas"] {
            let words = &["The stem `", words][..];
            told(
                25,
                &folder.atc([OsStr::new(command), name, OsStr::new("v.json")]),
                "",
                words,
            );
        }
        let words = ["assemble", "--json", "v.json"].map(OsStr::new);
        told_in_json(25, &folder.atc([words[0], words[1], name, words[2]]), "");
    }
}

// A refusal of operations by `run`, `trace` and `gas` alike.
fn ops_refused(number: u64, ops: impl AsRef<[u8]>, options: &[&str], place: &str, words: &[&str]) {
    let folder = Folder::new();
    folder.put("r.ops", ops);
    for command in ["run", "trace", "gas"] {
        // Within its bound `gas` finds another end than out of gas, or says no more than that there is none.
        if command == "gas" && number == 46 {
            continue;
        }
        let words_of = |more: &'static [&str]| [&[command, "r.ops"], options, more].concat();
        told(number, &folder.atc(words_of(&[])), place, words);
        told_in_json(number, &folder.atc(words_of(&["--json"])), place);
    }
}

#[test]
fn texts_of_operations() {
    ops_refused(
        27,
        b"Push 1\n# a remark \xe9\n",
        &[],
        "r.ops:2:12",
        &["Byte 18 of the file, 0xE9"],
    );
    ops_refused(
        28,
        "# a remark\n\n  Push  12.5 \n",
        &[],
        "r.ops:3:9",
        &["`12.5` is no number"],
    );
    ops_refused(
        28,
        "Push 18446744073709551616",
        &[],
        "r.ops:1:6",
        &["exceeds 18446744073709551615."],
    );
    ops_refused(
        29,
        "Load 0\nStore cyl",
        &[],
        "r.ops:2:7",
        &["`cyl` is no number"],
    );
    ops_refused(
        30,
        "Halt\n\tpush 5\n",
        &[],
        "r.ops:2:2",
        &["`push 5` is no operation.", "Is `Push` meant?"],
    );
    ops_refused(
        30,
        "Push\t5",
        &[],
        "r.ops:1:1",
        &["`Push` is followed by one space and a number."],
    );
    ops_refused(
        30,
        "Add # both",
        &[],
        "r.ops:1:1",
        &["`Add` stands alone on its line"],
    );
    ops_refused(
        30,
        "fn f () {",
        &[],
        "r.ops:1:1",
        &["A rule needs its vector"],
    );
    ops_refused(
        31,
        "Halt\nJumpIfZero end",
        &[],
        "r.ops:2:12",
        &["`end` is no number"],
    );
    ops_refused(33, "", &[], "r.ops:1:1", &["From here on"]);
    ops_refused(33, "# nothing\n\n", &[], "r.ops:1:1", &["From here on"]);
}

#[test]
fn programs() {
    let long = format!("# long\n{}", "Halt\n".repeat(65_537));
    ops_refused(42, long, &[], "r.ops:65538:1", &["of 65537"]);
    let slots = "1,".repeat(65_536) + "1";
    let folder = Folder::with([("r.ops", "Halt"), ("slots", &slots)]);
    let told_43 = folder.say("run r.ops --storage slots");
    told(43, &told_43, "", &["65537 slots"]);
    ops_refused(
        45,
        "Push 1\n\n# there\n JumpIfZero 1\n  Jump 3\nJump 9\n",
        &[],
        "r.ops:6:1",
        &["`Jump 9`, operation 3, jumps beyond the last operation, 3."],
    );
    let far = "Halt\n".repeat(40_000) + "Jump 40001";
    ops_refused(
        45,
        far,
        &[],
        "r.ops:40001:1",
        &["`Jump 40001`, operation 40000,"],
    );
}

#[test]
fn runs() {
    let half = "# a new cylinder\nPush 75\nStore 0\n\nPush 180\nPush 0\nDiv\n";
    ops_refused(
        46,
        half,
        &["--gas", "7"],
        "r.ops:7:1",
        &[
            "`Div`, operation 4, costs 2 gas, and 1 is left.",
            "[180, 0]",
        ],
    );
    ops_refused(
        46,
        "Push 1",
        &["--gas", "0"],
        "r.ops:1:1",
        &["costs 1 gas, and 0 is left."],
    );
    // The price comes before a missing value.
    ops_refused(
        46,
        " Div",
        &["--gas", "1"],
        "r.ops:1:2",
        &["costs 2 gas, and 1 is left."],
    );
    ops_refused(
        47,
        " Div",
        &["--gas", "2"],
        "r.ops:1:2",
        &["needs 2 items, and the stack has 0."],
    );
    ops_refused(
        47,
        "Push 1\nAdd",
        &[],
        "r.ops:2:1",
        &["`Add`, operation 1, needs 2 items, and the stack has 1."],
    );
    ops_refused(
        47,
        "Push 2\nJumpIfNotZero 3\nHalt\nJumpIfZero 0",
        &[],
        "r.ops:4:1",
        &["needs 1 item, and the stack has 0."],
    );
    ops_refused(
        49,
        half,
        &[],
        "r.ops:7:1",
        &["`Div`, operation 4, has the divisor 0.", "[180, 0]"],
    );
    ops_refused(
        50,
        "Push 75\nStore 65536",
        &[],
        "r.ops:2:1",
        &["`Store 65536`, operation 1, names a slot above 65535."],
    );
    ops_refused(
        50,
        "Push 75\nStore 18446744073709551615",
        &[],
        "r.ops:2:1",
        &["`Store 18446744073709551615`"],
    );
}

#[test]
fn runs_of_rules() {
    let folder = Folder::with([
        (
            "tally.rule",
            "fn total (a, b) {\n  let s = a + b\n  return s * 2\n}\n",
        ),
        ("tally.json", "{\"a\": 5, \"b\": 7, \"expected\": 24}"),
    ]);
    for command in ["run", "trace"] {
        let line = format!("{command} tally.rule tally.json --gas 6");
        let place = "tally.rule as assembled:7:1";
        told(
            46,
            &folder.say(&line),
            place,
            &["`Mul`, operation 4, costs 2 gas, and 1 is left."],
        );
        told_in_json(46, &folder.say(&format!("{line} --json")), place);
    }
    told(
        46,
        &folder.say("gas tally.rule tally.json --gas 6"),
        "",
        &["No success within 6 gas."],
    );
    told_in_json(
        46,
        &folder.say("gas tally.rule tally.json --gas 6 --json"),
        "",
    );
}

// Each command once: they make some thousands of steps.
fn too_many_items(folder: &Folder, files: &str, place: &str, words: &[&str]) {
    let line = |command: &str| format!("{command} {files} --gas 100000");
    told(48, &folder.say(&line("run")), place, words);
    told(48, &folder.say(&line("gas")), place, words);
    told_in_json(48, &folder.say(&line("trace --json")), place);
}

#[test]
fn operations_that_push_too_many_items() {
    let folder = Folder::with([("r.ops", &"Push 1\n".repeat(4_097))]);
    let words = ["`Push 1`, operation 4096, meets 4096 items, and no more fit on the stack."];
    too_many_items(&folder, "r.ops", "r.ops:4097:1", &words);
}

#[test]
fn a_rule_that_needs_too_many_items() {
    let deeper = format!("  let a = {}a{}\n", "1 + (".repeat(63), ")".repeat(63));
    let lets = deeper.repeat(66);
    let rule = format!("fn f () {{\n  let a = 1\n{lets}  return a - a + 1\n}}\n");
    let folder = Folder::with([("deep.rule", &rule), ("v.json", "{\"expected\": 1}")]);
    let words = ["`Push 1`, operation 4096, meets 4096 items"];
    let place = "deep.rule as assembled:4099:1";
    too_many_items(&folder, "deep.rule v.json", place, &words);
    let gas = folder.say("gas deep.rule v.json");
    assert!(gas.out.contains("4160 stack items needed\n"), "{gas:?}");
    let why = "can't be told: it needs more than 4096 stack items\n";
    assert!(gas.out.contains(why), "{gas:?}");
}

// All but those that lent memory, the chain gate and a caller's own kinds give, and 41, before which a text is 33.
#[test]
fn no_refusal_is_forgotten() {
    let text = include_str!("refusals.rs");
    let calls = ["refused(", "told("];
    let tried: BTreeSet<u64> = calls
        .iter()
        .flat_map(|call| text.split(call).skip(1))
        .filter_map(|rest| rest.trim_start().split(',').next()?.parse().ok())
        .collect();
    let unmet = [26, 32, 34, 35, 36, 37, 38, 39, 40, 41, 44, 51];
    let due: BTreeSet<u64> = (1..=51).filter(|number| !unmet.contains(number)).collect();
    assert_eq!(tried, due);
}
