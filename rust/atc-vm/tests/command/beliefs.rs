//! The three beliefs of students, refuted by tools/beliefs on the rules of docs/rules.

use std::path::Path;
use std::process::Command;

#[test]
fn the_three_beliefs_are_refuted() {
    let script = Path::new(env!("CARGO_MANIFEST_DIR")).join("../../tools/beliefs");
    let mut command = Command::new(script);
    let output = command
        .env("ATC", env!("CARGO_BIN_EXE_atc"))
        .output()
        .unwrap();
    assert!(output.status.success(), "{output:?}");
    let shown = String::from_utf8(output.stdout).unwrap();
    let parts: Vec<&str> = shown.split("$ atc ").collect();
    let [_, stopped, dear, missing, copied] = parts[..] else {
        panic!("{shown}");
    };
    for (part, lines) in [
        (
            stopped,
            &[
                " 1  Store 0        3           8           5  []   slot 0: 50 -> 75",
                " 4  Add            2           1           -  [90, 90]   refused with 46",
                "storage after   [50, 90], as before",
                "  slot 0        50        75 had been stored meanwhile: undone",
                "  slot 1        90",
                "(exit status 1)",
            ][..],
        ),
        (
            dear,
            &[
                "answer          46, the price exceeds the gas left",
                "stopped at      `Add`, operation 1, costs 2 gas, and 1 is left.",
                "(exit status 1)",
            ],
        ),
        (
            missing,
            &[
                "answer          47, the stack has too few items",
                "stopped at      `Add`, operation 1, needs 2 items, and the stack has 1.",
                "(exit status 1)",
            ],
        ),
        (
            copied,
            &[
                "least limit     22 gas (3k - 2); under a limit of 21 the run is refused with 46",
                "power     4       2           7          14",
                "(exit status 0)",
            ],
        ),
    ] {
        for line in lines {
            assert!(part.lines().any(|shown| shown == *line), "{line}\n{part}");
        }
    }
}
