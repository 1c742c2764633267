//! The command line, help, and `atc explain`.

use crate::folder::Folder;
use atc_vm::REFUSALS;
use std::ffi::OsStr;
use std::os::unix::ffi::OsStrExt;

#[test]
fn wrong_command_lines() {
    let folder = Folder::with([
        ("r.ops", "Halt"),
        ("r.rule", "fn f () {\n return 1\n}"),
        ("v.json", "\"expected\": 1"),
    ]);
    for (line, words) in [
        ("rnu r.ops", "`rnu` is no command; did you mean `run`?"),
        ("frobnicate", "`frobnicate` is no command."),
        ("run", "`atc run` needs more than it is given."),
        (
            "run a b c",
            "`atc run` takes no more than 2, and `c` is one more.",
        ),
        ("assemble r.rule", "`atc assemble` needs more"),
        ("explain 1 2", "`atc explain` takes no more than 1"),
        (
            "run r.ops --gsa 5",
            "`--gsa` is no option; did you mean `--gas`?",
        ),
        ("run r.ops --xyzzy", "`--xyzzy` is no option."),
        ("run r.ops -x", "`-x` is no option."),
        ("run r.ops --gas", "`--gas` needs a value."),
        (
            "run r.ops --gas five",
            "`--gas` takes a number from 0 to 18446744073709551615, not `five`.",
        ),
        ("run r.ops --gas -5", "not `-5`."),
        ("run r.ops --gas=", "not ``."),
        (
            "run r.ops --gas 18446744073709551616",
            "not `18446744073709551616`.",
        ),
        ("run r.ops --caller x", "`--caller` takes a number"),
        ("run r.ops --gas 5 --gas 6", "`--gas` is given twice."),
        ("run r.ops --storage 1,,2", "`--storage` takes numbers"),
        (
            "run r.ops --storage 18446744073709551616",
            "`--storage` takes numbers",
        ),
        ("run r.ops --json=yes", "`--json` takes no value."),
        ("run r.ops -o x", "`atc run` has no option `--output`."),
        (
            "assemble r.rule v.json --gas 5",
            "`atc assemble` has no option `--gas`.",
        ),
        (
            "explain 0",
            "`0` is no refusal: they have numbers from 1 to 51",
        ),
        ("explain 52", "`52` is no refusal"),
        ("explain out-of-gaz", "did you mean `out-of-gas`?"),
        ("help run gas", "`atc help` takes one command."),
        ("help rnu", "`rnu` is no command"),
    ] {
        let told = folder.say(line);
        assert_eq!(
            (told.status, told.out.as_str()),
            (2, ""),
            "{line}: {told:?}"
        );
        assert!(
            told.err.starts_with("atc: ") && told.err.contains(words),
            "{line}: {told:?}"
        );
        assert!(told.err.contains("\nusage: atc "), "{line}: {told:?}");
    }
    let told = folder.atc::<&str>([]);
    assert_eq!(told.status, 2);
    assert!(
        told.err.starts_with("atc: a command is missing."),
        "{told:?}"
    );
    let told = folder.atc([
        OsStr::new("run"),
        OsStr::from_bytes(b"\xff"),
        OsStr::from_bytes(b"--gas=\xff"),
    ]);
    assert_eq!(told.status, 2);
}

#[test]
fn options_stand_anywhere() {
    let folder = Folder::with([("r.ops", "Caller"), ("--gas", "Caller")]);
    let expected = folder.say("run r.ops --gas 5 --caller 9 --json").out;
    for line in [
        "--gas=5 run --caller 9 r.ops --json",
        "--json --caller=9 run --gas 5 -- r.ops",
    ] {
        assert_eq!(folder.say(line).out, expected);
    }
    assert_eq!(
        folder.say("run --json --gas 5 --caller 9 -- --gas").out,
        expected
    );
}

#[test]
fn help_and_version() {
    let folder = Folder::new();
    for line in [
        "--help",
        "-h",
        "help",
        "help run",
        "run --help",
        "assemble -h",
        "help trace",
        "gas --help",
        "explain --help",
    ] {
        let told = folder.say(line);
        assert_eq!((told.status, told.err.as_str()), (0, ""), "{line}");
        assert!(told.out.contains("usage:"), "{line}: {told:?}");
        assert!(
            told.out.lines().all(|line| line.chars().count() <= 82),
            "{line}"
        );
    }
    let told = folder.say("--version");
    assert_eq!(told.out, format!("atc {}\n", env!("CARGO_PKG_VERSION")));
}

#[test]
fn every_refusal_is_explained() {
    let folder = Folder::new();
    let all = folder.say("explain");
    assert_eq!((all.status, all.out.lines().count()), (0, 51));
    for (refusal, line) in REFUSALS.iter().zip(all.out.lines()) {
        assert!(
            line.trim_start().starts_with(&refusal.number.to_string())
                && line.ends_with(refusal.text),
            "{line}"
        );
        let told = folder.atc(["explain", &refusal.number.to_string()]);
        assert_eq!(told.status, 0);
        let first = format!("{}, {}: {}.\n", refusal.number, refusal.name, refusal.text);
        assert!(told.out.starts_with(&first), "{told:?}");
        for title in ["carries  ", "leaves  ", "common cause  ", "example  "] {
            assert!(
                told.out.contains(&format!("\n{title}")),
                "{title}: {told:?}"
            );
        }
        for carried in refusal.carries {
            assert!(told.out.contains(carried), "{told:?}");
        }
        let short = refusal.name.trim_start_matches("ATC_").to_lowercase();
        for name in [refusal.name, &short, &short.replace('_', "-")] {
            assert_eq!(folder.atc(["explain", name]).out, told.out);
        }
        let json = folder.atc(["explain", refusal.name, "--json"]).json();
        assert_eq!(
            json.at("refusals").list()[0].at("number").number(),
            refusal.number
        );
    }
    assert_eq!(
        folder
            .say("explain --json")
            .json()
            .at("refusals")
            .list()
            .len(),
        51
    );
}

#[test]
fn rollback_is_said_where_it_matters() {
    let folder = Folder::new();
    for number in 46..=51 {
        let told = folder.say(&format!("explain {number}"));
        assert!(
            told.out
                .contains("the storage is as before the run, whatever had been stored"),
            "{told:?}"
        );
    }
}
