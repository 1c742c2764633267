//! Files, devices and pipes: a sentence and a status, never a panic.

use crate::folder::{Folder, Told};
use std::fs::{self, OpenOptions};
use std::io::Write;
use std::os::unix::fs::PermissionsExt;
use std::process::Stdio;

const RULE: &str = "fn f (a) {\n  return a + 1\n}\n";
const OPS: &str = "# contract: r\n# expected: 4\nPush 3\nPush 1\nAdd\nHalt\n";

fn folder() -> Folder {
    Folder::with([
        ("r.rule", RULE),
        ("v.json", "{\"a\": 3, \"expected\": 4}"),
        ("r.ops", OPS),
    ])
}

fn fault(told: &Told, words: &str) {
    assert_eq!((told.status, told.out.as_str()), (2, ""), "{told:?}");
    assert!(
        told.err.starts_with("atc: ") && told.err.contains(words),
        "{told:?}"
    );
}

#[test]
fn files_that_cannot_be_read() {
    let folder = folder();
    fs::create_dir(folder.path.join("d")).unwrap();
    for line in [
        "run none.ops",
        "trace none.ops",
        "gas none.ops",
        "assemble r.rule none.ops",
        "run none.ops v.json",
    ] {
        fault(
            &folder.say(line),
            "can't read none.ops: No such file or directory.",
        );
        fault(
            &folder.say(&format!("{line} --json")),
            "can't read none.ops",
        );
    }
    fault(&folder.say("run d"), "can't read d: it is a directory.");
    fault(
        &folder.say("assemble d v.json"),
        "can't read d: it is a directory.",
    );
    fault(
        &folder.say("run r.ops --storage d"),
        "can't read d: it is a directory.",
    );
    fault(
        &folder.say("run /dev/zero"),
        "/dev/zero is longer than 64 MiB.",
    );
    let endless = folder.say("assemble /dev/zero v.json");
    assert_eq!(endless.status, 1);
    assert!(endless.err.starts_with("error[1]"), "{endless:?}");
}

#[test]
fn binary_files() {
    let folder = folder();
    let bytes: Vec<u8> = (0..5_000u32).map(|i| (i * 7 + i / 256) as u8).collect();
    folder.put("b", bytes);
    for line in [
        "run b",
        "trace b",
        "gas b",
        "assemble b v.json",
        "assemble r.rule b",
        "gas b b",
    ] {
        let told = folder.say(line);
        assert_eq!(told.status, 1, "{told:?}");
        assert!(told.err.starts_with("error["), "{told:?}");
        // What a terminal would obey is shown, not sent.
        assert!(
            told.err.chars().all(|c| c == '\n' || !c.is_control()),
            "{told:?}"
        );
    }
    fault(&folder.say("run r.ops --storage b"), "isn't UTF-8");
}

#[test]
fn standard_input() {
    let folder = folder();
    let fed = |line: &str| {
        let mut child = folder
            .command(line.split(' '))
            .stdin(Stdio::piped())
            .stdout(Stdio::piped())
            .stderr(Stdio::piped())
            .spawn()
            .unwrap();
        child
            .stdin
            .take()
            .unwrap()
            .write_all(OPS.as_bytes())
            .unwrap();
        Told::of(child.wait_with_output().unwrap())
    };
    assert_eq!(fed("run -").out, folder.say("run r.ops").out);
    assert_eq!(
        fed("trace --gas 3 -").out,
        folder.say("trace --gas 3 r.ops").out
    );
    assert!(fed("run - --gas 3")
        .err
        .contains("--> standard input:5:1\n"));
}

#[test]
fn outputs() {
    let folder = folder();
    assert_eq!(folder.say("assemble r.rule v.json").out, OPS);
    assert_eq!(folder.say("assemble r.rule v.json -o -").out, OPS);
    for line in [
        "-o new.ops",
        "-onew.ops",
        "--output=new.ops",
        "--output new.ops",
    ] {
        let told = folder.say(&format!("assemble r.rule v.json {line}"));
        assert_eq!(
            (told.status, told.out.as_str(), told.err.as_str()),
            (0, "", "")
        );
        assert_eq!(
            fs::read_to_string(folder.path.join("new.ops")).unwrap(),
            OPS
        );
        fs::remove_file(folder.path.join("new.ops")).unwrap();
    }
    let told = folder
        .say("assemble r.rule v.json -o new.ops --json")
        .json();
    assert_eq!(
        (told.at("text").text(), told.at("output").text()),
        (OPS, "new.ops")
    );
    assert_eq!(
        (
            told.at("k").number(),
            told.at("p").number(),
            told.at("value").number()
        ),
        (2, 2, 4)
    );
}

#[test]
fn an_output_is_written_whole_or_not_at_all() {
    let folder = folder();
    let names = || fs::read_dir(&folder.path).unwrap().count();
    let before = names();
    folder.put("old.ops", "# kept");
    folder.put("bad.rule", "fn f (a) {\n  return a;\n}");
    assert_eq!(folder.say("assemble bad.rule v.json -o old.ops").status, 1);
    assert_eq!(
        fs::read_to_string(folder.path.join("old.ops")).unwrap(),
        "# kept"
    );
    fault(
        &folder.say("assemble r.rule v.json -o none/new.ops"),
        "can't write none/new.ops: No such file",
    );
    fault(
        &folder.say("assemble r.rule v.json -o ."),
        "can't write .: it is a directory.",
    );
    fault(
        &folder.say("assemble r.rule v.json -o /dev/full"),
        "can't write /dev/full: No space left on device.",
    );
    fault(
        &folder.say("assemble r.rule v.json -o ./r.rule"),
        "r.rule is to be read and can't be the output too.",
    );
    fault(
        &folder.say("assemble r.rule v.json -o v.json"),
        "v.json is to be read",
    );
    // Permissions and links stay.
    fs::set_permissions(
        folder.path.join("old.ops"),
        fs::Permissions::from_mode(0o640),
    )
    .unwrap();
    std::os::unix::fs::symlink("old.ops", folder.path.join("link.ops")).unwrap();
    assert_eq!(folder.say("assemble r.rule v.json -o link.ops").status, 0);
    assert_eq!(
        fs::read_to_string(folder.path.join("old.ops")).unwrap(),
        OPS
    );
    assert!(fs::symlink_metadata(folder.path.join("link.ops"))
        .unwrap()
        .is_symlink());
    assert_eq!(
        fs::metadata(folder.path.join("old.ops"))
            .unwrap()
            .permissions()
            .mode()
            & 0o777,
        0o640
    );
    assert_eq!(names(), before + 3);
}

const LINES: [&str; 7] = [
    "assemble r.rule v.json",
    "run r.ops",
    "trace r.ops",
    "trace r.ops --json",
    "gas r.rule v.json",
    "explain",
    "--help",
];

#[test]
fn a_full_disk() {
    let folder = folder();
    for line in LINES {
        let full = OpenOptions::new().write(true).open("/dev/full").unwrap();
        let output = folder
            .command(line.split(' '))
            .stdout(full)
            .output()
            .unwrap();
        let told = Told::of(output);
        fault(
            &told,
            "can't write to standard output: No space left on device.",
        );
    }
}

#[test]
fn a_closed_pipe() {
    let folder = folder();
    let long = "Push 1\n".repeat(20_000);
    folder.put("long.ops", &long);
    let lines = LINES.into_iter().map(|line| (line, 0));
    let refused = [
        ("run r.ops --gas 2", 1),
        ("trace r.ops --gas 2", 1),
        ("trace long.ops --gas 4000", 0),
    ];
    for (line, status) in lines.chain(refused) {
        let mut command = folder.command(line.split(' '));
        let mut child = command
            .stdout(Stdio::piped())
            .stderr(Stdio::piped())
            .spawn()
            .unwrap();
        drop(child.stdout.take());
        let told = Told::of(child.wait_with_output().unwrap());
        assert_eq!(told.status, status, "{line}: {told:?}");
        assert!(!told.err.contains("write"), "{line}: {told:?}");
    }
}

#[test]
fn storage_from_a_file() {
    let folder = folder();
    folder.put("slots", "# two of them\n50, 90 # cylinder, axis\n\n7\n");
    folder.put("load.ops", "Load 0\nLoad 1\nLoad 2\nLoad 3\n");
    let told = folder.say("run load.ops --storage slots --json").json();
    assert_eq!(told.at("stack").numbers(), [50, 90, 7, 0]);
    assert_eq!(told.at("storage_before").numbers(), [50, 90, 7]);
    folder.put("bad", "50,\n 9o\n");
    let told = folder.say("run load.ops --storage bad");
    assert_eq!(told.status, 2);
    assert!(
        told.err.contains("--> bad:2:2\n") && told.err.contains("`9o` is no number"),
        "{told:?}"
    );
    let told = folder
        .atc(["run", "load.ops", "--storage", "", "--json"])
        .json();
    assert_eq!(told.at("storage_before").numbers(), []);
}

#[test]
fn numbers_that_are_cut_are_noted() {
    let folder = folder();
    folder.put(
        "power.rule",
        "fn f (sphere, cyl, axis) {\n  return sphere + cyl + axis\n}\n",
    );
    folder.put(
        "power.json",
        "{\"sphere\": 3.25, \"cyl\": 2e1,\n \"axis\": 1,5, \"expected\": 6}",
    );
    for line in ["assemble", "run", "trace", "gas"] {
        let told = folder.say(&format!("{line} power.rule power.json"));
        assert_eq!(told.status, 0, "{told:?}");
        for (words, place) in [
            ("note: `sphere` is read as 3\n", "power.json:1:13"),
            ("note: `cyl` is read as 2\n", "power.json:1:26"),
            ("note: `axis` is read as 1\n", "power.json:2:11"),
        ] {
            assert!(
                told.err.contains(words) && told.err.contains(place),
                "{told:?}"
            );
        }
        assert!(told.err.contains("`.25` is left out"), "{told:?}");
        let told = folder.say(&format!("{line} power.rule power.json --json"));
        assert_eq!(told.err, "");
        assert_eq!(told.json().at("notes").list().len(), 3);
    }
    // A refused rule has its notes too.
    folder.put(
        "power.json",
        "{\"sphere\": 3.25, \"cyl\": 2, \"axis\": 1, \"expected\": 7}",
    );
    let told = folder.say("run power.rule power.json");
    assert_eq!(told.status, 1);
    assert!(
        told.err.starts_with("note: `sphere`") && told.err.contains("error[24]"),
        "{told:?}"
    );
}

#[test]
fn lines_that_are_skipped() {
    let folder = Folder::new();
    folder.put("v.json", r#"{"expected": 2, "a": 1}"#);
    folder.put(
        "r.rule",
        "fn f (a) {\n  // Let it be.\n  Let a = 2\n  retrun 1\n  a sentence\n\n  return\t3\n  return a + a\n}\n",
    );
    for command in ["assemble", "run", "trace", "gas"] {
        let told = folder.say(&format!("{command} r.rule v.json"));
        assert_eq!(told.status, 0, "{told:?}");
        for (line, word) in [(3, "let"), (4, "return"), (7, "return")] {
            let note = format!("note: line {line} is skipped\n --> r.rule:{line}:3\n");
            assert!(told.err.contains(&note), "{told:?}");
            let meant = format!("Is `{word} ` meant, with a space behind it?");
            assert!(told.err.contains(&meant), "{told:?}");
        }
        assert_eq!(told.err.matches("is skipped").count(), 3, "{told:?}");
    }
}
