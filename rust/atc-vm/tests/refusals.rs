//! The refusals stand in the definitions (number, case, values), in src/refusal.rs and in include/atc_vm.h (number, name,
//! words, values), and those of assembly in program `assemble` (words): they agree. So does the version.

mod repository;

use atc_vm::{Refusal, REFUSALS};
use repository::{path, text};
use std::collections::{BTreeMap, BTreeSet};
use std::fs;
use std::path::PathBuf;

type Entry = (u64, String, String, Vec<String>);

fn entry(refusal: &Refusal) -> Entry {
    let carries = refusal.carries.iter().map(|value| value.to_string());
    let (name, words) = (refusal.name.to_string(), refusal.text.to_string());
    (refusal.number, name, words, carries.collect())
}

// The entries of ATC_REFUSALS, each with the strings that continue it on further lines.
fn entries_of_the_header() -> Vec<String> {
    let header = text("include/atc_vm.h");
    let (_, list) = header.split_once("#define ATC_REFUSALS(X)").unwrap();
    let (list, _) = list.split_once("\n\n").unwrap();
    let mut entries: Vec<String> = Vec::new();
    for line in list.lines() {
        let line = line.trim_end_matches('\\').trim();
        if let Some(entry) = line.strip_prefix("X(") {
            entries.push(entry.to_string());
        } else if line.starts_with('"') {
            entries.last_mut().unwrap().push_str(line);
        }
    }
    entries
}

fn read(entry: &str) -> Entry {
    let (number, rest) = entry.split_once(',').unwrap();
    let (name, rest) = rest.split_once(',').unwrap();
    let (strings, behind) = rest.rsplit_once("\")").unwrap();
    let strings = format!("{strings}\"");
    let words: String = strings.split('"').skip(1).step_by(2).collect();
    let carries = behind
        .trim()
        .trim_start_matches("/*")
        .trim_end_matches("*/");
    let carries = carries.split(',').map(|value| value.trim().to_string());
    (
        number.trim().parse().unwrap(),
        name.trim().to_string(),
        words,
        carries.filter(|value| !value.is_empty()).collect(),
    )
}

#[test]
fn the_headers_list_is_the_table() {
    let header: Vec<Entry> = entries_of_the_header()
        .iter()
        .map(|entry| read(entry))
        .collect();
    let table: Vec<Entry> = REFUSALS.iter().map(entry).collect();
    assert_eq!(header, table);
}

#[test]
fn numbers_count_from_1_and_names_differ() {
    let numbers = REFUSALS.iter().map(|refusal| refusal.number);
    assert!(numbers.eq(1..=REFUSALS.len() as u64));
    let names: BTreeSet<&str> = REFUSALS.iter().map(|refusal| refusal.name).collect();
    assert_eq!(names.len(), REFUSALS.len());
}

// The definitions that a reader must believe: crates/NAME/specs, without specs/Code.
fn definitions() -> Vec<PathBuf> {
    let files = |folder: PathBuf| {
        let entries = fs::read_dir(folder).into_iter().flatten().flatten();
        entries.map(|entry| entry.path())
    };
    let crates = files(path("crates"));
    let all = crates.flat_map(|name| files(name.join("specs")));
    all.filter(|file| file.extension().is_some_and(|kind| kind == "antt"))
        .collect()
}

// What the definitions say of a case: its name, and how many values it carries.
#[derive(Debug)]
struct Case {
    name: String,
    carries: usize,
    numbering: String,
}

// The clauses `.._numbered (Case value ..) = plain N`, or `= carrying N (value ∷ .. ∷ [])`, by their numbers; and the
// numberings that `= located (.._numbered e) value` gives a value to.
#[derive(Default)]
struct Clauses {
    cases: BTreeMap<u64, Vec<Case>>,
    located: BTreeSet<String>,
}

impl Clauses {
    fn read(&mut self, line: &str) {
        let Some((left, right)) = line.split_once(" = ") else {
            return;
        };
        let left: Vec<&str> = left
            .split([' ', '(', ')'])
            .filter(|w| !w.is_empty())
            .collect();
        let right: Vec<&str> = right
            .split([' ', '(', ')'])
            .filter(|w| !w.is_empty())
            .collect();
        let (Some(numbering), Some(case)) = (left.first(), left.get(1)) else {
            return;
        };
        match right[..] {
            ["located", inner, ..] => {
                self.located.insert(inner.to_string());
            }
            ["plain" | "carrying", number, ..] if numbering.ends_with("_numbered") => {
                let case = Case {
                    name: case.to_string(),
                    carries: right.iter().filter(|&&word| word == "∷").count(),
                    numbering: numbering.to_string(),
                };
                let number = number.parse().unwrap();
                self.cases.entry(number).or_default().push(case);
            }
            _ => (),
        }
    }

    fn of_the_definitions() -> Clauses {
        let mut clauses = Clauses::default();
        for file in definitions() {
            fs::read_to_string(&file)
                .unwrap()
                .lines()
                .for_each(|line| clauses.read(line));
        }
        // Successes.
        clauses.cases.remove(&0);
        clauses
    }
}

fn capitals(case: &str) -> String {
    let letter = |(i, c): (usize, char)| {
        let parted = i > 0 && c.is_ascii_uppercase();
        parted
            .then_some('_')
            .into_iter()
            .chain([c.to_ascii_uppercase()])
    };
    case.chars().enumerate().flat_map(letter).collect()
}

#[test]
fn numbers_names_and_values_are_those_of_the_definitions() {
    let Clauses { cases, located } = Clauses::of_the_definitions();
    assert!(cases.keys().eq(REFUSALS.iter().map(|r| &r.number)));
    for refusal in &REFUSALS {
        let [case] = &cases[&refusal.number][..] else {
            panic!("{refusal:?} is {:?}", cases[&refusal.number]);
        };
        // A word may stand before the case's own: ATC_OPS_FULL is `Full`.
        let named = format!("_{}", capitals(&case.name));
        assert!(refusal.name.ends_with(&named), "{refusal:?} is {case:?}");
        let carries = case.carries + usize::from(located.contains(&case.numbering));
        assert_eq!(refusal.carries.len(), carries, "{refusal:?} is {case:?}");
    }
}

#[test]
fn program_assemble_says_the_same() {
    let plain = |words: &str| words.replace(['`', '"', '\\'], "");
    let message = text("crates/assemble/specs/Message.antt");
    let (_, list) = message.split_once("\nwords =\n").unwrap();
    let (list, _) = list.split_once("∷ []").unwrap();
    let quoted = |line: &str| {
        let (_, rest) = line.split_once('"')?;
        Some(plain(rest.rsplit_once('"')?.0))
    };
    let said: Vec<String> = list.lines().filter_map(quoted).collect();
    assert_eq!(said.len(), 26);
    for (refusal, said) in REFUSALS.iter().zip(said) {
        // A remark in brackets may follow: 23 has one.
        assert!(
            plain(refusal.text).starts_with(&said),
            "{refusal:?}: {said}"
        );
    }
}

#[test]
fn the_headers_version_is_the_crates() {
    let header = text("include/atc_vm.h");
    let defined = |name: &str| {
        let (_, rest) = header.split_once(&format!("#define {name} ")).unwrap();
        rest.lines().next().unwrap().to_string()
    };
    let version = env!("CARGO_PKG_VERSION");
    assert_eq!(defined("ATC_VM_VERSION"), format!("\"{version}\""));
    let parts = ["MAJOR", "MINOR", "PATCH"].map(|part| defined(&format!("ATC_VM_VERSION_{part}")));
    assert_eq!(parts.join("."), version);
}
