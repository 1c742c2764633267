//! docs/RULES.md, the guide: each example prints what stands there, and the tables of operations and refusals are those
//! of the definitions, of the machine and of src/refusal.rs.
//!
//! After a change that is meant, `ATC_GUIDE=write cargo test --test guide` writes what the examples print.

mod repository;

use atc_vm::{parse_ops, Refusal, Vm, VmError, REFUSALS};
use repository::{path, text};
use std::process::Command;
use std::{env, fs};

// What a command prints in docs/rules: its output, its messages, and its exit status where that isn't 0.
fn printed(command: &str) -> String {
    let mut words = command.split_whitespace();
    let program = match words.next() {
        Some("atc") => env!("CARGO_BIN_EXE_atc"),
        Some("cat") => "cat",
        other => panic!("the guide runs atc and cat, not {other:?}"),
    };
    let ran = Command::new(program)
        .args(words)
        .current_dir(path("docs/rules"))
        .output()
        .unwrap();
    let mut printed = String::from_utf8([ran.stdout, ran.stderr].concat()).unwrap();
    match ran.status.code() {
        Some(0) => (),
        Some(status) => printed += &format!("[exit status {status}]\n"),
        None => panic!("{command}: {}", ran.status),
    }
    printed
}

// The guide with what its examples print now.
fn as_run(guide: &str) -> String {
    let mut console = false;
    let mut run = String::new();
    for line in guide.lines() {
        let command = line.strip_prefix("$ ").filter(|_| console);
        let was_console = console;
        match line {
            "```console" => console = true,
            "```" => console = false,
            _ => (),
        }
        // In a console the lines behind a command are left out, and what it prints comes in their place.
        if !was_console || !console || command.is_some() {
            run += &format!("{line}\n");
        }
        run += &command.map_or(String::new(), printed);
    }
    run
}

#[test]
fn examples_print_what_stands_there() {
    let guide = text("docs/RULES.md");
    let run = as_run(&guide);
    if env::var_os("ATC_GUIDE").is_some_and(|asked| asked == "write") {
        fs::write(path("docs/RULES.md"), &run).unwrap();
        return;
    }
    assert!(guide.contains("\n```console\n$ atc "));
    for (number, (stands, printed)) in (1..).zip(guide.lines().zip(run.lines())) {
        assert_eq!(stands, printed, "docs/RULES.md, line {number}");
    }
    assert_eq!(guide.lines().count(), run.lines().count());
}

// The rows of tables with so many columns whose first cell is a number.
fn rows(columns: usize) -> Vec<Vec<String>> {
    let cells = |line: &str| -> Option<Vec<String>> {
        let within = line.strip_prefix('|')?.strip_suffix('|')?;
        let cells: Vec<String> = within.split('|').map(|cell| cell.trim().into()).collect();
        cells[0].parse::<u64>().ok()?;
        Some(cells).filter(|cells| cells.len() == columns)
    };
    text("docs/RULES.md").lines().filter_map(cells).collect()
}

#[test]
fn the_refusals_are_the_table() {
    let row = |refusal: &Refusal| {
        let number = refusal.number.to_string();
        let name = format!("`{}`", refusal.name);
        let (words, carries) = (refusal.text.to_string(), refusal.carries.join(", "));
        vec![number, name, words, carries]
    };
    assert_eq!(rows(4), REFUSALS.iter().map(row).collect::<Vec<_>>());
}

// Of each kind its word, whether an operand follows, and its price.
fn kinds_of_the_definitions() -> Vec<(String, bool, u64)> {
    let definitions = text("crates/kinds/specs/Kinds.antt");
    let (_, table) = definitions.split_once("\nkinds =\n").unwrap();
    let (table, _) = table.split_once("∷ []").unwrap();
    let kind = |line: &str| {
        let (_, rest) = line.split_once("kind \"")?;
        let (word, rest) = rest.split_once('"')?;
        let (operand, price) = rest.trim().split_once(' ')?;
        Some((word.to_string(), operand != "none", price.parse().ok()?))
    };
    table.lines().filter_map(kind).collect()
}

#[test]
fn operations_are_those_of_the_definitions_and_of_the_machine() {
    let kinds = kinds_of_the_definitions();
    let operations = rows(6);
    assert_eq!((kinds.len(), operations.len()), (16, 16));
    for (number, (kind, cells)) in kinds.iter().zip(&operations).enumerate() {
        let figure = |cell: usize| cells[cell].parse::<usize>().unwrap();
        let (pops, pushes) = (figure(3), figure(4));
        let written = cells[1].trim_matches('`');
        let word = written.split(' ').next().unwrap().to_string();
        let found = (word, written.contains(' '), figure(2) as u64);
        assert_eq!((figure(0), &found), (number, kind));

        // With as many items as it pops, and with one less. A jump goes on behind itself, where `Halt` stands.
        let run = |items: usize| {
            let operation = if kind.1 {
                format!("{} {}", kind.0, items + 1)
            } else {
                kind.0.clone()
            };
            let text = format!("{}{operation}\nHalt\n", "Push 1\n".repeat(items));
            let mut vm = Vm::new(parse_ops(&text).unwrap());
            let stack = vm.run_with_gas(100);
            stack.map(|stack| (stack.len(), vm.receipt().unwrap().gas_spent))
        };
        assert_eq!(run(pops), Ok((pushes, pops as u64 + kind.2)), "{cells:?}");
        if pops > 0 {
            assert_eq!(run(pops - 1), Err(VmError::StackUnderflow), "{cells:?}");
        }
    }
}
