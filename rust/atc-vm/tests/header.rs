//! include/atc_vm.h declares what crates/atc_vm_c exports and src/sys.rs calls, and has this crate's limits. It compiles
//! without a warning as C89 to C17 and as C++; so does tests/abi.c, as C99 and as C++, and finds all as due.

mod repository;

use repository::{path, text};
use std::env;
use std::fs;
use std::io::ErrorKind;
use std::path::Path;
use std::process::Command;

fn compiler(variable: &str, usual: &str) -> String {
    env::var(variable).unwrap_or_else(|_| usual.to_string())
}

// Without a warning; false where there is no such compiler.
fn compiles(compiler: &str, build: impl Fn(&mut Command) -> &mut Command) -> bool {
    let mut command = Command::new(compiler);
    command
        .args(["-Wall", "-Wextra", "-Wpedantic", "-Werror", "-I"])
        .arg(path("include"));
    match build(&mut command).output() {
        Err(error) if error.kind() == ErrorKind::NotFound => false,
        compiled => {
            let compiled = compiled.unwrap();
            let said = String::from_utf8_lossy(&compiled.stderr);
            assert!(compiled.status.success(), "{command:?}: {said}");
            true
        }
    }
}

fn compiles_and_runs(compiler: &str, language: &[&str], name: &str) -> bool {
    let program = Path::new(env!("CARGO_TARGET_TMPDIR")).join(name);
    let found = compiles(compiler, |command| {
        command
            .args(language)
            .arg(path("rust/atc-vm/tests/abi.c"))
            .args(["-x", "none"])
            .arg(Path::new(env!("ATC_VM_FOUND_IN")).join("libatc_vm.a"))
            .arg("-o")
            .arg(&program)
    });
    if !found {
        return false;
    }
    let ran = Command::new(&program).output().unwrap();
    let said = String::from_utf8_lossy(&ran.stdout);
    assert!(ran.status.success(), "{said}");
    assert_eq!(said, "abi: all as due\n");
    true
}

#[test]
fn c99() {
    let cc = compiler("CC", "cc");
    assert!(
        compiles_and_runs(&cc, &["-x", "c", "-std=c99"], "abi_c"),
        "no C compiler {cc}"
    );
}

#[test]
fn cpp() {
    let cxx = compiler("CXX", "c++");
    if !compiles_and_runs(&cxx, &["-x", "c++", "-std=c++11"], "abi_cpp") {
        eprintln!("no C++ compiler {cxx}: the header was not tried as C++");
    }
}

#[test]
fn other_standards() {
    let including = Path::new(env!("CARGO_TARGET_TMPDIR")).join("including.c");
    fs::write(&including, "#include \"atc_vm.h\"\n").unwrap();
    let (cc, cxx) = (compiler("CC", "cc"), compiler("CXX", "c++"));
    for (compiler, language, standard) in [
        (&cc, "c", "-std=c89"),
        (&cc, "c", "-std=c17"),
        (&cxx, "c++", "-std=c++98"),
        (&cxx, "c++", "-std=c++17"),
    ] {
        compiles(compiler, |command| {
            command
                .args(["-fsyntax-only", "-x", language, standard])
                .arg(&including)
        });
    }
}

type Parameters = Vec<(String, String)>;

// The functions of a file that start with `before` and end with `after`: their names and their parameters, each of which
// `parameter` reads.
fn functions(
    text: &str,
    before: &str,
    after: &str,
    parameter: impl Fn(&str) -> Parameters,
) -> Vec<(String, Parameters)> {
    let function = |part: &str| {
        let (name, rest) = part.split_once('(').unwrap();
        let (all, _) = rest.split_once(after).unwrap();
        let each = all.split(',').map(str::trim).filter(|p| !p.is_empty());
        (name.to_string(), each.flat_map(&parameter).collect())
    };
    text.split(before).skip(1).map(function).collect()
}

fn one(name: &str, kind: &str) -> Parameters {
    vec![(name.to_string(), kind.to_string())]
}

fn in_the_header() -> Vec<(String, Parameters)> {
    let header = text("include/atc_vm.h");
    let behind_remark = |part| str::split_once(part, "*/").map_or(part, |(_, code)| code);
    let code: String = header.split("/*").map(behind_remark).collect();
    functions(&code, "uint64_t atc_", ");", |p| {
        let start = p.rfind([' ', '*']).unwrap() + 1;
        let kind = match &p[..start] {
            "const uint8_t *" => "*const u8",
            "const uint64_t *" => "*const u64",
            "uint8_t *" => "*mut u8",
            "uint64_t *" => "*mut u64",
            "uint64_t " => "u64",
            "size_t " => "usize",
            other => panic!("{other}"),
        };
        one(&p[start..], kind)
    })
}

fn in_sys() -> Vec<(String, Parameters)> {
    functions(
        &text("rust/atc-vm/src/sys.rs"),
        "pub fn atc_",
        ") -> u64;",
        |p| {
            let (name, kind) = p.split_once(": ").unwrap();
            one(name, kind)
        },
    )
}

fn in_the_rattle() -> Vec<(String, Parameters)> {
    let source = text("crates/atc_vm_c/src/lib.rt");
    functions(&source, "pub extern \"C\" fn atc_", ") -> u64", |p| {
        let (name, kind) = p.split_once(": ").unwrap();
        let slice = |kind| [one(name, kind), one(&format!("{name}_len"), "usize")].concat();
        match kind {
            "&[u8]" => slice("*const u8"),
            "&[u64]" => slice("*const u64"),
            "&mut [u8]" => slice("*mut u8"),
            "&mut [u64]" => slice("*mut u64"),
            "&mut [u64; 8]" => one(name, "*mut u64"),
            "u64" => one(name, "u64"),
            other => panic!("{other}"),
        }
    })
}

#[test]
fn header_and_sys_declare_what_is_exported() {
    let exported = in_the_rattle();
    assert_eq!(exported.len(), 8);
    assert_eq!(in_the_header(), exported);
    assert_eq!(in_sys(), exported);
}

#[test]
fn the_limits_are_those_of_the_crate() {
    let header = text("include/atc_vm.h");
    for (name, due) in [
        ("MAX_TEXT", atc_vm::assembler::MAX_TEXT),
        ("MAX_OUTPUT", atc_vm::assembler::MAX_OUTPUT),
        ("MAX_PROGRAM_OPS", atc_vm::vm::MAX_PROGRAM_OPS),
        ("MAX_STACK_ITEMS", atc_vm::vm::MAX_STACK_ITEMS),
        ("MAX_STORAGE_SLOTS", atc_vm::vm::MAX_STORAGE_SLOTS),
    ] {
        let (_, rest) = header.split_once(&format!("ATC_{name} = ")).unwrap();
        let digits = rest.split(|c: char| !c.is_ascii_digit()).next().unwrap();
        assert_eq!(digits.parse(), Ok(due), "{name}");
    }
}
