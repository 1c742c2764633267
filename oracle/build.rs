// Lists the original's four files as modules, from their own place: ATC_VM, or ../shared/docs/src beside the repository. The
// assembler's functions are private, so its text is compiled with src/behind_assembler.rs behind it.
use std::path::{Path, PathBuf};
use std::{env, fs};

fn main() {
    let package = PathBuf::from(env::var("CARGO_MANIFEST_DIR").unwrap());
    let original = package.join("..").join(env::var("ATC_VM").unwrap_or("../shared/docs/src".into())).join("src");
    let original = original.canonicalize().expect("the original's src/: set ATC_VM to the folder that holds it");
    let out = PathBuf::from(env::var("OUT_DIR").unwrap());
    let behind = package.join("src/behind_assembler.rs");
    let text = |p: &Path| fs::read_to_string(p).unwrap_or_else(|e| panic!("{}: {e}", p.display()));
    fs::write(out.join("assembler.rs"), text(&original.join("assembler.rs")) + &text(&behind)).unwrap();
    let mut modules = String::new();
    for name in ["context", "ops", "vm", "assembler"] {
        let folder = if name == "assembler" { &out } else { &original };
        modules += &format!("#[path = {:?}]\npub mod {name};\n", folder.join(format!("{name}.rs")));
        println!("cargo:rerun-if-changed={}", original.join(format!("{name}.rs")).display());
    }
    fs::write(out.join("original.rs"), modules).unwrap();
    println!("cargo:rerun-if-env-changed=ATC_VM");
    println!("cargo:rerun-if-changed={}", behind.display());
}
