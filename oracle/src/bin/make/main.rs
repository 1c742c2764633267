//! Makes crates/replay/stdin and stdout: the cases that the program replays, and what the original, or document 01 or 02 where the
//! original can't be asked, answers.
mod assembler;
mod cases;
mod document;
mod draw;
mod gate;
mod ops;
mod source;
mod text;
mod vm;
mod words;

fn main() {
    let mut cases = cases::Cases::default();
    text::make(&mut cases);
    source::make(&mut cases);
    gate::make(&mut cases);
    ops::make(&mut cases);
    vm::make(&mut cases);
    document::make(&mut cases);
    assembler::make(&mut cases);
    std::fs::write("crates/replay/stdin", &cases.stdin).unwrap();
    std::fs::write("crates/replay/stdout", &cases.stdout).unwrap();
    cases.print_counts();
}
