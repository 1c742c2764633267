//! Document 01's own answers of the verifier, the machine and the transitions, written by hand in oracle/document.txt: what the
//! original can't be asked. A case and its answer are two lines, as in crates/replay/stdin and stdout; `#` starts a remark.
use crate::cases::Cases;

pub fn make(c: &mut Cases) {
    let document = std::fs::read_to_string("oracle/document.txt").unwrap();
    let mut lines = document.lines().filter(|l| !l.starts_with('#'));
    while let Some(case) = lines.next() {
        c.copy(case, lines.next().expect("a case has an answer"));
    }
}
