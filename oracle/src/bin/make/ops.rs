//! The cases of crates/replay that read operations. The answers come from the original src/ops.rs, line by line and for the whole text. Document 01's additions
//! (27 for a text that isn't UTF-8, 32 for a full buffer, the place and length of a part) come from std's `str`; cases of 27
//! and 32 are marked `d`.
use crate::cases::{self, list, told};
use crate::draw::next;
use original::kinds::kind_and_operand;
use original::ops::{parse_ops, OpsError};

const LENT: usize = 18;
const WORDS: [&str; 16] = [
    "Push", "Add", "Sub", "Mul", "Div", "Dup", "Swap", "Jump", "JumpIfNotZero", "Eq", "Lt", "Load", "Store", "Caller", "JumpIfZero", "Halt",
];

/// The part that the original names, found again in the text.
fn place(text: &str, line: &str, part: &str, whole: bool) -> (usize, usize) {
    let t = line.trim();
    let part_here = if whole { t } else { t[t.find(' ').unwrap() + 1..].trim() };
    assert_eq!(part_here, part);
    (part_here.as_ptr() as usize - text.as_ptr() as usize, part_here.len())
}

/// What reading answers, with the values carried, and the operations where it does not refuse.
fn read(text: &[u8], room: usize) -> (u64, Vec<u64>, Vec<(u8, u64)>) {
    let Ok(text) = std::str::from_utf8(text) else {
        return (27, vec![], vec![]);
    };
    let mut read = vec![];
    for (i, line) in text.lines().enumerate() {
        let n = i + 1;
        let (number, (at, len)) = match parse_ops(line) {
            Err(OpsError::Empty) => continue,
            Ok(op) => {
                assert_eq!(op.len(), 1);
                if read.len() == room {
                    return (32, vec![n as u64], vec![]);
                }
                read.push(kind_and_operand(&op[0]));
                continue;
            }
            Err(OpsError::BadPush { value, .. }) => (28, place(text, line, &value, false)),
            Err(OpsError::BadSlot { value, .. }) => (29, place(text, line, &value, false)),
            Err(OpsError::UnknownOp { text: t, .. }) => (30, place(text, line, &t, true)),
            Err(OpsError::BadTarget { value, .. }) => (31, place(text, line, &value, false)),
        };
        let whole = match parse_ops(text) {
            Err(OpsError::BadPush { line, .. }) => (28, line),
            Err(OpsError::BadSlot { line, .. }) => (29, line),
            Err(OpsError::UnknownOp { line, .. }) => (30, line),
            Err(OpsError::BadTarget { line, .. }) => (31, line),
            other => panic!("{other:?}"),
        };
        assert_eq!(whole, (number, n));
        return (number, [n, at, len].map(|v| v as u64).to_vec(), vec![]);
    }
    match parse_ops(text) {
        Err(OpsError::Empty) => (33, vec![], vec![]),
        Ok(whole) => {
            assert_eq!(whole.iter().map(kind_and_operand).collect::<Vec<_>>(), read);
            (0, vec![read.len() as u64], read)
        }
        other => panic!("{other:?}"),
    }
}

fn trimmed_line(text: &[u8], n: usize) -> &[u8] {
    let Ok(text) = std::str::from_utf8(text) else {
        return &[];
    };
    if n == 0 {
        return &[];
    }
    text.lines().nth(n - 1).map_or(&[], |l| l.trim().as_bytes())
}

struct Cases<'a>(&'a mut cases::Cases);

impl Cases<'_> {
    fn lent(&mut self, text: &[u8], kinds: usize, operands: usize) {
        let (number, values, ops) = read(text, kinds.min(operands));
        let (mut k, mut o) = ([200; LENT], [77; LENT]);
        for (i, op) in ops.iter().enumerate() {
            (k[i], o[i]) = (op.0.into(), op.1);
        }
        let trimmed: String = (0..4).map(|n| format!(" | {}", cases::text(trimmed_line(text, n)))).collect();
        let answer = format!("{} | {} | {}{trimmed}", told(number, &values), list(&k), list(&o));
        let who = if matches!(number, 27 | 32) { 'd' } else { 'o' };
        self.0.add(who, 'O', &[kinds.to_string(), operands.to_string(), cases::text(text)], &answer);
    }

    fn text(&mut self, text: &str) {
        self.lent(text.as_bytes(), LENT, LENT);
    }
}

pub fn make(cases: &mut cases::Cases) {
    let mut c = Cases(cases);
    let takes = |w: &str| matches!(w, "Push" | "Load" | "Store" | "Jump" | "JumpIfNotZero" | "JumpIfZero");

    // document 01's tally, E7, E8, and texts with no operation
    c.text("# contract: tally\n# expected: 24\nPush 5\nPush 7\nAdd\nPush 2\nMul\nHalt\n");
    for t in ["Push +5", "Push -0", "Push", "Push ", "Push  5", "Push\t5", "Push \t5", "Push\u{a0}5", "Push \u{a0}5\u{2003}", "", "\n", "\r\n \n", "# only\n#\n", "#", " \u{3000}# x", "\u{feff}Add", "x# y"] {
        c.text(t);
    }
    // every kind: alone, with a number, a wrong one, too long, too short, in another case
    for w in WORDS {
        let number = if takes(w) { " 42" } else { "" };
        c.text(&format!("{w}{number}\n"));
        c.text(&format!("  {w}{number}\t\r\n"));
        for end in ["", " ", " 1", " x", " 1 2", "x", " +", " ++1", " 00", "\t1", " \u{2028}7", "1"] {
            c.text(&format!("# x\n{w}{end}"));
        }
        c.text(&w[..w.len() - 1]);
        c.text(&format!("{} 1", w.to_lowercase()));
        c.text(&format!("{} 1", w.to_uppercase()));
    }
    // all sixteen in one text, into buffers that hold them or not
    let all: String = WORDS.iter().map(|w| if takes(w) { format!("{w} 9\n") } else { format!("{w}\n") }).collect();
    for (k, o) in [(18, 18), (16, 16), (16, 18), (18, 16), (15, 18), (18, 15), (15, 15), (0, 18), (18, 0), (0, 0), (1, 2)] {
        c.lent(all.as_bytes(), k, o);
        c.lent("Push 1\n\n# r\nAdd\nx".as_bytes(), k, o);
        c.lent("Push 1\nPush x\nAdd".as_bytes(), k, o);
        c.lent("".as_bytes(), k, o);
        c.lent(b"Add\n\xff", k, o);
    }
    // numbers
    for v in ["0", "00", "7", "+0", "+", "-1", "", "1_0", "0x1", "1.0", "18446744073709551615", "18446744073709551616", "18446744073709551619", "18446744073709551620", "99999999999999999999", "000000000000000000000018446744073709551615", "+18446744073709551615", "340282366920938463463374607431768211456", "\u{661}", "1\u{301}", "1 1"] {
        for w in ["Push", "Load", "Store", "Jump", "JumpIfZero", "JumpIfNotZero"] {
            c.text(&format!("\n{w} {v}\n"));
        }
    }
    // line endings and White_Space
    for white in ["\t", "\u{b}", "\u{c}", "\r", " ", "\u{85}", "\u{a0}", "\u{1680}", "\u{2000}", "\u{200a}", "\u{2028}", "\u{2029}", "\u{202f}", "\u{205f}", "\u{3000}", "\u{200b}", "\u{180e}", "\u{feff}", "\u{1f}", "\0"] {
        c.text(&format!("{white}Add{white}\n"));
        c.text(&format!("Push {white}5{white}{white}\r\n{white}\n{white}#\nHalt"));
        c.text(&format!("Push{white}5"));
        c.text(&format!("Add{white}Sub"));
        c.text(&format!("{white}{white}Load {white}x{white}y{white}\n"));
    }
    for t in ["Add\rSub", "Add\r\r\nSub", "Add\n\rSub\n", "Add\r", "\rAdd", "Add\n\nSub\n\n", "Add\r\n\r\nPush 1\r\nx\r\n", "# Add\nAdd # Add", "## x\n #y\nSub"] {
        c.text(t);
    }
    // not UTF-8
    for t in [&b"\xff"[..], b"Add\n\xc3", b"Push \xed\xa0\x80", b"Add\n\xc2\xa0\xc2", b"\xc0\xa0Add", b"# \xf4\x90\x80\x80\nAdd", b"\x80"] {
        c.lent(t, LENT, LENT);
    }
    // texts put together at random from telling parts
    let parts = ["Push ", "Push 5", "Add", "Sub", "Jump ", "JumpIf", "NotZero ", "Zero 3", "Store 65536", "Load", "\n", "\r\n", "\n", "\n", " ", "\t", "#", "12", "+", "-", "\u{a0}", "\u{2003}", "é", "Halt", "Lt", "Eq", "Caller", "Swap", "x", "Push 18446744073709551615"];
    let mut seed = 88172645463325252u64;
    for _ in 0..400 {
        let mut t = String::new();
        for _ in 0..1 + next(&mut seed) % 9 {
            t += parts[next(&mut seed) % parts.len()];
            if next(&mut seed) % 2 == 0 {
                t += "\n";
            }
        }
        let (k, o) = (next(&mut seed) % 5, next(&mut seed) % 5);
        c.lent(t.as_bytes(), k, o);
        c.text(&t);
    }
    // programs at random, mostly good
    for _ in 0..100 {
        let mut t = String::new();
        for _ in 0..1 + next(&mut seed) % 17 {
            let w = WORDS[next(&mut seed) % 16];
            let space = ["", "", "", " ", "\t", "\u{3000}"][next(&mut seed) % 6];
            let end = ["\n", "\n", "\r\n", "\n# r\n"][next(&mut seed) % 4];
            let v = (next(&mut seed) as u64) << (next(&mut seed) % 50) >> (next(&mut seed) % 50);
            t += &if takes(w) { format!("{space}{w} {space}{v}{space}{end}") } else { format!("{space}{w}{space}{end}") };
        }
        c.text(&t);
        c.lent(t.as_bytes(), 8, 18);
    }
}
