//! `parse_ops` and the trimmed lines.
use crate::tally::*;
use atc_vm::sys::{self, Answer};
use original::kinds::kind_and_operand;
use original::ops::{parse_ops, OpsError};

struct Wanted {
    number: u64,
    carried: [u64; 3],
    operations: Vec<(u8, u64)>,
    added: bool,
}

/// The place of what the original names, which must be the text there.
fn place(text: &str, line: u64, named: &str, whole: bool) -> [u64; 3] {
    let trimmed = text.lines().nth(line as usize - 1).unwrap().trim();
    let part = if whole { trimmed } else { trimmed[trimmed.find(' ').unwrap() + 1..].trim() };
    assert_eq!(part, named);
    // of a blank part the place is its end, as of a blank line
    let at = if part.is_empty() { trimmed.as_ptr() as usize + trimmed.len() } else { part.as_ptr() as usize };
    [line, (at - text.as_ptr() as usize) as u64, part.len() as u64]
}

fn wanted(text: &[u8], room: usize) -> Wanted {
    let refused = |number, carried, added| Wanted { number, carried, operations: vec![], added };
    let Ok(text) = std::str::from_utf8(text) else {
        return refused(27, [0; 3], false);
    };
    let (number, carried) = match parse_ops(text) {
        Ok(ops) if ops.len() <= room => {
            let operations: Vec<(u8, u64)> = ops.iter().map(kind_and_operand).collect();
            return Wanted { number: 0, carried: [ops.len() as u64, 0, 0], operations, added: false };
        }
        Ok(_) => (0, [u64::MAX, 0, 0]),
        Err(OpsError::Empty) => return refused(33, [0; 3], false),
        Err(OpsError::BadPush { line, value }) => (28, place(text, line as u64, &value, false)),
        Err(OpsError::BadSlot { line, value }) => (29, place(text, line as u64, &value, false)),
        Err(OpsError::UnknownOp { line, text: t }) => (30, place(text, line as u64, &t, true)),
        Err(OpsError::BadTarget { line, value }) => (31, place(text, line as u64, &value, false)),
    };
    // the good operation that finds no room, if it stands before the bad line
    let good = |(_, l): &(u64, &str)| !l.trim().is_empty() && !l.trim().starts_with('#');
    match (1..carried[0]).zip(text.lines()).filter(good).nth(room) {
        Some((line, _)) => refused(32, [line, 0, 0], true),
        None => refused(number, carried, false),
    }
}

struct Lent {
    kinds: Buffer<u8>,
    operands: Buffer<u64>,
}

fn check(text: &[u8], rooms: (usize, usize), lent: &mut Lent) -> Result<Seen, String> {
    let w = wanted(text, rooms.0.min(rooms.1));
    lent.kinds.lend(rooms.0);
    lent.operands.lend(rooms.1);
    let Answer { number: got, words: answer } = sys::parse_ops(text, lent.kinds.lent(), lent.operands.lent());
    if got != w.number || answer[..3] != w.carried || answer[3..] != [0; 5] {
        return Err(format!("library {got} {answer:?}, original {} {:?}", w.number, w.carried));
    }
    let (kinds, operands): (Vec<u8>, Vec<u64>) = w.operations.into_iter().unzip();
    if !lent.kinds.holds(&kinds) || !lent.operands.holds(&operands) {
        return Err(format!("answer {got}, but the lent buffers differ"));
    }
    Ok(if w.added { Seen::Added(got) } else { Seen::Compared(got) })
}

fn check_line(text: &[u8], line: u64) -> Result<Seen, String> {
    let mut want = [0; 8];
    if let Ok(text) = std::str::from_utf8(text) {
        let found = line.checked_sub(1).filter(|n| *n <= text.len() as u64).and_then(|n| text.lines().nth(n as usize));
        if let Some(l) = found {
            let part = l.trim();
            let at = if part.is_empty() { l.as_ptr() as usize + l.len() } else { part.as_ptr() as usize };
            want[..2].copy_from_slice(&[(at - text.as_ptr() as usize) as u64, part.len() as u64]);
        }
    }
    let Answer { number: got, words: answer } = sys::trimmed_line(text, line);
    if got != 0 || answer != want {
        return Err(format!("line {line}: library {got} {answer:?}, std {want:?}"));
    }
    Ok(Seen::Compared(0))
}

struct Comparison {
    read: Tally,
    lines: Tally,
    lent: Lent,
}

impl Comparison {
    fn lent(&mut self, text: &[u8], rooms: (usize, usize)) {
        let lent = &mut self.lent;
        match check(text, rooms, lent) {
            Ok(seen) => self.read.saw(seen),
            Err(_) => self.read.differs(|| {
                let mut less = text.to_vec();
                shrink(&mut less, |t| check(t, rooms, lent).is_err());
                (less.len(), format!("text {}, lent {rooms:?}\n{}", shown(&less), check(&less, rooms, lent).err().unwrap()))
            }),
        }
    }

    fn line(&mut self, text: &[u8], line: u64) {
        match check_line(text, line) {
            Ok(seen) => self.lines.saw(seen),
            Err(_) => self.lines.differs(|| {
                let mut less = text.to_vec();
                shrink(&mut less, |t| check_line(t, line).is_err());
                (less.len(), format!("text {}\n{}", shown(&less), check_line(&less, line).err().unwrap()))
            }),
        }
    }

    /// Read with room for all, and its first lines trimmed.
    fn text(&mut self, text: &[u8]) {
        let room = text.len() / 2 + 1;
        self.lent(text, (room, room + text.len() % 3));
        for line in 1..3 {
            self.line(text, line);
        }
    }

    fn all_lines(&mut self, text: &[u8]) {
        let lines = text.iter().filter(|b| **b == b'\n').count() as u64;
        for line in (0..=lines + 2).chain([u64::MAX, 1 << 32, text.len() as u64]) {
            self.line(text, line);
        }
    }

    fn short_ones(&mut self) {
        words(&["Push ", "Load ", "Jump", "IfZero ", "Add", "Halt", " ", "\n", "\r", "#", "1", "+", "\t", "\u{85}", "x"], 5, &mut |w| {
            self.text(w.as_bytes())
        });
        words(&["\n", "\r", " ", "\u{A0}", "a"], 7, &mut |w| self.all_lines(w.as_bytes()));
        words(&["0", "1", "+", "-", " ", "\u{2003}", "18446744073709551615", "_", "x"], 5, &mut |w| {
            for word in ["Push ", "Store ", "JumpIfNotZero "] {
                self.text(format!("{word}{w}").as_bytes());
            }
        });
        // every word with a letter dropped, doubled, changed to every byte, with every byte before and behind
        for word in WORDS {
            for end in ["", " 5", " ", "5", " x"] {
                let line = format!("{word}{end}").into_bytes();
                for at in 0..=line.len() {
                    for b in 0..=255u8 {
                        let mut more = line.clone();
                        more.insert(at, b);
                        self.text(&more);
                        if at < line.len() {
                            let mut other = line.clone();
                            other[at] = b;
                            self.text(&other);
                        }
                    }
                    self.text(&line[..at]);
                    self.text(&line[at..]);
                }
                for other in WORDS {
                    self.text(format!("{word}{end}\n{other}{end}").as_bytes());
                    self.text(format!("{word}{other}{end}").as_bytes());
                }
            }
        }
        byte_rows(&mut |row| {
            self.text(&[b"Add\n#", row, b"\nSub"].concat());
            self.text(row);
        });
        for c in (0..=0x10FFFF).filter_map(char::from_u32) {
            self.text(format!("Push {c}5{c}\n{c}Add{c}\n{c}").as_bytes());
            self.text(format!("{c}#\n{c}Load 1{c}").as_bytes());
        }
        for c in (0..0x3100).filter_map(char::from_u32) {
            for t in [
                format!("Push{c}5"),
                format!("Push {c}"),
                format!("{c}"),
                format!("Add{c}Sub"),
                format!("Push 1{c}2"),
                format!("a{c}{c}\n{c}b{c}"),
                format!("Jump {c}x{c}"),
            ] {
                self.text(t.as_bytes());
            }
        }
        // an invalid byte at every place of texts of every length up to 100
        for n in 0..100 {
            for at in 0..=n {
                for bad in [&b"\xFF"[..], b"\xC3", b"\xE2\x82", b"\xF0\x9F\x98", b"\xC3\xA9", b"\xF0\x9F\x98\x80", b"\xED\xA0\x80"] {
                    self.text(&[b"#".repeat(at).as_slice(), bad, b"a".repeat(n - at).as_slice(), b"\nAdd"].concat());
                }
            }
        }
    }

    fn limits(&mut self, d: &mut Draw) {
        // operations around every power of two, and the lent lengths around their number
        for bits in 0..=16 {
            for n in [(1usize << bits) - 1, 1 << bits, (1 << bits) + 1] {
                let text: String = (0..n).map(|_| drawn_line(d, false)).collect();
                let count = parse_ops(&text).map_or(0, |p| p.len());
                for (k, o) in [(0, 0), (1, 0), (0, 1), (0, 9), (9, 0), (5, 5), (1000, 3)] {
                    self.lent(text.as_bytes(), (count + k, count + o));
                }
                for (k, o) in [(1, 0), (0, 1), (1, 1)] {
                    if count > 0 {
                        self.lent(text.as_bytes(), (count - k, count - o));
                    }
                }
                let bad = format!("{text}{}", d.of(&["Push x\n", "x", "Load", "Jump -1\n", "Push 1\n\u{85}y\u{85}\nx"]));
                for room in [count + 1, count, count.saturating_sub(1)] {
                    self.lent(bad.as_bytes(), (room, room));
                }
                self.lent(&[text.as_bytes(), b"\xC3"].concat(), (count, count));
            }
        }
        // about 1 MB
        for _ in 0..4 {
            let mut text = String::new();
            while text.len() < 1_000_000 {
                text += &drawn_line(d, true);
            }
            self.text(text.as_bytes());
            for line in [1, 2, 1000, 50_000, 500_000] {
                self.line(text.as_bytes(), line);
            }
        }
    }

    fn drawn(&mut self, d: &mut Draw, n: usize) {
        let parts = [
            "Push ",
            "Push 5",
            "Add",
            "Sub",
            "Jump ",
            "JumpIf",
            "NotZero ",
            "Zero 3",
            "Store 65536",
            "Load",
            "\n",
            "\r\n",
            "\n",
            "\n",
            " ",
            "\t",
            "#",
            "12",
            "+",
            "-",
            "\u{A0}",
            "\u{2003}",
            "é",
            "Halt",
            "Lt",
            "Eq",
            "Caller",
            "Swap",
            "x",
            "Push 18446744073709551615",
            "Dup",
            "Mul",
            "Div",
            "\u{10FFFF}",
        ];
        for i in 0..n {
            let mut t = String::new();
            if i % 2 == 0 {
                for _ in 0..1 + d.below(9) {
                    t += d.of(&parts);
                    if d.one_in(2) {
                        t += "\n";
                    }
                }
            } else {
                let most = if d.one_in(50) { 700 } else { 20 };
                for _ in 0..1 + d.below(most) {
                    let odd = d.one_in(4);
                    t += &drawn_line(d, odd);
                }
            }
            let mut t = t.into_bytes();
            self.text(&t);
            let lines = t.iter().filter(|b| **b == b'\n').count() + 3;
            let line = d.below(lines) as u64;
            self.line(&t, line);
            let rooms = (d.below(lines + 2), d.below(lines + 2));
            self.lent(&t, rooms);
            for _ in 0..d.below(4) {
                damage(&mut t, b" \n\r\t#+-0195PAxusho\xC2\x85\xA0\xE2\x80\xA8\x0B\xFF", d);
                self.text(&t);
            }
        }
    }
}

const WORDS: [&str; 16] =
    ["Push", "Add", "Sub", "Mul", "Div", "Dup", "Swap", "Jump", "JumpIfNotZero", "Eq", "Lt", "Load", "Store", "Caller", "JumpIfZero", "Halt"];

/// A line that is good, with odd spaces, endings, signs and remarks where `odd`.
fn drawn_line(d: &mut Draw, odd: bool) -> String {
    let word = d.of(&WORDS);
    let takes = matches!(word, "Push" | "Load" | "Store" | "Jump" | "JumpIfNotZero" | "JumpIfZero");
    let number = if takes { format!(" {}", d.word()) } else { String::new() };
    if !odd {
        return format!("{word}{number}\n");
    }
    let space = d.of(&["", "", "", " ", "\t", "\u{3000}", "\u{85}", "  "]);
    let end = d.of(&["\n", "\n", "\n", "\r\n", "\n# r é\n", "\n\n", "\r\r\n"]);
    let number = if takes { format!(" {space}{}{}{}", d.of(&["", "+", ""]), "0".repeat(d.below(2) * d.below(25)), &number[1..]) } else { number };
    format!("{space}{word}{number}{space}{end}")
}

pub fn compare(rounds: u64) -> Vec<Tally> {
    let lent = Lent { kinds: Buffer::new(|i| (i * 131 % 251) as u8), operands: Buffer::new(|i| (i as u64 + 3).wrapping_mul(0x9E37_79B9_7F4A_7C15)) };
    let mut c = Comparison { read: Tally::new("parse_ops"), lines: Tally::new("trimmed lines"), lent };
    c.short_ones();
    for round in 0..rounds {
        let mut d = Draw::new(3000 + round);
        c.limits(&mut d);
        c.drawn(&mut d, 150_000);
    }
    vec![c.read, c.lines]
}
