// The cases of crates/replay that call the text floor: what Rust's own `str`, `u64` and slices answer.
use crate::cases::{text, Cases};
use crate::words::words;
use std::fmt::Write;

impl Cases {
    fn of_text(&mut self, call: char, s: &str, answer: &str) {
        self.add('o', call, &[text(s.as_bytes())], answer);
    }

    fn utf8(&mut self, a: &[u8]) {
        let answer = if std::str::from_utf8(a).is_ok() { "1" } else { "0" };
        self.add('o', 'u', &[text(a)], answer);
    }

    fn trims(&mut self, s: &str) {
        self.of_text('t', s, &text(s.trim().as_bytes()));
        self.of_text('s', s, &text(s.trim_start().as_bytes()));
        self.of_text('e', s, &text(s.trim_end().as_bytes()));
    }

    fn lines(&mut self, s: &str) {
        let mut answer = String::new();
        for line in s.lines() {
            let start = line.as_ptr() as usize - s.as_ptr() as usize;
            let end = start + line.len();
            let next = s[end..].find('\n').map_or(s.len(), |i| end + i + 1);
            write!(answer, " {start} {end} {next}").unwrap();
        }
        self.of_text('l', s, &answer);
    }

    fn number(&mut self, s: &str) {
        let parsed = s.parse::<u64>();
        let answer = parsed.as_ref().map_or("-".into(), |n| n.to_string());
        self.of_text('n', s, &answer);
        if let Ok(n) = parsed {
            self.of_text('w', s, &n.to_string());
        }
        let digits: String = s.chars().take_while(|c| c.is_ascii_digit()).collect();
        let value = match digits.parse::<u64>() {
            Ok(n) => n.to_string(),
            Err(_) if digits.is_empty() => "0".into(),
            Err(_) => "+".into(),
        };
        self.of_text('d', s, &format!("{} {value}", digits.len()));
    }

    fn find(&mut self, s: &str, p: &str) {
        let answer = s.find(p).map_or("-".into(), |i| i.to_string());
        let arguments = [text(s.as_bytes()), text(p.as_bytes())];
        self.add('o', 'f', &arguments, &answer);
        if p.len() == 1 {
            self.add('o', 'b', &arguments, &answer);
        }
    }

    fn product(&mut self, a: u64, b: u64) {
        self.add('o', 'm', &[a.to_string(), b.to_string()], &a.wrapping_mul(b).to_string());
    }
}

fn utf8_cases(c: &mut Cases) {
    // RFC 3629, section 7
    c.utf8(&[0x41, 0xE2, 0x89, 0xA2, 0xCE, 0x91, 0x2E]);
    c.utf8(&[0xED, 0x95, 0x9C, 0xEA, 0xB5, 0xAD, 0xEC, 0x96, 0xB4]);
    c.utf8(&[0xE6, 0x97, 0xA5, 0xE6, 0x9C, 0xAC, 0xE8, 0xAA, 0x9E]);
    c.utf8(&[0xEF, 0xBB, 0xBF, 0xF0, 0xA3, 0x8E, 0xB4]);
    // the first and the last byte of each range of section 4, one less and one more
    let edges = [
        0x00, 0x7F, 0x80, 0x8F, 0x90, 0x9F, 0xA0, 0xBF, 0xC0, 0xC1, 0xC2, 0xDF, 0xE0, 0xE1, 0xEC, 0xED, 0xEE, 0xEF, 0xF0,
        0xF1, 0xF3, 0xF4, 0xF5, 0xFF,
    ];
    c.utf8(&[]);
    for a in edges {
        c.utf8(&[a]);
        for b in edges {
            c.utf8(&[a, b]);
        }
    }
    let tails = [0x7F, 0x80, 0xBF, 0xC0];
    for a in [0xE0, 0xE1, 0xEC, 0xED, 0xEE, 0xEF] {
        for b in [0x7F, 0x80, 0x9F, 0xA0, 0xBF, 0xC0] {
            for d in tails {
                c.utf8(&[a, b, d]);
            }
        }
    }
    for a in [0xF0, 0xF1, 0xF3, 0xF4, 0xF5] {
        for b in [0x7F, 0x80, 0x8F, 0x90, 0xBF, 0xC0] {
            for d in tails {
                c.utf8(&[a, b, d]);
                for e in tails {
                    c.utf8(&[a, b, d, e]);
                }
            }
        }
    }
    // a character, whole and cut short, at each place of a text of two blocks
    for at in 0..66 {
        for s in [&[0xE2, 0x82, 0xAC][..], &[0xE2, 0x82], &[0x80]] {
            let mut text = vec![b'a'; 66];
            text.splice(at..at, s.iter().copied());
            c.utf8(&text);
        }
    }
}

fn trim_cases(c: &mut Cases) {
    let mut near: Vec<char> = Vec::new();
    for n in 0..0x11_0000 {
        let Some(ch) = char::from_u32(n) else { continue };
        let white = ch.is_whitespace();
        let beside = |d: u32| char::from_u32(n.wrapping_add(d)).is_some_and(|x| x.is_whitespace());
        if white || beside(1) || beside(u32::MAX) {
            near.push(ch);
        }
    }
    near.extend(['\u{180E}', '\u{200D}', '\u{2060}', '\u{FEFF}', '\u{10000}', '\u{2003F}']);
    for ch in near {
        for s in [format!("{ch}"), format!("{ch}a{ch}"), format!("a{ch}b"), format!(" {ch}é{ch}\t")] {
            c.trims(&s);
        }
    }
    c.trims("");
}

fn number_cases(c: &mut Cases) {
    let values = ["0", "7", "10", "18446744073709551614", "18446744073709551615", "18446744073709551616", "18446744073709551620",
        "28446744073709551615", "99999999999999999999", "184467440737095516150", "1844674407370955161", "1844674407370955162"];
    for v in values {
        for front in ["", "+", "-", "++", "0", "000000000000000000000", " ", "_"] {
            for back in ["", " ", ".", "x", "0", "+"] {
                c.number(&format!("{front}{v}{back}"));
            }
        }
    }
    for s in ["", "+", "-", "+-1", "1.5", "１", "0x10", "1_000", "/", ":", "/1", "1/", ":1", "1:"] {
        c.number(s);
    }
    for n in 0..20 {
        let p = 10u64.pow(n);
        for v in [p - 1, p, p + 1] {
            c.number(&v.to_string());
        }
    }
}

pub fn make(c: &mut Cases) {
    utf8_cases(c);
    trim_cases(c);
    for s in words(&["a", "\n", "\r"], 5) {
        c.lines(&s);
    }
    c.lines("é\r\n\u{2028}x\u{85}\n\u{B}");
    number_cases(c);
    for s in words(&["a", "b"], 5) {
        for p in words(&["a", "b"], 3) {
            c.find(&s, &p);
        }
    }
    for (s, p) in [("aé€", "€"), ("aé€", "é"), ("fn fn ", "fn "), ("\"a\":\"b\"", "\"b\"")] {
        c.find(s, p);
    }
    let sides = [0, 1, 2, 3, 0xFFFF_FFFF, 0x1_0000_0000, 0x1_0000_0001, 0x7FFF_FFFF_FFFF_FFFF, 1 << 63, u64::MAX - 1, u64::MAX,
        0x9E37_79B9_7F4A_7C15, 0xDEAD_BEEF_0BAD_CAFE];
    for a in sides {
        for b in sides {
            c.product(a, b);
        }
    }
}
