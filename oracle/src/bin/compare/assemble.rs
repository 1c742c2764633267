//! `assemble`: output, figures, refusals, and the lent buffer.
use crate::tally::*;
use atc_vm::sys::{self, Answer};
use original::assembler::{assemble, assemble_plain, assemble_text, Assembled};
use original::domain::free_of_both_signs;
use original::numbers::message_number;
use std::fs;
use std::path::PathBuf;

#[derive(Clone)]
struct Case {
    contract: Vec<u8>,
    vector: Vec<u8>,
    stem: Vec<u8>,
    /// Bytes lent beyond the output's length; after a refusal as many in all.
    room: i64,
}

pub struct Comparison {
    pub tally: Tally,
    out: Buffer<u8>,
    /// Cases whose original answer was also asked of its `assemble`, on files.
    pub on_files: u64,
    folder: PathBuf,
}

fn check(c: &Case, out: &mut Buffer<u8>) -> Result<Seen, String> {
    if !free_of_both_signs(&c.contract) {
        return Ok(Seen::Nothing);
    }
    let original = assemble_text(&c.contract, &c.vector, &c.stem);
    let made = if let Assembled::Made { text, .. } = &original { text.len() as i64 } else { 0 };
    let room = (made + if made == 0 { c.room.abs() } else { c.room }).max(0);
    let (wanted, carried, front, seen) = match &original {
        Assembled::Made { .. } if made > room => (26, [0; 4], "", Seen::Added(26)),
        Assembled::Made { text, k, p, value } => (0, [made as u64, *k, *p, *value], text.as_str(), Seen::Compared(0)),
        Assembled::Refused { message, carried } => (message_number(message), [*carried, 0, 0, 0], "", Seen::Compared(message_number(message))),
        Assembled::Added { number: 0, .. } => return Ok(Seen::Nothing),
        Assembled::Added { number, carried } => (*number, [*carried, 0, 0, 0], "", Seen::Added(*number)),
    };
    out.lend(room as usize);
    let Answer { number: got, words: answer } = sys::assemble(&c.contract, &c.vector, &c.stem, out.lent());
    if got != wanted || answer[..4] != carried || answer[4..] != [0; 4] {
        return Err(format!("library {got} {answer:?}, original {wanted} {carried:?}"));
    }
    if !out.holds(front.as_bytes()) {
        return Err(format!("answer {got}, but the lent buffer of {room} differs"));
    }
    Ok(seen)
}

impl Comparison {
    fn case(&mut self, case: Case) {
        match check(&case, &mut self.out) {
            Ok(seen) => self.tally.saw(seen),
            Err(_) => {
                let out = &mut self.out;
                self.tally.differs(|| {
                    let mut c = case;
                    for _ in 0..3 {
                        let with = |c: &Case, f: &dyn Fn(&mut Case)| {
                            let mut c = c.clone();
                            f(&mut c);
                            c
                        };
                        let (mut contract, mut vector, mut stem) = (c.contract.clone(), c.vector.clone(), c.stem.clone());
                        shrink(&mut contract, |less| check(&with(&c, &|c| c.contract = less.to_vec()), out).is_err());
                        c.contract = contract;
                        shrink(&mut vector, |less| check(&with(&c, &|c| c.vector = less.to_vec()), out).is_err());
                        c.vector = vector;
                        shrink(&mut stem, |less| check(&with(&c, &|c| c.stem = less.to_vec()), out).is_err());
                        c.stem = stem;
                    }
                    let what = check(&c, out).err().unwrap();
                    let size = c.contract.len() + c.vector.len() + c.stem.len();
                    (size, format!("contract {}\nvector {}\nstem {}\n{what}", shown(&c.contract), shown(&c.vector), shown(&c.stem)))
                });
            }
        }
    }

    fn text(&mut self, contract: &str, vector: &str) {
        let room = (contract.len() % 5) as i64;
        self.case(Case { contract: contract.into(), vector: vector.into(), stem: b"t".to_vec(), room });
    }

    /// With `expected` 1, and then with the value that the original finds.
    fn valued(&mut self, contract: &str, keys: &str) {
        let vector = |n: &str| format!("{{{keys}\"expected\":{n}}}");
        let one = vector("1");
        if let Assembled::Refused { message, .. } = assemble_text(contract.as_bytes(), one.as_bytes(), b"t") {
            if message_number(&message) == 24 {
                self.text(contract, &vector(message.split(' ').nth(3).unwrap()));
            }
        }
        self.text(contract, &one);
    }

    /// The original's own `assemble` says what the form without files says.
    fn files(&mut self, c: &Case) {
        let Ok(stem) = std::str::from_utf8(&c.stem) else { return };
        if stem.is_empty() || stem.len() > 200 || stem.contains(['/', '\0']) || stem == "." || stem == ".." {
            return;
        }
        let path = self.folder.join(format!("{stem}.atc"));
        let vector = self.folder.join("vector");
        fs::write(&path, &c.contract).unwrap();
        fs::write(&vector, &c.vector).unwrap();
        let said = assemble(&path, &vector, &self.folder.join("out"));
        let plain = assemble_plain(&c.contract, &c.vector, stem);
        match assemble_text(&c.contract, &c.vector, &c.stem) {
            Assembled::Made { text, .. } => {
                assert_eq!(fs::read_to_string(said.unwrap()).unwrap(), text);
                assert_eq!(plain.unwrap(), text);
            }
            Assembled::Refused { message, .. } => {
                assert_eq!(said.unwrap_err(), message);
                assert_eq!(plain.unwrap_err(), message);
            }
            Assembled::Added { .. } => return,
        }
        fs::remove_file(&path).unwrap();
        self.on_files += 1;
    }

    fn short_ones(&mut self) {
        // whole contracts
        words(&["fn ", "(", ")", "{", "}", "a", ",", ":", " ", "\n", "return 1"], 5, &mut |w| self.text(w, "\"a\":2\"expected\":1"));
        words(&["(", ")", "{", "}", "return 1\n", "let a=1\n", "a"], 6, &mut |w| self.text(&format!("fn {w}"), "\"a\":2\"expected\":1"));
        // parameters
        words(&["a", "b", ",", ":", " ", "\u{3000}", "\n", "("], 6, &mut |w| {
            self.text(&format!("fn f({w}){{return a}}"), "\"a\":2\"b\":3\"expected\":2\"a b\":1")
        });
        // bodies
        words(&["let ", "return ", "=", "a", "x", "1", "\n", "\r", "//", " ", "+", "\u{A0}", "\t", "0"], 5, &mut |w| {
            self.text(&format!("fn f(a){{{w}}}"), "{\"a\":1,\"expected\":1}")
        });
        words(&["let x=", "let a=", "let ", "return ", "=", "a", "x", "1\n", "\n", "*2", "/"], 6, &mut |w| {
            self.text(&format!("fn f(a){{{w}}}"), "{\"a\":1,\"expected\":2}")
        });
        // expressions
        words(&["1", "a", "(", ")", "+", "*", "-", "/"], 6, &mut |w| self.text(&format!("fn f(a){{return {w}}}"), "{\"a\":3,\"expected\":3}"));
        words(&["2", "x", "(", ")", "+", "/", " ", "0", "18446744073709551616", "\u{B}", "\u{C}", "é", "_"], 5, &mut |w| {
            self.text(&format!("fn f(a){{let x = 7\nlet _ = x / 2\nreturn {w}}}"), "{\"a\":3,\"expected\":3}")
        });
        // signs as names
        words(&["+", ")", "*", "(", "1", " "], 6, &mut |w| {
            self.text(&format!("fn f(){{let ) = 5\nlet * = 2\nlet + = 3\nlet ( = 4\nlet 1 = 9\nreturn {w}}}"), "{\"expected\":5}")
        });
        // vectors
        words(&["\"a\"", "\"expected\"", ":", "1", "0", " ", ",", "\"", "x", "\u{3000}", "18446744073709551616"], 5, &mut |w| {
            self.text("fn f(a){return a}", w)
        });
        words(&["\"", "a", "expected", ":", "1", " "], 7, &mut |w| self.text("fn f(){return 1}", w));
        words(&["\"", "a", ":", "1"], 8, &mut |w| self.text("fn f(a){return a}", &format!("\"expected\":1{w}")));
        // bytes, in contract, vector and stem
        byte_rows(&mut |row| {
            let around = |front: &[u8], back: &[u8]| [front, row, back].concat();
            let plain = (b"fn f(){return 1}".to_vec(), b"\"expected\":1".to_vec(), b"t".to_vec());
            let room = row.len() as i64;
            self.case(Case { contract: around(b"fn f(){//", b"\nreturn 1}"), vector: plain.1.clone(), stem: plain.2.clone(), room });
            self.case(Case { contract: plain.0.clone(), vector: around(b"\"expected\":", b"1"), stem: plain.2, room });
            self.case(Case { contract: plain.0, vector: plain.1, stem: row.to_vec(), room });
        });
        // every scalar value, in names, around values, in expressions
        for c in (0..=0x10FFFF).filter_map(char::from_u32) {
            self.text(&format!("fn f(a){{let {c}x{c}={c}a{c}\nreturn x}}"), "\"a\":1\"expected\":1");
            self.text(&format!("fn f({c}a{c}){{return a}}"), &format!("\"expected\":{c}1{c}\"a\":1"));
        }
        for c in (0..0x3100).filter_map(char::from_u32) {
            for contract in [
                format!("fn f(){{{c}return 1{c}+2{c}}}"),
                format!("fn f(){{return{c}1}}"),
                format!("fn f(){{let{c}x = 1\nreturn 3}}"),
                format!("fn{c}f(){{return 3}}"),
                format!("fn f(){{return 3\n{c}//{c}x\n{c}}}"),
                format!("fn f(){{let {c} = 3\nreturn {c}}}"),
                format!("fn f(){{let x{c}y = 3\nreturn x{c}y}}"),
                format!("fn f(){{let x = 3{c}let y = 4\nreturn x}}"),
            ] {
                self.text(&contract, "\"expected\":3");
            }
            self.text("fn f(a){return 3}", &format!("\"expected\"{c}:3\"a{c}\":1\"a\":{c}"));
        }
    }

    fn limits(&mut self, d: &mut Draw) {
        for n in 62..=66 {
            let (open, close) = ("(".repeat(n), ")".repeat(n));
            for inner in ["1", "", "1+2", "x", "1)", "18446744073709551616", "1*(2)", "(2)*1"] {
                self.valued(&format!("fn f(){{return {open}{inner}{close}}}"), "");
                self.valued(&format!("fn f(){{let a = 3\nlet b = {}{inner}{close}\nreturn b+{open}a{close}}}", "2-(".repeat(n)), "");
                self.valued(&format!("fn f(){{return {open}{inner}}}"), "");
                self.valued(&format!("fn f(){{return {open}{inner}{close})}}"), "");
            }
        }
        for n in 250..=258usize {
            for params in [0, 1, n / 2, n - 1, n] {
                let names: Vec<String> = (0..params).map(|i| format!("p{i}")).collect();
                let keys: String = names.iter().map(|p| format!("\"{p}\":{},", d.below(9))).collect();
                let lets: String = (params..n).map(|i| format!("let x{i} = {} + p{}\n", i % 7, i % params.max(1))).collect();
                let last = if params < n { format!("x{}", n - 1) } else { format!("p{}", n - 1) };
                self.valued(
                    &format!("fn f({}){{{}return {last}}}", names.join(","), if params == 0 { lets.replace("+ p0", "") } else { lets.clone() }),
                    &keys,
                );
                self.valued(&format!("fn f({}){{{lets}return p0\nlet x = y}}", names.join(",")), &keys);
                self.valued(&format!("fn f({},missing){{{lets}return p0}}", names.join(",")), &keys);
            }
        }
        // k around 32,768
        let doubled: String = (1..16).map(|i| format!("let x{i} = x{} + x{}\n", i - 1, i - 1)).collect();
        for last in ["x15", "x15+1", "x15-x0", "x14+x14", "x14+x14*1", "x15/2", "x14+x13+x12+x11+x10+x9+x8+x7+x6+x5+x4+x3+x2+x1+x0", "(x15)"] {
            for literal in ["1", "18446744073709551615"] {
                self.valued(&format!("fn f(){{let x0 = {literal}\n{doubled}return {last}}}"), "");
            }
        }
        self.valued(&format!("fn f(){{let x0 = 1\n{doubled}let y = x15 + 1\nreturn 1}}"), "");
        self.valued(&format!("fn f(){{let x0 = 1\n{doubled}return x15 + 1\nreturn 1}}"), "");
        self.valued(&format!("fn f(){{let x0 = 1\n{doubled}let y = x15 + 1 1\nreturn 1}}"), "");
        // lengths of contract, vector and stem
        for n in [65_534usize, 65_535, 65_536, 65_537, 70_000] {
            let contract = "fn f(){return 1}";
            let vector = "{\"expected\":1}";
            let blank = |m: usize| " ".repeat(n - m);
            self.text(&format!("{contract}{}", blank(contract.len())), vector);
            self.text(&format!("fn f(){{{}return 1}}", blank(contract.len())), vector);
            self.text(&format!("fn f(){{return {}1}}", "0".repeat(n - contract.len())), vector);
            self.text(&format!("fn f(){{return 1{}}}", "*1".repeat((n - contract.len()) / 2)), vector);
            self.text(contract, &format!("{vector}{}", blank(vector.len())));
            self.text(contract, &format!("{}\"expected\":1", blank(12)));
            self.text(contract, &format!("\"expected\":{}1", blank(12)));
            let mut cut = format!("{contract}{}", blank(contract.len() + 1)).into_bytes();
            cut.push(0xC3);
            self.case(Case { contract: cut, vector: vector.into(), stem: b"t".to_vec(), room: 0 });
        }
        for n in [0usize, 1, 2, 100, 253, 254, 255, 256, 300] {
            for letter in ["s", "é", "\n", "\u{10FFFF}"] {
                let mut stem = letter.repeat(n.div_ceil(letter.len()));
                while stem.len() > n {
                    stem.pop();
                }
                for stem in [stem.clone().into_bytes(), [stem.as_bytes(), b"\xFF"].concat()] {
                    self.case(Case { contract: b"fn f(){return 1}".to_vec(), vector: b"\"expected\":1".to_vec(), stem, room: 1 });
                }
            }
        }
        // lent lengths around the output's
        for room in -40..=3 {
            let contract = b"fn total (a, b) {\n  let s = a + b\n  return s * 2\n}".to_vec();
            self.case(Case { contract, vector: b"{\"a\": 5, \"b\": 7, \"expected\": 24}".to_vec(), stem: b"tally".to_vec(), room });
        }
    }

    /// Bindings that use earlier ones several times, up to k of 32,768 and beyond.
    fn grown(&mut self, d: &mut Draw, n: usize) {
        for _ in 0..n {
            let parameters = d.below(3);
            let mut names: Vec<String> = (0..parameters).map(|i| format!("p{i}")).collect();
            let keys: String = names.iter().map(|p| format!("\"{p}\":{},", d.word())).collect();
            let mut contract = format!("fn f({}){{", names.join(","));
            names.push(d.word().to_string());
            let (lines, most) = (2 + d.below(20), 2 + d.below(4));
            for i in 0..=lines {
                let mut expression = String::new();
                let (mut open, uses) = (0, 1 + d.below(most));
                for j in 0..uses {
                    if j > 0 {
                        expression += d.of(&["+", " - ", "*", "*", "/"]);
                    }
                    if d.one_in(3) {
                        expression += "( ";
                        open += 1;
                    }
                    let back = d.below(3).min(names.len() - 1);
                    expression += &names[names.len() - 1 - back];
                    if open > 0 && d.one_in(2) {
                        expression += ")";
                        open -= 1;
                    }
                }
                expression += &")".repeat(open);
                if i < lines {
                    contract += &format!("\nlet x{i} = {expression}");
                    names.push(format!("x{i}"));
                } else {
                    contract += &format!("\nreturn {expression}\n}}");
                }
            }
            self.valued(&contract, &keys);
        }
    }

    /// Keys that their vector nearly repeats: made of a period with bytes changed, among parts of the quoted key and of its period.
    fn keys(&mut self, d: &mut Draw, n: usize) {
        for _ in 0..n {
            let period: Vec<u8> = (0..1 + d.below(4)).map(|_| b"\"\"zx"[d.below(4)]).collect();
            let most = 1 + d.below(400);
            let mut key: Vec<u8> = period.iter().copied().cycle().take(1 + d.below(most)).collect();
            for _ in 0..d.below(3) {
                let at = d.below(key.len());
                key[at] = b"\"zxy"[d.below(4)];
            }
            let quoted = [&b"\""[..], &key, b"\""].concat();
            let mut vector = b"\"expected\":1".to_vec();
            for _ in 0..d.below(12) {
                match d.below(4) {
                    0 => vector.extend_from_slice(&quoted[..d.below(quoted.len() + 1)]),
                    1 => vector.extend_from_slice(&quoted[d.below(quoted.len())..]),
                    2 => vector.push(b"\"zxy"[d.below(4)]),
                    _ => vector.extend(period.iter().cycle().take(d.below(most + 40))),
                }
            }
            if d.one_in(2) {
                vector.extend_from_slice(&quoted);
            }
            vector.extend_from_slice(b":7");
            let contract = [&b"fn f("[..], &key, b"){return 1}"].concat();
            self.case(Case { contract, vector, stem: b"t".to_vec(), room: 0 });
        }
    }

    fn drawn(&mut self, d: &mut Draw, n: usize) {
        for i in 0..n {
            let (contract, keys) = drawn_contract(d);
            let found = assemble_text(contract.as_bytes(), format!("{{{keys}\"expected\":0}}").as_bytes(), b"t");
            let value = match found {
                Assembled::Refused { message, .. } if message_number(&message) == 24 && !d.one_in(20) => {
                    message.split(' ').nth(3).unwrap().to_string()
                }
                _ => d.of(&["0", "1", "18446744073709551615", "18446744073709551616", "x", ""]).to_string(),
            };
            let expected = format!("\"expected\":{}{value}", d.of(&["", "", " ", "\t\n", "\u{2003}", "\u{B}"]));
            let vector = if d.one_in(3) { format!("{{{expected},{keys}}}") } else { format!("{{{keys}{expected}}}") };
            let stem = d.of(&["t", "tally", "a b", "é", "x.y", "#"]);
            let room = if d.one_in(30) { -(d.below(60) as i64) } else { d.below(20) as i64 };
            let mut case = Case { contract: contract.into(), vector: vector.into(), stem: stem.into(), room };
            if i % 256 == 0 {
                self.files(&case);
            }
            self.case(case.clone());
            for _ in 0..d.below(4) {
                for _ in 0..1 + d.below(2) {
                    let telling = b" \n\r\t()={}+-*/,:\"019a_x\xC2\x85\xA0\xE2\x80\xA8\x0B\x0C#;.\xFF";
                    if d.one_in(4) {
                        damage(&mut case.vector, telling, d);
                    } else {
                        damage(&mut case.contract, telling, d);
                    }
                }
                if i % 256 == 0 {
                    self.files(&case);
                }
                self.case(case.clone());
            }
        }
    }
}

const NAMES: [&str; 20] = ["a", "b", "x", "y", "s", "a1", "_", "x_9Z", "aa", "total", "+", "-", "*", "/", ")", "(", "5", "a b", "", "é"];

fn name(d: &mut Draw) -> &'static str {
    if d.one_in(12) {
        d.of(&NAMES)
    } else {
        d.of(&NAMES[..6])
    }
}

fn white(d: &mut Draw) -> &'static str {
    match d.below(40) {
        0 => d.of(&["\t", "\u{C}", "\r", "   "]),
        1 if d.one_in(6) => d.of(&["\u{B}", "\u{A0}", "\u{85}", "\u{2028}", "\0", ";"]),
        n => [" ", ""][n % 2],
    }
}

fn literal(d: &mut Draw) -> String {
    match d.below(20) {
        0 => d
            .of(&["18446744073709551615", "18446744073709551616", "00", "007", "9999999999999999999", "10000000000000000000", "99999999999999999999"])
            .into(),
        1 => d.word().to_string(),
        2 => format!("{}{}", "0".repeat(d.below(30)), d.below(3)),
        n => (n / 2).to_string(),
    }
}

fn drawn_expression(d: &mut Draw, bound: &[&'static str], depth: usize, to: &mut String) {
    for i in 0..1 + d.below(if depth == 0 { 1 } else { 4 }) {
        if i > 0 {
            *to += white(d);
            *to += d.of(&["+", "-", "*", "/", "*", "+"]);
            *to += white(d);
        }
        match d.below(8) {
            0 | 1 if depth > 0 => {
                to.push('(');
                *to += white(d);
                drawn_expression(d, bound, depth - 1, to);
                *to += white(d);
                if !d.one_in(150) {
                    to.push(')');
                }
            }
            2..=4 if !bound.is_empty() => *to += bound[d.below(bound.len())],
            5 if d.one_in(20) => *to += name(d),
            _ => *to += &literal(d),
        }
    }
}

fn drawn_contract(d: &mut Draw) -> (String, String) {
    let mut bound = vec![];
    let mut text = String::from(if d.one_in(20) { d.of(&["// x\n", "\u{FEFF}", "fnn", "}{)(", "fn"]) } else { "" });
    text += "fn f";
    text += white(d);
    text += "(";
    let mut keys = String::new();
    for i in 0..d.below(4) {
        let n = name(d);
        bound.push(n);
        text += &format!("{}{}{n}{}", if i > 0 { "," } else { "" }, white(d), d.of(&["", "", ": u64", " :x:y"]));
        if !d.one_in(60) {
            keys += &format!("\"{n}\"{}:{}{},", white(d), white(d), literal(d));
        }
    }
    text += d.of(&[") {", "){", ")\n{\n", ") -> u64 {\r\n"]);
    let lines = if d.one_in(30) { d.below(40) } else { d.below(7) };
    for i in 0..=lines {
        let depth = if d.one_in(200) { 70 } else { d.below(4) };
        match d.below(14) {
            0 => text += d.of(&["", "// x", "//", "  ", "let", "return", "letx = 1", "return\t1", "x = 1", "#", "let x", "\u{3000}"]),
            1..=8 if i < lines => {
                let n = name(d);
                text += &format!("{}let {}{n}{}={}", white(d), white(d), white(d), white(d));
                drawn_expression(d, &bound, depth, &mut text);
                bound.push(n);
            }
            _ => {
                text += white(d);
                text += "return ";
                drawn_expression(d, &bound, depth, &mut text);
            }
        }
        text += if d.one_in(6) { d.of(&["\r\n", "\n\n", " \n", "\r\r\n", "\r"]) } else { "\n" };
    }
    text += d.of(&["}", "}", "}", "}\n", "} }", ""]);
    (text, keys)
}

pub fn compare(rounds: u64) -> Comparison {
    let folder = std::env::temp_dir().join(format!("compare.{}", std::process::id()));
    fs::create_dir_all(&folder).unwrap();
    let out = Buffer::new(|i| (i * 131 % 251) as u8);
    let mut c = Comparison { tally: Tally::new("assemble"), out, on_files: 0, folder };
    c.short_ones();
    for round in 0..rounds {
        let mut d = Draw::new(1000 + round);
        c.limits(&mut d);
        c.grown(&mut d, 500);
        c.keys(&mut d, 200_000);
        c.drawn(&mut d, 400_000);
    }
    fs::remove_dir_all(&c.folder).unwrap();
    c
}
