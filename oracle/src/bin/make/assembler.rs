// The cases of crates/replay that assemble. The answers are those of the original's `assemble`, run on files in a folder of its
// own. The original gives no number: `message_number` finds document 01's by the message. Nor does it give a key's place, a line, k or p: the place is that of the first key that the original's `json_u64_for_key` refuses, the
// line the least number of body lines with which `assemble` refuses so, and k and p are counted in the output.
// What only the documents answer stands last and is marked (`added_cases`, and `comparisons` for request 101: contracts with `<` or
// `==` are not asked of the original).
// A stem that is empty can't be made by a file, nor one of 252 to 255 bytes that is accepted (`.ops` is added to it).
mod comparisons;

use crate::cases::{self, list, told};
use crate::draw::next;
use crate::words::{words, words_of};
use original::assembler::assemble;
use original::assembler::private::{find_function, json_u64_for_key, tokenize};
use original::domain::free_of_both_signs;
use original::numbers::message_number;
use std::collections::{HashMap, HashSet};
use std::ffi::OsStr;
use std::fs;
use std::os::unix::ffi::OsStrExt;
use std::path::PathBuf;

const ROOM: usize = 16384;

struct Cases<'a> {
    folder: PathBuf,
    all: &'a mut cases::Cases,
    seen: HashSet<[String; 3]>,
}

impl Cases<'_> {
    // What the original answers: the output, or its message.
    fn original(&self, contract: &[u8], vector: &[u8], stem: &[u8]) -> Result<Vec<u8>, String> {
        let mut name = stem.to_vec();
        if stem.len() <= 251 {
            name.extend(b".atc");
        }
        let path = self.folder.join(OsStr::from_bytes(&name));
        assert_eq!(path.file_stem().map(OsStr::as_bytes), Some(stem));
        let vector_path = self.folder.join("vector");
        fs::write(&path, contract).unwrap();
        fs::write(&vector_path, vector).unwrap();
        let answer = assemble(&path, &vector_path, &self.folder.join("out"));
        fs::remove_file(&path).unwrap();
        fs::remove_file(&vector_path).unwrap();
        answer.map(|made| {
            let text = fs::read(&made).unwrap();
            fs::remove_file(&made).unwrap();
            text
        })
    }

    fn refused(&self, contract: &[u8], vector: &[u8], message: &str) -> String {
        let carried = match message_number(message) {
            8..=11 => key_place(contract, vector, message),
            12..=19 => self.line(contract, vector, message),
            _ => 0,
        };
        told(message_number(message), &[carried as u64])
    }

    // The number of the body line that is refused: contracts of the same parameters and of the first lines only.
    fn line(&self, contract: &[u8], vector: &[u8], message: &str) -> usize {
        let (names, body) = find_function(std::str::from_utf8(contract).unwrap()).unwrap();
        let lines: Vec<&str> = body.split_inclusive('\n').collect();
        for n in 1..=lines.len() {
            let front = format!("fn t({}){{{}}}", names.join(","), lines[..n].concat());
            if let Err(said) = self.original(front.as_bytes(), vector, b"front") {
                if (12..=19).contains(&message_number(&said)) {
                    assert_eq!(said, message);
                    return n;
                }
            }
        }
        panic!("no line is refused with: {message}");
    }

    fn bytes(&mut self, contract: &[u8], vector: &[u8], stem: &[u8]) {
        let arguments = [contract, vector, stem].map(cases::text);
        if !free_of_both_signs(contract) || !self.seen.insert(arguments.clone()) {
            return;
        }
        check_domain(contract, vector, stem);
        let answer = match self.original(contract, vector, stem) {
            Ok(text) => {
                let (k, p, value) = figures(std::str::from_utf8(&text).unwrap());
                left(&told(0, &[text.len() as u64, k, p, value]), &text)
            }
            Err(message) => left(&self.refused(contract, vector, &message), b""),
        };
        self.all.add('o', 'A', &arguments, &answer);
    }

    // A case that the original can't be asked, with document 01's answer: its number, the values carried, and the output.
    fn added(&mut self, contract: &str, vector: &str, stem: &[u8], number: u64, values: &[u64], output: &str) {
        let arguments = [contract.as_bytes(), vector.as_bytes(), stem].map(cases::text);
        self.all.add('d', 'A', &arguments, &left(&told(number, values), output.as_bytes()));
    }

    fn text(&mut self, contract: &str, vector: &str) {
        self.bytes(contract.as_bytes(), vector.as_bytes(), b"t");
    }

    // The vector is `{KEYS"expected":N}`, where N is what the original says that the contract returns (else 0).
    fn valued(&mut self, contract: &str, keys: &str) {
        let vector = |n: &str| format!("{{{keys}\"expected\":{n}}}");
        let answer = self.original(contract.as_bytes(), vector("0").as_bytes(), b"t");
        let value = match &answer {
            Err(m) if message_number(m) == 24 => m.split(' ').nth(3).unwrap(),
            _ => "0",
        };
        self.text(contract, &vector(value));
    }

    // The body of a function of one parameter a, which is 5.
    fn body(&mut self, body: &str) {
        self.valued(&format!("fn t(a){{{body}}}"), "\"a\":5,");
    }

    fn expression(&mut self, expression: &str) {
        self.body(&format!("return {expression}"));
    }
}

// An answer with what is left in the lent buffer: the output, and the rest as it was.
fn left(answer: &str, output: &[u8]) -> String {
    format!("{answer} | {} | {}", cases::text(output), list(&vec![170; ROOM - output.len()]))
}

fn key_place(contract: &[u8], vector: &[u8], message: &str) -> usize {
    let (names, _) = find_function(std::str::from_utf8(contract).unwrap()).unwrap();
    let vector = std::str::from_utf8(vector).unwrap();
    let keys = std::iter::once("expected").chain(names.iter().map(String::as_str));
    for (place, key) in keys.enumerate() {
        if let Err(said) = json_u64_for_key(vector, key) {
            assert_eq!(said, message);
            return place;
        }
    }
    panic!("no key is refused with: {message}");
}

// k and p, counted in the output, and the expected value that it names.
fn figures(text: &str) -> (u64, u64, u64) {
    let (head, ops) = text.split_once("\n# expected: ").unwrap();
    assert!(head.starts_with("# contract: "));
    let (value, ops) = ops.split_once('\n').unwrap();
    let (mut k, mut depth, mut p) = (0, 0, 0);
    for op in ops.lines() {
        if op.starts_with("Push ") {
            k += 1;
            depth += 1;
        } else if op != "Halt" {
            depth -= 1;
        }
        p = p.max(depth);
    }
    (k, p, value.parse().unwrap())
}

// No added refusal can be met. The bound of k is the sum over all tokens, a bound one counting as its newest binding, less
// the operators of an expression that is accepted.
fn check_domain(contract: &[u8], vector: &[u8], stem: &[u8]) {
    assert!(contract.len() <= 65536 && vector.len() <= 65536);
    assert!(!stem.is_empty() && stem.len() <= 255 && !stem.contains(&b'\n'));
    let Ok((names, body)) = std::str::from_utf8(contract).map_err(|e| e.to_string()).and_then(find_function) else {
        return;
    };
    let mut bindings = names.len();
    let mut k_of: HashMap<String, usize> = names.into_iter().map(|n| (n, 1)).collect();
    for line in body.lines().map(str::trim) {
        let (name, expression) = match (line.strip_prefix("let "), line.strip_prefix("return ")) {
            (Some(rest), _) => rest.split_once('=').map_or((None, ""), |(n, e)| (Some(n.trim()), e)),
            (_, Some(rest)) => (None, rest),
            _ => continue,
        };
        let tokens = tokenize(expression.trim()).unwrap_or_default();
        assert!(tokens.iter().filter(|t| *t == "(").count() <= 64);
        let all: usize = tokens.iter().map(|t| *k_of.get(t).unwrap_or(&1)).sum();
        let k = (all - tokens.len() / 2).max(1);
        assert!(k <= 32768, "{line}");
        bindings += usize::from(name.is_some());
        name.map(|n| k_of.insert(n.to_string(), k));
    }
    assert!(bindings <= 256);
}

const TALLY: &str = "fn total (a, b) {\n  let s = a + b\n  return s * 2\n}\n";
const TALLY_VECTOR: &str = "{\"a\": 5, \"b\": 7, \"expected\": 24}";
const MAX: &str = "18446744073709551615";
const OVER: &str = "18446744073709551616";
const WHITE: [&str; 26] = [
    "\t", "\n", "\u{b}", "\u{c}", "\r", " ", "\u{85}", "\u{a0}", "\u{1680}", "\u{2000}", "\u{2001}", "\u{2005}", "\u{200a}",
    "\u{2028}", "\u{2029}", "\u{202f}", "\u{205f}", "\u{3000}", "\u{200b}", "\u{180e}", "\u{feff}", "\u{1f}", "\u{1c}", "\0", "\r\n", "é",
];

fn document_cases(c: &mut Cases) {
    c.bytes(TALLY.as_bytes(), TALLY_VECTOR.as_bytes(), b"tally");
    c.text(TALLY, "{\"a\": 5, \"b\": 7, \"expected\": 25}");
    c.text("fn t(a) { return a; }", "{\"a\": 5, \"expected\": 5}");
    c.text("fn t(a) { return a }", "{\"a\": 12.5, \"expected\": 12}");
    c.text("fn t(a,b){return a+b}", "\"a\" 5, \"b\": 7, \"expected\": 14");
    for e in ["7 - 2 * 3", "8 / 2 / 2", "8 - 2 - 2", "8 / (2 / 2)", "2 * (3 + 4) * 5", "((a))", "1 // c", "a b", "a + ", "a 1x", "1a", "1_", "_1"] {
        c.expression(e);
    }
    // the last return counts, each must parse and all but the last may have no value
    for b in ["return 1\nreturn 2", "return 1/0\nreturn 2", "return 2\nreturn 1/0", "return x\nreturn 1", "let x=1/0\nreturn 1", "let x=1/0\nreturn x*0",
        "return 1\nlet x=(", "let x=x+1\nreturn x", "let x=1\nlet x=x+1\nlet x=x*x\nreturn x", "let x=2\nlet y=x*x\nlet x=9\nreturn y+x",
        "return x\nlet x=1", "let a=a+a\nlet a=a*a\nreturn a-1", "let x=1 // c\nreturn x", "// }\nreturn 1", "//return 1", "// x\n/ /\nreturn 1",
        "let x=1\nreturn x y", "let 5=7\nreturn 5", "let a b=3\nreturn a b", "let a b=3\nreturn a", "let =3\nreturn 1", "let x==3\nreturn x", "let x=y=3\nreturn x",
        "return a=5", "let x\nreturn 1", "let\nreturn 1", "let =\nreturn 1", "let x=\nreturn 1", "let\tx=1\nreturn x", "letx=1\nreturn x", "let  x=1\nreturn x",
        "return", "return ", "return\t1", "returnx", "return  1", " return 1", "\treturn 1 ", "Return 1", "RETURN 1", "let x=1;\nreturn x", "let é=1\nreturn 2", "let é=1\nreturn é"] {
        c.body(b);
    }
    // signs, digits and words as names
    for s in ["+", "-", "*", "/", "(", ")", "1", "let", "_", "0x"] {
        for e in words_of(&[s, "2", "+"], 3).into_iter().chain([s.into(), format!("{s}{s}"), format!("({s})"), format!("2{s}2"), format!("{s}*2"), format!("({s}"), format!("{s}-{s}-{s}-{s}")]) {
            c.body(&format!("let {s}=3\nreturn {e}"));
        }
    }
    c.body("let * = 5\nreturn * * *");
    c.body("let ) = 5\nreturn )");
    c.body("let ) = 5\nreturn ()))");
    c.body("let + = 2\nlet - = 3\nreturn + + - - + * -");
    // parameters: cut at commas and colons, with names of any kind, twice, and the expected value's own
    for (list, keys) in [("a: u64, b: u64", "\"a\":1,\"b\":2,"), ("a,a", "\"a\":3,"), ("expected", ""), ("*", "\"*\":3,"), ("a b", "\"a b\":3,"), ("(", "\"(\":3,"),
        ("é", "\"é\":3,"), ("\"", "\"\"\":3,"), ("a:b:c,:d,,b", "\"a\":1,\"b\":2,"), ("{", "\"{\":1,"), ("5", "\"5\":1,")] {
        for e in ["a", "b", "a+b", "expected", "* * *", "5"] {
            c.valued(&format!("fn t({list}){{return {e}}}"), keys);
        }
    }
}

fn expression_cases(c: &mut Cases) {
    let alphabet = ["a", "2", "+", "-", "*", "/", "(", ")"];
    for e in words(&alphabet, 3) {
        c.expression(&e);
    }
    for e in words_of(&["a", "+", "*", "(", ")"], 3).into_iter().chain(words_of(&["1", "-", ")"], 4)) {
        c.expression(&format!("({e}"));
        c.expression(&format!("a{e}"));
    }
    for e in words_of(&["a", "(", ")"], 4) {
        c.expression(&format!("(a{e}"));
    }
    let tokens = ["a", "0", OVER, "+", "(", ")", "=", ";", "é", "\u{b}", "\u{a0}", "//", "\t"];
    for e in words_of(&tokens, 2) {
        c.expression(&e);
        c.body(&format!("return 1\nlet y=({e}"));
    }
    // five operands and four operators, with a pair of parentheses or none
    for ops in words_of(&["+", "-", "*", "/"], 3) {
        let o: Vec<char> = ops.chars().collect();
        c.expression(&format!("9{}4{}3{}2", o[0], o[1], o[2]));
        c.expression(&format!("9{}(4{}3){}2", o[0], o[1], o[2]));
        c.expression(&format!("9{}(4{}3{}2)", o[0], o[1], o[2]));
    }
    // values that wrap, and division by zero
    let numbers = ["0", "1", "3", "4294967296", "9223372036854775808", MAX];
    for x in numbers {
        for y in numbers {
            for op in ["+", "-", "*", "/"] {
                c.valued(&format!("fn t(a,b){{return a{op}b}}"), &format!("\"a\":{x},\"b\":{y},"));
            }
        }
    }
    for e in ["1/0", "0/0", "1/(2-2)", "0*(1/0)", "1/0+x", "(1/0", "1/0)", "1/(1/2)", "1/0/0", "0/1", "3-5", "0-1", "(0-1)*(0-1)", "(0-1)/2"] {
        c.expression(e);
        c.text(&format!("fn t(){{return {e}}}"), "{\"expected\":7}");
        c.text(&format!("fn t(){{return {e}\nreturn 7}}"), "{\"expected\":7}");
    }
    for n in [MAX, OVER, "0000000000000000000000000018446744073709551615", "0018446744073709551616", "00", "99999999999999999999", "184467440737095516150"] {
        for e in [format!("{n}"), format!("1 {n}"), format!("(1 {n}"), format!("1)({n}"), format!("{n} é"), format!("x+{n}"), format!("{n}+x"), format!("{n}*{n}")] {
            c.expression(&e);
        }
    }
    for open in [1, 2, 63, 64] {
        c.expression(&format!("{}a{}", "(".repeat(open), ")".repeat(open)));
        c.expression(&format!("{}a{}", "(".repeat(open), ")".repeat(open - 1)));
        c.expression(&format!("{}a{}", "(".repeat(open), ")".repeat(open + 1)));
        c.expression(&format!("{}a{}", "(1-".repeat(open), ")".repeat(open)));
        c.expression(&format!("{}a{}", "(".repeat(open), "*2)".repeat(open)));
    }
}

fn line_cases(c: &mut Cases) {
    let lines = ["let x=2", "let x=x*3", "return x", "return a-1", "// return 9", "let y", "x", "", "let x=(1", "return x x", "let a=x"];
    for two in words_of(&["0", "1", "2", "3", "4", "5", "6", "7", "8", "9", "A"], 2) {
        let pair: Vec<&str> = two.chars().map(|d| lines[d.to_digit(16).unwrap() as usize]).collect();
        c.body(&pair.join("\n"));
    }
    for three in words_of(&["0", "1", "2", "3", "A"], 3) {
        let all: Vec<&str> = three.chars().map(|d| lines[d.to_digit(16).unwrap() as usize]).collect();
        c.body(&all.join("\r\n"));
    }
    for l in ["let y", "let y 1", "let é", "let let", "let y:1", "let (;", "let -", "let return 1"] {
        for b in [format!("{l}"), format!("return 1\n{l}\nreturn 2"), format!("\n\n {l} "), format!("return ;\n{l}"), format!("{l}\nreturn ;"), format!("{l}\n=1\nreturn y")] {
            c.body(&b);
        }
    }
    for w in WHITE {
        c.body(&format!("{w}let x=2{w}\n{w}return x{w}\n"));
        c.body(&format!("let{w}x=2\nreturn 1"));
        c.body(&format!("let x{w}={w}2\nreturn x"));
        c.body(&format!("return{w}1"));
        c.body(&format!("return {w}1{w}"));
        c.body(&format!("return a{w}+{w}1"));
        c.body(&format!("return 1{w}2"));
        c.body(&format!("{w}//{w}\n{w}\nreturn 1"));
        c.valued(&format!("fn t({w}a{w}:{w}u64,{w},{w}b){{return a+b}}"), "\"a\":1,\"b\":2,");
        c.text("fn t(a){return a}", &format!("{{\"expected\"{w}:{w}4,{w}\"a\"{w}:{w}4{w}}}"));
        c.text(&format!("fn{w}t(a){{return a}}"), "{\"a\":1,\"expected\":1}");
    }
    for b in ["let x=1\rreturn x", "\rreturn 1", "return 1\r", "return 1\r\r\n", "\n\n\nreturn x\n", "\r\n\r\nreturn x\r\n", "return 1\n\rreturn 2", "let x=1\n\u{2028}return x", "let x=1\u{2028}return x", "\nlet y\n", "x\r\ny\r\nlet y"] {
        c.body(b);
    }
}

fn function_cases(c: &mut Cases) {
    let whole = ["fn ", "t", "(", "a", ")", " ", "{", "return a", "}"];
    let vector = "{\"a\":1,\"expected\":1}";
    for i in 0..whole.len() {
        let mut parts = whole.to_vec();
        parts.remove(i);
        c.text(&parts.concat(), vector);
        for j in 0..i {
            let mut parts = whole.to_vec();
            parts.swap(i, j);
            c.text(&parts.concat(), vector);
        }
    }
    for i in 0..=whole.len() {
        for sign in ["fn ", "(", ")", "{", "}", "//", "\n"] {
            let mut parts = whole.to_vec();
            parts.insert(i, sign);
            c.text(&parts.concat(), vector);
        }
    }
    for s in ["", "fn", "fn ", "fn (", "fn ()", "fn (){", "fn (){}", "fn (){return 1}", "// fn x(\nfn t(a){return a}", "fn\tt(a){return a}", "Fn t(a){return a}",
        "a fn fn (a){return a}", "fn t(a)->u64{return a}", "fn t(a){return a}}", "fn t(a){{return a}", "fn t(a){\n}\nreturn a}", "fn t(a){return a}\nfn u(a){return 2}", "é fn é(a) é{\nreturn a\n}é"] {
        c.text(s, vector);
        c.text(s, "");
    }
    for list in words(&["a", "b", ",", ":", " "], 3) {
        c.valued(&format!("fn ({list}){{return a*7}}"), "\"a\":2,\"b\":3,\"a b\":4,");
    }
}

fn vector_cases(c: &mut Cases) {
    let contract = "fn t(a,b){return a+b}";
    let parts = ["\"a\":1", "\"b\":2", "\"expected\":3", "\"a\"", "\"b\" 2", "\"expected\":", "\"a\":-1", "\"b\":x", "\"expected\":\"3\""];
    for a in parts {
        for b in parts {
            c.text(contract, &format!("{{{a},{b}}}"));
            c.text(contract, &format!("{b},\"b\":2,{a}"));
        }
    }
    for key in ["a", "expected"] {
        for value in ["", "5", " 5", "\t\r\n 5", "\u{a0}5", "\u{feff}5", "05", "+5", "-5", "5.9", "5e3", "5 6", "x5", "\"5\"", "\u{ff15}", "::5", MAX, OVER, "99999999999999999999",
            "000000000000000000000018446744073709551615", "0000018446744073709551616", "null", "[5]", "5\u{301}"] {
            let other = if key == "a" { "expected" } else { "a" };
            for o in ["5", MAX] {
                c.text("fn t(a){return a}", &format!("{{\"{key}\":{value},\"{other}\":{o}}}"));
                c.text("fn t(a){return a}", &format!("\"{other}\":{o},\"{key}\":{value}"));
            }
        }
    }
    for v in ["", " ", "5", "=5", ",\"b\"", "\"a\"", ",b,5"] {
        c.text(contract, &format!("\"expected\":1,\"a\"{v}"));
        c.text(contract, &format!("\"expected\":1,\"a\":0,\"b\"{v}"));
        c.text(contract, &format!("\"a\" 1,\"b\" 2,\"expected\"{v}"));
    }
    for v in ["", "{}", "expected", "\"expected\"", "\"expected", "expected\":1", "\"Expected\":1", "\"expected\":1", "\"expected\":1\"a\":1\"b\":0", "\"a\":\"expected\":1,\"b\":0",
        "\"expected\":\"a\":1", "\"b\"\"a\"\"expected\":0", "\"\"a\"\":1\"\"b\"\":0\"expected\":1", "{\"a\":1,\"a\":2,\"b\":3,\"expected\":4,\"expected\":5}", "\"a\"b\":1,\"expected\":2", "\"expected\":1\n\"a\"\n:\n1\n\"b\"\n:\n0"] {
        c.text(contract, v);
        c.text("fn t(){return 1}", v);
        c.text("fn t(,:x, ){return 1}", v);
    }
}

// Copies of a good contract and vector with a byte dropped, doubled or changed.
fn damaged_cases(c: &mut Cases) {
    for i in 0..TALLY.len() {
        let damage = [&b""[..], &TALLY.as_bytes()[i..=i].repeat(2), b"\x80", b")", b"\n"];
        for d in damage {
            let bad = [&TALLY.as_bytes()[..i], d, &TALLY.as_bytes()[i + 1..]].concat();
            c.bytes(&bad, TALLY_VECTOR.as_bytes(), b"t");
        }
    }
    for i in 0..TALLY_VECTOR.len() {
        let damage = [&b""[..], &TALLY_VECTOR.as_bytes()[i..=i].repeat(2), b"\xff", b"\"", b"0", b":"];
        for d in damage {
            let bad = [&TALLY_VECTOR.as_bytes()[..i], d, &TALLY_VECTOR.as_bytes()[i + 1..]].concat();
            c.bytes(TALLY.as_bytes(), &bad, b"t");
        }
    }
    let good = b"fn t(){return 1}";
    for bad in [&b"\xff"[..], b"\x80", b"\xc3", b"\xc0\xa0", b"\xed\xa0\x80", b"\xf4\x90\x80\x80", b"\xe2\x82", b"\xf0\x8f\xbf\xbf", b"\xc3\xa9", b"\xef\xbb\xbf", b"\xf4\x8f\xbf\xbf", b"\xed\x9f\xbf"] {
        c.bytes(&[bad, good].concat(), b"\"expected\":1", b"t");
        c.bytes(&[&good[..], bad].concat(), b"\"expected\":1", b"t");
        c.bytes(good, &[b"\"expected\":1", bad].concat(), b"t");
        c.bytes(good, &[bad, b"\"expected\":1"].concat(), b"t");
        c.bytes(&[&good[..], bad].concat(), &[b"\"expected\":1", bad].concat(), b"t");
        c.bytes(bad, bad, bad);
    }
}

fn stem_cases(c: &mut Cases) {
    let long = "s".repeat(251);
    let stems = ["tally", "a.b", ".", "..", ".x", " ", "a b", "#", "\t", "\r", "\u{a0}", "é", "\u{1f600}", "\u{feff}", "Halt", "\u{2028}", "\u{7f}", "\u{1}", "{}", "\\n", &long];
    for s in stems {
        c.bytes(TALLY.as_bytes(), TALLY_VECTOR.as_bytes(), s.as_bytes());
    }
    let cut = [b"s".repeat(254), b"\xff".to_vec()].concat();
    for s in [&b"\xff"[..], b"\x80", b"tally\xc3", b"\xc3\xa9\xc3", b"\xed\xa0\x80", b"\xc0\x80", b"a.\xff", &cut] {
        c.bytes(TALLY.as_bytes(), TALLY_VECTOR.as_bytes(), s);
        c.bytes(b"fn t(){return 1/0}", b"\"expected\":0", s);
        c.bytes(b"fn t(){return 1}", b"\"expected\":0", s);
        c.bytes(b"fn t(){}", b"\"expected\":0", s);
    }
}

// What is just within the added refusals.
fn limit_cases(c: &mut Cases) {
    let lets: String = (0..255).map(|i| format!("let x=a+{i}\n")).collect();
    c.body(&format!("{lets}return x"));
    let names: Vec<String> = (0..256).map(|i| format!("p{i}")).collect();
    let keys: String = names.iter().map(|n| format!("\"{n}\":1,")).collect();
    c.valued(&format!("fn t({}){{return p0+p255}}", names.join(",")), &keys);
    c.valued(&format!("fn t({}){{return p0+p255}}", names.join(",")), &keys.replace("\"p255\"", "p255"));
    // k is 2 to the power of the lines
    let doubled = |n: usize| format!("{}return x", (0..n).map(|i| if i == 0 { "let x=a+a\n" } else { "let x=x+x\n" }).collect::<String>());
    for n in [1, 4, 9] {
        c.body(&doubled(n));
    }
    c.text(&format!("fn t(a){{{}}}", doubled(15)), "{\"a\":5,\"expected\":0}");
    c.text(&format!("fn t(a){{{}/0\nreturn x}}", doubled(14)), "{\"a\":5,\"expected\":0}");
    c.body(&format!("{}\nreturn a", doubled(15)));
    c.body(&format!("let x=a/0\n{}", doubled(9).replacen("a+a", "x+a", 1)));
    // each binding in the right operand of the next: p is the number of lines and one
    for n in [1, 50, 200] {
        c.body(&format!("let x=a\n{}return x", "let x=1-x\n".repeat(n)));
    }
    let wide = |n: usize| format!("a{}", "+a".repeat(n - 1));
    c.expression(&wide(300));
    c.expression(&wide(1000));
    // 16,384 bytes
    c.bytes(format!("fn t(a){{return {}}}", wide(1486)).as_bytes(), b"{\"a\":5,\"expected\":7430}", b"exactly");
}

// The added refusals, by hand from document 01: what 1 and 2 add, 18, 20, 21, what 25 adds, and 26.
fn added_cases(c: &mut Cases) {
    let one = "{\"a\":5,\"expected\":1}";
    let good = "fn t(){return 1}";
    let padded = |text: &str| format!("{text}{}", " ".repeat(65537 - text.len()));
    c.added(&padded(good), one, b"t", 1, &[], "");
    c.added(good, &padded(one), b"t", 2, &[], "");
    let open = "(".repeat(65);
    for (body, line) in [(format!("return {open}"), 1), (format!("return {open}1{}", ")".repeat(65)), 1), (format!("let x={open}1\nreturn 1"), 1), (format!("let x=1\n\nreturn 1+{open}"), 3)] {
        c.added(&format!("fn t(a){{{body}}}"), one, b"t", 18, &[line], "");
    }
    // k is 32,768 on the fifteenth line
    let doubled = format!("let x=a+a\n{}", "let x=x+x\n".repeat(14));
    for body in [format!("{doubled}let x=x+x\nreturn 1"), format!("{doubled}return x+a"), format!("{doubled}return x+a\nreturn 1"), format!("{doubled}let y=a*x\n")] {
        c.added(&format!("fn t(a){{{body}}}"), one, b"t", 20, &[16], "");
    }
    c.added(&format!("fn t(a){{{doubled}return x}}"), "{\"a\":5,\"expected\":163840}", b"t", 26, &[], "");
    for body in ["let x=1\n".repeat(256), format!("{}return 1", "let x=1\n".repeat(256)), format!("{}let y=1/0\nreturn 1/0", "let x=1\n".repeat(255))] {
        c.added(&format!("fn t(a){{{body}}}"), one, b"t", 21, &[], "");
    }
    c.added(&format!("fn t({}){{}}", "a,".repeat(257)), one, b"t", 21, &[], "");
    c.added(&format!("fn t({}b){{}}", "a,".repeat(256)), one, b"t", 8, &[257], "");
    for stem in [&b""[..], &b"s".repeat(256), b"a\nb", b"\n", b"tally\n"] {
        c.added(good, one, stem, 25, &[], "");
        c.added("fn t(){return 2}", one, stem, 24, &[], "");
    }
    let longest = "s".repeat(255);
    let output = format!("# contract: {longest}\n# expected: 1\nPush 1\nHalt\n");
    c.added(good, one, longest.as_bytes(), 0, &[294, 1, 1, 1], &output);
    // 16,385 bytes
    c.added(&format!("fn t(a){{return a{}}}", "+a".repeat(1485)), "{\"a\":5,\"expected\":7430}", b"too_long", 26, &[], "");
}

fn pick<'a>(seed: &mut u64, from: &[&'a str]) -> &'a str {
    from[next(seed) % from.len()]
}

fn drawn_expression(seed: &mut u64, names: &[&str], depth: usize) -> String {
    let mut e = String::new();
    for i in 0..1 + next(seed) % 3 {
        if i > 0 {
            e += pick(seed, &["+", "-", "*", "/", " + ", " - ", "\t* ", " / "]);
        }
        match next(seed) % 8 {
            0..=3 => e += pick(seed, names),
            4 if depth > 0 => e += &format!("({})", drawn_expression(seed, names, depth - 1)),
            5 => e += pick(seed, &["0", "1", MAX, "18446744073709551557", "4294967295", "0012"]),
            _ => e += &(next(seed) % 20).to_string(),
        }
    }
    e
}

// A contract of the grammar, and what its vector has before the expected value.
fn drawn_contract(seed: &mut u64) -> (String, String) {
    let all = ["a", "b", "rate", "_x", "B2", "*", "-", ")"];
    let mut names: Vec<&str> = vec!["1"];
    let mut keys = String::new();
    let mut list: Vec<String> = vec![];
    for name in &all[..next(seed) % 4] {
        list.push(format!("{}{name}{}", pick(seed, &["", " ", "\u{3000}"]), pick(seed, &["", ": u64", " :x"])));
        let value = pick(seed, &["0", "1", "7", "250", MAX, "9223372036854775809"]);
        keys += &format!("\"{name}\":{value},");
        names.push(name);
    }
    let end = pick(seed, &["\n", "\n", "\r\n"]);
    let mut text = format!("fn t({}){{{end}", list.join(","));
    for _ in 0..next(seed) % 5 {
        let white = pick(seed, &["", "  ", "\t", "\u{a0}"]);
        match next(seed) % 9 {
            0 => text += &format!("{white}// {}{end}", pick(seed, &["x", "return 1", ")"])),
            1 => text += &format!("{white}{end}"),
            2 => text += &format!("return {}{end}", drawn_expression(seed, &names, 2)),
            3 => text += &format!("{white}{}{end}", pick(seed, &["let", "skip", "return", "{"])),
            _ => {
                let among = if next(seed) % 4 == 0 { all.len() } else { 5 };
                let name = pick(seed, &all[..among]);
                text += &format!("{white}let {name}{white}={}{end}", drawn_expression(seed, &names, 2));
                names.push(name);
            }
        }
    }
    if next(seed) % 12 > 0 {
        text += &format!("return {}{end}", drawn_expression(seed, &names, 2));
    }
    (text + "}", keys)
}

fn drawn_cases(c: &mut Cases) {
    let mut seed = 88172645463325252u64;
    for _ in 0..500 {
        let (contract, keys) = drawn_contract(&mut seed);
        c.valued(&contract, &keys);
    }
    // damaged: a byte dropped, doubled or changed, in the contract or the vector
    for _ in 0..400 {
        let (contract, keys) = drawn_contract(&mut seed);
        let mut both = [contract.into_bytes(), format!("{{{keys}\"expected\":{}}}", next(&mut seed) % 3).into_bytes()];
        let part = &mut both[usize::from(next(&mut seed) % 4 == 0)];
        let at = next(&mut seed) % part.len();
        match next(&mut seed) % 3 {
            0 => {
                part.remove(at);
            }
            1 => part.insert(at, part[at]),
            _ => part[at] = b" \n()={}+*/1a\":\xc2\x85"[next(&mut seed) % 16],
        }
        let [contract, vector] = both;
        c.bytes(&contract, &vector, b"d");
    }
}

pub fn make(all: &mut cases::Cases) {
    let folder = std::env::temp_dir().join(format!("assembler_cases_{}", std::process::id()));
    fs::create_dir(&folder).unwrap();
    let mut c = Cases { folder, all, seen: HashSet::new() };
    document_cases(&mut c);
    expression_cases(&mut c);
    line_cases(&mut c);
    function_cases(&mut c);
    vector_cases(&mut c);
    damaged_cases(&mut c);
    stem_cases(&mut c);
    limit_cases(&mut c);
    drawn_cases(&mut c);
    added_cases(&mut c);
    comparisons::make(&mut c);
    fs::remove_dir_all(&c.folder).unwrap();
}
