// The cases of crates/replay that read a contract and its vector: what the original's `find_function` and
// `json_u64_for_key` answer.
use crate::cases::{text, told, Cases};
use crate::words::words;
use original::assembler::private::{find_function, json_u64_for_key};
use original::numbers::message_number;

impl Cases {
    fn function(&mut self, contract: &str) {
        let answer = match find_function(contract) {
            Ok((names, body)) => {
                let parts = [vec![body], names].concat();
                parts.iter().fold(told(0, &[]), |all, part| format!("{all} | {}", text(part.as_bytes())))
            }
            Err(message) => told(message_number(&message), &[]),
        };
        self.add('o', 'F', &[text(contract.as_bytes())], &answer);
    }

    fn value(&mut self, vector: &str, key: &str) {
        let answer = match json_u64_for_key(vector, key) {
            Ok(n) => told(0, &[n]),
            Err(message) => told(message_number(&message), &[]),
        };
        self.add('o', 'V', &[text(vector.as_bytes()), text(key.as_bytes())], &answer);
    }
}

fn function_cases(c: &mut Cases) {
    let signs = ["fn ", "(", ")", "{", "}"];
    for s in words(&signs, 3) {
        c.function(&s);
    }
    // a whole function: without one of its signs, with two of them exchanged, with one more at each place
    let whole = ["fn ", "t", "(", "a", ")", " ", "{", "x", "}"];
    for i in 0..whole.len() {
        let mut parts = whole.to_vec();
        parts.remove(i);
        c.function(&parts.concat());
        for j in 0..i {
            let mut parts = whole.to_vec();
            parts.swap(i, j);
            c.function(&parts.concat());
        }
    }
    for i in 0..=whole.len() {
        for sign in signs {
            let mut parts = whole.to_vec();
            parts.insert(i, sign);
            c.function(&parts.concat());
        }
    }
    for s in ["fn\tt(a){}", "Fn t(a){}", "fnfn (a){}", "ffn (a){}", "fn (a\n,\nb)\n{\nreturn a\n}\n", "é fn é(é) é{é}é"] {
        c.function(s);
    }
    for list in words(&["a", ",", ":", " ", "\u{3000}"], 3) {
        c.function(&format!("fn ({list}){{}}"));
    }
    for list in ["a: u64, b: u64", " a b : c , d\te", "\u{2028}é\u{A0}:x,\u{85}ü\u{B}", "a,a,a", "\u{FEFF}a", "a\u{2000}:", "::a", ": a"] {
        c.function(&format!("fn t({list}) {{ return a }}"));
    }
}

fn value_cases(c: &mut Cases) {
    for s in words(&["\"a\"", "\"", ":", "5", "a", " "], 3) {
        c.value(&s, "a");
    }
    for key in ["a", "b", "ab", "", "expected", "é", "\"", ":", "a\":1,\"b", "a\\"] {
        for vector in [
            "{\"a\": 5, \"b\": 7, \"expected\": 24}",
            "{\"expected\":1,\"a\":2,\"a\":3}",
            "\"a\" 5, \"b\": 7",
            "{\"aa\":1,\"ab\":2,\"b a\":3,\"\":4,\"\"\":5}",
            "\"é\":6 \":\":7 \"a\\\":8",
        ] {
            c.value(vector, key);
        }
    }
    for front in ["", " ", "\t\r\n", "\u{B}\u{C}", "\u{85}\u{A0}\u{3000}", "\u{FEFF}", "\u{200B}", "-", "+", "\"", "\0"] {
        for number in ["0", "7", "007", "18446744073709551615", "18446744073709551616", "000000000000000000000018446744073709551615",
            "99999999999999999999", "184467440737095516150", "", "x", "１"] {
            for back in ["", "}", ".5", "e3", " 1"] {
                c.value(&format!("{{\"k\":{front}{number}{back}"), "k");
            }
        }
    }
}

pub fn make(c: &mut Cases) {
    function_cases(c);
    value_cases(c);
}
