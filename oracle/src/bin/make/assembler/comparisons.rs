//! The cases of crates/replay for request 101. The original has neither `<` nor `==`: contracts with them have document 02's answers,
//! the few without them the original's. Accepted expressions are drawn as trees and written out from them, so that nothing here
//! reads an expression; refused ones are by hand.
use super::{Cases, MAX, OVER, ROOM};
use crate::draw::next;
use original::domain::free_of_both_signs;
use original::tree::{Tree, OPERATORS};

impl Cases<'_> {
    /// The original's answer where the contract is left to it, else the one given, which is document 02's.
    fn answered(&mut self, contract: &str, vector: &str, stem: &[u8], number: u64, values: &[u64], output: &str) {
        if free_of_both_signs(contract.as_bytes()) {
            self.bytes(contract.as_bytes(), vector.as_bytes(), stem);
        } else {
            self.added(contract, vector, stem, number, values, output);
        }
    }

    /// A contract with the tree of its last return. The vector names what that is worth.
    fn compared(&mut self, contract: &str, keys: &str, stem: &str, tree: &Tree) {
        let expected = tree.value().unwrap_or(0);
        let vector = |n: u64| format!("{{{keys}\"expected\":{n}}}");
        let output = format!("# contract: {stem}\n# expected: {expected}\n{}Halt\n", tree.operations());
        let stem = stem.as_bytes();
        match tree.value() {
            None => self.answered(contract, &vector(expected), stem, 23, &[], ""),
            Some(_) if output.len() > ROOM => self.answered(contract, &vector(expected), stem, 26, &[], ""),
            Some(_) => {
                self.answered(contract, &vector(expected), stem, 0, &[output.len() as u64, tree.k(), tree.p(), expected], &output);
                self.answered(contract, &vector(expected ^ 1), stem, 24, &[], "");
            }
        }
    }

    fn refused_body(&mut self, body: &str, number: u64, line: u64) {
        self.answered(&format!("fn t(a){{{body}}}"), "{\"a\":5,\"expected\":1}", b"t", number, &[line], "");
    }
}

fn number(n: u64) -> Box<Tree> {
    Box::new(Tree::Number(n))
}

fn join(sign: &str, a: Box<Tree>, b: Box<Tree>) -> Box<Tree> {
    Box::new(Tree::Join(OPERATORS.iter().find(|o| o.sign == sign).unwrap(), a, b))
}

fn accepted(c: &mut Cases) {
    // the readings of one level, left to right, looser than sums
    let three = |first: &str, second: &str, n: [u64; 3]| join(second, join(first, number(n[0]), number(n[1])), number(n[2]));
    for (first, second, n) in [("<", "==", [1, 2, 1]), ("==", "<", [0, 1, 1]), ("<", "<", [3, 2, 1]), ("==", "==", [3, 3, 3])] {
        let e = format!("{} {first} {} {second} {}", n[0], n[1], n[2]);
        c.compared(&format!("fn t(){{return {e}}}"), "", "t", &three(first, second, n));
    }
    let sums = join("<", join("+", number(1), number(2)), join("-", number(4), number(1)));
    c.compared("fn t(){return 1 + 2 < 4 - 1}", "", "t", &sums);
    c.compared("fn t(){return 1+2<4-1}", "", "t", &sums);
    c.compared("fn t(){return (1+2)<(4-1)}", "", "t", &sums);
    c.compared("fn t(){return 1==2*3}", "", "t", &join("==", number(1), join("*", number(2), number(3))));
    c.compared("fn t(){return 2*(1<2)}", "", "t", &join("*", number(2), join("<", number(1), number(2))));
    c.compared("fn t(a){let x = a == 5\nlet y = x < 2\nreturn x + y}", "\"a\":5,", "t", &{
        let x = || join("==", number(5), number(5));
        *join("+", x(), join("<", x(), number(2)))
    });
    c.compared("// a == b < c\nfn t(a) < == {\n// 1 = 2\nreturn 1 == 1\n}", "\"a\":5,", "t", &join("==", number(1), number(1)));
    for power in [0, 399, 400, 401, u64::MAX] {
        let low = join("*", join("<", number(power), number(400)), number(65));
        let high = join("*", join("<", number(400), join("+", number(power), number(1))), number(70));
        let contract = "fn blank(power) {\n  return (power < 400) * 65 + (400 < power + 1) * 70\n}\n";
        c.compared(contract, &format!("\"power\": {power}, "), "blank", &join("+", low, high));
    }
    // every two numbers, and none on a side
    let numbers = [0, 1, 2, 9223372036854775808, u64::MAX];
    for (x, y) in numbers.iter().flat_map(|x| numbers.map(|y| (*x, y))) {
        for sign in ["<", "=="] {
            c.compared(&format!("fn t(a,b){{return a{sign}b}}"), &format!("\"a\":{x},\"b\":{y},"), "t", &join(sign, number(x), number(y)));
        }
    }
    let none = || join("/", number(1), number(0));
    for sign in ["<", "=="] {
        c.compared(&format!("fn t(){{return 1/0{sign}1/0}}"), "", "t", &join(sign, none(), none()));
        c.compared(&format!("fn t(){{return 1{sign}1/0}}"), "", "t", &join(sign, number(1), none()));
        c.compared(&format!("fn t(){{return (1/0{sign}1)*0}}"), "", "t", &join("*", join(sign, none(), number(1)), number(0)));
    }
    // names that are the signs; no `let` can bind `==`, and what is bound as `=` is never met
    c.compared("fn t(){let < = 5\nreturn < < <}", "", "t", &join("<", number(5), number(5)));
    c.compared("fn t(){let <=5\nreturn <}", "", "t", &Tree::Number(5));
    c.compared("fn t(<){return 1 <<< 1}", "\"<\":5,", "t", &join("<", join("<", number(1), number(5)), number(1)));
    c.compared("fn t(==){return == == ==}", "\"==\":5,", "t", &join("==", number(5), number(5)));
    c.compared("fn t(==){return ======}", "\"==\":5,", "t", &join("==", number(5), number(5)));
    c.compared("fn t(<,==){return <==== + <}", "\"<\":3,\"==\":4,", "t", &join("==", number(3), join("+", number(4), number(3))));
    c.compared("fn t(=){return 1<2}", "\"=\":5,", "t", &join("<", number(1), number(2)));
    // 16,384 bytes of output, and one more: lines of three bytes
    for stem in ["exact", "beyond"] {
        let chain = (0..1634).fold(number(5), |t, _| join("<", t, number(5)));
        c.compared(&format!("fn t(a){{return a{}}}", "<a".repeat(1634)), "\"a\":5,", stem, &chain);
    }
    let mut seed = 362436069362436069u64;
    for _ in 0..400 {
        let tree = Tree::drawn(&mut || next(&mut seed), 4);
        let expression = tree.written(&mut || next(&mut seed), 3);
        c.compared(&format!("fn t(){{return {expression}}}"), "", "t", &tree);
    }
}

fn refused(c: &mut Cases) {
    for e in [
        "1 = 1",
        "1 === 1",
        "1 = = 1",
        "1 <= 1",
        "1 =< 1",
        "1 >= 1",
        "1 =",
        "=",
        "===",
        "1 ===== 1",
        "a =\t= a",
        "a == a;",
        "1 < é",
        "(= 1",
        "1 == = 1",
    ] {
        c.refused_body(&format!("return {e}"), 13, 1);
    }
    for e in ["1 <", "1 ==", "(1 == 1", "1 < (", "(1 <", "1 == 1 <"] {
        c.refused_body(&format!("return {e}"), 14, 1);
    }
    for e in ["(1 < 2 3)", "(1 == 2 a", "(a < a (", "(1 < 2 18446744073709551616"] {
        c.refused_body(&format!("return {e}"), 15, 1);
    }
    for e in [format!("1 < {OVER}"), format!("{OVER} == 1"), format!("(1 == {OVER}")] {
        c.refused_body(&format!("return {e}"), 16, 1);
    }
    for e in [
        "== 1", "< 1", "==", "<", "1 ==== 1", "1 <== 1", "1 ==< 1", "1 < < 1", "1 == x", "x < 1", "(== 1)", "(==", "1 << 1", "1 < ) 1", "1 + < 2",
        "1 == * 2",
    ] {
        c.refused_body(&format!("return {e}"), 17, 1);
    }
    let open = "(".repeat(65);
    for e in [format!("1 < {open}1"), format!("1 == {open}"), format!("{open}1 < 2{}", ")".repeat(65))] {
        c.refused_body(&format!("return {e}"), 18, 1);
    }
    for e in ["1 < 2 3", "1 == 1)", "1 < 2 (", "a == a a", "1 < 2)", &format!("1 == 1 {MAX}")] {
        c.refused_body(&format!("return {e}"), 19, 1);
    }
    // k is 32,768 on the fifteenth line
    for sign in ["<", "=="] {
        let doubled = format!("let x=a{sign}a\n{}", format!("let x=x{sign}x\n").repeat(14));
        c.refused_body(&format!("{doubled}let x=x{sign}x\nreturn 1"), 20, 16);
        c.refused_body(&format!("{doubled}return x{sign}a"), 20, 16);
        c.compared(&format!("fn t(a){{{doubled}return x\nreturn 1}}"), "\"a\":5,", "t", &Tree::Number(1));
    }
    // `let` takes the first `=`
    for (body, number, line) in [
        ("let x == 5\nreturn x", 13, 1),
        ("let x==3\nreturn x", 13, 1),
        ("let x === 5\nreturn x", 17, 1),
        ("return 1\nlet x ==== 5", 13, 2),
        ("return 1\nlet <= = 5", 13, 2),
        ("return 1\nlet y=(==", 17, 2),
        ("let < 5\nreturn 1", 12, 1),
        ("let x = a <\nreturn x", 14, 1),
    ] {
        c.refused_body(body, number, line);
    }
    for (names, keys, e, number) in
        [("==", "\"==\":5,", "1 ==== 1", 19), ("=", "\"=\":5,", "=", 13), ("=", "\"=\":5,", "= == =", 13), ("<", "\"<\":5,", "1 << 1", 19)]
    {
        c.answered(&format!("fn t({names}){{return {e}}}"), &format!("{{{keys}\"expected\":1}}"), b"t", number, &[1], "");
    }
}

pub fn make(c: &mut Cases) {
    accepted(c);
    refused(c);
}
