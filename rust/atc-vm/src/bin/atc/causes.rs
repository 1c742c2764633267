//! The commonest cause of each refusal, and an example.

use Example::{Ops, Rule, Words};

/// Something that is refused so.
#[derive(Debug, Clone, Copy)]
pub enum Example {
    /// A rule and its vector.
    Rule(&'static str, &'static str),
    /// Operations, and the options that `atc run` is given with them.
    Ops(&'static str, &'static str),
    Words(&'static str),
}

#[derive(Debug)]
pub struct Cause {
    pub cause: &'static str,
    pub example: Example,
}

const fn of(cause: &'static str, example: Example) -> Cause {
    Cause { cause, example }
}

/// In the order of the numbers, from 1.
pub const CAUSES: [Cause; 51] = [
    of(
        "The file was saved as UTF-16 or in an old code page, or another file was meant.",
        Words("a rule saved as UTF-16, which starts with the bytes FF FE"),
    ),
    of(
        "The file was saved as UTF-16 or in an old code page, or another file was meant.",
        Words("a vector of 65,537 bytes"),
    ),
    of(
        "Another word stands for `fn`, or something other than a space behind it.",
        Rule("function blank (cyl) {\n  return cyl\n}", r#"{"cyl": 75, "expected": 75}"#),
    ),
    of(
        "A function without parameters is written without its parentheses.",
        Rule("fn blank {\n  return 1\n}", r#"{"expected": 1}"#),
    ),
    of(
        "The parenthesis behind the last parameter was forgotten.",
        Rule("fn blank (cyl {\n  return cyl\n}", r#"{"cyl": 75, "expected": 75}"#),
    ),
    of(
        "The brace before the body was forgotten.",
        Rule("fn blank (cyl)\n  return cyl\n}", r#"{"cyl": 75, "expected": 75}"#),
    ),
    of(
        "The brace behind the body was forgotten, or the end of the file is lost.",
        Rule("fn blank (cyl) {\n  return cyl\n", r#"{"cyl": 75, "expected": 75}"#),
    ),
    of(
        "The order has no such value, or the vector spells its key otherwise; capitals count.",
        Rule("fn blank (axis) {\n  return axis\n}", r#"{"Axis": 90, "expected": 90}"#),
    ),
    of(
        "The key stands in the vector first as a value, or at its very end.",
        Rule("fn blank (axis) {\n  return axis\n}", r#"{"expected": 90, "missing": "axis"}"#),
    ),
    of(
        "The number has a minus or stands in quotes, or there is none, as in `null`.",
        Rule("fn blank (cyl) {\n  return cyl\n}", r#"{"cyl": -75, "expected": 75}"#),
    ),
    of(
        "A number is out of all measure, such as a date and a serial number run together.",
        Rule("fn blank (cyl) {\n  return cyl\n}", r#"{"cyl": 18446744073709551616, "expected": 75}"#),
    ),
    of(
        "The `=` was forgotten, or stands on the next line.",
        Rule("fn blank (cyl) {\n  let half cyl / 2\n  return half\n}", r#"{"cyl": 75, "expected": 37}"#),
    ),
    of(
        "A `;` at the end of the line, a decimal point, a single `=`, or a sign that expressions don't have.",
        Rule("fn blank (cyl) {\n  return cyl;\n}", r#"{"cyl": 75, "expected": 75}"#),
    ),
    of(
        "An expression goes on in the next line, or a `)` is missing at its end.",
        Rule("fn blank (cyl) {\n  return cyl +\n    25\n}", r#"{"cyl": 75, "expected": 100}"#),
    ),
    of(
        "An operator is missing inside parentheses.",
        Rule("fn blank (cyl) {\n  return (cyl 2)\n}", r#"{"cyl": 75, "expected": 150}"#),
    ),
    of(
        "A number has too many digits.",
        Rule("fn blank (cyl) {\n  return cyl + 18446744073709551616\n}", r#"{"cyl": 75, "expected": 75}"#),
    ),
    of(
        "A name is misspelt or bound further down, two operators follow each other, or a remark stands behind code.",
        Rule("fn blank (power) {\n  return pwoer * 2\n}", r#"{"power": 75, "expected": 150}"#),
    ),
    of(
        "An expression was made by a program. A `let` for its inner part helps.",
        Words("`return`, a space, 65 times `(`, then 1, then 65 times `)`"),
    ),
    of(
        "An operator is missing between two numbers or names, or a `)` is one too many.",
        Rule("fn blank (cyl) {\n  return 2 cyl\n}", r#"{"cyl": 75, "expected": 150}"#),
    ),
    of(
        "`let` lines use one another more than once: each use copies all of what is used.",
        Words("`let a = 1`, then 16 lines `let a = a + a`: the last has k 65,536"),
    ),
    of(
        "A rule was made by a program. Parameters and `let` lines together may be 256; a name bound anew counts anew.",
        Words("257 lines `let a = 1`"),
    ),
    of(
        "The line starts with another word, or no space follows `return`.",
        Rule("fn blank (cyl) {\n  return(cyl)\n}", r#"{"cyl": 75, "expected": 75}"#),
    ),
    of(
        "A divisor is 0 with the values of this vector, in the return line or in a `let` that it uses.",
        Rule("fn blank (cyl, steps) {\n  return cyl / steps\n}", r#"{"cyl": 75, "steps": 0, "expected": 0}"#),
    ),
    of(
        "The rule or the vector is wrong; or a difference fell below 0 and wrapped, or a division dropped a rest.",
        Rule("fn blank (cyl) {\n  return cyl / 2 * 2\n}", r#"{"cyl": 75, "expected": 75}"#),
    ),
    of(
        "The rule's file has a name that isn't UTF-8 or holds a line feed.",
        Words("a rule in a file named `new`, a line feed, `cyl.rule`"),
    ),
    of(
        "A C caller lends less than ATC_MAX_OUTPUT. `atc` and the Rust crate lend enough.",
        Words("atc_assemble with an accepted rule and an out_len of 0"),
    ),
    of(
        "The file was saved as UTF-16 or in an old code page, or another file was meant.",
        Words("operations saved as UTF-16, which start with the bytes FF FE"),
    ),
    of(
        "The value is no whole number: a decimal point, a minus, a name.",
        Ops("Push 12.5", ""),
    ),
    of("The slot is no number: a name, a minus, an equals sign.", Ops("Push 75\nStore cyl", "")),
    of(
        "The word is spelt otherwise (capitals count), its number is missing, or something stands behind it.",
        Ops("push 75", ""),
    ),
    of("A label is used. Targets are positions, counted from 0.", Ops("Jump end\nHalt", "")),
    of(
        "A C caller lends fewer entries than the text has lines. `atc` and the Rust crate lend enough.",
        Words("atc_parse_ops with the text `Halt` and a kinds_len of 0"),
    ),
    of("The file is empty or has remarks alone.", Ops("# to be written", "")),
    of(
        "A C caller mixes up lengths. `atc` and the Rust crate lend what is due.",
        Words("atc_run_with_gas with a stack_len of 4,095"),
    ),
    of("A context for another chain.", Words("a transition with chain id `btc`")),
    of("A network is misspelt; capitals count.", Words("a transition with network `Mainnet`")),
    of(
        "The genesis id has a prefix such as `0x`, or is cut.",
        Words("a transition with a genesis id of 63 digits"),
    ),
    of(
        "Node and order are of different releases.",
        Words("a transition with protocol 1 where the node expects 2"),
    ),
    of(
        "Node and order are of different releases.",
        Words("a transition with VM version 1 where the node expects 2"),
    ),
    of(
        "The order is for another ledger, or one of the two ids is written in capitals.",
        Words("64 times `A` where the node has computed 64 times `a`"),
    ),
    of(
        "A caller runs a program of no operations. For a text 33 comes before it.",
        Words("atc_run_with_gas with a kinds_len of 0"),
    ),
    of("Operations were made by a program.", Words("65,537 lines `Halt`")),
    of(
        "A caller keeps more slots than a state may have.",
        Words("a run on a storage of 65,537 used slots"),
    ),
    of(
        "A C caller makes up kinds. What is read from a text has kinds 0 to 15.",
        Words("atc_verify with the one kind 16"),
    ),
    of(
        "Positions were counted from 1, or with the remarks and empty lines.",
        Ops("# from 1\nPush 1\nJump 2", ""),
    ),
    of(
        "The limit is too low for the way that the run takes, or a loop doesn't end. The price is looked at first, before \
         the stack.",
        Ops("Push 75\nStore 0\nPush 180\nPush 0\nDiv", "--gas 6"),
    ),
    of(
        "A value is missing: an operation takes more than was pushed, or a jump skips a push.",
        Ops("Push 75\nAdd", ""),
    ),
    of(
        "A loop pushes more than it takes, or an expression leans far to the right.",
        Ops("Push 1\nJump 0", "--gas 20000"),
    ),
    of("A value of the order is 0, or the two operands are swapped: the top is the divisor.", Ops("Push 75\nPush 0\nDiv", "")),
    of("A value was written where the slot is due.", Ops("Push 75\nStore 65536", "")),
    of(
        "A C caller lends less storage than the rule stores to. `atc` and the Rust crate lend enough.",
        Words("`Push 1`, `Store 4` on a storage_len of 4"),
    ),
];

#[cfg(test)]
mod tests {
    use super::*;
    use atc_vm::sys::{self, Gate, Run};
    use atc_vm::{assemble_text, parse_ops_bytes, Op, Vm, REFUSALS};

    fn assembled(rule: impl AsRef<[u8]>, vector: impl AsRef<[u8]>) -> u64 {
        assemble_text(rule, vector, "x").map_or_else(|error| error.number(), |_| 0)
    }

    fn run(ops: &[u8], gas: u64, slots: usize) -> u64 {
        let ops = match parse_ops_bytes(ops) {
            Ok(ops) => ops,
            Err(error) => return error.number(),
        };
        let mut vm = Vm::with_context(ops, 7, vec![0; slots]);
        vm.run_with_gas(gas)
            .map_or_else(|error| error.number(), |_| 0)
    }

    fn gas(options: &str) -> u64 {
        match options.strip_prefix("--gas ") {
            Some(gas) => gas.parse().unwrap(),
            None if options.is_empty() => crate::setting::GAS,
            None => panic!("{options}"),
        }
    }

    #[test]
    fn examples_are_refused_so() {
        for (refusal, Cause { example, .. }) in REFUSALS.iter().zip(&CAUSES) {
            let number = match *example {
                Rule(rule, vector) => assembled(rule, vector),
                Ops(ops, options) => run(ops.as_bytes(), gas(options), 0),
                Words(_) => in_words(refusal.number),
            };
            assert_eq!(number, refusal.number);
        }
    }

    // What the examples in words say.
    fn in_words(number: u64) -> u64 {
        let (rule, vector) = ("fn f () {\n  return 1\n}", "{\"expected\": 1}");
        let body = |body: String| assembled(format!("fn f () {{\n{body}\nreturn 1\n}}"), vector);
        match number {
            1 => assembled(b"\xff\xfef\0n\0", vector),
            2 => assembled(rule, " ".repeat(65_537)),
            18 => body(format!("return {}1{}", "(".repeat(65), ")".repeat(65))),
            20 => body(format!("let a = 1\n{}", "let a = a + a\n".repeat(16))),
            21 => body("let a = 1\n".repeat(257)),
            25 => assemble_text(rule, vector, "new\ncyl")
                .unwrap_err()
                .number(),
            26 => sys::assemble(rule.as_bytes(), vector.as_bytes(), b"x", &mut []).number,
            27 => run(b"\xff\xfeH\0", 0, 0),
            32 => sys::parse_ops(b"Halt", &mut [], &mut [0]).number,
            34 => lent(&[15], &[0], 4_095, 0),
            35..=40 => gated(number),
            41 => lent(&[], &[], 4_096, 0),
            42 => run("Halt\n".repeat(65_537).as_bytes(), 0, 0),
            43 => run(b"Halt", 0, 65_537),
            44 => sys::verify(&[16], &[0], 0).number,
            51 => lent(&[0, 12], &[1, 4], 4_096, 4),
            other => panic!("no words for {other}"),
        }
    }

    fn lent(kinds: &[u8], operands: &[u64], stack: usize, slots: usize) -> u64 {
        let run = Run {
            kinds,
            operands,
            caller: 7,
            stack: &mut vec![0; stack],
            work: &mut vec![0; slots],
            storage: &mut vec![0; slots],
            used: 0,
        };
        sys::run_with_gas(run, 1_000).number
    }

    fn gated(number: u64) -> u64 {
        let (small, capital) = ("a".repeat(64), "A".repeat(64));
        let of = |wrong: u64, bad: &'static str, good: &'static str| {
            if number == wrong {
                bad
            } else {
                good
            }
        };
        sys::execution_gate(Gate {
            chain_id: of(35, "btc", "atc").as_bytes(),
            network_id: of(36, "Mainnet", "mainnet").as_bytes(),
            genesis_id: match number {
                37 => &small.as_bytes()[1..],
                40 => capital.as_bytes(),
                _ => small.as_bytes(),
            },
            protocol_version: b"1",
            vm_version: b"1",
            computed_genesis_id: small.as_bytes(),
            expected_protocol: of(38, "2", "1").as_bytes(),
            expected_vm: of(39, "2", "1").as_bytes(),
        })
    }

    // What the causes say beside.
    #[test]
    fn causes_are_true() {
        let vector = "{\"expected\": 1, \"a\": 1}";
        assert_eq!(assembled("fn\tf () {\n return 1\n}", vector), 3);
        assert_eq!(
            assembled("fn f (a) {\n let b\n = a\n return 1\n}", vector),
            12
        );
        assert_eq!(assembled("fn f (a) {\n return (a\n}", vector), 14);
        assert_eq!(assembled("fn f (a) {\n return a // so\n}", vector), 17);
        assert_eq!(assembled("fn f (a) {\n return a + + a\n}", vector), 17);
        assert_eq!(assembled("fn f (a) {\n return a)\n}", vector), 19);
        assert_eq!(
            assembled("fn f (b) {\n return b\n}", "{\"expected\": 1, \"b\": null}"),
            10
        );
        assert_eq!(assembled("fn f (a) {\n return a - 2\n}", vector), 24);
        assert_eq!(run(b"Push 1\nAdd extra", 9, 0), 30);
        assert_eq!(run(b"Store =5", 9, 0), 29);
        let ops = vec![Op::Push(4), Op::Push(0), Op::Swap, Op::Div];
        assert_eq!(Vm::new(ops).run_with_gas(9), Ok(vec![0]));
    }
}
