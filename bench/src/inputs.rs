//! The inputs that are timed.
use original::assembler::assemble_plain;

pub struct Contract {
    pub name: &'static str,
    pub contract: String,
    pub vector: String,
}

fn wrap(body: &str, params: &str) -> String {
    format!("fn f ({params}) {{\n{body}}}\n")
}

/// With the value that the original finds as `expected`.
fn valued(name: &'static str, contract: String, keys: &str) -> Contract {
    let vector = |n: &str| format!("{{{keys}\"expected\": {n}}}");
    let value = match assemble_plain(contract.as_bytes(), vector("0").as_bytes(), "s") {
        Ok(_) => "0".to_string(),
        Err(m) => m.split("simulation ").nth(1).unwrap_or_else(|| panic!("{name}: {m}")).split(' ').next().unwrap().to_string(),
    };
    Contract { name, contract, vector: vector(&value) }
}

pub fn contracts() -> Vec<Contract> {
    let keys = "\"a\": 5, \"b\": 7, ";
    let chain: String =
        (0..20).map(|i| format!("  let x{i} = {} + 3 * (a - {i})\n", if i == 0 { "b".into() } else { format!("x{}", i - 1) })).collect();
    let literals: String = (0..12_000).map(|i| format!("{}+", i % 10)).collect();
    let lets: String = (0..7).map(|i| format!("  let speed_{i} = {i} + 3\n")).collect();
    let names: String = (0..3000).map(|i| format!("speed_{}*", i % 7)).collect();
    let many: String = (1..250).map(|i| format!("  let x{i} = x{} + {i}\n", i - 1)).collect();
    let two_hundred: String = (0..200).map(|i| format!("  let a{i} = {i}\n")).collect();
    let uses: String = (0..3000).map(|i| format!("a{}+", (i * 7) % 200)).collect();
    vec![
        valued("tally of document 01", "fn total (a, b) {\n  let s = a + b\n  return s * 2\n}\n".into(), keys),
        valued("20 bindings", wrap(&format!("{chain}  return x19 / 3\n"), "a, b"), keys),
        valued("a long line of literals", wrap(&format!("  return {literals}1\n"), ""), ""),
        valued("a long line of names", wrap(&format!("{lets}  return {names}1\n"), ""), ""),
        valued("250 bindings, each of the one before", wrap(&format!("  let x0 = 1\n{many}  return x249\n"), ""), ""),
        valued("200 names used 3,000 times", wrap(&format!("{two_hundred}  return {uses}1\n"), ""), ""),
        valued("k of 32,768 by doubling", doubled("1"), ""),
        valued("k of 32,768, literals of 20 digits", doubled("18446744073709551615"), ""),
    ]
}

/// Comparisons (request 101), and what the original is asked for them: the same text with `-` for `<` and `+` for `==`.
pub fn comparisons() -> Vec<(Contract, Contract)> {
    let both = |name, body: String| {
        let sums = valued(name, wrap(&body.replace('<', "-").replace("==", "+ "), ""), "");
        let contract = wrap(&body, "");
        let value = u64::from(atc_vm::assemble_text(&contract, "{\"expected\": 1}", "s").is_ok());
        (Contract { name, contract, vector: format!("{{\"expected\": {value}}}") }, sums)
    };
    let flat: String = (0..12_000).map(|i| format!("{}{}", i % 10, ["<", "=="][i % 2])).collect();
    let nested = format!("  return {}1{}\n", "1<(2==".repeat(64), ")".repeat(64));
    let sums: String = (0..4000).map(|i| format!("{}+2{}", i % 10, ["<", "=="][i % 2])).collect();
    vec![
        both("12,000 literals compared", format!("  return {flat}1\n")),
        both("4,000 sums of two compared", format!("  return {sums}1\n")),
        both("64 parentheses with two comparisons each", nested),
    ]
}

pub fn doubled(literal: &str) -> String {
    let lines: String = (1..16).map(|i| format!("  let x{i} = x{} + x{}\n", i - 1, i - 1)).collect();
    wrap(&format!("  let x0 = {literal}\n{lines}  return x15\n"), "")
}

/// Each binding is that of the one before, in 64 parentheses.
pub fn parentheses(bindings: usize, inner: &str) -> String {
    let (open, close) = ("(".repeat(64), ")".repeat(64));
    let lines: String = (1..bindings).map(|i| format!("  let x{i} = {open}x{}{inner}{close}\n", i - 1)).collect();
    wrap(&format!("  let x0 = 1\n{lines}  return {open}x{}{close}\n", bindings - 1), "")
}

/// Every open parenthesis has two operators waiting before it.
pub fn waiting() -> String {
    let lines: String = (1..100).map(|i| format!("  let x{i} = {}x{}{}\n", "1+0*(".repeat(64), i - 1, ")".repeat(64))).collect();
    wrap(&format!("  let x0 = 1\n{lines}  return x99\n"), "")
}

/// 65,536 bytes.
pub fn longest() -> String {
    let mut contract = String::from("fn f () {\n  return 1");
    while contract.len() < 65_530 {
        contract += "+0";
    }
    contract += "\n}\n";
    while contract.len() < 65_536 {
        contract += " ";
    }
    contract
}

pub fn unfriendly() -> Vec<Contract> {
    let used = |n: usize| "y+".repeat(n);
    let padded = |blanks: usize, uses: usize| wrap(&format!("  let x = 7\n  let y = x{}+ 1\n  return {}1\n", " ".repeat(blanks), used(uses)), "");
    let quotes = "\"".repeat(30_000);
    let key =
        |name, key: &str, rest: String| Contract { name, contract: format!("fn f({key}) {{ return 1 }}"), vector: format!("\"expected\":1 {rest}") };
    vec![
        valued("a binding padded with 40,000 blanks, used 2,000 times", padded(40_000, 2000), ""),
        valued("a binding padded with 30,000 blanks, used 16,000 times", padded(30_000, 16_000), ""),
        valued("64 parentheses in each of 256 bindings", parentheses(256, ""), ""),
        valued("64 parentheses with two waiting operators each, 100 bindings", waiting(), ""),
        key("a key of 30,000 quotes, found in a vector of quotes", &quotes, format!("{}:1", "\"".repeat(65_000))),
        key(
            "a key of 30,000 quotes, vector of 30,001 quotes twice (refused, 8)",
            &quotes,
            format!("{}x{}x", "\"".repeat(30_001), "\"".repeat(30_001)),
        ),
        key("a key of 30,000 quotes and a letter, vector of quotes (refused, 8)", &format!("{quotes}x"), "\"".repeat(65_000)),
        key(
            "a key of 30,000 bytes, a letter and a quote by turns but once, vector of quotes and letters by turns (refused, 8)",
            &format!("{}y{}", "z\"".repeat(14_000), "\"z".repeat(1000)),
            "\"z".repeat(32_000),
        ),
        key("a key of a letter and 30,000 quotes, vector of quotes (refused, 8)", &format!("x{quotes}"), "\"".repeat(65_000)),
        key(
            "256 keys of 250 quotes and a letter, found at the end of quotes",
            &vec![format!("{}x", &quotes[..250]); 256].join(","),
            format!("{}x\":1", "\"".repeat(65_000)),
        ),
    ]
}

/// As many lines, names or signs of one sort as 65,536 bytes hold.
pub fn many() -> Vec<Contract> {
    let skipped = |name, line: &str, n: usize| valued(name, wrap(&format!("{}return 1\n", line.repeat(n)), ""), "");
    vec![
        skipped("65,000 empty lines", "\n", 65_000),
        skipped("32,000 lines of a blank", " \n", 32_000),
        skipped("32,000 lines of one letter", "x\n", 32_000),
        skipped("21,000 remarks", "//\n", 21_000),
        skipped("7,000 lines `return 1`", "return 1\n", 7000),
        skipped("255 lines `let x=1`", "let x=1\n", 255),
        oldest("the oldest of 256 bindings of one letter, used 31,000 times", "a", |_| "b".into(), 31_000),
        valued(
            "the oldest of 256 parameters of one letter, used 31,000 times",
            wrap(&format!("return {}1\n", "a+".repeat(31_000)), &format!("a{}", ",b".repeat(255))),
            "\"a\": 5, \"b\": 7, ",
        ),
        oldest("the oldest of 256 bindings of five letters, used 10,000 times", "x0000", |i| format!("x{i:04}"), 10_000),
        oldest(
            "the oldest of 256 bindings of 100 letters alike but the last four, used 370 times",
            &format!("{}0000", "x".repeat(96)),
            |i| format!("{}{i:04}", "x".repeat(96)),
            370,
        ),
        valued("a literal of 65,000 zeros", wrap(&format!("return {}\n", "0".repeat(65_000)), ""), ""),
        valued("65,000 commas", wrap("return 1\n", &",".repeat(65_000)), ""),
    ]
}

/// A name is bound, then 255 others, and it is used n times.
fn oldest(name: &'static str, first: &str, other: impl Fn(usize) -> String, n: usize) -> Contract {
    let others: String = (1..256).map(|i| format!("let {}=1\n", other(i))).collect();
    valued(name, wrap(&format!("let {first}=1\n{others}return {}1\n", format!("{first}+").repeat(n)), ""), "")
}

/// About 1 MB of each kind.
pub fn texts() -> Vec<(&'static str, String)> {
    let words =
        ["Push", "Add", "Sub", "Mul", "Div", "Dup", "Swap", "Jump", "JumpIfNotZero", "Eq", "Lt", "Load", "Store", "Caller", "JumpIfZero", "Halt"];
    let mut seed = 88172645463325252u64;
    let mut next = move || {
        seed ^= seed << 13;
        seed ^= seed >> 7;
        seed ^= seed << 17;
        seed >> 11
    };
    let mut line = move |digits: u32| {
        let word = words[(next() % 16) as usize];
        let takes = matches!(word, "Push" | "Load" | "Store" | "Jump" | "JumpIfNotZero" | "JumpIfZero");
        if takes {
            format!("{word} {}", next() % 10u64.pow(1 + (next() as u32) % digits))
        } else {
            word.to_string()
        }
    };
    let long = |f: &mut dyn FnMut(usize) -> String| {
        let mut text = String::new();
        let mut i = 0;
        while text.len() < 1_000_000 {
            text += &f(i);
            i += 1;
        }
        text
    };
    vec![
        ("as assembled: Push and Add in turn", long(&mut |i| if i % 2 == 0 { format!("Push {}\n", i % 100) } else { "Add\n".into() })),
        ("all kinds drawn, operands of 1 to 3 digits", long(&mut |_| line(3) + "\n")),
        ("all kinds drawn, operands of 1 to 15 digits", long(&mut |_| line(15) + "\n")),
        ("Push of 20 digits", long(&mut |i| format!("Push {}\n", u64::MAX - i as u64))),
        ("Eq alone", long(&mut |_| "Eq\n".into())),
        ("JumpIfNotZero alone", long(&mut |i| format!("JumpIfNotZero {}\n", i % 50))),
        ("all kinds, indented, CR LF", long(&mut |_| format!("    {}\r\n", line(3)))),
        ("all kinds, a remark before each", long(&mut |_| format!("# what the next line is for\n{}\n", line(3)))),
        (
            "Push and Add in turn, a remark before each",
            long(&mut |i| format!("# what the next line is for\n{}\n", if i % 2 == 0 { format!("Push {}", i % 100) } else { "Add".into() })),
        ),
        ("remarks in Cyrillic, few operations", long(&mut |i| if i % 20 == 0 { "Dup\n".into() } else { "# значение оси и цилиндра\n".into() })),
        ("all kinds between ideographic spaces", long(&mut |_| format!("\u{3000}{}\u{3000}\n", line(3)))),
        ("blank lines, few operations", long(&mut |i| if i % 50 == 0 { "Dup\n".into() } else { "   \n".into() })),
    ]
}

pub type Program = Vec<(u8, u64)>;

pub fn loops() -> Vec<(&'static str, Program)> {
    let n = 20_000;
    vec![
        ("loop of 20,000, counter on the stack", vec![(0, n), (0, 1), (2, 0), (5, 0), (8, 1), (15, 0)]),
        ("loop of 20,000, counter in storage", vec![(0, n), (12, 0), (11, 0), (0, 1), (2, 0), (12, 0), (11, 0), (8, 2), (15, 0)]),
        (
            "loop of 20,000, arithmetic",
            vec![(0, n), (5, 0), (5, 0), (3, 0), (0, 3), (4, 0), (0, 7), (10, 0), (14, 9), (0, 1), (2, 0), (5, 0), (8, 1), (15, 0)],
        ),
        ("65,536 operations in a row, arithmetic", (0..65_536).map(|i| (if i % 2 == 0 && i > 0 { [1, 2, 3][i / 2 % 3] } else { 13 }, 0)).collect()),
    ]
}

/// Programs that load and store, over 65,536 used slots.
pub fn reaching() -> Vec<(&'static str, Program)> {
    let halt_first = std::iter::once((15, 0)).chain((1..4000).map(|i| (11, i))).collect();
    vec![
        ("Load 3, Push 1, Add, Store 2, Halt", vec![(11, 3), (0, 1), (1, 0), (12, 2), (15, 0)]),
        ("Load 65535, Halt", vec![(11, 65_535), (15, 0)]),
        ("Push 1, Store 65535, Halt", vec![(0, 1), (12, 65_535), (15, 0)]),
        ("Load 0, Load 65535, Add, Store 0, Halt", vec![(11, 0), (11, 65_535), (1, 0), (12, 0), (15, 0)]),
        ("Load 65535, Push 1, Add, Store 2, Halt", vec![(11, 65_535), (0, 1), (1, 0), (12, 2), (15, 0)]),
        ("Halt, then 3,999 times Load", halt_first),
    ]
}

pub fn short() -> Vec<(&'static str, Program)> {
    vec![
        ("tally, 6 operations", vec![(0, 5), (0, 7), (1, 0), (0, 2), (3, 0), (15, 0)]),
        ("12 operations", vec![(0, 5), (0, 7), (1, 0), (0, 2), (3, 0), (0, 1), (1, 0), (0, 3), (2, 0), (0, 2), (3, 0), (15, 0)]),
    ]
}
