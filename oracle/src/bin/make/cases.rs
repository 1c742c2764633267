//! The cases of crates/replay, in the form that its src/main.rt names: a line of `stdin`, and the line of `stdout` that answers it.
use std::collections::BTreeMap;

#[derive(Default)]
pub struct Cases {
    pub stdin: String,
    pub stdout: String,
    counts: BTreeMap<(char, char, String), usize>,
}

impl Cases {
    /// `who` is `o` where the original answers, and `d` where document 01 or 02 does.
    pub fn add(&mut self, who: char, call: char, arguments: &[String], answer: &str) {
        self.copy(&format!("{who} {call} {}", arguments.join(" ")), answer);
    }

    pub fn copy(&mut self, case: &str, answer: &str) {
        let mut letters = case.chars();
        let (who, call) = (letters.next().unwrap(), letters.nth(1).unwrap());
        let number = if call.is_uppercase() { answer.split(' ').next().unwrap() } else { "" };
        *self.counts.entry((call, who, number.to_string())).or_default() += 1;
        self.stdin += &format!("{case}\n");
        self.stdout += &format!("{answer}\n");
    }

    /// How many cases each call has of each who and number.
    pub fn print_counts(&self) {
        for ((call, who, number), n) in &self.counts {
            println!("{call} {who} {number}: {n}");
        }
        let of = |who| self.counts.iter().filter(|(k, _)| k.1 == who).map(|(_, n)| n).sum::<usize>();
        println!("{} of the original, {} of the documents; {} bytes in, {} out", of('o'), of('d'), self.stdin.len(), self.stdout.len());
    }
}

pub fn text(bytes: &[u8]) -> String {
    if bytes.is_empty() {
        return "-".into();
    }
    bytes.iter().map(|b| format!("{b:02x}")).collect()
}

/// Eight texts in one: the byte FF stands in no UTF-8.
pub fn texts(texts: &[String; 8]) -> String {
    text(&texts.each_ref().map(|t| t.as_bytes()).join(&0xFF))
}

pub fn list(numbers: &[u64]) -> String {
    if numbers.is_empty() {
        return "-".into();
    }
    let entry = |run: &[u64]| if run.len() == 1 { run[0].to_string() } else { format!("{}*{}", run.len(), run[0]) };
    numbers.chunk_by(|a, b| a == b).map(entry).collect::<Vec<_>>().join(",")
}

/// An answer's number and values, up to the last that isn't 0.
pub fn told(number: u64, values: &[u64]) -> String {
    let last = values.iter().rposition(|v| *v != 0).map_or(0, |i| i + 1);
    [&[number], &values[..last]].concat().iter().map(u64::to_string).collect::<Vec<_>>().join(" ")
}
