//! What is shared by the calls' comparisons: counts and the smallest difference, lent buffers, drawing.
use std::collections::BTreeMap;
use std::fmt::Debug;

/// What one comparison saw where the two sides agree.
pub enum Seen {
    Compared(u64),
    /// An added refusal, outside the comparison: the library's number is document 01's.
    Added(u64),
    /// Too large to ask the original.
    Nothing,
}

pub struct Tally {
    pub call: &'static str,
    pub compared: BTreeMap<u64, u64>,
    pub added: BTreeMap<u64, u64>,
    pub different: u64,
    pub smallest: Option<(usize, String)>,
}

impl Tally {
    pub fn new(call: &'static str) -> Self {
        Tally { call, compared: BTreeMap::new(), added: BTreeMap::new(), different: 0, smallest: None }
    }

    pub fn saw(&mut self, seen: Seen) {
        match seen {
            Seen::Compared(n) => *self.compared.entry(n).or_default() += 1,
            Seen::Added(n) => *self.added.entry(n).or_default() += 1,
            Seen::Nothing => (),
        }
    }

    /// Counts a difference; `smaller` makes its input small and gives its size and text.
    pub fn differs(&mut self, smaller: impl FnOnce() -> (usize, String)) {
        self.different += 1;
        if self.different <= 100 {
            let (size, text) = smaller();
            if self.smallest.as_ref().is_none_or(|(least, _)| size < *least) {
                self.smallest = Some((size, text));
            }
        }
    }

    pub fn total(&self) -> u64 {
        self.compared.values().sum()
    }
}

/// Drops parts of a list, ever shorter ones, while what is left is still bad.
pub fn shrink<T: Clone>(list: &mut Vec<T>, mut bad: impl FnMut(&[T]) -> bool) {
    let mut part = list.len().div_ceil(2);
    while part > 0 {
        let mut at = 0;
        while at + part <= list.len() {
            let mut less = list.clone();
            less.drain(at..at + part);
            if bad(&less) {
                *list = less;
            } else {
                at += part;
            }
        }
        part = if part == 1 { 0 } else { part.div_ceil(2) };
    }
}

const PAD: usize = 16;

/// A lent buffer between two pads. Pads and buffer hold a pattern before each call.
pub struct Buffer<T> {
    before: Vec<T>,
    now: Vec<T>,
}

impl<T: Copy + PartialEq + Debug> Buffer<T> {
    pub fn new(pattern: impl Fn(usize) -> T) -> Self {
        Buffer { before: (0..1 << 20).map(pattern).collect(), now: vec![] }
    }

    pub fn lend(&mut self, len: usize) {
        self.now.clear();
        self.now.extend_from_slice(&self.before[..len + 2 * PAD]);
    }

    pub fn lent(&mut self) -> &mut [T] {
        let end = self.now.len() - PAD;
        &mut self.now[PAD..end]
    }

    /// What the buffer held when it was lent.
    pub fn pattern(&self) -> &[T] {
        &self.before[PAD..]
    }

    /// The first entries are these, and nothing behind them or beside the buffer was written.
    pub fn holds(&self, front: &[T]) -> bool {
        let end = PAD + front.len();
        let all = self.now.len();
        end + PAD <= all && self.now[PAD..end] == *front && self.now[end..] == self.before[end..all] && self.now[..PAD] == self.before[..PAD]
    }

    /// The first entries are these, all behind them are `rest`, and nothing beside the buffer was written.
    pub fn filled(&self, front: &[T], rest: T) -> bool {
        let end = PAD + front.len();
        let last = self.now.len() - PAD;
        end <= last
            && self.now[PAD..end] == *front
            && self.now[end..last].iter().all(|x| *x == rest)
            && self.now[..PAD] == self.before[..PAD]
            && self.now[last..] == self.before[last..last + PAD]
    }
}

pub struct Draw(u64);

impl Draw {
    pub fn new(seed: u64) -> Self {
        let mut d = Draw(seed.wrapping_mul(0x9E37_79B9_7F4A_7C15) ^ 88172645463325252);
        d.0 |= 1;
        for _ in 0..8 {
            d.next();
        }
        d
    }

    pub fn next(&mut self) -> u64 {
        self.0 ^= self.0 << 13;
        self.0 ^= self.0 >> 7;
        self.0 ^= self.0 << 17;
        self.0.wrapping_mul(0x2545_F491_4F6C_DD1D)
    }

    pub fn below(&mut self, n: usize) -> usize {
        ((self.next() >> 32) as usize) % n
    }

    pub fn one_in(&mut self, n: usize) -> bool {
        self.below(n) == 0
    }

    pub fn of<'a, T: ?Sized>(&mut self, list: &[&'a T]) -> &'a T {
        list[self.below(list.len())]
    }

    /// Of any size, often close to a power of two or to one of document 01's limits.
    pub fn word(&mut self) -> u64 {
        let n = self.next() >> self.below(64);
        match self.below(8) {
            0 => (1u64 << self.below(64)).wrapping_add(n % 5).wrapping_sub(2),
            1 => u64::MAX - n % 4,
            2 => [4095u64, 4096, 4097, 65535, 65536, 65537, 32768, 10, 100][self.below(9)],
            3 | 4 => n % 8,
            _ => n,
        }
    }
}

/// Calls `f` with every row of at most `most` entries of an alphabet, joined.
pub fn words(alphabet: &[&str], most: usize, f: &mut dyn FnMut(&str)) {
    fn longer(word: &mut String, alphabet: &[&str], more: usize, f: &mut dyn FnMut(&str)) {
        f(word);
        if more > 0 {
            let len = word.len();
            for a in alphabet {
                word.push_str(a);
                longer(word, alphabet, more - 1, f);
                word.truncate(len);
            }
        }
    }
    longer(&mut String::new(), alphabet, most, f);
}

/// The bytes at the edges of RFC 3629's ranges.
pub const EDGES: [u8; 27] = [
    0x00, b' ', b'a', 0x7F, 0x80, 0x85, 0x8F, 0x90, 0x9F, 0xA0, 0xBF, 0xC0, 0xC1, 0xC2, 0xDF, 0xE0, 0xE1, 0xE2, 0xEC, 0xED, 0xEE, 0xEF, 0xF0, 0xF1,
    0xF4, 0xF5, 0xFF,
];

/// Calls `f` with every row of one and two bytes, and of up to four of `EDGES`.
pub fn byte_rows(f: &mut dyn FnMut(&[u8])) {
    for a in 0..=255u8 {
        f(&[a]);
        for b in 0..=255u8 {
            f(&[a, b]);
        }
    }
    for a in EDGES {
        for b in EDGES {
            for c in EDGES {
                f(&[a, b, c]);
                for d in EDGES {
                    f(&[a, b, c, d]);
                }
            }
        }
    }
}

/// A byte dropped, doubled, changed, two exchanged, a part cut off, doubled or dropped.
pub fn damage(bytes: &mut Vec<u8>, telling: &[u8], d: &mut Draw) {
    if bytes.is_empty() {
        return;
    }
    let at = d.below(bytes.len());
    match d.below(9) {
        0 => {
            bytes.remove(at);
        }
        1 => bytes.insert(at, bytes[at]),
        2 | 3 => bytes[at] = telling[d.below(telling.len())],
        4 | 5 => bytes.insert(at, telling[d.below(telling.len())]),
        6 => {
            let to = d.below(bytes.len());
            bytes.swap(at, to);
        }
        7 if d.one_in(3) => bytes.truncate(at),
        7 => bytes[at] = d.next() as u8,
        _ => {
            let end = (at + 1 + d.below(12)).min(bytes.len());
            let part: Vec<u8> = bytes.drain(at..end).collect();
            if d.one_in(2) {
                let to = d.below(bytes.len() + 1);
                bytes.splice(to..to, part);
            }
        }
    }
}

pub fn shown(bytes: &[u8]) -> String {
    let text: String = bytes.escape_ascii().to_string();
    if text.len() > 3000 {
        format!("{}.. ({} bytes)", &text[..3000], bytes.len())
    } else {
        format!("\"{text}\"")
    }
}
