//! `execution_gate`. Contexts are UTF-8, since the original's are `String`s.
use crate::tally::*;
use atc_vm::sys;
use original::context::{execution_gate, ChainContext};
use original::numbers::context_number;

pub type Texts = [String; 8];

pub fn context(t: &Texts) -> ChainContext {
    ChainContext {
        chain_id: t[0].clone(),
        network_id: t[1].clone(),
        genesis_id: t[2].clone(),
        protocol_version: t[3].clone(),
        vm_version: t[4].clone(),
    }
}

pub fn texts(t: &Texts) -> sys::Gate<'_> {
    let [chain_id, network_id, genesis_id, protocol_version, vm_version, computed_genesis_id, expected_protocol, expected_vm] =
        t.each_ref().map(|s| s.as_bytes());
    sys::Gate { chain_id, network_id, genesis_id, protocol_version, vm_version, computed_genesis_id, expected_protocol, expected_vm }
}

fn check(t: &Texts) -> Result<Seen, String> {
    let wanted = execution_gate(&context(t), &t[5], &t[6], &t[7]).map_or_else(|e| context_number(&e), |_| 0);
    let got = sys::execution_gate(texts(t));
    if got == wanted {
        Ok(Seen::Compared(got))
    } else {
        Err(format!("library {got}, original {wanted}"))
    }
}

fn case(tally: &mut Tally, t: &Texts) {
    match check(t) {
        Ok(seen) => tally.saw(seen),
        Err(_) => tally.differs(|| {
            let mut t = t.clone();
            for i in 0..8 {
                let mut letters: Vec<char> = t[i].chars().collect();
                let with = |less: &[char]| {
                    let mut t = t.clone();
                    t[i] = less.iter().collect();
                    t
                };
                shrink(&mut letters, |less| check(&with(less)).is_err());
                t[i] = letters.iter().collect();
            }
            (t.iter().map(String::len).sum(), format!("{t:?}\n{}", check(&t).err().unwrap()))
        }),
    }
}

/// Texts near a good one: shorter, longer, in another case, with a space, a letter changed, empty.
fn near(good: &str) -> Vec<String> {
    let mut all =
        vec![good.to_string(), String::new(), good.to_uppercase(), format!("{good} "), format!(" {good}"), format!("{good}0"), format!("{good}\0")];
    if let Some(c) = good.chars().last() {
        let front = &good[..good.len() - c.len_utf8()];
        all.extend([front.to_string(), format!("{front}g"), format!("{front}é"), good.chars().skip(1).collect()]);
    }
    all
}

pub fn good(d: &mut Draw) -> Texts {
    let genesis: String = (0..64).map(|_| *d.of(&[&'0', &'9', &'a', &'f', &'A', &'F', &'7'])).collect();
    let protocol = d.of(&["p1", "", "é", "1.0.0", "a longer name of a protocol, of some forty letters"]);
    let version = d.of(&["v1", "", "\u{10FFFF}", "2"]);
    let network = d.of(&["devnet", "testnet", "mainnet"]);
    ["atc", network, &genesis, protocol, version, &genesis, protocol, version].map(String::from)
}

/// A passing context, or one with a fault or two.
pub fn drawn(d: &mut Draw) -> Texts {
    let mut t = good(d);
    for _ in 0..d.below(3) {
        let i = d.below(8);
        if d.one_in(2) {
            let n = near(&t[i]);
            t[i] = n[d.below(n.len())].clone();
        } else {
            let mut letters: Vec<char> = t[i].chars().collect();
            let at = d.below(letters.len() + 1);
            let most = if d.one_in(8) { 0x3000 } else { 128 };
            let c = char::from_u32(d.below(most) as u32).unwrap();
            match d.below(3) {
                0 => letters.insert(at, c),
                1 if at < letters.len() => letters[at] = c,
                _ if at < letters.len() => {
                    letters.remove(at);
                }
                _ => {}
            }
            t[i] = letters.iter().collect();
        }
    }
    t
}

pub fn compare(rounds: u64) -> Tally {
    let mut tally = Tally::new("execution_gate");
    let mut d = Draw::new(2000);
    let base = good(&mut d);
    // every text near the good one at every place, alone and with a second fault behind or before it
    for network in ["devnet", "testnet", "mainnet", "net", "mainne", "testnetx", "Devnet"] {
        let mut base = base.clone();
        base[1] = network.into();
        for i in 0..8 {
            for one in near(&base[i]) {
                let mut t = base.clone();
                t[i] = one;
                case(&mut tally, &t);
                for j in 0..8 {
                    for two in near(&t[j]) {
                        let mut t = t.clone();
                        t[j] = two;
                        case(&mut tally, &t);
                    }
                }
            }
        }
    }
    // every byte of ASCII and every telling scalar value at every place of the genesis id
    for c in (0..128u32).chain([0x80, 0xFF, 0x7FF, 0xFF10, 0x10FFFF]).filter_map(char::from_u32) {
        for at in 0..64 {
            let mut t = base.clone();
            t[2] = format!("{}{c}{}", &base[2][..at], &base[2][at + 1..]);
            case(&mut tally, &t);
            t[5] = t[2].clone();
            case(&mut tally, &t);
        }
    }
    for n in 0..=130 {
        for letter in ["a", "F", "é"] {
            let mut t = base.clone();
            t[2] = letter.repeat(n);
            t[5] = t[2].clone();
            case(&mut tally, &t);
        }
    }
    words(&["a", "t", "c", "A", "C"], 4, &mut |w| {
        let mut t = base.clone();
        t[0] = w.into();
        case(&mut tally, &t);
    });
    words(&["dev", "test", "main", "net", "n", "e", "t"], 4, &mut |w| {
        let mut t = base.clone();
        t[1] = w.into();
        case(&mut tally, &t);
    });
    for round in 0..rounds {
        let mut d = Draw::new(2001 + round);
        for _ in 0..300_000 {
            case(&mut tally, &drawn(&mut d));
        }
    }
    tally
}
