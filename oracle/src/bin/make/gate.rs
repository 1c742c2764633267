// The cases of crates/replay that call the chain gate: what the original's `execution_gate` answers for eight texts.
use crate::cases::{texts, told, Cases};
use original::context::{execution_gate, ChainContext};
use original::numbers::context_number;

fn number(t: &[String; 8]) -> u64 {
    let context = ChainContext {
        chain_id: t[0].clone(),
        network_id: t[1].clone(),
        genesis_id: t[2].clone(),
        protocol_version: t[3].clone(),
        vm_version: t[4].clone(),
    };
    match execution_gate(&context, &t[5], &t[6], &t[7]) {
        Ok(()) => 0,
        Err(e) => context_number(&e),
    }
}

// Texts near a good one: shorter, longer, in another case, with a space, with a letter changed, empty.
fn near(good: &str) -> Vec<String> {
    let mut all = vec![good.to_string(), String::new(), good.to_uppercase(), format!("{good} "), format!(" {good}"), format!("{good}0")];
    if let Some(c) = good.chars().last() {
        all.push(good[..good.len() - c.len_utf8()].to_string());
        all.push(format!("{}g", &good[..good.len() - c.len_utf8()]));
        all.push(format!("é{}", &good[1..]));
    }
    all
}

pub fn make(c: &mut Cases) {
    let genesis = "0123456789abcdef".repeat(4);
    let good = ["atc", "devnet", &genesis, "p1", "v1", &genesis, "p1", "v1"];
    let mut cases: Vec<[String; 8]> = Vec::new();
    for network in ["devnet", "testnet", "mainnet", "net", "mainne", "testnetx"] {
        let mut base = good.map(String::from);
        base[1] = network.into();
        for i in 0..8 {
            for text in near(&base[i]) {
                let mut one = base.clone();
                one[i] = text;
                cases.push(one.clone());
                // a second fault behind the first: the first that applies is given
                for j in i + 1..if network == "devnet" { 8 } else { 0 } {
                    let mut two = one.clone();
                    two[j] = "x".into();
                    cases.push(two);
                }
            }
        }
    }
    for hex in ["A", "F", "G", "/", ":", "@", "`", "g", "f", "0", "9"] {
        let mut one = good.map(String::from);
        one[2] = hex.repeat(64);
        one[5] = hex.to_lowercase().repeat(64);
        cases.push(one.clone());
        one[5] = hex.repeat(64);
        cases.push(one);
    }
    for case in &cases {
        c.add('o', 'G', &[texts(case)], &told(number(case), &[]));
    }
}
