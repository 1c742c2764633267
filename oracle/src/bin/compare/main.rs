//! Compares the library with the original, call by call: numbers, carried values, bytes written and bytes not written; and with
//! document 02 where the original can't be asked and what a text means is known from how it was made (`comparisons`).
//! `compare [ROUNDS]`: short inputs once, drawn ones in each round. The seeds are fixed. Exit status 1 on a difference.
mod assemble;
mod comparisons;
mod gate;
mod read;
mod run;
mod tally;
use std::thread;
use tally::Tally;

fn main() {
    let rounds = std::env::args().nth(1).map_or(1, |n| n.parse().expect("the number of rounds"));
    let (assembled, others) = thread::scope(|s| {
        let assembled = s.spawn(|| assemble::compare(rounds));
        let others = s.spawn(|| {
            let mut all = vec![comparisons::compare(rounds)];
            all.extend(read::compare(rounds));
            all.push(gate::compare(rounds));
            all.extend(run::compare(rounds));
            all
        });
        (assembled.join().unwrap(), others.join().unwrap())
    });
    println!("The original's assemble on files agrees with its form without them on {} cases.\n", assembled.on_files);
    let tallies: Vec<Tally> = [vec![assembled.tally], others].into_iter().flatten().collect();
    println!("| call | compared | accepted | differences | added refusals, not compared |\n|---|---:|---:|---:|---:|");
    for t in &tallies {
        let added: u64 = t.added.values().sum();
        println!("| {} | {} | {} | {} | {added} |", t.call, t.total(), t.compared.get(&0).unwrap_or(&0), t.different);
    }
    println!();
    for t in &tallies {
        println!("{}, compared by number: {:?}; added: {:?}", t.call, t.compared, t.added);
    }
    for t in &tallies {
        if let Some((size, text)) = &t.smallest {
            println!("\nDIFFERENCE in {}, the smallest input found has {size} entries:\n{text}", t.call);
        }
    }
    let total: u64 = tallies.iter().map(Tally::total).sum();
    let different: u64 = tallies.iter().map(|t| t.different).sum();
    println!("\n{total} compared, {different} different");
    std::process::exit(i32::from(different > 0));
}
