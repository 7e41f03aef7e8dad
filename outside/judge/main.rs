//! The outside judge: a second reading of documents 01, "The marking desk for barrier papers", and 02, its change
//! requests, that shares nothing with the code and the definitions that it judges.
//!
//!   target/judge PROGRAM [SEED [SECONDS]]     compare the program `key` with this reading (seed 1, 60 seconds)
//!   target/judge --scripts [SEED [SECONDS]]   compare every call of the library (seed 1, 25 seconds)
//!   target/judge --self-check                 show that this reading has the cases of 01, and that it can fail
//!   target/judge --keys [GAPS] < paper.hex    all keys of a small paper, and the mark of the placement GAPS (2,6)
//!
//! PROGRAM reads a nest text on standard input and writes its answer on standard output. Of several keys only the
//! first in list order will do (request 6), so where the keys are known the answer must be one text, byte for byte:
//!   - small nests, by trying every placement under the order of 001's definition 1;
//!   - damaged texts and the limits, by the number and line of the refusal;
//!   - full-size papers of one loop, with barred gaps too, and of small nests side by side.
//! Of other full-size papers: that the key is correct, has no barrier to spare and none that could stand earlier among
//! the gaps of its loop, and comes with the right counts.
//! The library's calls are played in random scripts, in and out of turn; number, line, values, every lent byte and the
//! whole desk are compared after each. Before them papers at the limits are played, every two lines of a list, one
//! behind the other, and every paper of at most 7 points and two dependences, whichever of its loops are flagged; and
//! every two placements on nests of so many points are held beside each other.
//! A difference is printed with the text or the script that shows it, and the judge ends with status 1.
//!
//! It links the library: rustc -O outside/judge/main.rs -L target/staticlib -l static=host -o target/judge

mod arguing;
mod barred_check;
mod asking;
mod comparing;
mod desk;
mod desk_check;
mod edges;
mod host;
mod improving;
mod joining;
mod limits;
mod nests;
mod order;
mod papers;
mod program;
mod runs;
mod scripts;
mod self_check;
mod shapes;
mod sheets;
mod skipping;
mod slips;
mod textbook_rule;
mod texts;

use std::io::Read;

/// Prints all keys of the paper on standard input with their counts, and the mark of a placement.
fn show_keys(gaps: Option<&String>) -> bool {
    let mut text = Vec::new();
    std::io::stdin().read_to_end(&mut text).unwrap();
    let nest = match texts::read_nest(&text) {
        Err(r) => { println!("number {}, line {}", r.number, r.line); return false }
        Ok(nest) => nest,
    };
    if nest.points.len() > 20 { println!("more than 20 points: too many placements to try"); return false }
    if nest.blocked() { println!("number 15: a dependence has all its gaps barred"); return false }
    let keys = order::search(&nest);
    keys.iter().for_each(|key| println!("key {key:?}"));
    nest.loops().iter().for_each(|&d| println!("loop {d}: count {}", nest.counts(&keys[0])[d]));
    if let Some(gaps) = gaps {
        let placement: Vec<usize> = gaps.split(',').filter_map(|g| g.parse().ok()).collect();
        let counts = nest.counts(&placement);
        let counts: Vec<String> = nest.loops().iter().map(|&d| format!("loop {d}: {}", counts[d])).collect();
        println!("{placement:?}: {}; {:?}", counts.join(", "), order::mark(&nest, &keys[0], &placement));
    }
    true
}

fn main() {
    let arguments: Vec<String> = std::env::args().skip(1).collect();
    let number = |i: usize, usual: u64| arguments.get(i).map_or(usual, |a| a.parse().expect("a number"));
    let well = match arguments.first().map(String::as_str) {
        Some("--self-check") => self_check::self_check(),
        Some("--keys") => show_keys(arguments.get(1)),
        Some("--scripts") => scripts::compare(number(1, 1), number(2, 25)),
        Some(program) => program::compare(program, number(1, 1), number(2, 60)),
        None => {
            eprintln!("usage: judge PROGRAM|--scripts [SEED [SECONDS]], judge --self-check, judge --keys [GAPS]");
            false
        }
    };
    std::process::exit(if well { 0 } else { 1 });
}
