//! The program's answer (01, "The program"; 02, job 7), judged and compared.

use crate::edges::{edges, Edge};
use crate::nests::*;
use crate::order::*;
use crate::papers::*;
use crate::texts::*;
use std::collections::BTreeMap;
use std::io::{Read, Write};
use std::process::{Command, Stdio};
use std::sync::atomic::{AtomicUsize, Ordering::SeqCst};
use std::sync::{mpsc, Mutex};
use std::time::{Duration, Instant};

pub const THREADS: usize = 2;
const PATIENCE: Duration = Duration::from_secs(20);

/// "Input above 8,192 bytes gives 2f050000."
const INPUT: usize = 8192;

/// Of an accepted text, its first key where that is known. A blocked nest has none and is refused.
pub enum Standard { Refused(Refusal), Accepted(Nest, Option<Vec<usize>>) }

pub fn read_input(text: &[u8]) -> Result<Nest, Refusal> {
    if text.len() > INPUT { Err(Refusal { number: 5, line: 0 }) } else { read_nest(text) }
}

pub fn standard(text: &[u8]) -> Standard {
    match read_input(text) {
        Err(refusal) => Standard::Refused(refusal),
        Ok(nest) if nest.blocked() => Standard::Refused(Refusal { number: 15, line: 0 }),
        Ok(nest) => {
            let key = first_key(&nest);
            Standard::Accepted(nest, key)
        }
    }
}

pub fn refusal_text(r: Refusal) -> Vec<u8> { line(&[REFUSAL, r.number, (r.line >> 8) as u8, r.line as u8]) }

/// "The key's frames, then for each loop in order of its DO a line 22, DO, count."
pub fn answer_text(nest: &Nest, key: &[usize]) -> Vec<u8> {
    let counts = nest.counts(key);
    let loops = nest.loops().into_iter().flat_map(|d| line(&[COUNT, d as u8, counts[d] as u8]));
    barrier_lines(key).into_iter().chain(loops).collect()
}

/// Says what is wrong with an answer. Where the first key is known it must be the text with this key.
pub fn judge(standard: &Standard, answer: &[u8]) -> Result<(), String> {
    let (nest, first) = match standard {
        Standard::Refused(r) => return same(answer, &refusal_text(*r)),
        Standard::Accepted(nest, first) => (nest, first),
    };
    let is_barrier = |text: &&[u8]| text.starts_with(b"21");
    let frames: usize = answer.split_inclusive(|&b| b == b'\n').take_while(is_barrier).map(|l| l.len()).sum();
    let key = read_placement(nest, &answer[..frames])
        .map_err(|r| format!("its key has fault {} on line {}: {}", r.number, r.line, shown(answer)))?;
    same(answer, &answer_text(nest, &key))?;
    key_fault(nest, &key)?;
    first.as_ref().map_or(Ok(()), |first| same(answer, &answer_text(nest, first)))
}

pub fn same(answer: &[u8], wanted: &[u8]) -> Result<(), String> {
    if answer == wanted { return Ok(()) }
    Err(format!("it answers {}\nwanted {}", shown(answer), shown(wanted)))
}

pub struct Case { pub what: String, pub text: Vec<u8>, pub standard: Standard }

/// Case number `case` of a seed. The first ones are the edges, whatever the seed.
pub fn make_case(seed: u64, case: usize, edges: &[Edge]) -> Case {
    if let Some((text, _)) = edges.get(case) {
        return Case { what: "text at the edge of a rule".into(), text: text.clone(), standard: standard(text) };
    }
    let random = &mut Random::new(seed, case);
    match random.below(48) {
        0 => known_case("full-size paper, any shape", full_nest(random, DEPTH), None),
        1 => {
            let nest = full_nest(random, 1);
            let key = one_loop_first(&nest);
            known_case("full-size paper, one loop, first key known", nest, Some(key))
        }
        2 => {
            let (nest, key) = side_by_side(random, POINTS);
            known_case("full-size paper, nests side by side, first key known", nest, Some(key))
        }
        3 | 4 => {
            let depth = 1 + random.below(DEPTH);
            let text = full_nest(random, depth).text();
            read_case("damaged full-size paper", damage(random, &text, POINTS - 2))
        }
        5 => {
            let nest = full_barred(random);
            read_case("full-size paper with barred gaps", spelled(random, &nest))
        }
        6 => {
            let nest = full_barred(random);
            let text = spelled(random, &nest);
            read_case("damaged full-size paper with barred gaps", damage(random, &text, POINTS - 2))
        }
        7..=20 => {
            let (text, n) = small_text(random);
            read_case("damaged text", damage(random, &text, n))
        }
        21..=27 => {
            let nest = small_barred(random);
            read_case("small paper with barred gaps, every placement tried", spelled(random, &nest))
        }
        _ => {
            let nest = small_nest(random);
            let key = search(&nest).swap_remove(0);
            known_case("small nest, every placement tried", nest, Some(key))
        }
    }
}

pub fn known_case(what: &str, nest: Nest, key: Option<Vec<usize>>) -> Case {
    Case { what: what.into(), text: nest.text(), standard: Standard::Accepted(nest, key) }
}

/// A case whose standard is read from its text.
pub fn read_case(what: &str, text: Vec<u8>) -> Case {
    let standard = standard(&text);
    let outcome = match &standard {
        Standard::Refused(r) => format!("refused with {}", r.number),
        Standard::Accepted(..) => "accepted".into(),
    };
    Case { what: format!("{what}, {outcome}"), text, standard }
}

/// Runs the program on a text. Writing and reading have a thread of their own, so that no program can stall us.
pub fn run(program: &str, text: &[u8]) -> Result<Vec<u8>, String> {
    let started = Command::new(program).stdin(Stdio::piped()).stdout(Stdio::piped()).spawn();
    let mut child = started.map_err(|e| format!("{program} does not start: {e}"))?;
    let (mut input, output) = (child.stdin.take().unwrap(), child.stdout.take().unwrap());
    let (text, (send, receive)) = (text.to_vec(), mpsc::channel());
    std::thread::spawn(move || {
        let mut answer = Vec::new();
        let _ = input.write_all(&text); // a program may stop reading long input
        drop(input);
        let read = output.take(1 << 20).read_to_end(&mut answer);
        let _ = send.send(read.map(|_| answer));
    });
    let answer = receive.recv_timeout(PATIENCE);
    if answer.is_err() { let _ = child.kill(); }
    let status = child.wait().map_err(|e| e.to_string())?;
    if answer.is_ok() && status.code().is_none() { return Err(format!("it was stopped by a signal: {status}")) }
    answer.map_err(|_| format!("no answer in {PATIENCE:?}"))?.map_err(|e| e.to_string())
}

pub fn compare(program: &str, seed: u64, seconds: u64) -> bool {
    let (edges, until) = (edges(), Instant::now() + Duration::from_secs(seconds));
    let (next, failed, tally) = (AtomicUsize::new(0), AtomicUsize::new(0), Mutex::new(BTreeMap::new()));
    let work = || loop {
        let case = next.fetch_add(1, SeqCst);
        if failed.load(SeqCst) > 0 || (case >= edges.len() && Instant::now() > until) { break }
        let Case { what, text, standard } = make_case(seed, case, &edges);
        match run(program, &text).and_then(|answer| judge(&standard, &answer)) {
            Ok(()) => *tally.lock().unwrap().entry(what).or_insert(0) += 1,
            Err(why) => {
                failed.fetch_add(1, SeqCst);
                println!("difference, seed {seed}, case {case}, {what}:\n{} | {program}\n{why}\n", shown(&text));
            }
        }
    };
    std::thread::scope(|threads| (0..THREADS).for_each(|_| drop(threads.spawn(work))));
    let tally = tally.into_inner().unwrap();
    tally.iter().for_each(|(what, number)| println!("{number:8}  {what}"));
    finish(tally.values().sum(), failed.into_inner())
}

pub fn finish(passed: usize, failed: usize) -> bool {
    println!("{passed} passed, {failed} failed");
    failed == 0
}
