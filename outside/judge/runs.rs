//! Barrier calls in a run (02, job 11): how often the barriers of a placement are called, given the turns of the loops.

use crate::asking::{guarded, lend, Call, Reply, GUARD};
use crate::desk::Desk;
use crate::desk_check::{check_altered, load, replies};
use crate::host;
use crate::nests::*;
use crate::order::{correct_placements, first_key, gap_list, search};
use crate::papers::*;
use crate::self_check::Checks;
use crate::texts::{read_nest, read_placement, shown};

/// The most turns of a loop.
pub const TURNS: u8 = 16;

/// The least turns of the loops inside, where calls of the key are counted.
const INNER: u8 = 2;

/// A number of turns for each loop, in range, of a paper with no flagged loop and no barred gap; else 17.
pub fn turns_fit(nest: &Nest, turns: &[u8], inner: u8) -> bool {
    let in_range = |(i, t): (usize, &u8)| (if i == 0 { 1 } else { inner }) <= *t && *t <= TURNS;
    let counted = nest.flagged.is_empty() && nest.barred.is_empty() && turns.len() == nest.loops().len();
    counted && turns.iter().enumerate().all(in_range)
}

/// How often a gap is passed: the product of the turns of the loops around it.
pub fn passes(nest: &Nest, turns: &[u8], g: usize) -> u64 {
    let loops = nest.loops().into_iter().zip(turns);
    loops.filter(|(d, _)| *d < g && g <= nest.end[*d]).map(|(_, &t)| t as u64).product()
}

pub fn calls(nest: &Nest, turns: &[u8], placement: &[usize]) -> u64 {
    placement.iter().map(|&g| passes(nest, turns, g)).sum()
}

/// What the call answers: 10, then 11, then 17, or the key's calls.
pub fn answer(desk: &Desk, turns: &[u8]) -> Reply {
    let reply = |number, calls| Reply { number, line: 0, values: vec![calls], lent: guarded(turns) };
    let fault = desk.fault(true);
    let Some(nest) = desk.nest.as_ref().filter(|_| fault == 0) else { return reply(fault, 0) };
    if turns_fit(nest, turns, INNER) { reply(0, calls(nest, turns, desk.key()) as usize) } else { reply(17, 0) }
}

/// What the call answers for a placement text: 10, then the faults of the text, then 17, or its calls; turns from 1.
pub fn answer_placement(desk: &Desk, text: &[u8], turns: &[u8]) -> Reply {
    let reply = |number, line, calls| {
        Reply { number, line, values: vec![calls], lent: [guarded(text), guarded(turns)].concat() }
    };
    let fault = desk.fault(false);
    let Some(nest) = desk.nest.as_ref().filter(|_| fault == 0) else { return reply(fault, 0, 0) };
    match read_placement(nest, text) {
        Err(r) => reply(r.number, r.line, 0),
        Ok(_) if !turns_fit(nest, turns, 1) => reply(17, 0, 0),
        Ok(gaps) => reply(0, 0, calls(nest, turns, &gaps) as usize),
    }
}

/// The library's own answer.
pub fn play(desk: host::Desk, turns: &[u8]) -> Reply {
    let (lent, length) = lend(turns);
    let c = unsafe { host::desk_count_calls(desk, lent[GUARD.len()..].as_ptr(), length) };
    Reply { number: c.number, line: c.line, values: vec![c.calls as usize], lent }
}

pub fn play_placement(desk: host::Desk, text: &[u8], turns: &[u8]) -> Reply {
    let ((spelled, length), (lent, loops)) = (lend(text), lend(turns));
    let at = GUARD.len();
    let c = unsafe { host::desk_placement_calls(desk, spelled[at..].as_ptr(), length, lent[at..].as_ptr(), loops) };
    Reply { number: c.number, line: c.line, values: vec![c.calls as usize], lent: [spelled, lent].concat() }
}

/// Turns for the loops of a paper, mostly such that fit; from 1 on in part, since other calls take these.
pub fn random_turns(random: &mut Random, nest: Option<&Nest>) -> Vec<u8> {
    let (low, most) = (random.pick(&[1, 2, 2]), random.pick(&[2, 3, 16, 16]));
    let loops = nest.map_or(1, |nest| nest.loops().len());
    let mut turns: Vec<u8> = (0..loops).map(|_| low + random.below(most - low as usize + 1) as u8).collect();
    let at = random.below(loops);
    match random.below(12) {
        0 => drop(turns.pop()),
        1 => turns.push(2),
        2 => turns[at] = random.pick(&[0, 1, TURNS + 1, 128, 255]),
        3 => turns[0] = 1,
        4 => turns[at] = TURNS,
        _ => {}
    }
    turns
}

/// Every choice of turns from `low` to `most` for so many loops; the outermost has 1 as well.
pub fn every_turns(loops: usize, low: u8, most: u8) -> Vec<Vec<u8>> {
    let mut all: Vec<Vec<u8>> = (1..=most).map(|t| vec![t]).collect();
    for _ in 1..loops {
        let with = |turns: &Vec<u8>| (low..=most).map(|t| [&turns[..], &[t]].concat()).collect::<Vec<_>>();
        all = all.iter().flat_map(with).collect();
    }
    all
}

// ---- The self-check

/// Two barriers in loop 0 have fewer calls than one in loop 2, which has two turns at least.
pub const ONCE: &str = "01 03 01 03 03 03 02 03 02 110104 110307";
/// A barrier in 8 loops.
const DEEP: &str = "01 01 01 01 01 01 01 01 03 02 02 02 02 02 02 02 02 12070808";

pub fn check_runs(checks: &mut Checks) {
    let all: [(&str, &[u8], &[usize], u64); 11] = [
        (ONCE, &[3, 2], &[2, 7], 6), (ONCE, &[3, 2], &[4], 6), (ONCE, &[3, 3], &[4], 9), (ONCE, &[1, 1], &[4], 1),
        (Q, &[4, 2, 3], &[2, 6], 28), (Q, &[4, 2, 3], &[4, 7], 32), (Q, &[1, 2, 3], &[2, 6], 7),
        (P, &[2, 3, 5], &[5, 11], 16), (P, &[2, 3, 5], &[1, 6, 7, 12, 13], 22), (P, &[2, 3, 5], &[], 0),
        (DEEP, &[16; 8], &[8], 1 << 32),
    ];
    for (text, turns, gaps, wanted) in all {
        let nest = read_nest(&words(text)).unwrap();
        checks.that(&format!("{wanted} calls of {gaps:?}, turns {turns:?}"), calls(&nest, turns, gaps) == wanted);
    }
    let asked = |text: &str, turns: &[u8]| {
        replies(&[load(text), Call::Plan, Call::CountCalls(turns.to_vec())], 1)[0].clone()
    };
    checks.that("the key's calls", asked(ONCE, &[3, 2]) == (0, 0, vec![6]) && asked(Q, &[1, 2, 3]) == (0, 0, vec![7]));
    checks.that("the bounds", asked(ONCE, &[1, 16]) == (0, 0, vec![2]) && asked(ONCE, &[16, 2]) == (0, 0, vec![32]));
    for turns in [&[][..], &[2], &[2, 2, 2], &[0, 2], &[17, 2], &[2, 0], &[2, 1], &[2, 17], &[2, 255], &[255, 255]] {
        checks.that(&format!("17 for {turns:?}"), asked(ONCE, turns) == (17, 0, vec![0]));
    }
    for (text, turns) in [("04 03 02 110001", &[2][..]), ("01 04 02 02", &[2, 2]), ("01 03 02 1301", &[2])] {
        checks.that(&format!("17 for {text}"), asked(text, turns) == (17, 0, vec![0]));
    }
    checks.that("10 before 17", asked("02", &[0]) == (10, 0, vec![0]));
    let unplanned = [load("01 04 02 02"), Call::CountCalls(vec![0])];
    checks.that("11 before 17", replies(&unplanned, 1)[0] == (11, 0, vec![0]));
    let call = |turns: &[u8]| Call::CountCalls(turns.to_vec());
    let beginning = [load(Q), call(&[2, 2, 2]), Call::Plan, call(&[2, 2, 2])];
    check_altered(checks, &[&beginning[..], &[call(&[1, 16, 16]), call(&[1, 1, 2])]].concat());
    check_altered(checks, &[load("01 04 03 02 02 110102"), Call::Plan, call(&[2, 2]), call(&[])]);
    check_placements(checks);
    (0..120).for_each(|case| check_random(checks, &mut Random::new(15, case)));
    (0..6).for_each(|case| check_full(checks, &mut Random::new(16, case)));
}

/// Calls of any placement: with a key or without, correct or not, turns from 1; each number before those behind it.
fn check_placements(checks: &mut Checks) {
    let call = |gaps: &str, turns: &[u8]| Call::PlacementCalls(words(gaps), turns.to_vec());
    let asked = |paper: &str, gaps: &str, turns: &[u8]| replies(&[load(paper), call(gaps, turns)], 1)[0].clone();
    let all: [(&str, &str, &[u8], usize); 6] = [
        (ONCE, "2104", &[3, 2], 6), (ONCE, "2104", &[3, 1], 3), (ONCE, "2102 2107", &[3, 1], 6), (ONCE, "", &[1, 1], 0),
        (Q, "2104 2107", &[4, 2, 3], 32), (DEEP, "2108", &[16; 8], 1 << 32),
    ];
    for (paper, gaps, turns, wanted) in all {
        checks.that(&format!("{wanted} calls of {gaps}"), asked(paper, gaps, turns) == (0, 0, vec![wanted]));
    }
    let barred = "01 03 03 02 1301";
    let refused: [(&str, &str, &[u8], u8, usize); 10] = [
        ("02", "zz", &[0], 10, 0), (ONCE, "2104 zz", &[0], 1, 2), (ONCE, "1104", &[0], 2, 1),
        (ONCE, "2104 2109", &[0], 8, 2), (barred, "2101", &[0], 16, 1), (barred, "2102", &[2], 17, 0),
        ("04 03 02", "", &[2], 17, 0), (ONCE, "2104", &[3, 0], 17, 0), (ONCE, "2104", &[17, 3], 17, 0),
        (ONCE, "2104", &[3], 17, 0),
    ];
    for (paper, gaps, turns, number, line) in refused {
        let shows = format!("{number} for {gaps:?}, turns {turns:?}: {paper}");
        checks.that(&shows, asked(paper, gaps, turns) == (number, line, vec![0]));
    }
    let beginning = [load(Q), call("2102 2106", &[4, 2, 3]), Call::Plan, call("2104", &[1, 1, 1])];
    check_altered(checks, &[&beginning[..], &[call("2104 2102", &[1, 1, 1]), call("2104", &[1, 0, 1])]].concat());
}

/// On a small paper, under all turns from 2 to 4, the outermost loop from 1: no correct placement has fewer calls than
/// the key. Counted while the run is played, every placement has the same calls.
fn check_random(checks: &mut Checks, random: &mut Random) {
    let (n, depth) = (2 + random.below(8), 1 + random.below(4));
    let mut nest = random_points(random, n, depth);
    let number = 1 + random.below(6);
    add_dependences(random, &mut nest, number, n);
    let shows = shown(&nest.text());
    let correct: Vec<Vec<usize>> = correct_placements(&nest).into_iter().map(gap_list).collect();
    let key = &search(&nest)[0];
    for turns in every_turns(nest.loops().len().min(4), 2, 4).iter_mut() {
        turns.resize(nest.loops().len(), 2);
        let price: Vec<u64> = (0..n).map(|g| passes(&nest, turns, g)).collect();
        let cost = |gaps: &Vec<usize>| gaps.iter().map(|&g| price[g]).sum::<u64>();
        let fewest = correct.iter().map(cost).min() == Some(cost(key));
        checks.that(&format!("the key has the fewest calls, turns {turns:?}: {shows}"), fewest);
        let gaps = &correct[random.below(correct.len())];
        let same = played(&nest, turns, gaps) == calls(&nest, turns, gaps) && cost(gaps) == calls(&nest, turns, gaps);
        checks.that(&format!("a run with {gaps:?}, turns {turns:?}: {shows}"), same);
    }
}

/// Plays a run point by point and counts the barriers that it comes to.
fn played(nest: &Nest, turns: &[u8], placement: &[usize]) -> u64 {
    let (loops, mut left) = (nest.loops(), vec![0; nest.points.len()]);
    let (mut count, mut p) = (0, 0);
    loop {
        if placement.contains(&p) { count += 1 }
        match nest.points[p] {
            DO => left[p] = turns[loops.iter().position(|&d| d == p).unwrap()],
            ENDDO => {
                let d = nest.end.iter().position(|&e| e == p).unwrap();
                left[d] -= 1;
                if left[d] > 0 { p = d }
                if d == 0 && left[0] == 0 { return count }
            }
            _ => {}
        }
        p += 1;
    }
}

/// On full-size papers: the same sum from the inside out, loop by loop, and none below the key's where it is known.
fn check_full(checks: &mut Checks, random: &mut Random) {
    let depth = 1 + random.below(DEPTH);
    let nest = full_nest(random, depth);
    let turns: Vec<u8> = nest.loops().iter().map(|_| 2 + random.below(15) as u8).collect();
    let gaps: Vec<usize> = (1..POINTS).filter(|_| random.one_in(2)).collect();
    checks.that("a full-size sum", calls(&nest, &turns, &gaps) == from_inside(&nest, &turns, &nest.counts(&gaps)));
    let (row, key) = side_by_side(random, 60);
    let turns: Vec<u8> = row.loops().iter().map(|_| 2 + random.below(15) as u8).collect();
    let other: Vec<usize> = (1..row.points.len()).filter(|g| key.contains(g) || random.one_in(2)).collect();
    let fewest = first_key(&row) == Some(key.clone()) && calls(&row, &turns, &key) <= calls(&row, &turns, &other);
    checks.that("a row of papers", fewest);
}

/// A loop's turns, times the barriers of its own and the calls of the loops directly inside.
fn from_inside(nest: &Nest, turns: &[u8], counts: &[usize]) -> u64 {
    let mut sums = vec![0; nest.points.len()];
    for (i, d) in nest.loops().into_iter().enumerate().rev() {
        let directly = |&p: &usize| nest.points[p] == DO && nest.owner(p) == d;
        let inside: u64 = (d + 1..nest.end[d]).filter(directly).map(|p| sums[p]).sum();
        sums[d] = turns[i] as u64 * (counts[d] as u64 + inside);
    }
    sums[0]
}
