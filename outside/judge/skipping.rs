//! Loops that may not run (02, job 10), by the words of the job: which of them need a barrier for their missing run, on
//! which of them a placement relies for one dependence, and which have one of its ends alone.

use crate::asking::{guarded, lend, Call, Reply, GUARD};
use crate::desk::Desk;
use crate::desk_check::{check_altered, load, replies};
use crate::host::{self, words_of};
use crate::nests::*;
use crate::order::search;
use crate::papers::*;
use crate::self_check::Checks;
use crate::texts::{barrier_lines, read_nest, read_placement, shown};

/// The loop of DO d may not run, and neither end of the dependence lies from its DO to its ENDDO.
fn is_foreign(nest: &Nest, x: &Dependence, d: usize) -> bool {
    let apart = |p: usize| p < d || nest.end[d] < p;
    nest.flagged.contains(&d) && apart(x.s) && apart(x.t)
}

/// "At one of its gaps d + 1 to e."
fn is_inside(nest: &Nest, d: usize, g: usize) -> bool { d < g && g <= nest.end[d] }

/// The DOs of the loops on which a placement relies for a dependence, rising: each loop that is foreign to it and has a
/// barrier that cuts it, unless a barrier that cuts it lies outside all loops foreign to it.
pub fn relied(nest: &Nest, x: &Dependence, gaps: &[usize]) -> Vec<usize> {
    let foreign: Vec<usize> = nest.flagged.iter().copied().filter(|&d| is_foreign(nest, x, d)).collect();
    let cutting: Vec<usize> = gaps.iter().copied().filter(|&g| nest.has_gap(x, g)).collect();
    if cutting.iter().any(|&g| !foreign.iter().any(|&d| is_inside(nest, d, g))) { return Vec::new() }
    foreign.into_iter().filter(|&d| cutting.iter().any(|&g| is_inside(nest, d, g))).collect()
}

/// The DOs of the loops that need a barrier for their missing run, rising: those on which the key relies for some
/// dependence.
pub fn listed(nest: &Nest, key: &[usize]) -> Vec<usize> {
    let mut listed = vec![false; nest.points.len()];
    nest.dependences.iter().for_each(|x| relied(nest, x, key).into_iter().for_each(|d| listed[d] = true));
    (0..listed.len()).filter(|&d| listed[d]).collect()
}

/// The DOs of the loops that may not run and have one end alone strictly between DO and ENDDO, the other before the DO
/// or behind the ENDDO, rising; of a carried dependence with s before t, of others none.
pub fn one_end(nest: &Nest, x: &Dependence) -> Vec<usize> {
    if x.kind != CARRIED || x.t <= x.s { return Vec::new() }
    let inside = |d: usize, p: usize| d < p && p < nest.end[d];
    let apart = |d: usize, p: usize| p < d || nest.end[d] < p;
    let alone = |d: usize| inside(d, x.s) && apart(d, x.t) || inside(d, x.t) && apart(d, x.s);
    nest.flagged.iter().copied().filter(|&d| alone(d)).collect()
}

/// What the call answers: 10, then 11, or the listed DOs.
pub fn answer(desk: &Desk) -> (u8, Vec<usize>) {
    let fault = desk.fault(true);
    let Some(nest) = desk.nest.as_ref().filter(|_| fault == 0) else { return (fault, words_of(&[])) };
    (0, words_of(&listed(nest, desk.key())))
}

/// What the call answers for a placement text and a dependence: 10, then the faults of the text, then 6, or the loops.
pub fn answer_relied(desk: &Desk, text: &[u8], dependence: usize) -> Reply {
    let reply = |number, line, loops: &[usize]| Reply { number, line, values: words_of(loops), lent: guarded(text) };
    let Some(nest) = &desk.nest else { return reply(10, 0, &[]) };
    match (read_placement(nest, text), nest.dependences.get(dependence)) {
        (Err(r), _) => reply(r.number, r.line, &[]),
        (Ok(_), None) => reply(6, 0, &[]),
        (Ok(gaps), Some(x)) => reply(0, 0, &relied(nest, x, &gaps)),
    }
}

/// What the call answers for a dependence: 10, then 6, or the loops that have one of its ends alone.
pub fn answer_one_end(desk: &Desk, dependence: usize) -> (u8, Vec<usize>) {
    let Some(nest) = &desk.nest else { return (10, words_of(&[])) };
    let Some(x) = nest.dependences.get(dependence) else { return (6, words_of(&[])) };
    (0, words_of(&one_end(nest, x)))
}

/// The library's own answers.
pub fn play(desk: host::Desk) -> Reply { unsafe { host::desk_missing_runs(desk) }.into() }

pub fn play_relied(desk: host::Desk, text: &[u8], dependence: usize) -> Reply {
    let (lent, length) = lend(text);
    let told = unsafe { host::desk_relied_on(desk, lent[GUARD.len()..].as_ptr(), length, dependence) };
    Reply { lent, ..told.into() }
}

pub fn play_one_end(desk: host::Desk, dependence: usize) -> Reply {
    unsafe { host::desk_one_end(desk, dependence) }.into()
}

/// What is asked of a paper: its missing runs; of each dependence, on which loops some gaps rely, few or many of them,
/// and which loops have one of its ends alone.
pub fn asks(random: &mut Random, nest: &Nest) -> Vec<Call> {
    let mut calls = vec![Call::Load(nest.text()), Call::Plan, Call::MissingRuns];
    for i in 0..nest.dependences.len() {
        let chance = random.pick(&[1, 2, 2, 4]);
        let gaps: Vec<usize> = (1..nest.points.len()).filter(|_| random.one_in(chance)).collect();
        calls.extend([Call::ReliedOn(barrier_lines(&gaps), i), Call::OneEnd(i)]);
    }
    calls
}

/// Papers with their keys and listed loops.
pub const PAPERS: [(&str, &[usize], &[usize]); 16] = [
    ("01 03 04 03 02 03 02 12020303 110105", &[3], &[2]), // a barrier in the loop is all that cuts the second
    ("01 03 01 03 02 03 02 12020303 110105", &[3], &[]), // not flagged
    ("01 03 03 04 03 02 03 02 12030404 110102 110106", &[2, 4], &[]), // a barrier before the loop cuts it too
    ("01 03 04 03 03 02 03 02 110304 110103 110106", &[2, 4], &[]), // at the gap before its DO
    ("01 03 04 03 02 03 02 12020303 110205", &[3], &[]), // from the loop's own DO
    ("01 03 04 03 02 03 02 12020303 110104", &[3], &[]), // to its own ENDDO
    ("01 03 04 03 02 03 02 12020303 110103", &[3], &[]), // to a statement in it
    ("01 03 04 02 03 02 110203 110104", &[3], &[2]), // gap e is inside
    ("01 04 02 03 02 110003", &[1], &[]), // the gap before the DO is not
    ("01 03 04 04 03 02 02 03 02 12030404 110107", &[4], &[2, 3]), // one in the other
    ("01 03 01 04 03 02 02 03 02 12030404 110107", &[4], &[3]),
    ("01 03 04 01 03 02 02 03 02 12030404 110107", &[4], &[2]),
    ("01 03 04 03 02 04 03 02 03 02 12020303 12050606 110108", &[3, 6], &[2, 5]), // side by side
    ("01 03 04 03 02 01 03 02 03 02 12020303 12050606 110108", &[3, 6], &[]), // the other one always runs
    ("01 04 03 02 03 02 12010202 12000404", &[2], &[1]), // round the loop, past the inner one
    ("01 04 03 02 03 03 02 12010202 110405 12000404", &[2, 5], &[]), // and a barrier on the way there
];

// ---- The self-check

pub fn check_skipping(checks: &mut Checks) {
    for (text, key, wanted) in PAPERS {
        let nest = read_nest(&words(text)).unwrap();
        checks.that(&format!("the key {key:?} of {text}"), search(&nest)[0] == key);
        checks.that(&format!("listed {wanted:?} of {text}"), listed(&nest, key) == wanted);
    }
    let asked = |text: &str| replies(&[load(text), Call::Plan, Call::MissingRuns], 1)[0].clone();
    let none = |number| (number, 0, words_of(&[]));
    checks.that("no nest", asked("04") == none(10));
    checks.that("no key", replies(&[load(P), Call::MissingRuns], 1)[0] == none(11));
    checks.that("no key of a blocked paper", asked("04 03 02 110001 1301") == none(11));
    checks.that("nothing flagged", asked(P) == none(0));
    checks.that("listed", asked(PAPERS[0].0) == (0, 0, words_of(&[2])));
    for text in [PAPERS[0].0, PAPERS[12].0, "04 03 03 02 110001 12000201 1302"] {
        let script = [load(text), Call::MissingRuns, Call::Plan, Call::MissingRuns, Call::Put(3), Call::MissingRuns];
        let rest = [Call::Over(true, None), load("01 04 02 02 110002"), Call::Plan];
        check_altered(checks, &[&script[..], &rest].concat());
    }
    check_one(checks);
    let some = (0..400).filter(|&case| check_random(checks, &mut Random::new(12, case))).count();
    checks.that("papers with listed loops among them", some > 40);
    (0..4).for_each(|case| check_full(checks, &mut Random::new(13, case)));
}

/// Of one dependence: on which loops a placement relies, and which have one end alone.
fn check_one(checks: &mut Checks) {
    let asked = |text: &str, gaps: &str, i| replies(&[load(text), Call::ReliedOn(words(gaps), i)], 1)[0].clone();
    let told = |number, line, loops: &[usize]| (number, line, words_of(loops));
    let beside = "01 03 04 03 02 04 03 02 03 02 12020303 110108";
    let relied: [(&str, usize, &[usize]); 6] = [
        ("2103 2106", 1, &[2, 5]), ("2104", 1, &[2]), ("2103 2105", 1, &[]), ("2103", 0, &[]), ("2109", 1, &[]),
        ("2106", 1, &[5]),
    ];
    for (gaps, i, wanted) in relied {
        checks.that(&format!("{gaps} relies on {wanted:?} for {i}"), asked(beside, gaps, i) == told(0, 0, wanted));
    }
    checks.that("no dependence 2", asked(beside, "2103", 2) == told(6, 0, &[]));
    checks.that("its text first", asked(beside, "2103 2103", 2) == told(8, 2, &[]));
    checks.that("no nest to rely in", asked("04", "00", 0) == told(10, 0, &[]));
    let ends: [(&str, &[usize]); 8] = [
        ("12000103", &[2]), ("12000305", &[2]), ("12000501", &[]), ("12000303", &[]), ("12000105", &[]),
        ("12000205", &[]), ("12000104", &[]), ("110103", &[]),
    ];
    for (line, wanted) in ends {
        let script = [load(&format!("01 03 04 03 02 03 02 {line}")), Call::OneEnd(0), Call::OneEnd(1)];
        let same = replies(&script, 2) == [told(0, 0, wanted), told(6, 0, &[])];
        checks.that(&format!("one end of {line} in {wanted:?}"), same);
    }
    checks.that("no nest to have an end in", replies(&[Call::OneEnd(0)], 1)[0] == told(10, 0, &[]));
    let script = [load(beside), Call::ReliedOn(words("2103"), 1), Call::OneEnd(0), Call::Plan, Call::OneEnd(1)];
    check_altered(checks, &script);
    let some = (0..1200).filter(|&case| check_relied(checks, &mut Random::new(18, case))).count();
    checks.that("placements that rely on loops among them", some > 20);
}

/// On a small paper with some gaps: a dependence that is cut loses all its barriers under some set of loops foreign to
/// it, skipped, exactly where loops are relied on; and then under the set of these. Which loops have one end alone is
/// told once more, by the order of four points.
fn check_relied(checks: &mut Checks, random: &mut Random) -> bool {
    let (nest, chance) = (small_flagged(random), random.pick(&[2, 3, 5]));
    let gaps: Vec<usize> = (1..nest.points.len()).filter(|_| random.one_in(chance)).collect();
    let lost = |x: &Dependence, skipped: &[usize]| {
        let gone = |g: usize| skipped.iter().any(|&d| is_inside(&nest, d, g));
        skipped.iter().all(|&d| is_foreign(&nest, x, d)) && gaps.iter().all(|&g| !nest.has_gap(x, g) || gone(g))
    };
    for x in nest.dependences.iter().filter(|x| gaps.iter().any(|&g| nest.has_gap(x, g))) {
        let loops = relied(&nest, x, &gaps);
        let sets = (0..1usize << nest.flagged.len()).map(|set| -> Vec<usize> {
            nest.flagged.iter().enumerate().filter(|(i, _)| set >> i & 1 == 1).map(|(_, &d)| d).collect()
        });
        let same = sets.into_iter().any(|skipped| lost(x, &skipped)) != loops.is_empty();
        checks.that("relied on by sets of skipped loops", same && (loops.is_empty() || lost(x, &loops)));
    }
    for x in &nest.dependences {
        let ordered = |d: &&usize| {
            let (d, e) = (**d, nest.end[**d]);
            x.kind == CARRIED && (d < x.s && x.s < e && e < x.t || x.s < d && d < x.t && x.t < e)
        };
        checks.that("one end by order", nest.flagged.iter().filter(ordered).copied().eq(one_end(&nest, x)));
    }
    nest.dependences.iter().any(|x| !relied(&nest, x, &gaps).is_empty())
}

/// On a small paper, with every set of flagged loops skipped; tells whether it has listed loops.
fn check_random(checks: &mut Checks, random: &mut Random) -> bool {
    let nest = small_flagged(random);
    let (key, shows) = (search(&nest).swap_remove(0), shown(&nest.text()));
    let own = Nest { flagged: Vec::new(), ..nest.clone() };
    checks.that(&format!("the key without flags: {shows}"), search(&own)[0] == key);
    let (all, sets) = (listed(&nest, &key), 0..1usize << nest.flagged.len());
    let skipped = |set: usize| -> Vec<usize> {
        nest.flagged.iter().enumerate().filter(|(i, _)| set >> i & 1 == 1).map(|(_, &d)| d).collect()
    };
    let reached = sets.clone().all(|set| is_reached(&nest, &key, &all, &skipped(set)));
    checks.that(&format!("whichever loops are skipped: {shows}"), reached);
    let by_sets = |d: &usize| sets.clone().any(|set| is_listed_by(&nest, &key, &skipped(set), *d));
    let same = nest.loops().into_iter().filter(by_sets).eq(all.iter().copied());
    checks.that(&format!("listed by sets of skipped loops: {shows}"), same);
    let again = read_nest(&nest.text()).map(|other| (other.points, other.flagged));
    checks.that(&format!("flags kept: {shows}"), again == Ok((nest.points.clone(), nest.flagged.clone())));
    !all.is_empty()
}

/// Every dependence to which all skipped loops are foreign has a barrier of the key in no skipped loop, or one whose
/// outermost skipped loop is listed.
fn is_reached(nest: &Nest, key: &[usize], listed: &[usize], skipped: &[usize]) -> bool {
    let survives = |g: usize| {
        let outermost = skipped.iter().find(|&&d| is_inside(nest, d, g));
        outermost.map_or(true, |d| listed.contains(d))
    };
    let concerned = |x: &&Dependence| skipped.iter().all(|&d| is_foreign(nest, x, d));
    nest.dependences.iter().filter(concerned).all(|x| key.iter().any(|&g| nest.has_gap(x, g) && survives(g)))
}

/// The same list in other words: with these loops skipped, d among them, some dependence to which all of them are
/// foreign keeps no barrier, and has lost one in d.
fn is_listed_by(nest: &Nest, key: &[usize], skipped: &[usize], d: usize) -> bool {
    let lost = |g: usize| skipped.iter().any(|&l| is_inside(nest, l, g));
    skipped.contains(&d) && nest.dependences.iter().any(|x| {
        let mut cutting = key.iter().filter(|&&g| nest.has_gap(x, g));
        let in_d = cutting.clone().any(|&g| is_inside(nest, d, g));
        in_d && skipped.iter().all(|&l| is_foreign(nest, x, l)) && cutting.all(|&g| lost(g))
    })
}

/// On full-size papers of small ones side by side, with random sets of flagged loops skipped.
fn check_full(checks: &mut Checks, random: &mut Random) {
    let (mut nest, key) = side_by_side(random, POINTS);
    flag_loops(random, &mut nest);
    let all = listed(&nest, &key);
    for chance in [1, 1, 2, 2, 5, 20] {
        let skipped: Vec<usize> = nest.flagged.iter().copied().filter(|_| random.one_in(chance)).collect();
        checks.that("a full-size paper, loops skipped", is_reached(&nest, &key, &all, &skipped));
    }
}
