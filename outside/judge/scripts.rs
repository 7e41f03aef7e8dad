//! Random scripts of the library's calls, in and out of turn, each call held against the judge's own desk.

use crate::arguing;
use crate::asking::{play, Call, Reply};
use crate::comparing::comparisons;
use crate::desk::{Desk, Key};
use crate::edges::{edges, pairs};
use crate::host::{self, gaps_of, KEPT};
use crate::improving::{improvements, random_budget};
use crate::joining::{at_limit, joins, joint_length};
use crate::limits::at_limits;
use crate::nests::*;
use crate::order::key_fault;
use crate::papers::*;
use crate::program::{finish, THREADS};
use crate::runs::{every_turns, random_turns};
use crate::shapes;
use crate::sheets::{every_sheet, random_sheet};
use crate::skipping;
use crate::slips::slip_length;
use crate::texts::{barrier_lines, read_nest, read_placement};
use std::collections::BTreeMap;
use std::sync::atomic::{AtomicUsize, Ordering::SeqCst};
use std::sync::Mutex;
use std::time::{Duration, Instant};

/// The judge's desk and the library's, before the first call.
pub struct Pair { pub ours: Desk, pub theirs: host::Desk }

impl Pair {
    pub fn new() -> Pair { Pair { ours: Desk::new(), theirs: unsafe { host::desk_new() } } }

    /// Makes a call on both, and says how they differ.
    pub fn make(&mut self, call: &Call) -> Result<Reply, String> {
        let before = self.theirs;
        let seen = play(&mut self.theirs, call);
        let wanted = self.ours.play(call);
        self.adopt()?;
        self.hear()?;
        judge(call, &self.ours, &before, &wanted, &seen, &self.theirs).map(|()| seen)
    }

    /// A key that this reading cannot find is taken from the library, where nothing is wrong with it.
    fn adopt(&mut self) -> Result<(), String> {
        if self.ours.key != Key::Unknown { return Ok(()) }
        let key = gaps_of(&self.theirs.key);
        key_fault(self.ours.nest.as_ref().unwrap(), &key)?;
        self.ours.key = Key::Known(key);
        Ok(())
    }

    /// The argument of a new key is taken from the library, where it holds.
    fn hear(&mut self) -> Result<(), String> {
        let Key::Known(key) = &self.ours.key else { return Ok(()) };
        if self.ours.argument.is_some() { return Ok(()) }
        self.ours.argument = Some(arguing::heard(self.ours.nest.as_ref().unwrap(), key, self.theirs)?);
        Ok(())
    }
}

/// The reply, what was lent and the whole desk after a call. Refused, the desk is as it was, to the last byte; Plan
/// touches neither sitting nor moves.
pub fn judge(
    call: &Call, ours: &Desk, before: &host::Desk, wanted: &Reply, seen: &Reply, theirs: &host::Desk,
) -> Result<(), String> {
    if seen.number != wanted.number || seen.line != wanted.line || seen.values != wanted.values {
        let told = |r: &Reply| format!("number {}, line {}, {:?}", r.number, r.line, r.values);
        return Err(format!("it replies {}; wanted {}", told(seen), told(wanted)));
    }
    if seen.lent != wanted.lent { return Err(format!("lent, it leaves {:?}; wanted {:?}", seen.lent, wanted.lent)) }
    if let Some(what) = ours.difference(theirs) { return Err(format!("the desk after it: {what}")) }
    let kept = match call {
        Call::New | Call::Reset | Call::Over(..) => true,
        Call::Load(_) | Call::Put(_) | Call::Lift(_) | Call::TakeBack => wanted.number == 0 || theirs == before,
        Call::Plan if wanted.number == 0 => theirs.sitting == before.sitting && theirs.moves == before.moves,
        _ => theirs == before,
    };
    if kept { Ok(()) } else { Err("the desk after it is not as it was".into()) }
}

// ---- Calls to make

/// What a script is made of: how often it loads, asks about key and sitting, moves, takes back, and does the rest.
#[derive(Clone, Copy)]
struct Mix { loads: usize, asks: usize, moves: usize, backs: usize, rest: usize }

/// A mix and the most calls. In the sittings, which are long, more than 64 moves come in a row.
fn random_mix(random: &mut Random) -> (Mix, usize) {
    let mix = |loads, asks, moves, backs, rest| Mix { loads, asks, moves, backs, rest };
    match random.below(6) {
        0 => (mix(20, 4, 4, 2, 2), 40),
        1 => (mix(0, 2, 60, 4, 0), 400),
        2 => (mix(0, 2, 40, 30, 0), 400),
        3 => (mix(1, 30, 3, 1, 2), 80),
        _ => (mix(4, 12, 12, 6, 3), 60),
    }
}

fn random_call(random: &mut Random, desk: &Desk, mix: Mix, edges: &[Vec<u8>]) -> Call {
    if desk.nest.is_none() && random.one_in(2) { return Call::Load(small_text(random).0) }
    if desk.key == Key::None && random.one_in(8) { return Call::Plan }
    let Mix { loads, asks, moves, backs, rest } = mix;
    match random.below(loads + asks + moves + backs + rest) {
        i if i < loads => Call::Load(nest_text(random, edges)),
        i if i < loads + asks => random_ask(random, desk, edges),
        i if i < loads + asks + moves => {
            let gap = random_gap(random, desk);
            if random.below(3) < 2 { Call::Put(gap) } else { Call::Lift(gap) }
        }
        i if i < loads + asks + moves + backs => Call::TakeBack,
        _ => match random.below(8) {
            0 => Call::New,
            1 => Call::Reset,
            2..=4 => {
                let words = [random.next(), random.next(), random.next(), random.next()];
                Call::Over(!random.one_in(3), if random.one_in(2) { Some(words) } else { None })
            }
            _ => Call::Plan,
        },
    }
}

fn random_ask(random: &mut Random, desk: &Desk, edges: &[Vec<u8>]) -> Call {
    match random.below(45) {
        0 => Call::Count(random_point(random, desk)),
        1 | 2 => Call::Write(buffer(random, 5 * desk.key().len())),
        3 => Call::Sitting(buffer(random, 5 * desk.sitting.len())),
        4..=6 => Call::List(list(random, desk)),
        7 => Call::Textbook,
        8..=10 => {
            let (text, examiner) = (placement_text(random, desk), random.one_in(2));
            let length = desk.nest.as_ref().map_or(0, |nest| slip_length(nest, examiner));
            Call::Slip(examiner, text, buffer(random, length))
        }
        11 | 12 => Call::MissingRuns,
        13 | 14 => Call::CountCalls(random_turns(random, desk.nest.as_ref())),
        15 | 16 => join(random, edges),
        17 | 18 => {
            let turns = random_turns(random, desk.nest.as_ref());
            Call::Improve(turns, random_budget(random, desk.points()))
        }
        19 | 20 => Call::Sheet(random_sheet(random)),
        21 | 22 => Call::PlacementCalls(placement_text(random, desk), random_turns(random, desk.nest.as_ref())),
        23 | 24 => Call::Compare(placement_text(random, desk), placement_text(random, desk)),
        25 => Call::Shape,
        26 | 27 => Call::Gaps(shapes::random_dependence(random, desk)),
        28 | 29 => Call::Standing,
        30 | 31 => Call::ReliedOn(placement_text(random, desk), shapes::random_dependence(random, desk)),
        32 | 33 => Call::OneEnd(shapes::random_dependence(random, desk)),
        34..=36 => Call::Weigh(arguing::random_text(random, desk, desk.key())),
        37 | 38 => weigh(random, desk),
        39..=41 => Call::Argue(buffer(random, desk.argument.as_ref().map_or(40, Vec::len))),
        _ => Call::Mark(placement_text(random, desk)),
    }
}

fn nest_text(random: &mut Random, edges: &[Vec<u8>]) -> Vec<u8> {
    match random.below(60) {
        0 => { let depth = 1 + random.below(DEPTH); full_nest(random, depth).text() }
        1 => { let text = full_nest(random, DEPTH).text(); damage(random, &text, POINTS - 2) }
        2 => side_by_side(random, POINTS).0.text(),
        3 => { let nest = full_barred(random); spelled(random, &nest) }
        4 => { let nest = full_barred(random); damage(random, &nest.text(), POINTS - 2) }
        5 => Vec::new(),
        6 => (0..random.below(40)).map(|_| random.pick(b"0123456789abcdef\n\n")).collect(),
        7..=10 => edges[random.below(edges.len())].clone(),
        11..=26 => { let (text, n) = small_text(random); damage(random, &text, n) }
        _ => small_text(random).0,
    }
}

/// A placement text with an argument for it, or at times for the key.
fn weigh(random: &mut Random, desk: &Desk) -> Call {
    let placement = placement_text(random, desk);
    let read = desk.nest.as_ref().and_then(|nest| read_placement(nest, &placement).ok());
    let gaps = read.filter(|_| !random.one_in(8)).unwrap_or_else(|| desk.key().to_vec());
    Call::WeighPlacement(placement, arguing::random_text(random, desk, &gaps))
}

/// Two papers or damaged texts, in part such that their joint nest is near a limit.
fn join(random: &mut Random, edges: &[Vec<u8>]) -> Call {
    let (a, b) = match random.below(16) {
        0 | 1 => at_limit(random),
        2 | 3 => (small_text(random).0, nest_text(random, edges)),
        4 | 5 => (nest_text(random, edges), small_text(random).0),
        _ => (small_nest(random).text(), small_nest(random).text()),
    };
    let length = joint_length(&a, &b);
    Call::Join(a, b, buffer(random, length))
}

/// Mostly gaps of the nest, in part so few that barriers come and go, and barred ones; then the first that are none,
/// and large numbers that would be gaps if only their low bits were read.
fn random_gap(random: &mut Random, desk: &Desk) -> usize {
    let n = desk.points().max(2);
    match random.below(24) {
        0 => random.pick(&[0, n, n + 1, 255, 256, usize::MAX]),
        1 => random.below(n) + (1 << random.pick(&[8, 16, 32, 63])),
        2 | 3 if !desk.barred().is_empty() => random.pick(desk.barred()),
        4..=9 => 1 + random.below(n - 1),
        10..=13 if !desk.sitting.is_empty() => *desk.sitting.iter().nth(random.below(desk.sitting.len())).unwrap(),
        _ => 1 + random.below(1 + n / 8),
    }
}

fn random_point(random: &mut Random, desk: &Desk) -> usize {
    let loops = desk.nest.as_ref().map_or(vec![0], |nest| nest.loops());
    if random.one_in(2) { random.pick(&loops) } else { random_gap(random, desk) }
}

/// Room for so many bytes: just enough, one byte less, one more, none, plenty; filled with anything.
fn buffer(random: &mut Random, exact: usize) -> Vec<u8> {
    let more = random.below(200);
    let length = random.pick(&[exact, exact, exact.saturating_sub(1), exact + 1, 0, exact + more, exact / 2]);
    (0..length).map(|_| random.next() as u8).collect()
}

/// A placement near the key, the sitting, or any, mostly without barred gaps; at times damaged.
fn placement_text(random: &mut Random, desk: &Desk) -> Vec<u8> {
    let n = desk.points().max(2);
    let barred = if random.one_in(8) { &[] } else { desk.barred() };
    let free = (1..n).filter(|g| !barred.contains(g));
    let mut gaps: Vec<usize> = match random.below(8) {
        0 => desk.sitting.iter().copied().collect(),
        1 => free.filter(|_| random.one_in(2)).collect(),
        2 => free.collect(),
        _ => desk.key().to_vec(),
    };
    for _ in 0..random.pick(&[0, 1, 1, 2]) {
        let gap = if random.one_in(12) { random.pick(&[0, n, 255]) } else { 1 + random.below(n - 1) };
        match gaps.iter().position(|&g| g >= gap) {
            _ if random.one_in(12) => gaps.push(gap),
            Some(i) if gaps[i] == gap => drop(gaps.remove(i)),
            Some(i) if random.one_in(3) => gaps[i] = gap,
            i => gaps.insert(i.unwrap_or(gaps.len()), gap),
        }
    }
    let text = barrier_lines(&gaps);
    if random.one_in(5) { damage(random, &text, n) } else { text }
}

/// Records of four bytes: mostly without fault, so that the key has to cut them; else one or all at fault, or the last
/// one cut off.
fn list(random: &mut Random, desk: &Desk) -> Vec<u8> {
    let number = if random.one_in(30) { random.below(700) } else { random.below(9) };
    let faulty = random.pick(&[0, 0, 0, 4, 1]);
    let mut list: Vec<u8> = (0..number).flat_map(|_| {
        let any = faulty > 0 && random.one_in(faulty);
        record(random, desk, any)
    }).collect();
    if random.one_in(6) {
        let left = 1 + random.below(3);
        list.extend(record(random, desk, false).iter().take(left));
    }
    list
}

/// A record; `any`: of any kind and with any points, at times statements all. In kind 11 the d is not read, so it is
/// anything.
fn record(random: &mut Random, desk: &Desk, any: bool) -> [u8; 4] {
    let n = desk.points().max(2);
    let Some(nest) = desk.nest.as_ref().filter(|_| !any) else {
        let kind = random.pick(&[INDEPENDENT, CARRIED, INDEPENDENT, CARRIED, 0, 0x10, 0x13, BARRIER]);
        let is_statement = |p: &usize| desk.nest.as_ref().is_some_and(|nest| nest.points[*p] == STATEMENT);
        let statements: Vec<usize> = (0..desk.points()).filter(is_statement).collect();
        let (inner, first) = (!statements.is_empty() && random.one_in(2), random.next() as u8);
        let mut point = || match random.below(10) {
            0 => random.next() as u8,
            _ if inner => random.pick(&statements) as u8,
            _ => random.below(n + 1) as u8,
        };
        return [kind, if inner { 0 } else { first.min(n as u8) }, point(), point()];
    };
    let mut one = Nest { dependences: Vec::new(), ..nest.clone() };
    let reach = 1 + random.below(n);
    add_dependences(random, &mut one, 1, reach);
    let x = one.dependences.first().or(nest.dependences.first());
    let Some(x) = x.copied() else { return [INDEPENDENT, 0, 0, n as u8 - 1] };
    let d = if x.kind == INDEPENDENT { random.next() as u8 } else { x.d as u8 };
    [x.kind, d, x.s as u8, x.t as u8]
}

// ---- Comparing

type Numbers = BTreeMap<String, usize>;

/// How many random papers are made for a call.
const FIXED: usize = 8000;

/// One in so many of the first scripts is random.
const RANDOM: usize = 32;

/// Makes a call on both desks and counts how it ended; false where there is a difference.
fn make_counted(pair: &mut Pair, call: &Call, tally: &mut Numbers) -> bool {
    let full = pair.ours.moves.len() == KEPT && matches!(call, Call::Put(_) | Call::Lift(_));
    let Ok(reply) = pair.make(call) else { return false };
    let outcome = match reply.number {
        0 if full => "made, the oldest move forgotten".into(),
        0 => "made".into(),
        number => format!("refused with {number}"),
    };
    *tally.entry(format!("{}, {outcome}", call.name())).or_insert(0) += 1;
    true
}

/// Makes some calls; where there is a difference, gives them.
fn play_calls(calls: Vec<Call>, tally: &mut Numbers) -> Option<Vec<Call>> {
    let mut pair = Pair::new();
    if calls.iter().all(|call| make_counted(&mut pair, call, tally)) { None } else { Some(calls) }
}

/// What is asked of papers at the limits, of arguments, of every two lines of a list, one behind the other, of every
/// small paper and every two placements on it, and of papers made for a call.
fn fixed_scripts() -> Vec<Vec<Call>> {
    let lines = pairs().into_iter().map(|text| vec![Call::Load(text), Call::Plan]);
    let flagged = (0..FIXED).map(|case| small_flagged(&mut Random::new(14, case)));
    let made = skipping::PAPERS.iter().map(|paper| read_nest(&words(paper.0)).unwrap()).chain(flagged);
    let asked = made.enumerate().map(|(case, nest)| skipping::asks(&mut Random::new(17, case), &nest));
    let beside = (2..=SMALLEST).flat_map(every_shape).flat_map(|nest| comparisons(&nest));
    let every = (2..=SMALLEST).flat_map(every_paper).map(|nest| asks_of(&nest));
    let shapes = shapes::every_ask();
    let argued = arguing::at_limits().into_iter().chain(arguing::arguments());
    let first = at_limits().into_iter().chain(argued).chain(lines);
    first.chain(asked).chain(joins()).chain(every_sheet()).chain(beside).chain(shapes).chain(every).collect()
}

/// What is asked of a small paper: its missing runs, and which loops have one end of its dependences alone; its calls
/// under all turns from 2 to 4, under some if it is not one of the smallest; of these with no flags, tries for fewer
/// calls.
fn asks_of(nest: &Nest) -> Vec<Call> {
    let mut turns = every_turns(nest.loops().len(), 2, 4);
    if nest.points.len() == SMALLEST || !nest.flagged.is_empty() { turns.drain(1..turns.len() - 1); }
    let counts = turns.into_iter().map(Call::CountCalls);
    let tries = if nest.points.len() < SMALLEST && nest.flagged.is_empty() { improvements(nest) } else { Vec::new() };
    let ends = (0..nest.dependences.len()).map(Call::OneEnd);
    let begun = [Call::Load(nest.text()), Call::Plan, Call::MissingRuns];
    begun.into_iter().chain(ends).chain(counts).chain(tries).collect()
}

/// Plays the script of a number; where there is a difference, gives the calls up to it.
fn play_script(seed: u64, script: usize, edges: &[Vec<u8>], tally: &mut Numbers) -> Option<Vec<Call>> {
    let random = &mut Random::new(seed, script);
    let (mut pair, mut made) = (Pair::new(), Vec::new());
    let (mix, most) = random_mix(random);
    let plan_at = random.pick(&[1, 1, 2, 20]);
    for i in 0..2 + random.below(most) {
        let call = if i == plan_at { Call::Plan } else { random_call(random, &pair.ours, mix, edges) };
        made.push(call.clone());
        if !make_counted(&mut pair, &call, tally) { return Some(made) }
    }
    None
}

/// The difference that a list of calls shows, if any.
fn shows(calls: &[Call]) -> Option<String> {
    let mut pair = Pair::new();
    calls.iter().find_map(|call| pair.make(call).err())
}

/// The calls without those that the difference does not need.
fn shortened(mut calls: Vec<Call>) -> Vec<Call> {
    let mut i = calls.len();
    while i > 0 {
        i -= 1;
        let rest = [&calls[..i], &calls[i + 1..]].concat();
        if shows(&rest).is_some() { calls = rest }
    }
    calls
}

/// Among the first scripts are the fixed ones, whatever the seed, with a random one before every so many of them.
pub fn compare(seed: u64, seconds: u64) -> bool {
    let (fixed, texts) = (fixed_scripts(), edges().into_iter().map(|(text, _)| text).collect::<Vec<_>>());
    let until = Instant::now() + Duration::from_secs(seconds);
    let (next, failed, tally) = (AtomicUsize::new(1), AtomicUsize::new(0), Mutex::new(Numbers::new()));
    let work = || {
        let mut own = Numbers::new();
        loop {
            let script = next.fetch_add(1, SeqCst);
            let place = script - script / RANDOM - 1;
            if failed.load(SeqCst) > 0 || (place >= fixed.len() && Instant::now() > until) { break }
            let differs = match fixed.get(place).filter(|_| script % RANDOM > 0) {
                Some(calls) => play_calls(calls.clone(), &mut own),
                None => play_script(seed, script, &texts, &mut own),
            };
            let Some(calls) = differs else { continue };
            failed.fetch_add(1, SeqCst);
            let calls = shortened(calls);
            let lines: Vec<String> = calls.iter().map(|call| format!("  {}\n", call.shown())).collect();
            let why = shows(&calls).unwrap_or("it does not show again".into());
            println!("difference, seed {seed}, script {script}:\n{}{why}\n", lines.concat());
        }
        let mut all = tally.lock().unwrap();
        own.into_iter().for_each(|(what, number)| *all.entry(what).or_insert(0) += number);
    };
    std::thread::scope(|threads| (0..THREADS).for_each(|_| drop(threads.spawn(work))));
    let tally = tally.into_inner().unwrap();
    tally.iter().for_each(|(what, number)| println!("{number:8}  {what}"));
    println!("{:8}  scripts", next.into_inner() - 1);
    finish(tally.values().sum(), failed.into_inner())
}
