//! Arguments (RULES, "Arguments"): a text of claims with their steps, weighed line by line against the key or against a
//! placement text. Sets of gaps are sets here, and nothing is kept of a claim but what it excludes.

use crate::asking::{self, guarded, lend, Call, Reply, GUARD};
use crate::desk::{write_text, Desk, Key};
use crate::desk_check::{check_altered, load, replies};
use crate::host;
use crate::nests::*;
use crate::order::search;
use crate::papers::*;
use crate::scripts::Pair;
use crate::self_check::Checks;
use crate::texts::{barrier_lines, line, read_lines, read_nest, read_placement, shown, Refusal};
use std::collections::{BTreeMap, BTreeSet};

const CLAIM: u8 = 0x31;
const LED: u8 = 0x32;
const OF: u8 = 0x33;
const FROM: u8 = 0x34;
const UPTO: u8 = 0x35;
const CLAIMS: usize = 4096;
const STEPS: usize = 1024;
const UNHELD: u8 = 21;

/// Room for the argument of any key.
const PLENTY: usize = 1 << 16;

/// How many papers are drawn for arguments.
const DRAWN: usize = 4000;

/// A line of an argument: a claim of loop d with its a and b; the claim that leads the next step; a step.
#[derive(Clone, Copy, Debug, PartialEq)]
enum Said { Claim(usize, usize, usize), Led(usize), Step(Set) }

/// The gaps of a dependence; those that the claim supposes from a on, or up to b.
#[derive(Clone, Copy, Debug, PartialEq)]
enum Set { Of(usize), From, Upto }

/// The lines of an argument text: 1, 2; 4 for what has no place; 5 for what is too much.
fn read_argument(text: &[u8]) -> Result<Vec<Said>, Refusal> {
    let (mut all, mut claims, mut steps, mut waits) = (Vec::new(), 0, 0, false);
    let end = read_lines(text, |frame| {
        let at = |i: usize| frame[i] as usize;
        let said = match (frame[0], frame.len()) {
            (CLAIM, 4) => Said::Claim(at(1), at(2), at(3)),
            (LED, 3) => Said::Led(256 * at(1) + at(2)),
            (OF, 3) => Said::Step(Set::Of(256 * at(1) + at(2))),
            (FROM, 1) => Said::Step(Set::From),
            (UPTO, 1) => Said::Step(Set::Upto),
            _ => return Err(2),
        };
        let is_claim = matches!(said, Said::Claim(..));
        let is_step = matches!(said, Said::Step(_));
        if (claims == 0 && !is_claim) || (waits && !is_step) { return Err(4) }
        if (is_claim && claims == CLAIMS) || (is_step && steps == STEPS) { return Err(5) }
        claims += is_claim as usize;
        steps = if is_claim { 0 } else { steps + is_step as usize };
        waits = matches!(said, Said::Led(_));
        all.push(said);
        Ok(())
    })?;
    if waits { Err(Refusal { number: 4, line: end }) } else { Ok(all) }
}

/// A claim that holds, with the gaps of its loop's range that it excludes.
struct Known { d: usize, a: usize, b: usize, excludes: BTreeSet<usize> }

/// A claim with its line, and what its steps did: how many sets were counted, how often each gap was named, and what is
/// known to be empty. `out` is what no step of it looks at.
struct Open {
    line: usize,
    d: usize,
    a: usize,
    b: usize,
    out: BTreeSet<usize>,
    sets: usize,
    named: BTreeMap<usize, usize>,
    empty: BTreeSet<usize>,
}

struct Weigher<'a> { nest: &'a Nest, owners: Vec<usize>, counts: Vec<usize>, known: Vec<Known>, open: Option<Open> }

impl<'a> Weigher<'a> {
    fn new(nest: &'a Nest, placement: &[usize]) -> Weigher<'a> {
        let owners = (0..nest.points.len()).map(|g| if g == 0 { 0 } else { nest.owner(g) }).collect();
        Weigher { nest, owners, counts: nest.counts(placement), known: Vec::new(), open: None }
    }

    /// The gaps of a loop, its own and those of the loops inside.
    fn range(&self, d: usize) -> std::ops::RangeInclusive<usize> { d + 1..=self.nest.end[d] }

    fn is_inside(&self, inner: usize, d: usize) -> bool { d < inner && inner < self.nest.end[d] }

    /// Begins a claim; false where it is of no loop.
    fn begin(&mut self, line: usize, (d, a, b): (usize, usize, usize)) -> bool {
        if self.nest.points.get(d) != Some(&DO) { return false }
        let without = |g: &usize| self.owners[*g] != d && self.counts[self.owners[*g]] == 0;
        let mut out: BTreeSet<usize> =
            self.range(d).filter(|g| self.nest.barred.contains(g) || without(g)).collect();
        self.known.iter().filter(|k| self.is_inside(k.d, d)).for_each(|k| out.extend(&k.excludes));
        let (named, empty) = (BTreeMap::new(), BTreeSet::new());
        self.open = Some(Open { line, d, a, b, out, sets: 0, named, empty });
        true
    }

    /// What is left of a step's set, where the step holds.
    fn left(&self, set: Set, by: Option<usize>) -> Option<BTreeSet<usize>> {
        let open = self.open.as_ref()?;
        let named: BTreeSet<usize> = match set {
            Set::Of(number) => self.nest.gaps(self.nest.dependences.get(number)?).into_iter().collect(),
            Set::From if open.a > 0 => (open.a..=self.nest.end[open.d]).collect(),
            Set::Upto if open.b > 0 => (open.d + 1..=open.b).collect(),
            _ => return None,
        };
        if !named.iter().all(|g| self.range(open.d).contains(g)) { return None }
        let mut left: BTreeSet<usize> = &(&named - &open.out) - &open.empty;
        if let Some(number) = by {
            let k = self.known.get(number).filter(|k| self.is_inside(k.d, open.d) && k.a > 0 && k.b > 0)?;
            left.retain(|g| !self.range(k.d).contains(g) || *g < k.a);
        }
        if left.iter().all(|&g| self.owners[g] == open.d) { Some(left) } else { None }
    }

    /// Takes a step that holds.
    fn take(&mut self, left: &BTreeSet<usize>, by: Option<usize>) {
        let none: BTreeSet<usize> = by.map_or(BTreeSet::new(), |number| {
            let k = &self.known[number];
            self.range(k.d).filter(|&g| g <= k.b).collect()
        });
        let open = self.open.as_mut().unwrap();
        left.iter().for_each(|&g| *open.named.entry(g).or_insert(0) += 1);
        if by.is_some() { open.empty.extend(none) } else { open.sets += 1; open.empty.clear() }
    }

    /// The most times that a gap was named, at least 1.
    fn most(&self) -> usize { self.open.as_ref().and_then(|o| o.named.values().max().copied()).unwrap_or(1) }

    /// Ends the claim that is open: 0, or its line where its steps do not show it.
    fn close(&mut self) -> usize {
        let most = self.most();
        let Some(Open { line, d, a, b, sets, named, .. }) = self.open.take() else { return 0 };
        let (low, wanted) = (a == 0 && b == 0, self.counts[d] * most);
        if if low { sets + most <= wanted } else { sets <= wanted } { return line }
        let excludes = |g: &usize| match (a, b) {
            (0, 0) => sets == wanted && self.owners[*g] == d && named.get(g).copied().unwrap_or(0) != most,
            (a, 0) => *g >= a,
            (0, b) => *g <= b,
            _ => false,
        };
        let excludes = self.range(d).filter(excludes).collect();
        self.known.push(Known { d, a, b, excludes });
        0
    }

    /// Whether a loop with a count has no low claim.
    fn lacks(&self) -> bool {
        let has = |d: usize| self.known.iter().any(|k| k.d == d && k.a == 0 && k.b == 0);
        self.nest.loops().into_iter().any(|d| self.counts[d] > 0 && !has(d))
    }
}

/// The first line that does not hold of a correct placement; 0 for none.
fn unheld(nest: &Nest, placement: &[usize], argument: &[Said]) -> usize {
    let (mut weigher, mut by) = (Weigher::new(nest, placement), None);
    for (i, said) in argument.iter().enumerate() {
        match *said {
            Said::Led(number) => by = Some(number),
            Said::Step(set) => {
                let Some(left) = weigher.left(set, by) else { return i + 1 };
                weigher.take(&left, by);
                by = None;
            }
            Said::Claim(d, a, b) => {
                let shown = weigher.close();
                if shown > 0 { return shown }
                if !weigher.begin(i + 1, (d, a, b)) { return i + 1 }
            }
        }
    }
    let shown = weigher.close();
    if shown > 0 { shown } else if weigher.lacks() { argument.len() + 1 } else { 0 }
}

/// Number, text and line for a placement: the faults of the argument, 2; then a placement that is not correct, 1; then
/// the line that does not hold, 2.
fn weighed(nest: &Nest, placement: &[usize], text: &[u8]) -> (u8, usize, usize) {
    match read_argument(text) {
        Err(r) => (r.number, 2, r.line),
        Ok(_) if nest.uncut(placement).is_some() => (UNHELD, 1, 0),
        Ok(argument) => match unheld(nest, placement, &argument) {
            0 => (0, 0, 0),
            line => (UNHELD, 2, line),
        },
    }
}

fn replied((number, text, line): (u8, usize, usize), lent: Vec<u8>) -> Reply {
    Reply { number, line, values: vec![text], lent }
}

/// What the call answers of the key: 10, 11, then as above.
pub fn answer(desk: &Desk, text: &[u8]) -> Reply {
    let told = match desk.fault(true) {
        0 => weighed(desk.nest.as_ref().unwrap(), desk.key(), text),
        fault => (fault, 0, 0),
    };
    replied(told, guarded(text))
}

/// Of a placement text: 10, the faults of the placement, 1, then as above. No key is wanted.
pub fn answer_placement(desk: &Desk, placement: &[u8], text: &[u8]) -> Reply {
    let told = match &desk.nest {
        None => (10, 0, 0),
        Some(nest) => match read_placement(nest, placement) {
            Err(r) => (r.number, 1, r.line),
            Ok(gaps) => weighed(nest, &gaps, text),
        },
    };
    replied(told, [guarded(placement), guarded(text)].concat())
}

/// What Argue answers with the argument that was heard: 10, 11, then 9 with the length that is wanted.
pub fn answer_argue(desk: &Desk, out: &[u8]) -> Reply {
    let text = desk.argument.as_deref().unwrap_or_default();
    let (number, values, lent) = write_text(desk.fault(true), text, out);
    Reply { number, line: 0, values: if number == 9 { vec![text.len()] } else { values }, lent }
}

/// The argument that the library gives of its desk's key, which must hold.
pub fn heard(nest: &Nest, key: &[usize], mut desk: host::Desk) -> Result<Vec<u8>, String> {
    let reply = asking::play(&mut desk, &Call::Argue(vec![7; PLENTY]));
    let told = (reply.number, reply.line, reply.values[0]);
    if (told.0, told.1) != (0, 0) || told.2 > PLENTY { return Err(format!("its argument: it replies {told:?}")) }
    let text = reply.lent[GUARD.len()..][..told.2].to_vec();
    match weighed(nest, key, &text) {
        (0, _, _) => Ok(text),
        (number, _, line) => Err(format!("its argument {} has {number} at line {line}", shown(&text))),
    }
}

/// The library's own answers.
pub fn play(desk: host::Desk, text: &[u8]) -> Reply {
    let (lent, length) = lend(text);
    let w = unsafe { host::desk_weigh(desk, lent[GUARD.len()..].as_ptr(), length) };
    replied((w.number, w.text as usize, w.line), lent)
}

pub fn play_placement(desk: host::Desk, placement: &[u8], text: &[u8]) -> Reply {
    let ((a, first), (b, second)) = (lend(placement), lend(text));
    let (one, two) = (a[GUARD.len()..].as_ptr(), b[GUARD.len()..].as_ptr());
    let w = unsafe { host::desk_weigh_placement(desk, one, first, two, second) };
    replied((w.number, w.text as usize, w.line), [a, b].concat())
}

// ---- Arguments to weigh

fn spelled(said: &Said) -> Vec<u8> {
    let two = |kind: u8, number: usize| line(&[kind, (number / 256) as u8, number as u8]);
    match *said {
        Said::Claim(d, a, b) => line(&[CLAIM, d as u8, a as u8, b as u8]),
        Said::Led(number) => two(LED, number),
        Said::Step(Set::Of(number)) => two(OF, number),
        Said::Step(Set::From) => line(&[FROM]),
        Said::Step(Set::Upto) => line(&[UPTO]),
    }
}

fn argument_text(argument: &[Said]) -> Vec<u8> { argument.iter().flat_map(spelled).collect() }

/// The steps of the claim that is open: what it supposes, then dependences in any order, each alone if it can be, else
/// led by a claim; none that would name a gap more than `most` times.
fn random_steps(random: &mut Random, weigher: &mut Weigher, most: usize) -> Vec<Said> {
    let mut steps = Vec::new();
    let (a, b) = weigher.open.as_ref().map_or((0, 0), |o| (o.a, o.b));
    let mut sets: Vec<Set> = (0..weigher.nest.dependences.len()).map(Set::Of).collect();
    (1..sets.len()).for_each(|i| sets.swap(i, random.below(i + 1)));
    let supposed = [(a, Set::From), (b, Set::Upto)].into_iter().filter(|s| s.0 > 0).map(|s| s.1);
    for set in supposed.chain(sets) {
        let led = (0..weigher.known.len()).filter(|&m| weigher.known[m].a > 0 && weigher.known[m].b > 0).map(Some);
        let ways: Vec<Option<usize>> = std::iter::once(None).chain(led).collect();
        let fits = |left: &BTreeSet<usize>| {
            let named = &weigher.open.as_ref().unwrap().named;
            left.iter().all(|g| named.get(g).copied().unwrap_or(0) < most)
        };
        let way = ways.into_iter().find_map(|by| weigher.left(set, by).filter(fits).map(|left| (by, left)));
        let Some((by, left)) = way else { continue };
        weigher.take(&left, by);
        steps.extend(by.map(Said::Led));
        steps.push(Said::Step(set));
    }
    steps
}

/// A claim with steps, which is kept if it holds, and at times if not.
fn add_claim(
    random: &mut Random, weigher: &mut Weigher, argument: &mut Vec<Said>, claim: (usize, usize, usize),
) -> bool {
    let most = random.pick(&[1, 1, 1, 2, 3]);
    weigher.begin(1, claim);
    let steps = random_steps(random, weigher, most);
    let holds = weigher.close() == 0;
    if holds || random.one_in(20) {
        argument.push(Said::Claim(claim.0, claim.1, claim.2));
        argument.extend(steps);
    }
    holds
}

/// An argument for a placement, loops from the inside out: claims that say more, then a low one, tried some times. It
/// mostly holds where no more than this is wanted and the placement is a key.
fn random_argument(random: &mut Random, nest: &Nest, placement: &[usize]) -> Vec<Said> {
    let (mut weigher, mut argument) = (Weigher::new(nest, placement), Vec::new());
    let mut loops = nest.loops();
    loops.sort_by_key(|&d| nest.end[d]);
    for d in loops {
        for _ in 0..random.pick(&[0, 1, 2, 6]) {
            let e = nest.end[d];
            let mut gap = || if random.one_in(2) { 0 } else { d + 1 + random.below(e - d) };
            let claim = (d, gap(), gap());
            if claim.1 + claim.2 > 0 { add_claim(random, &mut weigher, &mut argument, claim); }
        }
        let wanted = weigher.counts[d] > 0 || random.one_in(4);
        let tries = if wanted { 6 } else { 0 };
        let _ = (0..tries).any(|_| add_claim(random, &mut weigher, &mut argument, (d, 0, 0)));
    }
    argument
}

/// Another number, gap, loop or kind in a line, or a line moved, doubled or dropped.
fn altered(random: &mut Random, argument: &mut Vec<Said>, nest: &Nest) {
    if argument.is_empty() { return }
    let (i, j) = (random.below(argument.len()), random.below(argument.len()));
    let mut near = |n: usize| match random.below(6) {
        0 => n + 1,
        1 => n.saturating_sub(1),
        2 => random.below(nest.points.len() + 1),
        3 => random.pick(&[0, 1, 255, 256, 4095, 65535]),
        _ => n,
    };
    let byte = |n: usize| n.min(255);
    match argument[i] {
        Said::Claim(d, a, b) if i % 3 < 2 => argument[i] = Said::Claim(byte(near(d)), byte(near(a)), byte(near(b))),
        Said::Led(number) if i % 3 < 2 => argument[i] = Said::Led(near(number).min(65535)),
        Said::Step(Set::Of(number)) if i % 3 < 2 => argument[i] = Said::Step(Set::Of(near(number).min(65535))),
        _ => match random.below(4) {
            0 => argument.swap(i, j),
            1 => drop(argument.remove(i)),
            2 => argument.insert(i, argument[j]),
            _ => argument.insert(i, random.pick(&[Said::Step(Set::From), Said::Step(Set::Upto), Said::Led(0)])),
        },
    }
}

/// An argument text for a placement of the desk's nest: as drawn, altered, or with its bytes damaged.
pub fn random_text(random: &mut Random, desk: &Desk, placement: &[usize]) -> Vec<u8> {
    let Some(nest) = &desk.nest else { return words("31000000 34") };
    let mut argument = random_argument(random, nest, placement);
    if random.one_in(2) { (0..1 + random.below(3)).for_each(|_| altered(random, &mut argument, nest)) }
    let text = argument_text(&argument);
    if random.one_in(6) { damage(random, &text, nest.points.len()) } else { text }
}

/// The arguments of P, Q and R, Q's with a step more, for which nothing is known to be empty any longer; small papers
/// with arguments for their keys and for other placements, as drawn and altered.
pub fn arguments() -> Vec<Vec<Call>> {
    let more = format!("{FOR_Q} 330000");
    let told = [(P, FOR_P), (Q, FOR_Q), (Q, &more), (R, FOR_R)];
    let told = told.map(|(paper, argument)| vec![load(paper), Call::Plan, Call::Weigh(words(argument))]);
    let papers = (0..DRAWN).map(|case| {
        let random = &mut Random::new(33, case);
        let nest = if random.one_in(4) { small_barred(random) } else { small_nest(random) };
        (Random::new(34, case), nest)
    });
    let drawn = papers.filter(|(_, nest)| !nest.blocked());
    told.into_iter().chain(drawn.map(|(mut random, nest)| asked_of(&mut random, &nest))).collect()
}

fn asked_of(random: &mut Random, nest: &Nest) -> Vec<Call> {
    let key = search(nest).swap_remove(0);
    let argument = random_argument(random, nest, &key);
    let mut other = argument.clone();
    altered(random, &mut other, nest);
    let free = (1..nest.points.len()).filter(|g| !nest.barred.contains(g));
    let gaps: Vec<usize> = free.filter(|g| key.contains(g) != random.one_in(6)).collect();
    let own = random_argument(random, nest, &gaps);
    let (text, placement) = (argument_text(&argument), barrier_lines(&gaps));
    let room = vec![7; random.below(120)];
    vec![
        Call::Load(nest.text()), Call::Plan, Call::Weigh(text.clone()), Call::Weigh(argument_text(&other)),
        Call::WeighPlacement(placement.clone(), text), Call::WeighPlacement(placement, argument_text(&own)),
        Call::Argue(room),
    ]
}

/// Texts at the limits: as many claims as there may be, and steps, one more of each, a claim that leads from the far
/// end, and numbers that name nothing.
pub fn at_limits() -> Vec<Vec<Call>> {
    let empty = Said::Step(Set::From); // from beyond the loop on, so that nothing is left
    let (many, beyond) = (|said: &[Said], times: usize| said.repeat(times), Said::Claim(0, 255, 0));
    let stepped = |steps: &[Said], times: usize| [&[beyond][..], &many(steps, times)].concat();
    let inner = [Said::Claim(1, 255, 1), empty];
    let led = |number: usize| {
        let outer = [Said::Claim(0, 255, 0), Said::Led(number), empty, empty];
        [many(&inner, CLAIMS - 1), outer.to_vec()].concat()
    };
    let all = [
        many(&[beyond, empty], CLAIMS), many(&[beyond, empty], CLAIMS + 1), led(0), led(255), led(256),
        led(CLAIMS - 2), led(CLAIMS - 1), led(65535), stepped(&[empty], STEPS), stepped(&[empty], STEPS + 1),
        stepped(&[Said::Led(0), empty], STEPS), stepped(&[Said::Step(Set::Of(0))], 1),
        stepped(&[Said::Step(Set::Of(65535))], 1), stepped(&[empty, Said::Led(0)], 1),
    ];
    let asked = |paper: &str, argument: &Vec<Said>| {
        let text = argument_text(argument);
        vec![load(paper), Call::WeighPlacement(Vec::new(), text.clone()), Call::Plan, Call::Weigh(text)]
    };
    let papers = ["01 02", "01 01 02 02", "01 01 02 03 02"];
    all.iter().flat_map(|argument| papers.map(|paper| asked(paper, argument))).collect()
}

// ---- The self-check

const FOR_P: &str = "31010000 330000 31070000 330002";
const FOR_Q: &str = "31030000 330001 31030504 34 35 31000000 320001 330002 330000";
const FOR_R: &str = "31000000 330001 330002 330000";

pub fn check_arguing(checks: &mut Checks) {
    let held = |paper: &str, gaps: &[usize], argument: &str| {
        weighed(&read_nest(&words(paper)).unwrap(), gaps, &words(argument))
    };
    for (paper, gaps, argument, wanted) in [
        (P, &[5, 11][..], FOR_P, (0, 0, 0)), (P, &[3, 9, 13], FOR_P, (UNHELD, 2, 5)),
        (P, &[3, 9], FOR_P, (UNHELD, 1, 0)), (P, &[5, 11], "31010000 330000", (UNHELD, 2, 3)),
        (P, &[5, 11], "", (UNHELD, 2, 1)),
        (P, &[5, 11], "31010000 330000 31020000 330002", (UNHELD, 2, 3)), (P, &[4, 5, 11], FOR_P, (UNHELD, 2, 1)),
        (P, &[5, 11], "31010000 330006", (UNHELD, 2, 2)), (P, &[5, 11], "31010000 34", (UNHELD, 2, 2)),
        (P, &[5, 11], "31010000 330004", (UNHELD, 2, 2)), (P, &[5, 11], "31010000 320000 330000", (UNHELD, 2, 3)),
        (Q, &[2, 6], FOR_Q, (0, 0, 0)), (Q, &[4, 7], FOR_Q, (UNHELD, 2, 8)),
        (Q, &[2, 6], "31030000 330001 31000000 330002 330000", (UNHELD, 2, 4)),
        (Q, &[2, 6], &format!("{FOR_Q} 330000"), (UNHELD, 2, 10)),
        (R, &[1, 4], FOR_R, (0, 0, 0)), (R, &[1, 4], "31000000 330001 330002", (UNHELD, 2, 1)),
        (R, &[1, 4, 7], FOR_R, (UNHELD, 2, 1)),
        (P, &[], "zz", (1, 2, 1)), (P, &[], "310100", (2, 2, 1)), (P, &[], "330000", (4, 2, 1)),
        (P, &[], "31010000 320000", (4, 2, 3)), (P, &[], "31010000 320000 31010000", (4, 2, 3)),
        (P, &[], "31010000 320000 320000", (4, 2, 3)), (P, &[], "31010000 32", (2, 2, 2)), (P, &[], "36", (2, 2, 1)),
    ] {
        checks.that(&format!("{argument} of {gaps:?}: {paper}"), held(paper, gaps, argument) == wanted);
    }
    let many = |line: &str, times: usize| words(&format!("{line} ").repeat(times));
    let nest = read_nest(&words(P)).unwrap();
    let number = |text: Vec<u8>| { let w = weighed(&nest, &[], &text); (w.0, w.2) };
    checks.that("4,096 claims", number(many("31000000", CLAIMS)) == (UNHELD, 0));
    checks.that("4,097 claims", number(many("31000000", CLAIMS + 1)) == (5, CLAIMS + 1));
    checks.that("1,024 steps", number([words("31000000"), many("34", STEPS)].concat()) == (UNHELD, 0));
    checks.that("1,025 steps", number([words("31000000"), many("34", STEPS + 1)].concat()) == (5, STEPS + 2));
    let calls = [load(P), Call::Weigh(words(FOR_P)), Call::Plan, Call::Weigh(words(FOR_P)), Call::Weigh(words("31"))];
    checks.that("of the key", replies(&calls, 3) == [(0, 0, vec![]), (0, 0, vec![0]), (2, 1, vec![2])]);
    checks.that("no key", replies(&calls[..2], 1) == [(11, 0, vec![0])]);
    checks.that("no nest", replies(&calls[1..2], 1) == [(10, 0, vec![0])]);
    let of = |gaps: &str, argument: &str| {
        replies(&[load(P), Call::WeighPlacement(words(gaps), words(argument))], 1)[0].clone()
    };
    checks.that("without a key", of("2105 210b", FOR_P) == (0, 0, vec![0]));
    checks.that("the placement first", of("2105 210e", "31") == (8, 2, vec![1]) && of("2103", "31") == (2, 1, vec![2]));
    checks.that("not correct", of("2103 2109", FOR_P) == (UNHELD, 0, vec![1]));
    check_altered(checks, &[
        load(P), Call::Weigh(words(FOR_P)), Call::Plan, Call::Put(5), Call::Weigh(words(FOR_P)),
        Call::Weigh(words("31")), Call::Weigh(words(FOR_Q)), Call::WeighPlacement(words("21"), words(FOR_P)),
        Call::WeighPlacement(words("2103 2109 210d"), words(FOR_P)), Call::WeighPlacement(words("2105"), words(FOR_P)),
    ]);
    check_argue(checks);
    let mut found = [0; 2];
    for case in 0..6000 { check_sound(checks, &mut Random::new(31, case), &mut found) }
    checks.that("arguments among them that hold of keys, and that do not", found[1] > 1000 && found[0] > 1000);
}

/// P's argument in buffers of all lengths; the library's own is none of another placement, nor of another paper.
fn check_argue(checks: &mut Checks) {
    let (p, q) = (read_nest(&words(P)).unwrap(), read_nest(&words(Q)).unwrap());
    let (key, text) = (vec![5, 11], words(FOR_P));
    let (nest, argument) = (Some(p.clone()), Some(text.clone()));
    let desk = Desk { nest, key: Key::Known(key.clone()), argument, ..Desk::new() };
    for length in 0..text.len() + 2 {
        let (reply, out) = (desk.clone().play(&Call::Argue(vec![7; length])), vec![7; length]);
        let (number, lent) = if length < text.len() { (9, out) } else { (0, [&text, &out[text.len()..]].concat()) };
        let wanted = Reply { number, line: 0, values: vec![text.len()], lent: guarded(&lent) };
        checks.that(&format!("P's argument in {length} bytes"), reply == wanted);
    }
    let argue = |length: usize| Call::Argue(vec![7; length]);
    checks.that("argue, no nest", replies(&[argue(40)], 1) == [(10, 0, vec![0])]);
    checks.that("argue, no key", replies(&[load(P), argue(40)], 1) == [(11, 0, vec![0])]);
    let mut pair = Pair::new();
    [load(P), Call::Plan].iter().for_each(|call| drop(pair.make(call)));
    checks.that("an argument heard", pair.ours.argument == heard(&p, &key, pair.theirs).ok());
    checks.that("of another placement", heard(&p, &[3, 9, 13], pair.theirs).is_err());
    checks.that("of another paper", heard(&q, &[2, 6], pair.theirs).is_err());
    checks.that("before Plan", heard(&p, &key, host::Desk { planned: 0, ..pair.theirs }).is_err());
    let length = pair.ours.argument.map_or(0, |text| text.len());
    check_altered(checks, &[
        load(P), argue(40), Call::Plan, argue(length + 8), argue(length), argue(length - 1), argue(0), Call::Put(5),
        argue(length), Call::Over(true, None), argue(length),
    ]);
}

/// An argument that holds is one for a key: of a small nest the keys are searched for.
fn check_sound(checks: &mut Checks, random: &mut Random, found: &mut [usize; 2]) {
    let nest = if random.one_in(4) { small_barred(random) } else { small_nest(random) };
    if nest.blocked() { return }
    let keys = search(&nest);
    let free = (1..nest.points.len()).filter(|g| !nest.barred.contains(g));
    let any = free.filter(|_| random.one_in(2)).collect();
    let placement = if random.one_in(2) { keys[random.below(keys.len())].clone() } else { any };
    let mut argument = random_argument(random, &nest, &placement);
    if random.one_in(2) { (0..1 + random.below(3)).for_each(|_| altered(random, &mut argument, &nest)) }
    let holds = weighed(&nest, &placement, &argument_text(&argument)).0 == 0;
    found[holds as usize] += 1;
    let shows = format!("{} of {placement:?}: {}", shown(&argument_text(&argument)), shown(&nest.text()));
    checks.that(&shows, !holds || keys.contains(&placement));
}
