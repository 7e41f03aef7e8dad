//! Fewer calls where loops run once (02, job 13), by the words of the job: the tries from the key, and the floor.

use crate::asking::{guarded, lend, Call, Reply, GUARD};
use crate::desk::Desk;
use crate::desk_check::{check_altered, load, replies};
use crate::host::{self, words_of, WORDS};
use crate::nests::*;
use crate::order::{correct_placements, gap_list, search};
use crate::papers::*;
use crate::runs::{calls, every_turns, passes, turns_fit, ONCE};
use crate::self_check::Checks;
use crate::texts::{read_nest, shown};

const ROUND: usize = 0;
const BUDGET: usize = 1;

/// Where the tries lead, how many there were, and what ended them.
#[derive(Debug, PartialEq)]
pub struct Tried { pub gaps: Vec<usize>, pub tries: usize, pub ended: usize }

/// A paper with its turns: the gaps of each dependence as bits, and how often each gap is passed.
struct Search<'a> { nest: &'a Nest, gaps: Vec<[u64; WORDS]>, passes: Vec<u64> }

fn bits(gaps: &[usize]) -> [u64; WORDS] {
    let mut bits = [0; WORDS];
    gaps.iter().for_each(|g| bits[g / 64] |= 1 << (g % 64));
    bits
}

impl Search<'_> {
    fn new<'a>(nest: &'a Nest, turns: &[u8]) -> Search<'a> {
        let gaps = nest.dependences.iter().map(|x| bits(&nest.gaps(x))).collect();
        Search { nest, gaps, passes: (0..nest.points.len()).map(|g| passes(nest, turns, g)).collect() }
    }

    fn calls(&self, placement: &[usize]) -> u64 { placement.iter().map(|&g| self.passes[g]).sum() }

    fn is_correct(&self, placement: &[usize]) -> bool {
        let has = bits(placement);
        self.gaps.iter().all(|x| (0..WORDS).any(|i| x[i] & has[i] != 0))
    }

    /// A barrier is put at g; then each other barrier goes, in rising order, without which the rest is still correct.
    fn try_at(&self, current: &[usize], g: usize) -> Vec<usize> {
        let mut gaps = [current, &[g]].concat();
        gaps.sort();
        for h in current {
            let rest: Vec<usize> = gaps.iter().copied().filter(|g| g != h).collect();
            if self.is_correct(&rest) { gaps = rest }
        }
        gaps
    }

    /// The first try of a round with fewer calls is taken, and the round begins anew.
    fn from_key(&self, key: &[usize], budget: usize) -> Tried {
        let (mut current, mut tries) = (key.to_vec(), 0);
        'rounds: loop {
            let free: Vec<usize> = (1..self.nest.points.len()).filter(|g| !current.contains(g)).collect();
            for g in free {
                if tries == budget { return Tried { gaps: current, tries, ended: BUDGET } }
                tries += 1;
                let tried = self.try_at(&current, g);
                if self.calls(&tried) < self.calls(&current) { current = tried; continue 'rounds }
            }
            return Tried { gaps: current, tries, ended: ROUND };
        }
    }

    /// Of the dependences in order, each that shares no gap with those taken: the calls of its cheapest gap.
    fn floor(&self) -> u64 {
        let (mut taken, mut floor) = (vec![false; self.nest.points.len()], 0);
        for x in &self.nest.dependences {
            let gaps = self.nest.gaps(x);
            if gaps.iter().any(|&g| taken[g]) { continue }
            floor += gaps.iter().map(|&g| self.passes[g]).min().unwrap();
            gaps.into_iter().for_each(|g| taken[g] = true);
        }
        floor
    }
}

pub fn improve(nest: &Nest, turns: &[u8], key: &[usize], budget: usize) -> Tried {
    Search::new(nest, turns).from_key(key, budget)
}

pub fn floor(nest: &Nest, turns: &[u8]) -> u64 { Search::new(nest, turns).floor() }

/// What the call answers: 10, then 11, then 17 with turns from 1; or the placement, its calls, the tries, what ended
/// them, and the floor.
pub fn answer(desk: &Desk, turns: &[u8], budget: usize) -> Reply {
    let reply = |number, gaps: &[usize], rest: [usize; 4]| {
        Reply { number, line: 0, values: [words_of(gaps), rest.to_vec()].concat(), lent: guarded(turns) }
    };
    let fault = desk.fault(true);
    let Some(nest) = desk.nest.as_ref().filter(|_| fault == 0) else { return reply(fault, &[], [0; 4]) };
    if !turns_fit(nest, turns, 1) { return reply(17, &[], [0; 4]) }
    let search = Search::new(nest, turns);
    let Tried { gaps, tries, ended } = search.from_key(desk.key(), budget);
    reply(0, &gaps, [search.calls(&gaps) as usize, tries, ended, search.floor() as usize])
}

/// The library's own answer.
pub fn play(desk: host::Desk, turns: &[u8], budget: usize) -> Reply {
    let (lent, length) = lend(turns);
    let i = unsafe { host::desk_improve(desk, lent[GUARD.len()..].as_ptr(), length, budget) };
    let gaps = i.placement.words.iter().map(|&word| word as usize);
    let rest = [i.calls as usize, i.tries, i.ended as usize, i.floor as usize];
    Reply { number: i.number, line: i.line, values: gaps.chain(rest).collect(), lent }
}

/// None, few, about a round, or more than are ever used, in part large numbers whose low bits are few; on large papers
/// about a round at most, since this reading takes its time there.
pub fn random_budget(random: &mut Random, points: usize) -> usize {
    let about = random.below(2 * points.min(SEARCHED) + 1);
    if points > SEARCHED { return random.pick(&[0, 1, 2, about, points]) }
    random.pick(&[0, 1, 2, 3, about, about, points, 1 << 32, 1 << 63, usize::MAX])
}

/// Every small budget of a small paper with turns of 1 and 2, and one that is never used up.
pub fn improvements(nest: &Nest) -> Vec<Call> {
    let all = every_turns(nest.loops().len(), 1, 2).into_iter();
    let budgets = [0, 1, 2, 3, nest.points.len(), usize::MAX];
    all.flat_map(|turns| budgets.map(|budget| Call::Improve(turns.clone(), budget))).collect()
}

// ---- The self-check

pub fn check_improving(checks: &mut Checks) {
    let once = read_nest(&words(ONCE)).unwrap();
    let tried = |gaps: &[usize], tries, ended| Tried { gaps: gaps.to_vec(), tries, ended };
    for (budget, wanted) in [
        (0, tried(&[2, 7], 0, BUDGET)), (1, tried(&[2, 7], 1, BUDGET)), (2, tried(&[2, 7], 2, BUDGET)),
        (3, tried(&[4], 3, BUDGET)), (9, tried(&[4], 9, BUDGET)), (10, tried(&[4], 10, ROUND)),
        (11, tried(&[4], 10, ROUND)), (usize::MAX, tried(&[4], 10, ROUND)),
    ] {
        checks.that(&format!("a budget of {budget}"), improve(&once, &[1, 1], &[2, 7], budget) == wanted);
    }
    checks.that("its calls and its floor", calls(&once, &[1, 1], &[4]) == 1 && floor(&once, &[1, 1]) == 1);
    checks.that("as many calls are not taken", improve(&once, &[1, 2], &[2, 7], 99) == tried(&[2, 7], 6, ROUND));
    checks.that("its floor with two turns", floor(&once, &[1, 2]) == 1 && floor(&once, &[3, 2]) == 3);
    let full = read_nest(&words("01 03 02 110001 110102")).unwrap();
    checks.that("no gap is free", improve(&full, &[1], &[1, 2], 0) == tried(&[1, 2], 0, ROUND));
    checks.that("two that share no gap", floor(&full, &[5]) == 10);
    let asked = |text: &str, turns: &[u8], budget| {
        replies(&[load(text), Call::Plan, Call::Improve(turns.to_vec(), budget)], 1)[0].clone()
    };
    let given = |gaps: &[usize], rest: [usize; 4]| (0, 0, [words_of(gaps), rest.to_vec()].concat());
    let refused = |number| (number, 0, vec![0; 8]);
    checks.that("the worked nest", asked(ONCE, &[1, 1], 10) == given(&[4], [1, 10, ROUND, 1]));
    checks.that("one try short", asked(ONCE, &[1, 1], 9) == given(&[4], [1, 9, BUDGET, 1]));
    checks.that("the bounds", asked(ONCE, &[16, 16], 0) == given(&[2, 7], [32, 0, BUDGET, 16]));
    for turns in [&[][..], &[1], &[1, 1, 1], &[0, 1], &[17, 1], &[1, 0], &[1, 17], &[255, 255]] {
        checks.that(&format!("17 for {turns:?}"), asked(ONCE, turns, 5) == refused(17));
    }
    for text in ["04 03 02 110001", "01 03 02 1301"] {
        checks.that(&format!("17 for {text}"), asked(text, &[1], 5) == refused(17));
    }
    checks.that("10 before 17", asked("02", &[0], 5) == refused(10));
    let unplanned = [load("01 04 02 02"), Call::Improve(vec![0], 5)];
    checks.that("11 before 17", replies(&unplanned, 1)[0] == refused(11));
    let call = |turns: &[u8], budget| Call::Improve(turns.to_vec(), budget);
    let script = [load(ONCE), call(&[1, 1], 5), Call::Plan, call(&[1, 1], 5), call(&[1, 1], 99), call(&[1], 5)];
    check_altered(checks, &script);
    (0..200).for_each(|case| check_random(checks, &mut Random::new(19, case)));
}

/// On a small paper, with turns from 1 to 3: each budget leads to a correct placement, takes no more tries than it has,
/// and a larger one to no more calls; no correct placement has fewer calls than the floor. Where every inner loop has
/// two turns the key stays.
fn check_random(checks: &mut Checks, random: &mut Random) {
    let nest = small_nest(random);
    let (n, shows) = (nest.points.len(), shown(&nest.text()));
    let turns: Vec<u8> = nest.loops().iter().map(|_| 1 + random.below(3) as u8).collect();
    let (search, key) = (Search::new(&nest, &turns), search(&nest).swap_remove(0));
    let correct: Vec<Vec<usize>> = correct_placements(&nest).into_iter().map(gap_list).collect();
    let fewest = correct.iter().map(|gaps| search.calls(gaps)).min().unwrap();
    checks.that(&format!("the floor, turns {turns:?}: {shows}"), search.floor() <= fewest);
    let whole = search.from_key(&key, usize::MAX);
    let mut before = search.calls(&key);
    let budgets = (0..whole.tries + 2).all(|budget| {
        let found = search.from_key(&key, budget);
        let cost = search.calls(&found.gaps);
        let ended = if budget < whole.tries { (budget, BUDGET) } else { (whole.tries, ROUND) };
        let holds = correct.contains(&found.gaps) && cost <= before && (found.tries, found.ended) == ended;
        before = cost;
        holds
    });
    checks.that(&format!("every budget, turns {turns:?}: {shows}"), budgets && fewest <= before);
    let better = |g: usize| search.calls(&search.try_at(&whole.gaps, g)) < before;
    let left = (1..n).any(|g| !whole.gaps.contains(&g) && better(g));
    checks.that(&format!("no try is left, turns {turns:?}: {shows}"), !left);
    if turns[1..].iter().all(|&t| t > 1) { checks.that(&format!("the key stays: {shows}"), whole.gaps == key) }
}
