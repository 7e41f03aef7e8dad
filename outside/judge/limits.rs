//! Papers at the limits: what shows only with the 512th dependence, the 128th loop, the place of a record that no byte
//! holds, more calls than 32 bits hold, or hundreds of barriers that cut one dependence.

use crate::asking::{Call, Reply};
use crate::host::words_of;
use crate::nests::*;
use crate::order::search;
use crate::papers::*;
use crate::runs::TURNS;
use crate::scripts::Pair;
use crate::self_check::Checks;
use crate::skipping;
use crate::slips::slip_length;
use crate::texts::{barrier_lines, read_nest, take_point};

/// How many papers are drawn for each limit.
const DRAWN: usize = 6;

/// Scripts for every limit.
pub fn at_limits() -> Vec<Vec<Call>> {
    let drawn = (0..DRAWN).flat_map(|case| {
        let random = &mut Random::new(17, case);
        [long_list(random), deep_runs(random), full_sitting(random), last_dependence(random), most_loops(random)]
    });
    drawn.chain(last_flagged()).collect()
}

/// An independent dependence.
fn line(s: usize, t: usize) -> Dependence { Dependence { kind: INDEPENDENT, d: 0, s, t } }

/// More records than a byte counts that the key cuts, then one that it does not; the same with a faulty one there.
fn long_list(random: &mut Random) -> Vec<Call> {
    loop {
        let nest = small_nest(random);
        let key = search(&nest).swap_remove(0);
        let lines = (0..nest.points.len()).flat_map(|t| (0..t).map(move |s| line(s, t)));
        let valid = lines.filter(|x| nest.fault(x).is_none());
        let (cut, uncut): (Vec<_>, Vec<_>) = valid.partition(|x| key.iter().any(|&g| nest.has_gap(x, g)));
        if cut.is_empty() || uncut.is_empty() { continue }
        let record = |x: Dependence| [x.kind, 0, x.s as u8, x.t as u8];
        let before = random.pick(&[255, 256, 299, 511, 512, 700]);
        let mut list: Vec<[u8; 4]> = (0..before).map(|_| record(random.pick(&cut))).collect();
        let faulty = [&list[..], &[[BARRED, 0, 0, 1]]].concat();
        list.push(record(random.pick(&uncut)));
        list.extend((0..3).map(|_| record(random.pick(&uncut))));
        return vec![Call::Load(nest.text()), Call::Plan, Call::List(list.concat()), Call::List(faulty.concat())];
    }
}

/// Loops 7 or 8 deep with a line over each gap of the innermost, and 16 turns, at times 15 in one loop: 8 deep a
/// barrier has more calls than 32 bits hold, 7 deep some dozens have.
fn deep_runs(random: &mut Random) -> Vec<Call> {
    let (depth, statements) = (DEPTH - random.below(2), 20 + random.below(100));
    let mut nest = Nest::default();
    let points = [vec![DO; depth], vec![STATEMENT; statements], vec![ENDDO; depth]].concat();
    points.into_iter().for_each(|kind| take_point(&mut nest, kind).unwrap());
    nest.dependences = (depth - 1..depth + statements).map(|s| line(s, s + 1)).collect();
    let mut turns = vec![TURNS; depth];
    if random.one_in(2) { turns[random.below(depth)] -= 1 }
    let every = barrier_lines(&(1..nest.points.len()).collect::<Vec<_>>());
    let fewer = Call::PlacementCalls(every, turns.clone());
    vec![Call::Load(nest.text()), Call::Plan, Call::CountCalls(turns.clone()), fewer, Call::Improve(turns, 3)]
}

/// A loop of 256 points with a dependence over every gap and one over most: a barrier into each gap, then out of each.
fn full_sitting(random: &mut Random) -> Vec<Call> {
    let mut nest = random_points(random, POINTS, 1);
    let (s, t) = (1 + random.below(20), POINTS - 1 - random.below(20));
    nest.dependences = vec![line(0, POINTS - 1), line(s, t), Dependence { kind: CARRIED, d: 0, s: t - 1, t: s }];
    let mut gaps: Vec<usize> = (1..POINTS).collect();
    let mut shuffle = |gaps: &mut Vec<usize>| (1..gaps.len()).for_each(|i| gaps.swap(i, random.below(i + 1)));
    shuffle(&mut gaps);
    let puts: Vec<Call> = gaps.iter().map(|&g| Call::Put(g)).collect();
    shuffle(&mut gaps);
    let lifts = gaps.iter().map(|&g| Call::Lift(g));
    [Call::Load(nest.text())].into_iter().chain(puts).chain([Call::Standing]).chain(lifts).collect()
}

/// A nest with 512 dependences, of which the last shares no gap with the others: a placement in all gaps but its own
/// cuts the others alone.
fn last_dependence(random: &mut Random) -> Vec<Call> {
    loop {
        let mut nest = small_nest(random);
        nest.flagged.clear();
        let Some(last) = nest.dependences.last().copied() else { continue };
        let apart = |x: &Dependence| !nest.gaps(x).iter().any(|&g| nest.has_gap(&last, g));
        let others: Vec<Dependence> = nest.dependences.iter().copied().filter(apart).collect();
        if others.is_empty() { continue }
        let others_gaps = (1..nest.points.len()).filter(|&g| !nest.has_gap(&last, g)).collect::<Vec<_>>();
        nest.dependences = filled(&others, last);
        let (text, turns) = (barrier_lines(&others_gaps), vec![1; nest.loops().len()]);
        let slip = |examiner| Call::Slip(examiner, text.clone(), vec![7; slip_length(&nest, examiner)]);
        let moves = others_gaps.iter().map(|&g| Call::Put(g));
        let asked = [Call::Mark(text.clone()), slip(false), slip(true), Call::Gaps(DEPENDENCES - 1)];
        let begun = [Call::Load(nest.text()), Call::Plan, Call::Improve(turns, 100)];
        return begun.into_iter().chain(asked).chain(moves).chain([Call::Standing]).collect();
    }
}

/// The papers with flagged loops, each with its other dependences so often that the last is the 512th.
fn last_flagged() -> impl Iterator<Item = Vec<Call>> {
    skipping::PAPERS.iter().map(|paper| {
        let mut nest = read_nest(&words(paper.0)).unwrap();
        let (last, others) = nest.dependences.split_last().unwrap();
        nest.dependences = filled(others, *last);
        let relied = Call::ReliedOn(barrier_lines(paper.1), DEPENDENCES - 1);
        vec![Call::Load(nest.text()), Call::Plan, Call::MissingRuns, relied, Call::OneEnd(DEPENDENCES - 1)]
    })
}

/// Some dependences again and again, and one as the 512th.
fn filled(others: &[Dependence], last: Dependence) -> Vec<Dependence> {
    others.iter().copied().cycle().take(DEPENDENCES - 1).chain([last]).collect()
}

/// 256 points and no statement, so that there are 128 loops: slips with just enough room, and with less.
fn most_loops(random: &mut Random) -> Vec<Call> {
    let mut nest = Nest::default();
    let deepest = 2 + random.below(DEPTH - 1);
    while !nest.closed() {
        let (left, open) = (POINTS - nest.points.len(), nest.open.len());
        let opens = open < deepest && left > open && (open < 2 || random.one_in(2));
        take_point(&mut nest, if opens { DO } else { ENDDO }).unwrap();
    }
    add_dependences(random, &mut nest, 40, 8);
    let text = barrier_lines(&(1..POINTS).filter(|_| random.one_in(2)).collect::<Vec<_>>());
    let mut slips = Vec::new();
    for examiner in [false, true] {
        for short in [0, 1, 2 + random.below(6), 7] {
            slips.push(Call::Slip(examiner, text.clone(), vec![9; slip_length(&nest, examiner) - short]));
        }
    }
    let last = *nest.loops().last().unwrap();
    let turns: Vec<u8> = nest.loops().iter().map(|_| 2 + random.below(15) as u8).collect();
    let asked = [Call::Count(last), Call::Shape, Call::Standing, Call::CountCalls(turns)];
    let begun = [Call::Load(nest.text()), Call::Plan, Call::Compare(text, Vec::new())];
    begun.into_iter().chain(slips).chain(asked).collect()
}

// ---- The self-check

/// Each script comes to its limit.
pub fn check_limits(checks: &mut Checks) {
    for case in 0..DRAWN {
        let random = &mut Random::new(17, case);
        let listed = replies(&long_list(random));
        checks.that("an uncut record behind 255 others", listed[2].number == 0 && listed[2].values[0] > 255);
        checks.that("a faulty record behind 255 others", listed[3].number == 2 && listed[3].line > 255);
        let runs = replies(&deep_runs(random));
        checks.that("more calls than 32 bits hold", runs[2..].iter().all(|r| r.number == 0));
        checks.that("the key's are", runs[2].values[0] > u32::MAX as usize);
        checks.that("the floor is", runs[4].values.last().unwrap() > &(u32::MAX as usize));
        let sitting = full_sitting(random);
        let full = sitting.iter().position(|call| *call == Call::Standing) == Some(POINTS);
        checks.that("a barrier in every gap", full && replies(&sitting).iter().all(|r| r.number == 0));
        let marked = replies(&last_dependence(random));
        checks.that("the 512th alone is uncut", marked[3].values == [0, DEPENDENCES - 1, 0, 0]);
        let loops = replies(&most_loops(random));
        checks.that("128 loops", loops[3].values == [7 + 7 * POINTS / 2] && loops[4].number == 9);
    }
    let asked: Vec<Reply> = last_flagged().map(|calls| replies(&calls).swap_remove(2)).collect();
    let listed = asked.iter().zip(skipping::PAPERS).all(|(r, paper)| r.values == words_of(paper.2));
    checks.that("flagged loops as with one dependence each", listed);
}

/// What both desks reply to calls.
fn replies(calls: &[Call]) -> Vec<Reply> {
    let mut pair = Pair::new();
    calls.iter().map(|call| pair.make(call).unwrap()).collect()
}
