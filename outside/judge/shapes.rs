//! A paper told by calls: the shape of its nest, the gaps of a dependence, how the sitting stands; each by the words of
//! the rules, place by place.

use crate::asking::{Call, Reply};
use crate::desk::Desk;
use crate::desk_check::{check_altered, load, replies};
use crate::host::{self, words_of};
use crate::nests::*;
use crate::papers::*;
use crate::self_check::Checks;

/// A table of so many places, of which some have a number and the others 0.
fn table(places: usize, some: impl Iterator<Item = (usize, usize)>) -> Vec<usize> {
    let mut table = vec![0; places];
    some.for_each(|(place, number)| table[place] = number);
    table
}

/// "Strictly between that DO and its ENDDO."
fn depth(nest: &Nest, p: usize) -> usize { nest.loops().iter().filter(|&&d| d < p && p < nest.end[d]).count() }

/// 10, or the loop of each gap, the ENDDO of each DO, how many loops each point is inside.
pub fn shape(desk: &Desk) -> (u8, Vec<usize>) {
    let Some(nest) = &desk.nest else { return (10, vec![0; 3 * POINTS]) };
    let n = nest.points.len();
    let owners = table(POINTS, (1..n).map(|g| (g, nest.owner(g))));
    let ends = table(POINTS, nest.loops().into_iter().map(|d| (d, nest.end[d])));
    let depths = table(POINTS, (0..n).map(|p| (p, depth(nest, p))));
    (0, [owners, ends, depths].concat())
}

/// 10, then 6, or the gaps of a dependence, barred or not.
pub fn gaps(desk: &Desk, dependence: usize) -> (u8, Vec<usize>) {
    let Some(nest) = &desk.nest else { return (10, words_of(&[])) };
    let Some(x) = nest.dependences.get(dependence) else { return (6, words_of(&[])) };
    (0, words_of(&(1..nest.points.len()).filter(|&g| nest.has_gap(x, g)).collect::<Vec<_>>()))
}

/// 10, or the barriers, the count of each loop, the cuts of each dependence, and how many have none.
pub fn standing(desk: &Desk) -> (u8, Vec<usize>) {
    let Some(nest) = &desk.nest else { return (10, vec![0; host::WORDS + POINTS + DEPENDENCES + 1]) };
    let barriers: Vec<usize> = desk.sitting.iter().copied().collect();
    let counts = table(POINTS, nest.counts(&barriers).into_iter().enumerate());
    let cuts = desk.counts();
    let uncut = cuts.iter().filter(|&&many| many == 0).count();
    let cuts = table(DEPENDENCES, cuts.into_iter().enumerate());
    (0, [words_of(&barriers), counts, cuts, vec![uncut]].concat())
}

/// The library's own answers.
pub fn play_shape(desk: host::Desk) -> Reply {
    let host::Shape { number, line, owners, ends, depths } = unsafe { host::desk_shape(desk) };
    let values = [owners, ends, depths].concat().into_iter().map(usize::from).collect();
    Reply { number, line, values, lent: Vec::new() }
}

pub fn play_gaps(desk: host::Desk, dependence: usize) -> Reply { unsafe { host::desk_gaps(desk, dependence) }.into() }

pub fn play_standing(desk: host::Desk) -> Reply {
    let host::Standing { number, line, placement, counts, cuts, uncut } = unsafe { host::desk_standing(desk) };
    let words = placement.words.into_iter().map(|word| word as usize);
    let bytes = counts.into_iter().chain(cuts).map(usize::from);
    Reply { number, line, values: words.chain(bytes).chain([uncut]).collect(), lent: Vec::new() }
}

/// The dependence that is asked for: mostly one of the nest's, else the first that is none, or a large number that
/// would be one if only its low bits were read.
pub fn random_dependence(random: &mut Random, desk: &Desk) -> usize {
    let many = desk.nest.as_ref().map_or(0, |nest| nest.dependences.len());
    match random.below(8) {
        0 => random.pick(&[many, many + 1, 511, 512, usize::MAX]),
        1 => random.below(many.max(1)) + (1 << random.pick(&[8, 9, 16, 32, 63])),
        2 => many.saturating_sub(1),
        _ => random.below(many.max(1)),
    }
}

/// What is asked of a paper: its shape, the gaps of some dependences, and how a sitting stands with some gaps put.
fn asks(nest: &Nest, dependences: &[usize], puts: impl Iterator<Item = usize>) -> Vec<Call> {
    let gaps = dependences.iter().map(|&number| Call::Gaps(number));
    let asked = [Call::Load(nest.text()), Call::Shape].into_iter().chain(gaps);
    asked.chain(puts.map(Call::Put)).chain([Call::Standing]).collect()
}

/// Of every small nest, with a barrier in every other gap; of full-size papers, from one loop to loops 8 deep, and of a
/// loop of 256 points with a barrier in every gap and a dependence that has them all.
pub fn every_ask() -> Vec<Vec<Call>> {
    let full = |depth| full_nest(&mut Random::new(15, depth), depth);
    let mut ring = random_points(&mut Random::new(16, 0), POINTS, 1);
    ring.dependences.push(Dependence { kind: CARRIED, d: 0, s: 1, t: 1 });
    let small = (2..=SMALLEST).flat_map(every_shape);
    let mut all: Vec<Vec<Call>> = small.map(|nest| asks(&nest, &[], (1..nest.points.len()).step_by(2))).collect();
    all.extend((1..=DEPTH).map(|depth| asks(&full(depth), &[0, 255, 256, 511, 512], [1, 64, 255].into_iter())));
    all.push(asks(&ring, &[0, 1], 1..POINTS));
    all
}

// ---- The self-check

/// P is loop 0 with the loops 1 to 6 and 7 to 12 in it.
pub fn check_shapes(checks: &mut Checks) {
    let asked = |call: Call| replies(&[load(P), Call::Put(5), Call::Put(13), call], 1)[0].clone();
    let (_, _, shape) = asked(Call::Shape);
    checks.that("P's owners", shape[..15] == [0, 0, 1, 1, 1, 1, 1, 0, 7, 7, 7, 7, 7, 0, 0]);
    checks.that("P's ends", shape[256..270] == [13, 6, 0, 0, 0, 0, 0, 12, 0, 0, 0, 0, 0, 0]);
    checks.that("P's depths", shape[512..526] == [0, 1, 2, 2, 2, 2, 1, 1, 2, 2, 2, 2, 1, 0]);
    checks.that("P's first gaps", asked(Call::Gaps(0)) == (0, 0, words_of(&[3, 4, 5])));
    checks.that("P's gaps round the loop", asked(Call::Gaps(4)) == (0, 0, words_of(&[1, 2, 11, 12, 13])));
    checks.that("P has no dependence 6", asked(Call::Gaps(6)) == (6, 0, words_of(&[])));
    let barred = replies(&[load("01 03 03 02 110002 1301 1302"), Call::Gaps(0)], 1)[0].clone();
    checks.that("barred gaps too", barred == (0, 0, words_of(&[1, 2])));
    let (_, _, standing) = asked(Call::Standing);
    checks.that("P's barriers", standing[..4] == words_of(&[5, 13])[..]);
    checks.that("P's counts", standing[4..12] == [1, 1, 0, 0, 0, 0, 0, 0]);
    checks.that("P's cuts", standing[260..267] == [1, 1, 0, 0, 1, 1, 0] && standing[772] == 2);
    let none = replies(&[Call::Shape, Call::Gaps(0), Call::Standing], 3);
    checks.that("no nest", none.iter().all(|reply| reply.0 == 10 && reply.1 == 0 && reply.2.iter().all(|&v| v == 0)));
    for text in [P, "01 04 03 02 03 02 12010202 12000404", "01 03 03 02 110002 12000202 1301"] {
        let script = [load(text), Call::Shape, Call::Gaps(0), Call::Gaps(1), Call::Gaps(6), Call::Put(2)];
        let rest = [Call::Standing, Call::TakeBack, Call::Standing, Call::Plan, Call::Shape];
        check_altered(checks, &[&script[..], &rest].concat());
    }
}
