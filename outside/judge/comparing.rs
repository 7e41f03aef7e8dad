//! Two placement texts held beside each other: which placement is as good or better than the other and which loops
//! decide, by the trees of 001's definition 1, and which text is at fault.

use crate::asking::{guarded, lend, Call, Reply, GUARD};
use crate::desk::Desk;
use crate::desk_check::{check_altered, load, replies};
use crate::host::{self, words_of};
use crate::nests::*;
use crate::order::{as_good, gap_list, tree, Tree};
use crate::papers::*;
use crate::self_check::{as_good_loop_by_loop, Checks};
use crate::texts::{barrier_lines, read_nest, read_placement, shown};

/// Whether the first tree is as good or better than the second, and the second than the first.
fn weighed(nest: &Nest, a: &[usize], b: &[usize]) -> [bool; 2] {
    let (t, u) = (tree(nest, 0, &nest.counts(a)), tree(nest, 0, &nest.counts(b)));
    [as_good(&t, &u), as_good(&u, &t)]
}

/// The roots of the smallest subtrees that differ, by their DOs: where the trees under two roots are equal the roots'
/// counts decide, else those trees do.
fn deciding(t: &Tree, u: &Tree, dos: &mut impl Iterator<Item = usize>) -> Vec<usize> {
    let d = dos.next().unwrap();
    let inside: Vec<usize> = t.inside.iter().zip(&u.inside).flat_map(|(a, b)| deciding(a, b, dos)).collect();
    if t.inside == u.inside && t.count != u.count { vec![d] } else { inside }
}

/// The loops that decide between two placements, rising.
fn decided(nest: &Nest, a: &[usize], b: &[usize]) -> Vec<usize> {
    let (t, u) = (tree(nest, 0, &nest.counts(a)), tree(nest, 0, &nest.counts(b)));
    deciding(&t, &u, &mut nest.loops().into_iter())
}

/// Both of two texts, or the number with the text at fault and its line: the faults of the first, then those of the
/// second.
fn compared(nest: &Nest, a: &[u8], b: &[u8]) -> Result<([bool; 2], Vec<usize>), (u8, usize, usize)> {
    let read = |which, text| read_placement(nest, text).map_err(|r| (r.number, which, r.line));
    let (a, b) = (read(1, a)?, read(2, b)?);
    Ok((weighed(nest, &a, &b), decided(nest, &a, &b)))
}

/// What the call answers: 10, then as above. No key is wanted.
pub fn answer(desk: &Desk, a: &[u8], b: &[u8]) -> Reply {
    let reply = |number, line, values: [usize; 3], loops: &[usize]| {
        let values = [values.to_vec(), words_of(loops)].concat();
        Reply { number, line, values, lent: [guarded(a), guarded(b)].concat() }
    };
    let Some(nest) = &desk.nest else { return reply(10, 0, [0; 3], &[]) };
    match compared(nest, a, b) {
        Err((number, which, line)) => reply(number, line, [which, 0, 0], &[]),
        Ok(([first, second], loops)) => reply(0, 0, [0, first as usize, second as usize], &loops),
    }
}

/// The library's own answer.
pub fn play(desk: host::Desk, a: &[u8], b: &[u8]) -> Reply {
    let ((a, first), (b, second)) = (lend(a), lend(b));
    let (one, two) = (a[GUARD.len()..].as_ptr(), b[GUARD.len()..].as_ptr());
    let c = unsafe { host::desk_compare(desk, one, first, two, second) };
    let values = [c.text, c.first, c.second].map(|value| value as usize).to_vec();
    let loops = c.deciding.words.map(|word| word as usize).to_vec();
    Reply { number: c.number, line: c.line, values: [values, loops].concat(), lent: [a, b].concat() }
}

/// Every placement of a small nest.
fn every_placement(nest: &Nest) -> Vec<Vec<usize>> {
    (0..1u32 << (nest.points.len() - 1)).map(|bits| gap_list(bits << 1)).collect()
}

/// Every two placements of a nest, a script for each first one.
pub fn comparisons(nest: &Nest) -> Vec<Vec<Call>> {
    let texts: Vec<Vec<u8>> = every_placement(nest).iter().map(|gaps| barrier_lines(gaps)).collect();
    let beside = |a: &Vec<u8>| texts.iter().map(|b| Call::Compare(a.clone(), b.clone())).collect::<Vec<_>>();
    texts.iter().map(|a| [vec![Call::Load(nest.text())], beside(a)].concat()).collect()
}

// ---- The self-check

pub fn check_comparing(checks: &mut Checks) {
    let all: [(&str, &[usize], &[usize], [bool; 2], &[usize]); 11] = [
        (P, &[5, 11], &[3, 9, 13], [true, false], &[0]), (P, &[5, 11], &[5, 10, 11], [true, false], &[7]),
        (P, &[4, 5, 11], &[5, 10, 11], [false, false], &[1, 7]),
        (P, &[4, 5, 11, 13], &[5, 10, 11], [false, false], &[1, 7]), // loop 0 is not looked at
        (P, &[4, 5, 10, 11], &[5, 11], [false, true], &[1, 7]),
        (P, &[3, 9], &[5, 11], [true, true], &[]), (P, &[], &[13], [true, false], &[0]),
        (P, &[], &[], [true, true], &[]),
        (Q, &[2, 6], &[4, 7], [true, false], &[2]), // one more outside, one fewer inside
        (Q, &[1, 2, 9], &[4], [true, false], &[3]), (Q, &[2, 3], &[4, 7, 8], [true, false], &[3]),
    ];
    for (text, a, b, wanted, loops) in all {
        let nest = read_nest(&words(text)).unwrap();
        let held = weighed(&nest, a, b) == wanted && decided(&nest, a, b) == loops;
        checks.that(&format!("{a:?} beside {b:?}: {text}"), held);
        let turned = weighed(&nest, b, a) == [wanted[1], wanted[0]] && decided(&nest, b, a) == loops;
        checks.that(&format!("{b:?} beside {a:?}: {text}"), turned);
    }
    check_calls(checks);
    let neither = (2..=SMALLEST).flat_map(every_shape).map(|nest| check_every(checks, &nest)).sum::<usize>();
    checks.that("placements among them that cannot be compared", neither > 100);
    (0..40).for_each(|case| check_full(checks, &mut Random::new(21, case)));
}

fn check_calls(checks: &mut Checks) {
    let call = |a: &str, b: &str| Call::Compare(words(a), words(b));
    let asked = |paper: &str, a: &str, b: &str| replies(&[load(paper), call(a, b)], 1)[0].clone();
    checks.that("without a key", asked(P, "2105 210b", "2103 2109 210d") == (0, 0, vec![0, 1, 0, 1, 0, 0, 0]));
    let both = asked(P, "2104 2105 210b", "2105 210a 210b");
    checks.that("two loops decide", both == (0, 0, vec![0, 0, 0, 1 << 1 | 1 << 7, 0, 0, 0]));
    let (one, blocked) = ("01 03 03 02 1301", "01 03 02 110001 1301");
    checks.that("a blocked paper", asked(blocked, "2102", "") == (0, 0, vec![0, 0, 1, 1, 0, 0, 0]));
    for (paper, a, b, number, which, line) in [
        ("02", "zz", "zz", 10, 0, 0), (P, "2105 zz", "21", 1, 1, 2), (P, "2105", "2105 zz", 1, 2, 2),
        (P, "1105", "zz", 2, 1, 1), (P, "", "21", 2, 2, 1), (P, "2105 2105", "2105 210b 210e", 8, 1, 2),
        (P, "2105", "2105 210b 210e", 8, 2, 3), (P, "2100", "", 8, 1, 1), (one, "2101", "2100", 16, 1, 1),
        (one, "2103", "2101", 16, 2, 1), (one, "2102", "2102 2102", 8, 2, 2),
    ] {
        let shows = format!("{number} of text {which}, line {line}: {a:?} beside {b:?}, {paper}");
        checks.that(&shows, asked(paper, a, b) == (number, line, vec![which, 0, 0, 0, 0, 0, 0]));
    }
    let script = [call("2102 2103", "2103"), Call::Plan, call("2103", "2103"), Call::Put(3), call("2103", "21")];
    for paper in [P, R, "01 03 03 02 110001 12000201 1301"] {
        check_altered(checks, &[&[load(paper)][..], &script, &[call("2105 2105", ""), call("", "2102")]].concat());
    }
}

/// Of every two placements of a small nest: the order in 01's other words, and the loops that decide, loop by loop; both
/// hold just where all counts are equal, and each just where no loop that decides has more. Tells of how many neither
/// holds.
fn check_every(checks: &mut Checks, nest: &Nest) -> usize {
    let all = every_placement(nest);
    let pairs = || all.iter().flat_map(|a| all.iter().map(move |b| (a, b)));
    let same = pairs().all(|(a, b)| is_same(nest, a, b));
    checks.that(&format!("every two placements: {}", shown(&nest.text())), same);
    pairs().filter(|(a, b)| weighed(nest, a, b) == [false, false]).count()
}

fn is_same(nest: &Nest, a: &[usize], b: &[usize]) -> bool {
    let (t, u, both) = (nest.counts(a), nest.counts(b), weighed(nest, a, b));
    let other = [as_good_loop_by_loop(nest, &t, &u), as_good_loop_by_loop(nest, &u, &t)];
    let (loops, inside) = (decided(nest, a, b), |d: usize| d + 1..nest.end[d]);
    let decides = |d: &usize| t[*d] != u[*d] && t[inside(*d)] == u[inside(*d)];
    let by = [loops.iter().all(|&d| t[d] <= u[d]), loops.iter().all(|&d| u[d] <= t[d])];
    let all: Vec<usize> = nest.loops().into_iter().filter(decides).collect();
    both == other && both == by && loops == all && (both == [true, true]) == (t == u)
}

/// On a full-size nest: a placement beside any other, and beside one with a barrier more or less.
fn check_full(checks: &mut Checks, random: &mut Random) {
    let depth = 1 + random.below(DEPTH);
    let nest = random_points(random, POINTS, depth);
    let mut any = || (1..POINTS).filter(|_| random.one_in(2)).collect::<Vec<_>>();
    let (a, b) = (any(), any());
    let gap = 1 + random.below(POINTS - 1);
    let near: Vec<usize> = (1..POINTS).filter(|g| a.contains(g) != (*g == gap)).collect();
    let fewer = weighed(&nest, &a, &near) == if a.contains(&gap) { [false, true] } else { [true, false] };
    checks.that("full-size placements", is_same(&nest, &a, &b) && is_same(&nest, &a, &near) && fewer);
}
