//! Which placement is better (01, "Which placement is better"; 001, definition 1; 02, jobs 6 and 7), and marks.

use crate::nests::*;
use crate::papers::SEARCHED;
use crate::texts::shown;
use std::collections::HashMap;

/// The cost of a placement: a node for each loop, with its count and the trees of the loops directly inside.
#[derive(PartialEq)]
pub struct Tree { pub count: usize, pub inside: Vec<Tree> }

pub fn tree(nest: &Nest, d: usize, counts: &[usize]) -> Tree {
    let mut inside = Vec::new();
    let mut p = d + 1;
    while p < nest.end[d] {
        if nest.points[p] == DO { inside.push(tree(nest, p, counts)); p = nest.end[p] }
        p += 1;
    }
    Tree { count: counts[d], inside }
}

/// "Each subtree right under T's root is as good or better than the matching one of U and, where all of these are
/// equal, T's root count is at most U's."
pub fn as_good(t: &Tree, u: &Tree) -> bool {
    t.inside.iter().zip(&u.inside).all(|(a, b)| as_good(a, b)) && (t.inside != u.inside || t.count <= u.count)
}

/// All correct placements of a small nest, as bits (bit g for gap g): they avoid barred gaps and cut every dependence.
pub fn correct_placements(nest: &Nest) -> Vec<u32> {
    let bits = |gaps: &[usize]| gaps.iter().fold(0, |m, g| m | 1 << g);
    let masks: Vec<u32> = nest.dependences.iter().map(|x| bits(&nest.gaps(x))).collect();
    let correct = |p: &u32| p & bits(&nest.barred) == 0 && masks.iter().all(|m| m & p != 0);
    (0..1u32 << (nest.points.len() - 1)).map(|m| m << 1).filter(correct).collect()
}

pub fn gap_list(placement: u32) -> Vec<usize> { (0..32).filter(|g| placement >> g & 1 == 1).collect() }

/// All keys: the correct placements whose tree is as good or better than the tree of every correct placement. That
/// there are any is 001's lemma 1, where any placement is correct; a blocked nest has none. The list rises, so the
/// first key in list order is the first here. Placements with the same counts have the same tree, so each tree is made
/// once.
pub fn search(nest: &Nest) -> Vec<Vec<usize>> {
    let owners: Vec<usize> = (1..nest.points.len()).map(|g| nest.owner(g)).collect();
    let counts = |placement: u32| {
        let mut counts = vec![0; nest.points.len()];
        (1..nest.points.len()).filter(|g| placement >> g & 1 == 1).for_each(|g| counts[owners[g - 1]] += 1);
        counts
    };
    let mut same: HashMap<Vec<usize>, Vec<u32>> = HashMap::new();
    correct_placements(nest).into_iter().for_each(|p| same.entry(counts(p)).or_default().push(p));
    let trees: Vec<(Tree, &Vec<u32>)> = same.iter().map(|(counts, all)| (tree(nest, 0, counts), all)).collect();
    let least = trees.iter().reduce(|least, other| if as_good(&other.0, &least.0) { other } else { least });
    let Some(least) = least else { return Vec::new() };
    assert!(trees.iter().all(|u| as_good(&least.0, &u.0)), "no least tree: {}", shown(&nest.text()));
    let mut keys: Vec<Vec<usize>> = least.1.iter().map(|&p| gap_list(p)).collect();
    keys.sort();
    keys
}

/// The first key of a nest that is not blocked, where it can be found: by search, on a nest of one loop, and on nests
/// side by side in one more loop, with no dependence from one to another. There the least tree has their least trees
/// under a root with count 0, and their first keys make the first key.
pub fn first_key(nest: &Nest) -> Option<Vec<usize>> {
    if nest.points.len() <= SEARCHED { return Some(search(nest).swap_remove(0)) }
    if nest.loops().len() == 1 { return Some(one_loop_first(nest)) }
    let mut key = Vec::new();
    for (at, part) in parts(nest)? { key.extend(first_key(&part)?.iter().map(|g| g + at)) }
    Some(key)
}

/// The loops directly inside the outermost, each as a nest of its own with its first point. None where a dependence
/// does not lie in one of them.
fn parts(nest: &Nest) -> Option<Vec<(usize, Nest)>> {
    let is_part = |&d: &usize| d > 0 && nest.owner(d) == 0;
    let mut parts: Vec<(usize, Nest)> = nest.loops().into_iter().filter(is_part).map(|d| {
        let end = (d..=nest.end[d]).map(|p| nest.end[p].saturating_sub(d)).collect();
        (d, Nest { points: nest.points[d..=nest.end[d]].to_vec(), end, ..Nest::default() })
    }).collect();
    for x in &nest.dependences {
        let low = if x.kind == INDEPENDENT { x.s } else { x.d };
        let (at, part) = parts.iter_mut().rev().find(|(at, _)| *at <= low)?;
        if x.t.max(x.s) >= *at + part.points.len() { return None }
        let d = x.d.saturating_sub(*at);
        part.dependences.push(Dependence { kind: x.kind, d, s: x.s - *at, t: x.t - *at });
    }
    Some(parts)
}

/// What is wrong with a key that cannot be searched for: a barred gap, a dependence uncut, a barrier to spare, one that
/// could stand earlier.
pub fn key_fault(nest: &Nest, key: &[usize]) -> Result<(), String> {
    if let Some(g) = key.iter().find(|g| nest.barred.contains(g)) { return Err(format!("key {key:?} has barred {g}")) }
    if let Some(number) = nest.uncut(key) { return Err(format!("key {key:?} leaves dependence {number} uncut")) }
    for i in 0..key.len() {
        let rest = [&key[..i], &key[i + 1..]].concat();
        if nest.uncut(&rest).is_none() { return Err(format!("key {key:?} does not need barrier {}", key[i])) }
    }
    could_be_earlier(nest, key).map_or(Ok(()), |(g, h)| {
        Err(format!("key {key:?} could have barrier {h} in place of {g}"))
    })
}

/// The least count of a nest of one loop, as textbooks find it: take each gap as a first barrier, go once round the
/// ring from there and put a barrier wherever a dependence that is still uncut has its last gap. Barred gaps are left
/// out of each dependence: what a barrier passes over of them makes no difference.
pub fn one_loop_count(nest: &Nest) -> usize {
    let ring = nest.points.len() - 1;
    let intervals: Vec<Vec<usize>> = nest.dependences.iter().map(|x| nest.free_gaps(x)).collect();
    let firsts = (1..=ring).filter(|g| !nest.barred.contains(g));
    let after_first = |first: usize| {
        let turned = |x: &Vec<usize>| ends(x.iter().map(|g| (g + ring - first) % ring)).unwrap();
        let lines: Vec<_> = intervals.iter().filter(|x| !x.contains(&first)).map(turned).collect();
        1 + count_on_line(&lines, 0, ring)
    };
    if intervals.is_empty() { 0 } else { firsts.map(after_first).min().unwrap() }
}

/// The lowest and the highest of some gaps.
fn ends(gaps: impl Iterator<Item = usize> + Clone) -> Option<(usize, usize)> {
    Some((gaps.clone().min()?, gaps.max()?))
}

/// How many barriers the stretches of a line need behind a last barrier: one at the end of each that ends first.
fn count_on_line(lines: &[(usize, usize)], last: usize, end: usize) -> usize {
    let mut latest = vec![0; end + 1];
    lines.iter().for_each(|&(from, to)| latest[to] = latest[to].max(from));
    let (mut at, mut count) = (last, 0);
    for here in last + 1..=end {
        if latest[here] > at { at = here; count += 1 }
    }
    count
}

/// Of the smallest correct sets of a nest of one loop the first in list order. Gap by gap, each is the lowest with
/// which the barriers that are left can still cut the rest: above the last barrier every interval that is not cut yet
/// is a stretch of a line, which needs one at the end of each stretch that ends first. Only gaps that are not barred
/// are tried and counted.
pub fn one_loop_first(nest: &Nest) -> Vec<usize> {
    let (ring, size) = (nest.points.len() - 1, one_loop_count(nest));
    let intervals: Vec<Vec<usize>> = nest.dependences.iter().map(|x| nest.free_gaps(x)).collect();
    let left_after = |key: &[usize]| {
        let last = *key.last().unwrap();
        let has: Vec<bool> = (0..=ring).map(|g| key.contains(&g)).collect();
        let uncut = intervals.iter().filter(|x| !x.iter().any(|&g| has[g]));
        let above = |x: &Vec<usize>| ends(x.iter().copied().filter(|&g| g > last));
        let lines: Vec<(usize, usize)> = uncut.map(above).collect::<Option<_>>()?;
        Some(count_on_line(&lines, last, ring))
    };
    let mut key: Vec<usize> = Vec::new();
    while key.len() < size {
        let with = |g: usize| [&key[..], &[g]].concat();
        let fits = |g: &usize| left_after(&with(*g)).is_some_and(|left| key.len() + 1 + left <= size);
        let next = (key.last().map_or(1, |g| g + 1)..=ring).filter(|g| !nest.barred.contains(g)).find(fits);
        key.push(next.expect("a smallest set begins so"));
    }
    key
}

/// A barrier that could stand at an earlier gap of its loop: the placement would be as correct, with the same counts,
/// and earlier in list order.
pub fn could_be_earlier(nest: &Nest, key: &[usize]) -> Option<(usize, usize)> {
    let gaps: Vec<Vec<usize>> = nest.dependences.iter().map(|x| nest.gaps(x)).collect();
    let cut_by = |x: &Vec<usize>| key.iter().filter(|g| x.contains(g)).collect::<Vec<_>>();
    let alone: Vec<(usize, &Vec<usize>)> =
        gaps.iter().filter_map(|x| match cut_by(x)[..] { [g] => Some((*g, x)), _ => None }).collect();
    let serves = |g: usize, h: usize| alone.iter().all(|(by, x)| *by != g || x.contains(&h));
    let free = |h: usize| !key.contains(&h) && !nest.barred.contains(&h);
    let earlier = |g: usize| (1..g).find(|&h| free(h) && nest.owner(h) == nest.owner(g) && serves(g, h));
    key.iter().find_map(|&g| earlier(g).map(|h| (g, h)))
}

/// 01, "The desk", Mark.
#[derive(Debug, PartialEq)]
pub enum Mark { Uncut(usize), Dearer { of: usize, theirs: usize, ours: usize }, Best }

pub fn mark(nest: &Nest, key: &[usize], placement: &[usize]) -> Mark {
    if let Some(number) = nest.uncut(placement) { return Mark::Uncut(number) }
    let (ours, theirs) = (nest.counts(key), nest.counts(placement));
    let differing = nest.loops().into_iter().filter(|&d| ours[d] != theirs[d]).min_by_key(|&d| nest.end[d]);
    differing.map_or(Mark::Best, |of| Mark::Dearer { of, theirs: theirs[of], ours: ours[of] })
}
