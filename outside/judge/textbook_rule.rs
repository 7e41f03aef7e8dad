//! The textbook method for one loop (02, job 8), by its words: every gap is tried as the first barrier.

use crate::asking::{Call, Reply};
use crate::desk_check::{load, replies};
use crate::host::{self, words_of};
use crate::nests::*;
use crate::order::{correct_placements, gap_list, one_loop_first, search};
use crate::papers::*;
use crate::self_check::Checks;
use crate::texts::{read_nest, shown};

/// Of a nest of one loop that is not blocked: each gap is tried as a first barrier; the smallest result, and of equal
/// ones the first tried.
pub fn textbook(nest: &Nest) -> Vec<usize> {
    if nest.dependences.is_empty() { return Vec::new() }
    let tried = (1..nest.points.len()).filter(|g| !nest.barred.contains(g)).map(|first| try_first(nest, first));
    tried.min_by_key(|gaps| gaps.len()).unwrap()
}

/// A barrier at the first gap opens the ring there. Along the line that is left, the interval that ends first gets a
/// barrier at its last gap that is not barred, unless it has one; then the next.
fn try_first(nest: &Nest, first: usize) -> Vec<usize> {
    let ring = nest.points.len() - 1;
    let place = |g: usize| (g + ring - first) % ring;
    let mut line: Vec<Vec<usize>> = nest.dependences.iter().map(|x| nest.gaps(x)).collect();
    line.sort_by_cached_key(|x| x.iter().map(|&g| place(g)).max());
    let mut has = vec![false; ring + 1];
    has[first] = true;
    for x in line {
        if x.iter().any(|&g| has[g]) { continue }
        let free = x.into_iter().filter(|g| !nest.barred.contains(g));
        has[free.max_by_key(|&g| place(g)).unwrap()] = true;
    }
    (1..=ring).filter(|&g| has[g]).collect()
}

/// What the call answers: 10, then 14, then 15, or the placement.
pub fn answer(nest: Option<&Nest>) -> (u8, Vec<usize>) {
    let Some(nest) = nest else { return (10, words_of(&[])) };
    if nest.loops().len() > 1 { return (14, words_of(&[])) }
    if nest.blocked() { return (15, words_of(&[])) }
    (0, words_of(&textbook(nest)))
}

/// The library's own answer.
pub fn play(desk: host::Desk) -> Reply { unsafe { host::desk_textbook(desk) }.into() }

// ---- The self-check

pub fn check_textbook(checks: &mut Checks) {
    let nest = |text: &str| read_nest(&words(text)).unwrap();
    let all: [(&str, &[usize]); 8] = [
        ("01 03 03 02 110001 110103", &[1, 3]), // the key is 1, 2
        ("01 03 03 03 03 03 02 12000503 12000401 110005 1301 1302 1304", &[3, 6]), // the key is 3, 5
        ("01 03 02 12000101", &[1]), // the whole ring
        ("01 03 03 02 110002 110102 12000202 1301", &[2]), // equal ends
        ("01 03 03 03 02 110103 1303", &[2]), // its end is barred
        ("01 03 02 1301 1302", &[]),
        ("01 02", &[]),
        (R, &[1, 4]),
    ];
    for (text, wanted) in all {
        checks.that(&format!("the textbook's {wanted:?} for {text}"), textbook(&nest(text)) == wanted);
    }
    let asked = |text: &str| replies(&[load(text), Call::Textbook], 1)[0].clone();
    let none = |number| (number, 0, words_of(&[]));
    checks.that("no nest", asked("02") == none(10));
    checks.that("several loops", asked(P) == none(14));
    checks.that("blocked", asked("01 03 02 110001 1301") == none(15));
    checks.that("no key is wanted", asked(R) == (0, 0, words_of(&[1, 4])));
    (0..600).for_each(|case| check_random(checks, &mut Random::new(10, case)));
    (0..2).for_each(|case| check_full(checks, &mut Random::new(11, case)));
}

/// On small papers: the placement is correct and as small as a key, and cutting gap by gap along the line gives the
/// same at every first barrier.
fn check_random(checks: &mut Checks, random: &mut Random) {
    let mut nest = small_barred(random);
    if random.one_in(3) { nest.barred.clear() }
    if nest.blocked() { return }
    let (gaps, shows) = (textbook(&nest), shown(&nest.text()));
    let correct = correct_placements(&nest).into_iter().map(gap_list).any(|p| p == gaps);
    checks.that(&format!("the textbook's placement is correct: {shows}"), correct);
    checks.that(&format!("the textbook has as many as the key: {shows}"), gaps.len() == search(&nest)[0].len());
    let free = (1..nest.points.len()).filter(|g| !nest.barred.contains(g));
    let same = free.into_iter().all(|first| try_first(&nest, first) == gap_by_gap(&nest, first));
    checks.that(&format!("the textbook gap by gap: {shows}"), same);
}

/// The same in other words: along the line of gaps that are not barred, a barrier goes where an interval without one
/// has no later gap.
fn gap_by_gap(nest: &Nest, first: usize) -> Vec<usize> {
    let ring = nest.points.len() - 1;
    let line: Vec<usize> = (first + 1..=ring).chain(1..first).filter(|g| !nest.barred.contains(g)).collect();
    let mut cut = vec![first];
    for (i, h) in line.iter().enumerate() {
        let uncut = |x: &&Dependence| !cut.iter().any(|&g| nest.has_gap(x, g));
        let ends = |x: &Dependence| nest.has_gap(x, *h) && !line[i + 1..].iter().any(|&g| nest.has_gap(x, g));
        if nest.dependences.iter().filter(uncut).any(ends) { cut.push(*h) }
    }
    cut.sort();
    cut
}

fn check_full(checks: &mut Checks, random: &mut Random) {
    let nest = full_barred(random);
    if nest.blocked() { return }
    let (gaps, key) = (textbook(&nest), one_loop_first(&nest));
    checks.that("a full-size textbook placement", nest.uncut(&gaps).is_none() && gaps.len() == key.len());
}
