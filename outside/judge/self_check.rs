//! The judge's self-check: its reading has the cases of document 01, its several ways to one result agree, and every
//! wrong answer put before it is noticed.

use crate::arguing::check_arguing;
use crate::barred_check::check_barred;
use crate::comparing::check_comparing;
use crate::desk_check::check_desk;
use crate::edges::edges;
use crate::improving::check_improving;
use crate::joining::check_joining;
use crate::limits::check_limits;
use crate::nests::*;
use crate::order::*;
use crate::papers::*;
use crate::program::*;
use crate::runs::check_runs;
use crate::shapes::check_shapes;
use crate::sheets::check_sheets;
use crate::skipping::check_skipping;
use crate::slips::check_slips;
use crate::textbook_rule::check_textbook;
use crate::texts::*;

pub struct Checks { passed: usize, failed: usize }

impl Checks {
    pub fn that(&mut self, what: &str, holds: bool) {
        if holds { self.passed += 1 } else { self.failed += 1; println!("does not hold: {what}") }
    }
}

pub fn self_check() -> bool {
    let mut checks = Checks { passed: 0, failed: 0 };
    for (text, wanted) in edges() {
        let refusal = match standard(&text) { Standard::Refused(r) => Some(r), Standard::Accepted(..) => None };
        checks.that(&format!("{wanted:?} for {}", shown(&text)), refusal == wanted);
    }
    check_cases(&mut checks);
    check_explained(&mut checks);
    check_wrong_answers(&mut checks);
    check_first(&mut checks);
    check_desk(&mut checks);
    check_barred(&mut checks);
    check_shapes(&mut checks);
    check_textbook(&mut checks);
    check_slips(&mut checks);
    check_comparing(&mut checks);
    check_arguing(&mut checks);
    check_skipping(&mut checks);
    check_runs(&mut checks);
    check_joining(&mut checks);
    check_improving(&mut checks);
    check_sheets(&mut checks);
    check_limits(&mut checks);
    (0..400).for_each(|case| check_random(&mut checks, &mut Random::new(7, case)));
    finish(checks.passed, checks.failed)
}

/// Cases 1 to 13 of 01 where they speak of keys, marks and placement texts; their refusals of nest texts are in edges.
fn check_cases(checks: &mut Checks) {
    let nest = |text: &str| read_nest(&words(text)).unwrap();
    let (p, q, r) = (nest(P), nest(Q), nest(R));
    let dearer = |of, theirs, ours| Mark::Dearer { of, theirs, ours };
    checks.that("case 1, key", search(&p) == [[5, 11]]);
    checks.that("case 1, answer", answer_text(&p, &[5, 11]) == words("2105 210b 220000 220101 220701"));
    checks.that("case 2", mark(&p, &[5, 11], &[3, 9]) == Mark::Uncut(4));
    checks.that("case 3", mark(&p, &[5, 11], &[3, 11]) == Mark::Uncut(5));
    checks.that("case 4", mark(&p, &[5, 11], &[3, 9, 13]) == dearer(0, 1, 0));
    checks.that("case 5", mark(&p, &[5, 11], &[5, 10, 11]) == dearer(7, 2, 1));
    checks.that("the key itself is Best", mark(&p, &[5, 11], &[5, 11]) == Mark::Best);
    checks.that("case 6, key", search(&q) == [[2, 6]]);
    checks.that("case 6, counts", answer_text(&q, &[2, 6]) == words("2102 2106 220001 220200 220301"));
    checks.that("case 7", mark(&q, &[2, 6], &[4, 7]) == dearer(2, 1, 0));
    let share = |which: &[usize]| (1..8).any(|g| which.iter().all(|&i| r.gaps(&r.dependences[i]).contains(&g)));
    checks.that("case 8, count", search(&r).iter().all(|key| r.counts(key)[0] == 2) && one_loop_count(&r) == 2);
    checks.that("case 8, sharing", share(&[0, 1]) && share(&[1, 2]) && share(&[0, 2]) && !share(&[0, 1, 2]));
    let (ninth, tenth) = (nest("01 03 02 12000101"), nest("01 02"));
    checks.that("case 9", ninth.gaps(&ninth.dependences[0]) == [1, 2] && search(&ninth) == [[1], [2]]);
    checks.that("case 10", search(&tenth) == [[0; 0]] && answer_text(&tenth, &[]) == words("220000"));
    let (ring, beside) = (nest("01 03 03 03 02 12000103"), nest(&format!("{P} 12010304")));
    checks.that("forward over the ring, alone", search(&ring) == [[1], [2], [3], [4]] && one_loop_count(&ring) == 1);
    checks.that("forward over the ring, beside P's", search(&beside) == [[5, 11]]);
    let blank = read_nest(b"").unwrap();
    checks.that("case 11, nest", blank.points == [DO, ENDDO] && blank.dependences.is_empty());
    checks.that("case 11, answer", judge(&standard(b""), b"220000\n").is_ok());
    checks.that("case 13, gap 13", read_placement(&p, b"210d\n") == Ok(vec![13]));
    checks.that("case 13, gap 14", read_placement(&p, b"210e\n") == Err(Refusal { number: 8, line: 1 }));
    checks.that("gaps must rise", read_placement(&p, b"2105\n2105\n") == Err(Refusal { number: 8, line: 2 }));
}

/// What docs/WHY.md says of Q, P, R and the nest where two barriers beat one.
fn check_explained(checks: &mut Checks) {
    let nest = |text: &str| read_nest(&words(text)).unwrap();
    let around = |nest: &Nest, gap: usize| nest.loops().iter().filter(|&&d| d < gap && gap <= nest.end[d]).count();
    let calls = |nest: &Nest, gap: usize| 10usize.pow(around(nest, gap) as u32);
    let dearer = |of, theirs, ours| Mark::Dearer { of, theirs, ours };
    let (p, q, r, s) = (nest(P), nest(Q), nest(R), nest("01 03 01 03 03 03 02 03 02 110104 110307"));
    let pairs: Vec<Vec<usize>> = correct_placements(&q).into_iter().map(gap_list).filter(|p| p.len() < 3).collect();
    let table = [(2, 6, [1, 0, 1]), (3, 6, [0, 1, 1]), (4, 7, [0, 1, 1]),
        (4, 5, [0, 0, 2]), (4, 6, [0, 0, 2]), (5, 6, [0, 0, 2])];
    checks.that("Q has these pairs and no single barrier", pairs.len() == table.len());
    for (a, b, [zero, two, three]) in &table {
        let counts = q.counts(&[*a, *b]);
        checks.that(&format!("Q with {a}, {b}: correct"), pairs.contains(&vec![*a, *b]));
        checks.that(&format!("Q with {a}, {b}: counts"), [counts[0], counts[2], counts[3]] == [*zero, *two, *three]);
        let wanted = if *three == 2 { dearer(3, 2, 1) } else if *two == 1 { dearer(2, 1, 0) } else { Mark::Best };
        checks.that(&format!("Q with {a}, {b}: mark"), mark(&q, &[2, 6], &[*a, *b]) == wanted);
    }
    checks.that("calls in Q", [2, 7, 4, 6].map(|g| calls(&q, g)) == [10, 100, 1000, 1000]);
    checks.that("two beat one", search(&s) == [[2, 7]] && mark(&s, &[2, 7], &[4]) == dearer(2, 1, 0));
    checks.that("calls there", [2, 7, 4].map(|g| calls(&s, g)) == [10, 10, 100]);
    checks.that("P with 5, 9", mark(&p, &[5, 11], &[5, 9]) == Mark::Uncut(4));
    checks.that("P with 4, 5, 10, 11", mark(&p, &[5, 11], &[4, 5, 10, 11]) == dearer(1, 2, 1));
    let costs = [[4, 5, 11], [5, 10, 11]].map(|gaps| tree(&p, 0, &p.counts(&gaps)));
    checks.that("neither as good as the other", !as_good(&costs[0], &costs[1]) && !as_good(&costs[1], &costs[0]));
    checks.that("R's keys", search(&r) == [[1, 4], [2, 4], [2, 5], [2, 6], [3, 6], [4, 6], [4, 7]]);
}

/// Each wrong answer must be noticed, and the right one beside it admitted.
fn check_wrong_answers(checks: &mut Checks) {
    let admits = |text: &str, answer: &[u8]| judge(&standard(&words(text)), answer).is_ok();
    checks.that("the right answer to P is admitted", admits(P, &words("2105 210b 220000 220101 220701")));
    for (what, answer) in &[
        ("barrier dropped", "2105 220000 220101 220700"), ("barrier added", "2105 2106 210b 220000 220102 220701"),
        ("barrier moved", "2103 210b 220000 220101 220701"), ("a dearer key", "2103 2109 210d 220001 220101 220701"),
        ("wrong count", "2105 210b 220000 220101 220702"), ("counts out of order", "2105 210b 220000 220701 220101"),
        ("count missing", "2105 210b 220000 220101"), ("line too many", "2105 210b 220000 220101 220701 220701"),
        ("order of barriers", "210b 2105 220000 220101 220701"), ("twice", "2105 2105 210b 220000 220101 220701"),
        ("capital digit", "2105 210B 220000 220101 220701"), ("gap 14", "2105 210b 210e 220000 220101 220701"),
        ("refusal of a good text", "2f040001"), ("nothing at all", ""),
    ] { checks.that(&format!("noticed: {what}"), !admits(P, &words(answer))) }
    checks.that("noticed: no last 0a", !admits(P, b"2105\n210b\n220000\n220101\n220701"));
    for answer in &["2f040001", "220001", "220100", "2101 220001", "2200", "220000 220000", "220000 220100", ""] {
        checks.that(&format!("noticed: {answer} for the empty text"), !admits("", &words(answer)));
    }
    checks.that("refusals are still admitted", admits("110001", b"2f040001\n"));
    for answer in &["2f050001", "2f040002", "2f040101", "2F040001", "220000", "2f040001 2f040001", ""] {
        checks.that(&format!("noticed: {answer} for a dependence first"), !admits("110001", &words(answer)));
    }
    checks.that("a lone 0a has number 1", judge(&standard(b"\n"), b"2f010001\n").is_ok());
    checks.that("noticed: a lone 0a accepted", judge(&standard(b"\n"), b"220000\n").is_err());
}

/// 02, job 6: papers with several keys. Only the first is admitted, and each of the others is noticed.
fn check_first(checks: &mut Checks) {
    let either = "01 03 03 02 110001 110103"; // the last of equals is 1, 3
    let crossed = "01 01 03 02 02 110002 110103 110204"; // first only inside loop 1 is 2, 4
    let all: [(&str, &[&[usize]]); 5] = [
        ("01 03 02 12000101", &[&[1], &[2]]), (either, &[&[1, 2], &[1, 3]]), (crossed, &[&[1, 3], &[2, 4]]),
        (R, &[&[1, 4], &[2, 4], &[2, 5], &[2, 6], &[3, 6], &[4, 6], &[4, 7]]), (P, &[&[5, 11]]),
    ];
    for (text, keys) in all {
        let nest = read_nest(&words(text)).unwrap();
        checks.that(&format!("the keys of {text}"), search(&nest) == keys);
        let admits = |key: &[usize]| judge(&standard(&words(text)), &answer_text(&nest, key)).is_ok();
        checks.that(&format!("the first key of {text}"), admits(keys[0]));
        checks.that(&format!("noticed: later keys of {text}"), keys[1..].iter().all(|key| !admits(key)));
    }
    let ring = read_nest(&words(either)).unwrap();
    let unknown = |key: &[usize]| judge(&Standard::Accepted(ring.clone(), None), &answer_text(&ring, key)).is_ok();
    let noticed = unknown(&[1, 2]) && !unknown(&[1, 3]);
    checks.that("noticed without the first key: a barrier that could be earlier", noticed);
}

/// On a small nest that has keys: later keys and damaged keys are noticed, and what is marked Best is a key.
pub fn check_keys(checks: &mut Checks, random: &mut Random, nest: &Nest) {
    let (keys, n, shows) = (search(nest), nest.points.len(), shown(&nest.text()));
    let key = &keys[random.below(keys.len())];
    let known = standard(&nest.text());
    let admits = |key: &[usize]| judge(&known, &answer_text(nest, key)).is_ok();
    let dropped = |i: usize| [&key[..i], &key[i + 1..]].concat();
    let added = |g: usize| (1..n).filter(|h| *h == g || key.contains(h)).collect::<Vec<_>>();
    checks.that(&format!("{key:?} is a key, and only the first will do: {shows}"), admits(key) == (*key == keys[0]));
    checks.that(&format!("the first cannot be earlier: {shows}"), could_be_earlier(nest, &keys[0]).is_none());
    checks.that(&format!("none dropped from {key:?}: {shows}"), (0..key.len()).all(|i| !admits(&dropped(i))));
    checks.that(&format!("none added to {key:?}: {shows}"), (1..n).all(|g| key.contains(&g) || !admits(&added(g))));
    let correct: Vec<Vec<usize>> = correct_placements(nest).into_iter().map(gap_list).collect();
    let marked = |p: &Vec<usize>| match mark(nest, key, p) {
        Mark::Uncut(_) => false,
        Mark::Dearer { theirs, ours, .. } => theirs > ours && !keys.contains(p),
        Mark::Best => keys.contains(p),
    };
    checks.that(&format!("Best means a key, and Dearer dearer: {shows}"), correct.iter().all(marked));
    let mut counts = || nest.counts(&correct[random.below(correct.len())]);
    let (a, b) = (counts(), counts());
    let ways = as_good(&tree(nest, 0, &a), &tree(nest, 0, &b)) == as_good_loop_by_loop(nest, &a, &b);
    checks.that(&format!("the order in both words: {shows} {a:?} {b:?}"), ways);
}

/// On random nests: the judge's several ways to one result agree.
fn check_random(checks: &mut Checks, random: &mut Random) {
    let nest = small_nest(random);
    check_keys(checks, random, &nest);
    let (n, shows) = (nest.points.len(), shown(&nest.text()));
    let mut ring = random_points(random, n, 1);
    add_dependences(random, &mut ring, n, n);
    checks.that(&format!("one loop: {}", shown(&ring.text())), search(&ring)[0] == one_loop_first(&ring));
    let (pair, first) = side_by_side(random, SEARCHED);
    checks.that(&format!("side by side: {}", shown(&pair.text())), search(&pair)[0] == first);
    let (row, first) = side_by_side(random, 60);
    checks.that(&format!("in parts: {}", shown(&row.text())), first_key(&row) == Some(first));
    let has = |x: &Dependence| (0..=n).all(|g| nest.has_gap(x, g) == nest.gaps(x).contains(&g));
    checks.that(&format!("gaps as a list and as a test: {shows}"), nest.dependences.iter().all(has));
}

/// The same order in 01's other words: "at each loop where T and U have the same counts in all the loops inside it,
/// at any depth, T's count is at most U's".
pub fn as_good_loop_by_loop(nest: &Nest, t: &[usize], u: &[usize]) -> bool {
    nest.loops().iter().all(|&d| t[d + 1..nest.end[d]] != u[d + 1..nest.end[d]] || t[d] <= u[d])
}
