//! The self-check of barred gaps (02, job 7): the worked paper, blocked papers, the calls, and on random papers of one
//! loop the ways to the first key.

use crate::asking::Call;
use crate::desk_check::{check_altered, load, moved, replies};
use crate::nests::*;
use crate::order::*;
use crate::papers::*;
use crate::program::*;
use crate::self_check::{check_keys, Checks};
use crate::texts::*;

/// Without its barred gaps one barrier would do, at gap 1.
const FOUNDATION: &str = "01 03 03 03 03 03 02 12000503 12000401 110005 1301 1302 1304";
/// Gaps 2 and 3 are all that dependence 1 has.
const BLOCKED: &str = "01 03 03 03 02 12000302 1302 110103 1303";

fn nest(text: &str) -> Nest { read_nest(&words(text)).unwrap() }

pub fn check_barred(checks: &mut Checks) {
    check_papers(checks);
    check_answers(checks);
    check_calls(checks);
    let beginning = |paper: &str| [load(paper), Call::Plan, Call::Put(1), Call::Put(2), Call::Put(3), Call::Lift(2)];
    let rest = [
        Call::Mark(words("2103 2105")), Call::Mark(words("2101")), Call::Write(vec![7; 11]), Call::Over(true, None),
        Call::Count(0), Call::List(vec![0x13, 0, 1, 0]), Call::Plan, Call::TakeBack,
    ];
    [FOUNDATION, BLOCKED].iter().for_each(|paper| check_altered(checks, &[&beginning(paper)[..], &rest].concat()));
    (0..400).for_each(|case| check_random(checks, &mut Random::new(8, case)));
    (0..4).for_each(|case| check_full(checks, &mut Random::new(9, case)));
}

/// The worked paper as docs/WHY.md tells it, and others.
fn check_papers(checks: &mut Checks) {
    let (paper, blocked) = (nest(FOUNDATION), nest(BLOCKED));
    checks.that("the worked paper's keys", search(&paper) == [[3, 5], [3, 6], [5, 6]]);
    let left: Vec<Vec<usize>> = paper.dependences.iter().map(|x| paper.free_gaps(x)).collect();
    checks.that("what is left of its dependences", left == [[3, 6], [5, 6], [3, 5]]);
    checks.that("the same by gaps", one_loop_first(&paper) == [3, 5] && one_loop_count(&paper) == 2);
    checks.that("without barred gaps", search(&Nest { barred: vec![], ..paper.clone() }) == [[1]]);
    let among = nest("01 03 03 03 03 03 02 1304 12000503 1301 12000401 1301 1302 110005");
    checks.that("as typed, repeats kept", among.barred == [4, 1, 1, 2]);
    checks.that("no dependence number", among.dependences.len() == 3 && among.uncut(&[3]) == Some(1));
    checks.that("the set of barred gaps alone", search(&among) == search(&paper));
    let marked = |gaps: &[usize]| mark(&paper, &[3, 5], gaps);
    checks.that("best marks", [[3, 5], [3, 6], [5, 6]].iter().all(|gaps| marked(gaps) == Mark::Best));
    checks.that("an uncut mark", marked(&[3]) == Mark::Uncut(1));
    checks.that("a dearer mark", marked(&[3, 5, 6]) == Mark::Dearer { of: 0, theirs: 3, ours: 2 });
    checks.that("blocked", blocked.blocked() && search(&blocked).is_empty() && !paper.blocked());
    let all = nest("01 03 02 1301 1302");
    let free = !all.blocked() && search(&all) == [[0; 0]];
    checks.that("all barred, no dependence", free && one_loop_first(&all).is_empty());
    let ring = nest("01 03 03 02 12000102 1301 1303");
    checks.that("one gap of the whole ring left", search(&ring) == [[2]]);
    let place = |text: &str| read_placement(&paper, &words(text)).map_err(|r| (r.number, r.line));
    checks.that("a marked gap that is barred", place("2103 2104") == Err((16, 2)) && place("2101") == Err((16, 1)));
    checks.that("8 before 16", place("2103 2102") == Err((8, 2)) && place("2107") == Err((8, 1)));
    checks.that("unbarred gaps", place("2103 2105 2106") == Ok(vec![3, 5, 6]));
}

/// Each wrong answer must be noticed, and the right one beside it admitted.
fn check_answers(checks: &mut Checks) {
    let admits = |text: &str, answer: &str| judge(&standard(&words(text)), &words(answer)).is_ok();
    checks.that("the right answer", admits(FOUNDATION, "2103 2105 220002"));
    for (what, answer) in [
        ("a barred gap", "2101 220001"), ("a barred gap more", "2101 2103 2105 220003"), ("later", "2103 2106 220002"),
        ("last", "2105 2106 220002"), ("to spare", "2103 2105 2106 220003"), ("uncut", "2103 220001"),
        ("15", "2f0f0000"), ("14", "2f0e000b"), ("a count more", "2103 2105 220003"), ("one less", "2103 2105 220001"),
    ] { checks.that(&format!("noticed: {what}"), !admits(FOUNDATION, answer)) }
    checks.that("15 for the blocked paper", admits(BLOCKED, "2f0f0000"));
    for answer in ["220000", "2101 220001", "2102 2103 220002", "2f0f0001", "2f0f0008", "2f0e0000", "2f100000", ""] {
        checks.that(&format!("noticed: {answer} for the blocked paper"), !admits(BLOCKED, answer));
    }
    let paper = nest(FOUNDATION);
    let unknown = |key: &[usize]| judge(&Standard::Accepted(paper.clone(), None), &answer_text(&paper, key)).is_ok();
    let noticed = [&[1][..], &[3, 6], &[5, 6], &[3, 5, 6], &[3]].iter().all(|key| !unknown(key));
    checks.that("noticed without the first key", unknown(&[3, 5]) && noticed);
    checks.that("a barred gap told", key_fault(&paper, &[1]) == Err("key [1] has barred 1".into()));
}

fn check_calls(checks: &mut Checks) {
    use Call::{Lift, Mark, Over, Plan, Put};
    let calls = [load(FOUNDATION), Put(1), Put(3), Put(3), Lift(1), Put(0), Put(7), Put(2), Put(5)];
    let wanted = [(16, 0), (0, 1), (12, 0), (12, 0), (8, 0), (8, 0), (16, 0), (0, 0)].map(|(n, u)| moved(n, u));
    checks.that("barred gaps at the screen", replies(&calls, 8) == wanted);
    let calls = [load(FOUNDATION), Plan, Mark(words("2103 2105")), Mark(words("2103 2104 2102")), Over(true, None)];
    let calls = [&calls[..], &[Call::Count(0), Call::List(vec![0x11, 0, 0, 5, 0x13, 0, 1, 2])]].concat();
    let wanted = [(0, 0, vec![2, 0, 0, 0]), (16, 2, vec![0; 4]), (0, 0, vec![]), (0, 0, vec![2]), (2, 2, vec![0])];
    checks.that("barred gaps marked, listed, gone over", replies(&calls, 5) == wanted);
    let none = |number| (number, 0, vec![]);
    let (write, count) = (Call::Write(vec![]), Call::Count(0));
    let calls = [load(BLOCKED), Plan, Put(1), Mark(vec![]), write, Over(true, None), count, Plan];
    let wanted = [none(15), moved(0, 1), (11, 0, vec![0; 4]), moved(11, 0), none(0), moved(11, 0), none(15)];
    checks.that("a blocked paper", replies(&calls, 7) == wanted);
}

/// Every way to the first key agrees with trying every placement, and a nest is blocked where none is correct.
fn check_random(checks: &mut Checks, random: &mut Random) {
    let nest = small_barred(random);
    let (keys, text) = (search(&nest), spelled(random, &nest));
    let shows = shown(&text);
    checks.that(&format!("blocked where none is correct: {shows}"), nest.blocked() == keys.is_empty());
    checks.that(&format!("15 there: {shows}"), judge(&standard(&text), b"2f0f0000\n").is_ok() == nest.blocked());
    let again = read_nest(&text).map(|other| other.text());
    checks.that(&format!("the same nest, whatever stands between: {shows}"), again == Ok(nest.text()));
    if nest.blocked() { return }
    checks.that(&format!("one loop: {shows}"), keys[0] == one_loop_first(&nest));
    let mut other = nest.clone();
    other.barred.extend(nest.barred.iter().rev());
    checks.that(&format!("barred again: {shows}"), search(&other) == keys && one_loop_first(&other) == keys[0]);
    check_keys(checks, random, &nest);
}

/// On full-size papers: the first key has nothing wrong with it, and is as small as the textbook's count.
fn check_full(checks: &mut Checks, random: &mut Random) {
    let nest = full_barred(random);
    let text = spelled(random, &nest);
    let accepted = read_input(&text).is_ok_and(|other| other.text() == nest.text());
    checks.that("a full-size text", accepted);
    if nest.blocked() { return }
    let key = one_loop_first(&nest);
    checks.that("a full-size key", key_fault(&nest, &key) == Ok(()) && key.len() == one_loop_count(&nest));
}
