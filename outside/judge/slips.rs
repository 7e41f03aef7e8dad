//! Slips for two readers (02, job 9): what the candidate and the examiner get, byte for byte.

use crate::asking::{guarded, lend, Call, Reply, GUARD};
use crate::desk::{write_text, Desk};
use crate::desk_check::{check_altered, load, replies};
use crate::host;
use crate::nests::*;
use crate::order::{mark, Mark};
use crate::papers::{words, P};
use crate::self_check::Checks;
use crate::texts::{line, read_nest, read_placement};

const FIRST: u8 = 0x23;
const VERDICT: u8 = 0x24;
const CUT: u8 = 0x25;

/// The first uncut dependence in two bytes, the high one first, or ffff; then the count of every loop.
pub fn candidate_slip(nest: &Nest, placement: &[usize]) -> Vec<u8> {
    let (first, counts) = (nest.uncut(placement).unwrap_or(0xffff), nest.counts(placement));
    let loops = nest.loops().into_iter().flat_map(|d| line(&[COUNT, d as u8, counts[d] as u8]));
    line(&[FIRST, (first >> 8) as u8, first as u8]).into_iter().chain(loops).collect()
}

/// The candidate's slip, then the verdict, then of every dependence the lowest gap that cuts it.
pub fn examiner_slip(nest: &Nest, key: &[usize], placement: &[usize]) -> Vec<u8> {
    let verdict = match mark(nest, key, placement) {
        Mark::Uncut(_) => [0, 0, 0, 0],
        Mark::Dearer { of, theirs, ours } => [1, of as u8, theirs as u8, ours as u8],
        Mark::Best => [2, 0, 0, 0],
    };
    let by = |x: &Dependence| placement.iter().copied().filter(|&g| nest.has_gap(x, g)).min().unwrap_or(0);
    let cuts = nest.dependences.iter().flat_map(|x| line(&[CUT, by(x) as u8]));
    let verdict = line(&[&[VERDICT], &verdict[..]].concat());
    candidate_slip(nest, placement).into_iter().chain(verdict).chain(cuts).collect()
}

/// How long a slip is, whatever the placement.
pub fn slip_length(nest: &Nest, examiner: bool) -> usize {
    let candidate = 7 + 7 * nest.loops().len();
    if examiner { candidate + 11 + 5 * nest.dependences.len() } else { candidate }
}

/// What the call answers: 10, the examiner's then 11; the faults of the text; 9.
pub fn answer(desk: &Desk, examiner: bool, text: &[u8], out: &[u8]) -> Reply {
    let refused = |number, line| {
        Reply { number, line, values: vec![0], lent: [guarded(text), guarded(out)].concat() }
    };
    let fault = desk.fault(examiner);
    let Some(nest) = desk.nest.as_ref().filter(|_| fault == 0) else { return refused(fault, 0) };
    match read_placement(nest, text) {
        Err(r) => refused(r.number, r.line),
        Ok(gaps) => {
            let slip = if examiner { examiner_slip(nest, desk.key(), &gaps) } else { candidate_slip(nest, &gaps) };
            let (number, values, written) = write_text(0, &slip, out);
            Reply { number, line: 0, values, lent: [guarded(text), written].concat() }
        }
    }
}

/// The library's own answer.
pub fn play(desk: host::Desk, examiner: bool, text: &[u8], out: &[u8]) -> Reply {
    let ((text, length), (mut lent, room)) = (lend(text), lend(out));
    let slip = if examiner { host::desk_examiner_slip } else { host::desk_candidate_slip };
    let (from, into) = (text[GUARD.len()..].as_ptr(), lent[GUARD.len()..].as_mut_ptr());
    let a = unsafe { slip(desk, from, length, into, room) };
    Reply { number: a.number, line: a.line, values: vec![a.value], lent: [text, lent].concat() }
}

// ---- The self-check

pub fn check_slips(checks: &mut Checks) {
    let p = read_nest(&words(P)).unwrap();
    let all: [(&[usize], &str, &str); 4] = [
        (&[3, 9], "230004 220000 220101 220701", "2400000000 2503 2503 2509 2509 2500 2509"),
        (&[5, 10, 11], "23ffff 220000 220101 220702", "2401070201 2505 2505 250a 250b 250b 2505"),
        (&[5, 11], "23ffff 220000 220101 220701", "2402000000 2505 2505 250b 250b 250b 2505"),
        (&[], "230000 220000 220100 220700", "2400000000 2500 2500 2500 2500 2500 2500"),
    ];
    for (gaps, candidate, examiner) in all {
        checks.that(&format!("P's slip with {gaps:?}"), candidate_slip(&p, gaps) == words(candidate));
        let wanted = [words(candidate), words(examiner)].concat();
        checks.that(&format!("the examiner's with {gaps:?}"), examiner_slip(&p, &[5, 11], gaps) == wanted);
        let lengths = [words(candidate).len(), wanted.len()] == [slip_length(&p, false), slip_length(&p, true)];
        checks.that(&format!("their lengths with {gaps:?}"), lengths);
    }
    let full = Nest { dependences: vec![p.dependences[0]; DEPENDENCES], ..read_nest(&longest()).unwrap() };
    checks.that("the longest slip", slip_length(&full, true) == 3474);
    let many = Nest { dependences: vec![p.dependences[0]; 300], ..p.clone() };
    let last = Nest { dependences: [&many.dependences[..], &p.dependences[4..5]].concat(), ..p.clone() };
    checks.that("dependence 300", candidate_slip(&last, &[3]).starts_with(b"23012c\n"));
    check_calls(checks);
}

/// 127 empty loops side by side in one more: no nest has more loops.
fn longest() -> Vec<u8> { words(&format!("01 {} 02", "01 02 ".repeat(127))) }

fn check_calls(checks: &mut Checks) {
    let slip = |examiner, text: &str, room| Call::Slip(examiner, words(text), vec![7; room]);
    let last = |calls: &[Call]| replies(calls, 1)[0].clone();
    for examiner in [false, true] {
        let length = if examiner { 69 } else { 28 };
        let asked = |text: &str, room| last(&[load(P), Call::Plan, slip(examiner, text, room)]);
        checks.that("no nest", last(&[slip(examiner, "21", 0)]) == (10, 0, vec![0]));
        checks.that("too short", asked("2105", length - 1) == (9, 0, vec![0]));
        checks.that("just enough", asked("2105", length) == (0, 0, vec![length]));
        checks.that("a fault of the text before 9", asked("2105 2105", 0) == (8, 2, vec![0]));
        let unplanned = last(&[load(P), slip(examiner, "2105 22", 3)]);
        checks.that("without a key", unplanned == if examiner { (11, 0, vec![0]) } else { (2, 2, vec![0]) });
        let barred = [load("01 03 03 02 110001 1302"), Call::Plan, slip(examiner, "2101 2102", 3)];
        checks.that("a barred gap", last(&barred) == (16, 2, vec![0]));
        let blocked = last(&[load("01 03 02 110001 1301"), Call::Plan, slip(examiner, "2102", 14)]);
        checks.that("a blocked paper", blocked == if examiner { (11, 0, vec![0]) } else { (0, 0, vec![14]) });
    }
    let fresh = vec![load(P)];
    let used = vec![load(P), Call::Plan, Call::Put(3), Call::Mark(words("2105"))];
    for text in ["2103 2109", "2105 210b", "", "2105 2105", "21"] {
        for room in [0, 27, 28, 40] {
            let written = |calls: &Vec<Call>| {
                let mut desk = Desk::new();
                calls.iter().for_each(|call| drop(desk.play(call)));
                desk.play(&slip(false, text, room))
            };
            checks.that("the same on two desks", written(&fresh) == written(&used));
        }
    }
    let (p, foundation) = (load(P), load("01 03 03 02 110001 12000201 1302"));
    let script = [slip(false, "2103 2109", 30), slip(true, "2103", 80), Call::Plan, slip(true, "2103", 80)];
    check_altered(checks, &[&[p][..], &script, &[slip(true, "2105 210a 210b", 69), slip(true, "", 68)]].concat());
    check_altered(checks, &[&[foundation][..], &script, &[slip(false, "2102", 80), slip(true, "", 45)]].concat());
}
