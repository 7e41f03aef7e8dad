//! The self-check of the judge's own desk: cases by hand, and every reply or desk that is altered is noticed.

use crate::asking::{guarded, play, Call, Reply};
use crate::desk::Desk;
use crate::host;
use crate::papers::{words, P};
use crate::scripts::{judge, Pair};
use crate::self_check::Checks;

pub fn check_desk(checks: &mut Checks) {
    check_screen(checks);
    check_back(checks);
    check_texts(checks);
    check_list(checks);
    check_altered(checks, &[
        load(P), load("02"), Call::Plan, Call::Put(5), Call::Put(5), Call::Put(11), Call::Lift(5), Call::TakeBack,
        Call::Count(1), Call::Mark(words("2103 2109 210d")), Call::Write(vec![7; 12]), Call::Write(vec![7; 9]),
        Call::Sitting(vec![7; 10]), Call::List(vec![0x11, 0, 2, 3]), Call::Over(true, None), Call::Put(3), Call::Plan,
    ]);
}

/// The judge's desk after calls, and the numbers and values of the last ones.
pub fn replies(calls: &[Call], last: usize) -> Vec<(u8, usize, Vec<usize>)> {
    let mut desk = Desk::new();
    let all: Vec<Reply> = calls.iter().map(|call| desk.play(call)).collect();
    all[calls.len() - last..].iter().map(|r| (r.number, r.line, r.values.clone())).collect()
}

pub fn load(text: &str) -> Call { Call::Load(words(text)) }

pub fn moved(number: u8, uncut: usize) -> (u8, usize, Vec<usize>) { (number, 0, vec![uncut]) }

/// P at the screen: 5 cuts three of the six, 11 the others; then 12, 8, 8, 12, 8; Plan; a Lift, a Put, over.
fn check_screen(checks: &mut Checks) {
    use Call::{Lift, Put};
    let calls = [load(P), Put(5), Put(11), Put(5), Put(0), Put(14), Lift(3), Lift(255)];
    let wanted = [(0, 3), (0, 0), (12, 0), (8, 0), (8, 0), (12, 0), (8, 0)].map(|(n, u)| moved(n, u));
    checks.that("P at the screen", replies(&calls, 7) == wanted);
    let calls = [load(P), Put(5), Put(11), Call::Plan, Lift(5), Put(3)];
    checks.that("Plan leaves the sitting", replies(&calls, 2) == [moved(0, 3), moved(0, 1)]);
    let calls = [load(P), Put(5), Call::Over(false, None), Lift(5), Call::TakeBack, Put(5)];
    checks.that("gone over", replies(&calls, 3) == [moved(12, 0), moved(13, 0), moved(0, 3)]);
    let calls = [load("02"), Put(0), Lift(1), Call::TakeBack];
    checks.that("no nest", replies(&calls, 3) == [10, 10, 10].map(|number| moved(number, 0)));
    let counts = |calls: &[Call]| {
        let mut desk = Desk::new();
        calls.iter().for_each(|call| drop(desk.play(call)));
        desk.counts()
    };
    checks.that("kept counts", counts(&[load(P), Put(11), Put(3)]) == [1, 1, 1, 1, 1, 0]);
    checks.that("kept counts, twice cut", counts(&[load(P), Put(4), Put(5), Put(11)])[0] == 2);
}

fn check_back(checks: &mut Checks) {
    use Call::{Lift, Put, TakeBack};
    let calls = [load(P), Put(5), Lift(5), Put(0), TakeBack, TakeBack, TakeBack];
    checks.that("taken back", replies(&calls, 3) == [moved(0, 3), moved(0, 6), moved(13, 0)]);
    let turns = (0..65).map(|i| if i % 2 == 0 { Put(5) } else { Lift(5) });
    let calls: Vec<Call> = std::iter::once(load(P)).chain(turns).chain((0..65).map(|_| TakeBack)).collect();
    checks.that("the first of 65 moves forgotten", replies(&calls, 2) == [moved(0, 3), moved(13, 0)]);
}

/// Cases 1, 2, 4 and 13 of 01, with the bytes around the buffer.
fn check_texts(checks: &mut Checks) {
    let marked = |gaps: &str| replies(&[load(P), Call::Plan, Call::Mark(words(gaps))], 1)[0].clone();
    checks.that("P with 3, 9", marked("2103 2109") == (0, 0, vec![0, 4, 0, 0]));
    checks.that("P with 3, 9, 13", marked("2103 2109 210d") == (0, 0, vec![1, 0, 1, 0]));
    checks.that("P with its key", marked("2105 210b") == (0, 0, vec![2, 0, 0, 0]));
    checks.that("P with gap 14", marked("2105 210e") == (8, 2, vec![0, 0, 0, 0]));
    checks.that("P before Plan", replies(&[load(P), Call::Mark(vec![])], 1) == [(11, 0, vec![0; 4])]);
    let counts = [0, 1, 7, 2].map(|d| replies(&[load(P), Call::Plan, Call::Count(d)], 1)[0].clone());
    checks.that("P's counts", counts == [(0, 0), (0, 1), (0, 1), (6, 0)].map(|(n, v)| moved(n, v)));
    let written = |length: usize| {
        let mut desk = Desk::new();
        desk.play(&load(P));
        desk.play(&Call::Plan);
        desk.play(&Call::Write(vec![7; length]))
    };
    let (short, exact, long) = (written(9), written(10), written(11));
    checks.that("9 bytes for P's key", short.number == 9 && short.lent == guarded(&[7; 9]));
    checks.that("10 bytes for P's key", exact.values == [10] && exact.lent == guarded(b"2105\n210b\n"));
    checks.that("11 bytes for P's key", long.values == [10] && long.lent == guarded(b"2105\n210b\n\x07"));
    let calls = [load(P), Call::Put(13), Call::Put(2), Call::Sitting(vec![0; 10])];
    checks.that("a sitting written", replies(&calls, 1) == [moved(0, 10)]);
    let short = [&calls[..3], &[Call::Sitting(vec![0; 9])]].concat();
    checks.that("a sitting, too short", replies(&short, 1) == [moved(9, 0)]);
}

/// P's key, 5 and 11, cuts the first two of these and not the third; then each fault, and bytes left over.
fn check_list(checks: &mut Checks) {
    let good: [u8; 12] = [0x11, 99, 2, 5, 0x12, 0, 3, 2, 0x11, 0, 2, 3];
    let listed = |bytes: &[u8]| {
        let list = [&good[..], bytes].concat();
        replies(&[load(P), Call::Plan, Call::List(list)], 1)[0].clone()
    };
    checks.that("the third is uncut", listed(&[]) == (0, 0, vec![3]));
    checks.that("an unknown kind", listed(&[0x13, 0, 2, 3]) == (2, 4, vec![0]));
    checks.that("from an ENDDO", listed(&[0x11, 0, 6, 9]) == (6, 4, vec![0]));
    checks.that("s at t", listed(&[0x11, 0, 2, 2]) == (7, 4, vec![0]));
    checks.that("the first fault decides", listed(&[0x11, 0, 2, 2, 0, 0, 0, 0]) == (7, 4, vec![0]));
    (1..4).for_each(|n| checks.that("bytes left over", listed(&[0x11, 0, 2][..n]) == (2, 4, vec![0])));
    checks.that("none uncut", replies(&[load(P), Call::Plan, Call::List(good[..8].to_vec())], 1) == [moved(0, 0)]);
}

/// Each call of a script that begins with a paper, with each part of its reply, each lent byte and each part of the
/// desk altered in turn.
pub fn check_altered(checks: &mut Checks, script: &[Call]) {
    let mut pair = Pair::new();
    for call in script {
        let before = pair.theirs;
        let mut ours = pair.ours.clone();
        let seen = play(&mut before.clone(), call);
        let wanted = ours.play(call);
        checks.that(&format!("{}: nothing differs", call.shown()), pair.make(call).is_ok());
        let noticed = |seen: &Reply, desk: &host::Desk| judge(call, &ours, &before, &wanted, seen, desk).is_err();
        for (what, altered) in altered_replies(&seen) {
            checks.that(&format!("{}: noticed: {what}", call.shown()), noticed(&altered, &pair.theirs));
        }
        for (what, altered) in altered_desks(&pair.theirs) {
            checks.that(&format!("{}: noticed: {what}", call.shown()), noticed(&seen, &altered));
        }
        let same = ours.nest.is_some() && matches!(call, Call::Mark(_) | Call::Count(_)) || wanted.number != 0;
        let mut beyond = pair.theirs;
        beyond.nest.points[200] ^= 1;
        checks.that(&format!("{}: noticed: a byte that means nothing", call.shown()), !same || noticed(&seen, &beyond));
    }
}

fn altered_replies(seen: &Reply) -> Vec<(String, Reply)> {
    let mut all = vec![
        ("number".to_string(), Reply { number: seen.number ^ 1, ..seen.clone() }),
        ("line".to_string(), Reply { line: seen.line + 1, ..seen.clone() }),
    ];
    for i in 0..seen.values.len() {
        let mut other = seen.clone();
        other.values[i] += 1;
        all.push((format!("value {i}"), other));
    }
    for i in 0..seen.lent.len() {
        let mut other = seen.clone();
        other.lent[i] ^= 1;
        all.push((format!("lent byte {i}"), other));
    }
    all
}

/// Every part of a desk with a nest and some dependences, one altered at a time.
fn altered_desks(desk: &host::Desk) -> Vec<(&'static str, host::Desk)> {
    let alter: [(&'static str, fn(&mut host::Desk)); 23] = [
        ("loaded", |d| d.loaded ^= 1),
        ("loaded, not 0 or 1", |d| d.loaded ^= 2),
        ("the number of points", |d| d.nest.count ^= 1),
        ("a point", |d| d.nest.points[d.nest.count - 1] ^= 1),
        ("the number of dependences", |d| d.nest.many -= 1),
        ("a dependence's kind", |d| d.nest.deps[0].kind ^= 3),
        ("a dependence's d", |d| d.nest.deps[0].d += 1),
        ("a dependence's s", |d| d.nest.deps[d.nest.many - 1].s += 1),
        ("a dependence's t", |d| d.nest.deps[d.nest.many - 1].t += 1),
        ("the number of barred gaps", |d| d.nest.bars ^= 1),
        ("the first barred gap", |d| d.nest.barred[0] ^= 4),
        ("a byte behind the barred gaps", |d| d.nest.barred[254] ^= 1),
        ("the number of flagged loops", |d| d.nest.flags ^= 1),
        ("the first flagged loop", |d| d.nest.flagged[0] ^= 4),
        ("a byte behind the flagged loops", |d| d.nest.flagged[255] ^= 1),
        ("planned", |d| d.planned ^= 1),
        ("the key", |d| d.key.words[0] ^= 1 << 7),
        ("the key's last word", |d| d.key.words[3] ^= 1),
        ("the sitting", |d| d.sitting.placement.words[0] ^= 1 << 4),
        ("a kept count", |d| d.sitting.counts[d.nest.many - 1] += 1),
        ("uncut", |d| d.sitting.uncut += 1),
        ("the number of moves", |d| d.moves.many += 1),
        ("the latest move", |d| d.moves.head ^= 64),
    ];
    let altered = |change: &fn(&mut host::Desk)| { let mut other = *desk; change(&mut other); other };
    let mut all: Vec<_> = alter.iter().map(|(what, change)| (*what, altered(change))).collect();
    if desk.moves.many > 0 {
        let (mut gap, mut put) = (*desk, *desk);
        gap.moves.ring[desk.moves.head].gap ^= 1;
        put.moves.ring[desk.moves.head].put ^= 1;
        all.extend([("a move's gap", gap), ("a move's kind", put)]);
    }
    all
}
