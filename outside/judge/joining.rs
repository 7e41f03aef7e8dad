//! Two papers into one (02, job 12): the joint nest and its text, and which text is at fault.

use crate::asking::{guarded, lend, Call, Reply, GUARD};
use crate::desk::write_text;
use crate::desk_check::{check_altered, load, replies};
use crate::edges::edge_lines;
use crate::host;
use crate::nests::*;
use crate::order::search;
use crate::papers::*;
use crate::self_check::Checks;
use crate::texts::*;

/// A new loop round the first nest, then the second: points, dependences and flags moved along.
pub fn joined(n: &Nest, m: &Nest) -> Nest {
    let mut joint = Nest { points: vec![DO], ..Nest::default() };
    for part in [n, m] {
        let by = joint.points.len();
        let loop_of = |x: &Dependence| if x.kind == CARRIED { x.d + by } else { 0 };
        let moved = |x: &Dependence| Dependence { kind: x.kind, d: loop_of(x), s: x.s + by, t: x.t + by };
        joint.dependences.extend(part.dependences.iter().map(moved));
        joint.flagged.extend(part.flagged.iter().map(|d| d + by));
        joint.points.extend(&part.points);
    }
    joint.points.push(ENDDO);
    joint
}

/// More than 256 points, more than 512 dependences, or a loop more than 8 deep.
fn exceeds(nest: &Nest) -> bool {
    let mut depth = 0;
    let deep = nest.points.iter().any(|&kind| {
        match kind { DO => depth += 1, ENDDO => depth -= 1, _ => {} }
        depth > DEPTH
    });
    nest.points.len() > POINTS || nest.dependences.len() > DEPENDENCES || deep
}

/// The joint text, or the number with the text at fault, 0 for neither, and its line: the faults of the first text, of
/// the second; 14 for the first with barred gaps; 18.
pub fn join(a: &[u8], b: &[u8]) -> Result<Vec<u8>, (u8, usize, usize)> {
    let read = |which, text| read_nest(text).map_err(|r| (r.number, which, r.line));
    let (n, m) = (read(1, a)?, read(2, b)?);
    if !n.barred.is_empty() { return Err((14, 1, 0)) }
    if !m.barred.is_empty() { return Err((14, 2, 0)) }
    let joint = joined(&n, &m);
    if exceeds(&joint) { Err((18, 0, 0)) } else { Ok(joint.text()) }
}

/// What the call answers: as above, then 9.
pub fn answer(a: &[u8], b: &[u8], out: &[u8]) -> Reply {
    let lent = |written| [guarded(a), guarded(b), written].concat();
    match join(a, b) {
        Err((number, which, line)) => Reply { number, line, values: vec![which, 0], lent: lent(guarded(out)) },
        Ok(text) => {
            let (number, length, written) = write_text(0, &text, out);
            Reply { number, line: 0, values: vec![0, length[0]], lent: lent(written) }
        }
    }
}

/// The library's own answer.
pub fn play(a: &[u8], b: &[u8], out: &[u8]) -> Reply {
    let ((a, from), (b, second), (mut out, room)) = (lend(a), lend(b), lend(out));
    let (one, two) = (a[GUARD.len()..].as_ptr(), b[GUARD.len()..].as_ptr());
    let j = unsafe { host::desk_join(one, from, two, second, out[GUARD.len()..].as_mut_ptr(), room) };
    Reply { number: j.number, line: j.line, values: vec![j.text as usize, j.value], lent: [a, b, out].concat() }
}

/// How long the joint text is; 0 where there is none.
pub fn joint_length(a: &[u8], b: &[u8]) -> usize { join(a, b).map_or(0, |text| text.len()) }

/// Two papers whose joint nest meets a limit exactly, stays one below it or passes it by one.
pub fn at_limit(random: &mut Random) -> (Vec<u8>, Vec<u8>) {
    let more = random.pick(&[0, 0, 1, 1, 2]);
    let deepest = |random: &mut Random, depth: usize| {
        let nest = random_points(random, 60, depth);
        let inner = ["01 ".repeat(depth - 1), "02 ".repeat(depth - 1)];
        let lines = nest.lines();
        [words("01"), lines[1..lines.len() - 1].concat(), words(&inner.concat()), words("02")].concat()
    };
    match random.below(3) {
        0 => {
            let (first, depth) = (2 + random.below(POINTS - 6), 1 + random.below(DEPTH - 1));
            let (n, m) = (random_points(random, first, depth), random_points(random, POINTS - 3 + more - first, depth));
            (n.text(), m.text())
        }
        1 => {
            let first = random.pick(&[0, 1, 200, 255, 256, 510, 511]);
            let mut paper = |number: usize| {
                let mut nest = random_points(random, 20, 4);
                add_dependences(random, &mut nest, number, 20);
                nest.dependences.resize(number, Dependence { kind: INDEPENDENT, d: 0, s: 0, t: 19 });
                nest.text()
            };
            (paper(first), paper(DEPENDENCES - 1 + more - first))
        }
        _ => {
            let depths = [DEPTH - 2 + more, 1 + random.below(DEPTH - 2)];
            let (deep, other) = (deepest(random, depths[0].min(DEPTH)), deepest(random, depths[1]));
            if random.one_in(2) { (deep, other) } else { (other, deep) }
        }
    }
}

/// Papers and texts at fault, each of which is joined with each: words as in edges.txt.
const TEXTS: [&str; 30] = [
    "", "01 02", "P", "01 03 02 12000101", "04 03 02 110001", "01 04 02 02", "01 03 02 1301", "01 03 02 110001 1301",
    "01 0g", "_", "05", "01 02 110001 03", "01", "01*9 02*9", "P 110e02", "P 110202", "01 03 02 1303", "P 1305",
    "01*7 02*7", "01*8 02*8", "04*7 02*7", "01 03*250 02", "01 03*251 02", "01 03*254 02", "01 03*250 04 02 02 110001",
    "01 03 02 110001*256", "01 03 02 12000101*257", "01 03 02 110001*511", "01 03 02 110001*512", "01 03 02 110001*513",
];

/// Each of the texts with each, into a buffer that is just long enough, one byte too short, or longer.
pub fn joins() -> Vec<Vec<Call>> {
    let texts = TEXTS.map(|text| text.split_whitespace().flat_map(edge_lines).collect::<Vec<u8>>());
    let both = |a: &Vec<u8>, b: &Vec<u8>| {
        let length = joint_length(a, b);
        let call = |room| Call::Join(a.clone(), b.clone(), vec![7; room]);
        [length, length.saturating_sub(1), length + 9].map(call).to_vec()
    };
    texts.iter().flat_map(|a| texts.iter().map(|b| both(a, b)).collect::<Vec<_>>()).collect()
}

// ---- The self-check

pub fn check_joining(checks: &mut Checks) {
    let join_words = |a: &str, b: &str| join(&words(a), &words(b));
    let all = [
        ("01 03 02 12000101", "04 02", "01 01 03 02 04 02 02 12010202"),
        ("01 03 02 12000101", "01 03 03 02 110001 12000201", "01 01 03 02 01 03 03 02 02 12010202 110405 12040605"),
        ("", "", "01 01 02 01 02 02"),
        ("04 04 02 02", "01 04 02 02 110102", "01 04 04 02 02 01 04 02 02 02 110607"),
    ];
    for (a, b, wanted) in all { checks.that(&format!("{a} and {b}"), join_words(a, b) == Ok(words(wanted))) }
    let p = read_nest(&words(P)).unwrap();
    let twice = joined(&p, &p);
    let last = twice.dependences.last().map(|x| (x.s, x.t));
    checks.that("P and P", twice.points.len() == 30 && last == Some((4 + 15, 9 + 15)) && !exceeds(&twice));
    for (a, b, wanted) in [
        ("01", "02", (4, 1, 2)), ("01 02", "02", (4, 2, 1)), ("01 03 02 1301", "02", (4, 2, 1)), // text 2 before 14
        ("01 03 02 1301", "01 02", (14, 1, 0)), ("", "01 03 02 1302", (14, 2, 0)),
        ("01 03 02 1301", "01 03 02 1302", (14, 1, 0)), ("01 01 02 02 1301", "02", (14, 1, 5)),
        ("01 03 02 1301", "01 01 02 02 1301", (14, 2, 5)), ("01 03 02 110001 1301", "", (14, 1, 0)),
    ] { checks.that(&format!("{wanted:?} for {a} and {b}"), join_words(a, b) == Err(wanted)) }
    let text = |words: &str| words.split_whitespace().flat_map(edge_lines).collect::<Vec<u8>>();
    for (a, b, fits) in [
        ("01 03*250 02", "", true), ("01 03*251 02", "", false), ("01 03*125 02", "01 03*125 02", true),
        ("01 03*125 02", "01 03*126 02", false), ("01*7 02*7", "01*7 02*7", true), ("01*8 02*8", "", false),
        ("", "01*8 02*8", false), ("01 03 02 110001*256", "01 03 02 110001*256", true),
        ("01 03 02 110001*256", "01 03 02 110001*257", false), ("01 03 02 110001*512", "", true),
    ] {
        let answer = join(&text(a), &text(b));
        checks.that(&format!("limits: {a} and {b}"), answer.is_ok() == fits && (fits || answer == Err((18, 0, 0))));
    }
    checks.that("14 before 18", join(&text("01 03*254 02"), &text("01 03 02 1301")) == Err((14, 2, 0)));
    let longest = join(&text("01 03*124 02 12000101*256"), &text("01 03*126 02 12000101*256")).map(|text| text.len());
    checks.that("the longest joint text", longest == Ok(5376));
    let call = |a: &str, b: &str, room| Call::Join(words(a), words(b), vec![7; room]);
    let asked = |room| replies(&[call("01 02", "04 02", room)], 1)[0].clone();
    checks.that("just enough", asked(18) == (0, 0, vec![0, 18]));
    checks.that("9, which names no text", asked(17) == (9, 0, vec![0, 0]));
    let wide = Call::Join(text("01 03*254 02"), vec![], vec![]);
    checks.that("18 before 9", replies(&[wide], 1)[0] == (18, 0, vec![0, 0]));
    check_altered(checks, &[
        load(P), call("01 02", "04 02", 20), call("01 02", "04 02", 17), call("01", "", 9), call("", "01", 9),
        Call::Plan, call("01 03 02 1301", "", 30), call(P, P, 200),
    ]);
    (0..200).for_each(|case| check_random(checks, &mut Random::new(17, case)));
    (0..60).for_each(|case| check_limits(checks, &mut Random::new(18, case)));
}

/// On two small papers: the joint text reads back as the joint nest; its key is the two keys moved along, and no
/// barrier stands in the new loop's own gaps.
fn check_random(checks: &mut Checks, random: &mut Random) {
    let mut paper = || loop {
        let nest = small_nest(random);
        if nest.points.len() <= 7 { break nest }
    };
    let (n, m) = (paper(), paper());
    let shows = format!("{} and {}", shown(&n.text()), shown(&m.text()));
    let text = join(&n.text(), &m.text()).unwrap();
    let nest = read_nest(&text).unwrap();
    let same = nest.text() == text && nest.flagged == joined(&n, &m).flagged;
    checks.that(&format!("the text reads back: {shows}"), same);
    if nest.points.len() > SEARCHED { return }
    let moved = |part: &Nest, by: usize| search(part)[0].iter().map(|g| g + by).collect::<Vec<_>>();
    let key = [moved(&n, 1), moved(&m, 1 + n.points.len())].concat();
    checks.that(&format!("the keys moved along: {shows}"), search(&nest)[0] == key && nest.counts(&key)[0] == 0);
}

/// Where no paper has barred gaps, 18 is what makes the reader refuse the joint text with 5.
fn check_limits(checks: &mut Checks, random: &mut Random) {
    let (a, b) = at_limit(random);
    let (n, m) = (read_nest(&a).unwrap(), read_nest(&b).unwrap());
    let joint = joined(&n, &m);
    let refused = read_nest(&joint.text()).map(|nest| nest.text()).map_err(|r| r.number);
    let same = if exceeds(&joint) { refused == Err(5) } else { refused == Ok(joint.text()) };
    checks.that(&format!("18 where the reader says 5: {} points", joint.points.len()), same);
}
