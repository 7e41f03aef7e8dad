//! The calls of the library: what each is given, and what the library does with it.

use crate::arguing;
use crate::comparing;
use crate::host::{self, Desk, Placement, PlainDesk, WORDS};
use crate::improving;
use crate::joining;
use crate::runs;
use crate::shapes;
use crate::sheets::{self, Sheet};
use crate::skipping;
use crate::slips;
use crate::textbook_rule;
use crate::texts::shown;

/// A call with what is lent to it: a text, a list, a buffer. Over takes the desk's nest as a desk of the kind before
/// sittings, with a key or not, and other words in the key's place where some are given.
#[derive(Clone, PartialEq)]
pub enum Call {
    New,
    Reset,
    Load(Vec<u8>),
    Plan,
    Count(usize),
    Mark(Vec<u8>),
    Write(Vec<u8>),
    List(Vec<u8>),
    Put(usize),
    Lift(usize),
    TakeBack,
    Sitting(Vec<u8>),
    Over(bool, Option<[u64; WORDS]>),
    Shape,
    /// Of the dependence of a number.
    Gaps(usize),
    Standing,
    Textbook,
    /// The examiner's slip or the candidate's, of a text, into a buffer.
    Slip(bool, Vec<u8>, Vec<u8>),
    /// Of two placement texts.
    Compare(Vec<u8>, Vec<u8>),
    /// Of an argument text, against the key.
    Weigh(Vec<u8>),
    /// Of an argument text, the second, against a placement text.
    WeighPlacement(Vec<u8>, Vec<u8>),
    /// Into a buffer.
    Argue(Vec<u8>),
    MissingRuns,
    /// Of a placement text, for the dependence of a number.
    ReliedOn(Vec<u8>, usize),
    /// Of the dependence of a number.
    OneEnd(usize),
    /// With the turns of the loops.
    CountCalls(Vec<u8>),
    /// Of a placement text, with the turns of the loops.
    PlacementCalls(Vec<u8>, Vec<u8>),
    /// Of two texts, into a buffer; the desk has no part in it.
    Join(Vec<u8>, Vec<u8>, Vec<u8>),
    /// With the turns of the loops, and a budget of tries.
    Improve(Vec<u8>, usize),
    /// The desk has no part in it.
    Sheet(Sheet),
}

impl Call {
    pub fn name(&self) -> &'static str {
        match self {
            Call::New => "new",
            Call::Reset => "reset",
            Call::Load(_) => "load",
            Call::Plan => "plan",
            Call::Count(_) => "count",
            Call::Mark(_) => "mark",
            Call::Write(_) => "write",
            Call::List(_) => "list",
            Call::Put(_) => "put",
            Call::Lift(_) => "lift",
            Call::TakeBack => "take back",
            Call::Sitting(_) => "sitting",
            Call::Over(..) => "go over",
            Call::Shape => "shape",
            Call::Gaps(_) => "gaps",
            Call::Standing => "standing",
            Call::Textbook => "textbook",
            Call::Slip(false, ..) => "candidate's slip",
            Call::Slip(true, ..) => "examiner's slip",
            Call::Compare(..) => "compare",
            Call::Weigh(_) => "weigh",
            Call::WeighPlacement(..) => "weigh placement",
            Call::Argue(_) => "argue",
            Call::MissingRuns => "missing runs",
            Call::ReliedOn(..) => "relied on",
            Call::OneEnd(_) => "one end",
            Call::CountCalls(_) => "count calls",
            Call::PlacementCalls(..) => "placement calls",
            Call::Join(..) => "join",
            Call::Improve(..) => "improve",
            Call::Sheet(_) => "sheet",
        }
    }

    pub fn shown(&self) -> String {
        let given = match self {
            Call::Load(text) | Call::Mark(text) | Call::Weigh(text) => shown(text),
            Call::List(list) | Call::CountCalls(list) => format!("{list:?}"),
            Call::Write(out) | Call::Sitting(out) | Call::Argue(out) => format!("a buffer of {} bytes", out.len()),
            Call::Count(n) | Call::Put(n) | Call::Lift(n) | Call::Gaps(n) | Call::OneEnd(n) => n.to_string(),
            Call::Over(planned, key) => format!("with a key: {planned}, words {key:?}"),
            Call::Slip(_, text, out) => format!("{}, a buffer of {} bytes", shown(text), out.len()),
            Call::Compare(a, b) | Call::WeighPlacement(a, b) => format!("{}, {}", shown(a), shown(b)),
            Call::ReliedOn(text, n) => format!("{}, {n}", shown(text)),
            Call::PlacementCalls(text, turns) => format!("{}, {turns:?}", shown(text)),
            Call::Improve(turns, budget) => format!("{turns:?}, {budget} tries"),
            Call::Sheet(sheet) => format!("{sheet:?}"),
            Call::Join(a, b, out) => format!("{}, {}, a buffer of {} bytes", shown(a), shown(b), out.len()),
            _ => String::new(),
        };
        format!("{} {given}", self.name())
    }
}

/// What a call answered: number, line, the values of its reply in order; what was lent, with the bytes around it.
#[derive(Clone, Debug, PartialEq)]
pub struct Reply { pub number: u8, pub line: usize, pub values: Vec<usize>, pub lent: Vec<u8> }

impl From<host::Chosen> for Reply {
    fn from(c: host::Chosen) -> Reply {
        let values = c.set.words.iter().map(|&word| word as usize).collect();
        Reply { number: c.number, line: c.line, values, lent: Vec::new() }
    }
}

/// Bytes that stand before and behind whatever is lent.
pub const GUARD: [u8; 16] = *b"<-- not lent -->";

pub fn guarded(bytes: &[u8]) -> Vec<u8> { [&GUARD[..], bytes, &GUARD[..]].concat() }

/// What is lent, in its guards, and how long it is.
pub fn lend(bytes: &[u8]) -> (Vec<u8>, usize) { (guarded(bytes), bytes.len()) }

/// Plays a call through the library; the desk becomes the one that it gives.
pub fn play(desk: &mut Desk, call: &Call) -> Reply {
    let reply = |number, line, values: &[usize]| Reply { number, line, values: values.to_vec(), lent: Vec::new() };
    let answer = |a: host::Answer, lent| Reply { number: a.number, line: a.line, values: vec![a.value], lent };
    let moved = |m: host::Moved, desk: &mut Desk| { *desk = m.desk; reply(m.number, m.line, &[m.uncut]) };
    unsafe {
        match call {
            Call::New => { *desk = host::desk_new(); reply(0, 0, &[]) }
            Call::Reset => { *desk = host::desk_reset(*desk); reply(0, 0, &[]) }
            Call::Load(text) => {
                let (lent, length) = lend(text);
                let r = host::desk_load(*desk, lent[GUARD.len()..].as_ptr(), length);
                *desk = r.desk;
                Reply { number: r.number, line: r.line, values: vec![], lent }
            }
            Call::Plan => {
                let r = host::desk_plan(*desk);
                *desk = r.desk;
                reply(r.number, r.line, &[])
            }
            Call::Count(point) => answer(host::desk_count(*desk, *point), vec![]),
            Call::Mark(text) => {
                let (lent, length) = lend(text);
                let m = host::desk_mark(*desk, lent[GUARD.len()..].as_ptr(), length);
                Reply { number: m.number, line: m.line, values: vec![m.verdict as usize, m.a, m.b, m.c], lent }
            }
            Call::Write(out) => {
                let (mut lent, length) = lend(out);
                answer(host::desk_write(*desk, lent[GUARD.len()..].as_mut_ptr(), length), lent)
            }
            Call::List(list) => {
                let (lent, length) = lend(list);
                answer(host::desk_list(*desk, lent[GUARD.len()..].as_ptr(), length), lent)
            }
            Call::Put(gap) => moved(host::desk_put(*desk, *gap), desk),
            Call::Lift(gap) => moved(host::desk_lift(*desk, *gap), desk),
            Call::TakeBack => moved(host::desk_take_back(*desk), desk),
            Call::Sitting(out) => {
                let (mut lent, length) = lend(out);
                answer(host::desk_sitting(*desk, lent[GUARD.len()..].as_mut_ptr(), length), lent)
            }
            Call::Over(planned, words) => {
                let Desk { loaded, nest, key, .. } = *desk;
                let key = words.map_or(key, |words| Placement { words });
                let planned = (*planned && loaded == 1) as u8;
                *desk = host::desk_go_over(PlainDesk { loaded, nest, planned, key });
                reply(0, 0, &[])
            }
            Call::Shape => shapes::play_shape(*desk),
            Call::Gaps(dependence) => shapes::play_gaps(*desk, *dependence),
            Call::Standing => shapes::play_standing(*desk),
            Call::Textbook => textbook_rule::play(*desk),
            Call::Slip(examiner, text, out) => slips::play(*desk, *examiner, text, out),
            Call::Compare(a, b) => comparing::play(*desk, a, b),
            Call::Weigh(text) => arguing::play(*desk, text),
            Call::WeighPlacement(placement, text) => arguing::play_placement(*desk, placement, text),
            Call::Argue(out) => {
                let (mut lent, length) = lend(out);
                answer(host::desk_argue(*desk, lent[GUARD.len()..].as_mut_ptr(), length), lent)
            }
            Call::MissingRuns => skipping::play(*desk),
            Call::ReliedOn(text, dependence) => skipping::play_relied(*desk, text, *dependence),
            Call::OneEnd(dependence) => skipping::play_one_end(*desk, *dependence),
            Call::CountCalls(turns) => runs::play(*desk, turns),
            Call::PlacementCalls(text, turns) => runs::play_placement(*desk, text, turns),
            Call::Join(a, b, out) => joining::play(a, b, out),
            Call::Improve(turns, budget) => improving::play(*desk, turns, *budget),
            Call::Sheet(sheet) => sheets::play(sheet),
        }
    }
}
