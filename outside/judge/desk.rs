//! The judge's own desk (01, "The desk" and "Numbers from the state"; 02, jobs 4 to 7 and 10). A key is searched for,
//! the sitting is a set of gaps, every count is made anew, and to take back it keeps every placement of before.

use crate::arguing;
use crate::asking::{guarded, Call, Reply};
use crate::comparing;
use crate::host::{self, gaps_of, KEPT};
use crate::improving;
use crate::joining;
use crate::nests::*;
use crate::order::{first_key, mark, Mark};
use crate::runs;
use crate::shapes;
use crate::sheets;
use crate::skipping;
use crate::slips;
use crate::textbook_rule;
use crate::texts::{barrier_lines, read_nest, read_placement};
use std::collections::{BTreeSet, VecDeque};

/// A nest may have a key that this reading cannot find: on such a paper the library's own is held to what is known.
#[derive(Clone, Debug, PartialEq)]
pub enum Key { None, Known(Vec<usize>), Unknown }

#[derive(Clone)]
pub struct Desk {
    pub nest: Option<Nest>,
    pub key: Key,
    /// The argument of the key: none is made here, so it is the library's, where it holds.
    pub argument: Option<Vec<u8>>,
    pub sitting: BTreeSet<usize>,
    /// The moves that can be taken back, the oldest first: gap, whether it was put, the placement before.
    pub moves: VecDeque<(usize, bool, BTreeSet<usize>)>,
}

impl Desk {
    pub fn new() -> Desk {
        Desk { nest: None, key: Key::None, argument: None, sitting: BTreeSet::new(), moves: VecDeque::new() }
    }

    pub fn points(&self) -> usize { self.nest.as_ref().map_or(0, |nest| nest.points.len()) }

    pub fn barred(&self) -> &[usize] { self.nest.as_ref().map_or(&[], |nest| &nest.barred) }

    pub fn key(&self) -> &[usize] { if let Key::Known(key) = &self.key { key } else { &[] } }

    /// How many barriers of the sitting cut each dependence.
    pub fn counts(&self) -> Vec<usize> {
        let cutting = |nest: &Nest, x: &Dependence| self.sitting.iter().filter(|&&g| nest.has_gap(x, g)).count();
        self.nest.as_ref().map_or(Vec::new(), |nest| nest.dependences.iter().map(|x| cutting(nest, x)).collect())
    }

    fn uncut(&self) -> usize { self.counts().iter().filter(|&&c| c == 0).count() }

    /// 10, then 11.
    pub fn fault(&self, wants_key: bool) -> u8 {
        if self.nest.is_none() { 10 } else if wants_key && self.key == Key::None { 11 } else { 0 }
    }

    /// 10, then 15.
    fn plan(&mut self) -> u8 {
        let Some(nest) = &self.nest else { return 10 };
        if nest.blocked() { return 15 }
        if self.key == Key::None { self.key = first_key(nest).map_or(Key::Unknown, Key::Known) }
        0
    }

    /// Makes a call. The reply has no key's text while the key is unknown, nor an argument's: `adopt` comes first.
    pub fn play(&mut self, call: &Call) -> Reply {
        let (mut number, mut line, mut values) = (0, 0, Vec::new());
        let mut lent = Vec::new();
        match call {
            Call::New | Call::Reset => *self = Desk::new(),
            Call::Load(text) => {
                lent = guarded(text);
                match read_nest(text) {
                    Ok(nest) => *self = Desk { nest: Some(nest), ..Desk::new() },
                    Err(r) => (number, line) = (r.number, r.line),
                }
            }
            Call::Plan => number = self.plan(),
            Call::Count(point) => (number, values) = self.count(*point),
            Call::Mark(text) => {
                lent = guarded(text);
                (number, line, values) = self.mark(text);
            }
            Call::Write(out) => (number, values, lent) = write(self.fault(true), self.key(), out),
            Call::List(list) => {
                lent = guarded(list);
                (number, line, values) = self.list(list);
            }
            Call::Put(gap) => (number, values) = self.turn(*gap, true),
            Call::Lift(gap) => (number, values) = self.turn(*gap, false),
            Call::TakeBack => (number, values) = self.take_back(),
            Call::Sitting(out) => {
                let gaps: Vec<usize> = self.sitting.iter().copied().collect();
                (number, values, lent) = write(self.fault(false), &gaps, out);
            }
            Call::Over(planned, _) => {
                let nest = self.nest.take();
                *self = Desk { nest, ..Desk::new() };
                if *planned { self.plan(); }
            }
            Call::Shape => (number, values) = shapes::shape(self),
            Call::Gaps(dependence) => (number, values) = shapes::gaps(self, *dependence),
            Call::Standing => (number, values) = shapes::standing(self),
            Call::Textbook => (number, values) = textbook_rule::answer(self.nest.as_ref()),
            Call::Slip(examiner, text, out) => return slips::answer(self, *examiner, text, out),
            Call::Compare(a, b) => return comparing::answer(self, a, b),
            Call::Weigh(text) => return arguing::answer(self, text),
            Call::WeighPlacement(placement, text) => return arguing::answer_placement(self, placement, text),
            Call::Argue(out) => return arguing::answer_argue(self, out),
            Call::MissingRuns => (number, values) = skipping::answer(self),
            Call::ReliedOn(text, dependence) => return skipping::answer_relied(self, text, *dependence),
            Call::OneEnd(dependence) => (number, values) = skipping::answer_one_end(self, *dependence),
            Call::CountCalls(turns) => return runs::answer(self, turns),
            Call::PlacementCalls(text, turns) => return runs::answer_placement(self, text, turns),
            Call::Join(a, b, out) => return joining::answer(a, b, out),
            Call::Improve(turns, budget) => return improving::answer(self, turns, *budget),
            Call::Sheet(sheet) => return sheets::answer(sheet),
        }
        Reply { number, line, values, lent }
    }

    fn count(&self, point: usize) -> (u8, Vec<usize>) {
        let fault = self.fault(true);
        if fault != 0 { return (fault, vec![0]) }
        let nest = self.nest.as_ref().unwrap();
        if !nest.loops().contains(&point) { return (6, vec![0]) }
        (0, vec![nest.counts(self.key())[point]])
    }

    fn mark(&self, text: &[u8]) -> (u8, usize, Vec<usize>) {
        let (fault, none) = (self.fault(true), vec![0; 4]);
        if fault != 0 { return (fault, 0, none) }
        let nest = self.nest.as_ref().unwrap();
        match read_placement(nest, text) {
            Err(r) => (r.number, r.line, none),
            Ok(placement) => (0, 0, match mark(nest, self.key(), &placement) {
                Mark::Uncut(number) => vec![0, number, 0, 0],
                Mark::Dearer { of, theirs, ours } => vec![1, of, theirs, ours],
                Mark::Best => vec![2, 0, 0, 0],
            }),
        }
    }

    /// "A faulty record anywhere in the list comes before that reply." Less than a record at the end is a faulty one.
    fn list(&self, list: &[u8]) -> (u8, usize, Vec<usize>) {
        let fault = self.fault(true);
        if fault != 0 { return (fault, 0, vec![0]) }
        let (nest, mut first) = (self.nest.as_ref().unwrap(), 0);
        for (i, record) in list.chunks(4).enumerate() {
            let at = |i: usize| record[i] as usize;
            if record.len() < 4 || ![INDEPENDENT, CARRIED].contains(&record[0]) { return (2, i + 1, vec![0]) }
            let x = Dependence { kind: record[0], d: at(1), s: at(2), t: at(3) };
            if let Some(number) = nest.fault(&x) { return (number, i + 1, vec![0]) }
            if first == 0 && !self.key().iter().any(|&g| nest.has_gap(&x, g)) { first = i + 1 }
        }
        (0, 0, vec![first])
    }

    /// Puts or lifts: 10, then 8, then 12, then 16 for a Put.
    fn turn(&mut self, gap: usize, put: bool) -> (u8, Vec<usize>) {
        let Some(nest) = &self.nest else { return (10, vec![0]) };
        if gap == 0 || gap >= nest.points.len() { return (8, vec![0]) }
        if put == self.sitting.contains(&gap) { return (12, vec![0]) }
        if put && nest.barred.contains(&gap) { return (16, vec![0]) }
        let before = self.sitting.clone();
        if put { self.sitting.insert(gap); } else { self.sitting.remove(&gap); }
        self.moves.push_back((gap, put, before));
        if self.moves.len() > KEPT { self.moves.pop_front(); }
        (0, vec![self.uncut()])
    }

    fn take_back(&mut self) -> (u8, Vec<usize>) {
        if self.nest.is_none() { return (10, vec![0]) }
        let Some((_, _, before)) = self.moves.pop_back() else { return (13, vec![0]) };
        self.sitting = before;
        (0, vec![self.uncut()])
    }

    /// What the library's desk has otherwise than this one, if anything.
    pub fn difference(&self, seen: &host::Desk) -> Option<String> {
        let (empty, counts) = (Nest::default(), self.counts());
        let nest = self.nest.as_ref().unwrap_or(&empty);
        let (count, many) = (nest.points.len(), nest.dependences.len());
        let record = |x: &Dependence| [x.kind, x.d as u8, x.s as u8, x.t as u8];
        let records: Vec<[u8; 4]> = nest.dependences.iter().map(record).collect();
        let barred: Vec<u8> = (0..BARS).map(|i| nest.barred.get(i).map_or(0, |&g| g as u8)).collect();
        let flagged: Vec<u8> = (0..POINTS).map(|i| nest.flagged.get(i).map_or(0, |&d| d as u8)).collect();
        let moves: Vec<(u8, u8)> = self.moves.iter().rev().map(|(gap, put, _)| (*gap as u8, *put as u8)).collect();
        let differ = |what: &str, same: bool| if same { None } else { Some(what.to_string()) };
        differ("loaded", seen.loaded == self.nest.is_some() as u8)
            .or_else(|| differ("the number of points", seen.nest.count == count))
            .or_else(|| differ("the number of dependences", seen.nest.many == many))
            .or_else(|| differ("the points", seen.nest.points[..count] == nest.points[..]))
            .or_else(|| {
                let deps = seen.nest.deps[..many].iter().map(|x| [x.kind, x.d, x.s, x.t]);
                differ("the dependences", deps.eq(records))
            })
            .or_else(|| differ("the number of barred gaps", seen.nest.bars == nest.barred.len()))
            .or_else(|| differ("the barred gaps", seen.nest.barred[..] == barred[..]))
            .or_else(|| differ("the number of flagged loops", seen.nest.flags == nest.flagged.len()))
            .or_else(|| differ("the flagged loops", seen.nest.flagged[..] == flagged[..]))
            .or_else(|| differ("planned", seen.planned == (self.key != Key::None) as u8))
            .or_else(|| differ("the key", self.key == Key::Unknown || gaps_of(&seen.key) == self.key()))
            .or_else(|| differ("the sitting", gaps_of(&seen.sitting.placement).iter().eq(&self.sitting)))
            .or_else(|| {
                let kept = seen.sitting.counts[..many].iter().map(|&c| c as usize);
                differ("the kept counts", kept.eq(counts.iter().copied()))
            })
            .or_else(|| differ("uncut", seen.sitting.uncut == counts.iter().filter(|&&c| c == 0).count()))
            .or_else(|| differ("the number of moves", seen.moves.many == moves.len() && seen.moves.head < KEPT))
            .or_else(|| {
                let at = |i: usize| seen.moves.ring[(seen.moves.head + KEPT - i) % KEPT];
                differ("the moves", (0..moves.len()).map(|i| (at(i).gap, at(i).put)).eq(moves.iter().copied()))
            })
    }
}

fn write(fault: u8, gaps: &[usize], out: &[u8]) -> (u8, Vec<usize>, Vec<u8>) {
    write_text(fault, &barrier_lines(gaps), out)
}

/// "Each frame is written from the place where the one before ended; later bytes stay; the length is given."
pub fn write_text(fault: u8, text: &[u8], out: &[u8]) -> (u8, Vec<usize>, Vec<u8>) {
    let number = if fault == 0 && out.len() < text.len() { 9 } else { fault };
    if number != 0 { return (number, vec![0], guarded(out)) }
    (0, vec![text.len()], guarded(&[text, &out[text.len()..]].concat()))
}
