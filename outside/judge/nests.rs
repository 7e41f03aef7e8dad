//! Nests, their gaps and their dependences (01, "The nest and its gaps"; 02, jobs 1, 3, 7 and 10).

use crate::texts::line;

// Limits and kinds of 01, "Text".
pub const POINTS: usize = 256;
pub const DEPTH: usize = 8;
pub const DEPENDENCES: usize = 512;
pub const BARS: usize = 255;
pub const DO: u8 = 0x01;
pub const ENDDO: u8 = 0x02;
pub const STATEMENT: u8 = 0x03;
pub const FLAGGED: u8 = 0x04;
pub const INDEPENDENT: u8 = 0x11;
pub const CARRIED: u8 = 0x12;
pub const BARRED: u8 = 0x13;
pub const BARRIER: u8 = 0x21;
pub const COUNT: u8 = 0x22;
pub const REFUSAL: u8 = 0x2f;

/// An independent dependence has no loop; its d is 0 and never read.
#[derive(Clone, Copy)]
pub struct Dependence { pub kind: u8, pub d: usize, pub s: usize, pub t: usize }

/// Points in text order, the ENDDO of each DO, the loops that are still open while reading, the dependences, the
/// barred gaps as they were typed, and the DOs of the loops that may not run, rising: among the points they are DOs.
#[derive(Clone, Default)]
pub struct Nest {
    pub points: Vec<u8>,
    pub end: Vec<usize>,
    pub open: Vec<usize>,
    pub dependences: Vec<Dependence>,
    pub barred: Vec<usize>,
    pub flagged: Vec<usize>,
}

impl Nest {
    pub fn closed(&self) -> bool { !self.points.is_empty() && self.open.is_empty() }

    pub fn loops(&self) -> Vec<usize> { (0..self.points.len()).filter(|&p| self.points[p] == DO).collect() }

    /// "Gap g belongs to the innermost loop with DO below g and ENDDO at or above g."
    pub fn owner(&self, g: usize) -> usize { (0..g).rev().find(|&d| self.points[d] == DO && self.end[d] >= g).unwrap() }

    /// "s + 1 to t", or "d + 1 to t and s + 1 to e".
    pub fn gaps(&self, x: &Dependence) -> Vec<usize> {
        match x.kind {
            INDEPENDENT => (x.s + 1..=x.t).collect(),
            _ => (x.d + 1..=x.t).chain(x.s + 1..=self.end[x.d]).collect(),
        }
    }

    /// The same as a test.
    pub fn has_gap(&self, x: &Dependence, g: usize) -> bool {
        match x.kind {
            INDEPENDENT => x.s < g && g <= x.t,
            _ => (x.d < g && g <= x.t) || (x.s < g && g <= self.end[x.d]),
        }
    }

    /// The gaps of a dependence where a barrier may stand.
    pub fn free_gaps(&self, x: &Dependence) -> Vec<usize> {
        self.gaps(x).into_iter().filter(|g| !self.barred.contains(g)).collect()
    }

    /// A dependence has barred gaps alone, so that no placement is correct.
    pub fn blocked(&self) -> bool {
        let mut barred = vec![false; self.points.len()];
        self.barred.iter().for_each(|&g| barred[g] = true);
        self.dependences.iter().any(|x| (0..barred.len()).all(|g| barred[g] || !self.has_gap(x, g)))
    }

    /// The lowest number of a dependence that holds no gap of the placement.
    pub fn uncut(&self, placement: &[usize]) -> Option<usize> {
        self.dependences.iter().position(|x| !self.gaps(x).iter().any(|g| placement.contains(g)))
    }

    /// Each loop's count, at the place of its DO; 0 at all other points.
    pub fn counts(&self, placement: &[usize]) -> Vec<usize> {
        let mut counts = vec![0; self.points.len()];
        placement.iter().for_each(|&g| counts[self.owner(g)] += 1);
        counts
    }

    /// Numbers 6 and 7 for a dependence between the points of a closed nest.
    pub fn fault(&self, x: &Dependence) -> Option<u8> {
        let sort = |p: usize, kinds: [u8; 2]| self.points.get(p).is_some_and(|k| kinds.contains(k));
        if !sort(x.s, [STATEMENT, DO]) || !sort(x.t, [STATEMENT, ENDDO]) { return Some(6) }
        if x.kind == INDEPENDENT { return if x.s >= x.t { Some(7) } else { None } }
        if !sort(x.d, [DO, DO]) { return Some(6) }
        let inside = |p: usize| x.d < p && p < self.end[x.d];
        if !inside(x.s) || !inside(x.t) { Some(7) } else { None }
    }

    /// A line for each point, each dependence and each barred gap, in this order.
    pub fn lines(&self) -> Vec<Vec<u8>> {
        let kind = |p: usize| if self.flagged.contains(&p) { FLAGGED } else { self.points[p] };
        let mut lines: Vec<Vec<u8>> = (0..self.points.len()).map(|p| line(&[kind(p)])).collect();
        for x in &self.dependences {
            let (d, s, t) = (x.d as u8, x.s as u8, x.t as u8);
            lines.push(if x.kind == INDEPENDENT { line(&[x.kind, s, t]) } else { line(&[x.kind, d, s, t]) });
        }
        lines.extend(self.barred.iter().map(|&g| line(&[BARRED, g as u8])));
        lines
    }

    pub fn text(&self) -> Vec<u8> { self.lines().concat() }
}
