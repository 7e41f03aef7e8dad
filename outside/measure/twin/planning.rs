//! The key of a nest: the values of all suffixes of a loop at once, the inner loops first, then the key laid down from
//! the outside. Where gaps are barred the others are renumbered, planned, and the key is taken back.
use crate::reading::{Dependence, Nest, Refusal, DO, ENDDO};

/// A set of gaps.
#[derive(Default)]
pub struct Key([u64; 4]);

impl Key {
    fn put(&mut self, g: usize) {
        self.0[g / 64] |= 1 << (g % 64);
    }

    pub fn holds(&self, g: usize) -> bool {
        self.0[g / 64] >> (g % 64) & 1 == 1
    }

    /// The gaps, rising.
    pub fn gaps(&self) -> impl Iterator<Item = usize> + '_ {
        self.0.iter().enumerate().flat_map(|(i, word)| {
            let mut rest = *word;
            std::iter::from_fn(move || {
                let at = rest.trailing_zeros() as usize;
                rest &= rest.wrapping_sub(1);
                (at < 64).then_some(64 * i + at)
            })
        })
    }
}

/// The key of a paper; it is refused where a dependence has all its gaps barred.
pub fn key(nest: &Nest) -> Result<Key, Refusal> {
    if nest.bars == 0 {
        return Ok(plan(nest));
    }
    // Of each gap how many up to it are not barred.
    let mut ranks = [1u8; 256];
    ranks[0] = 0;
    for g in nest.barred() {
        ranks[*g as usize] = 0;
    }
    for g in 1..256 {
        ranks[g] += ranks[g - 1];
    }
    let ring = renumbered(nest, &ranks).ok_or(Refusal { number: 15, line: 0 })?;
    let planned = plan(&ring);
    let mut key = Key::default();
    for g in 1..nest.count {
        if ranks[g] > ranks[g - 1] && planned.holds(ranks[g] as usize) {
            key.put(g);
        }
    }
    Ok(key)
}

/// The loop of the gaps that are not barred; none where a dependence has no such gap.
fn renumbered(nest: &Nest, ranks: &[u8; 256]) -> Option<Nest> {
    let top = ranks[nest.count - 1];
    let end = top.max(1) as usize;
    let mut ring = nest.clone();
    ring.points[end] = ENDDO;
    ring.count = end + 1;
    ring.bars = 0;
    for dep in &mut ring.deps[..nest.many] {
        let (s, t) = (ranks[dep.s as usize], ranks[dep.t as usize]);
        let line = |s, t| Dependence { carried: false, d: 0, s, t };
        *dep = match dep.carried {
            false if s == t => return None,
            true if t == 0 && s == top => return None,
            true if 0 < t && t < s && s < top => Dependence { carried: true, d: 0, s, t },
            true if s <= t => line(0, top),
            true if t == 0 => line(s, top),
            true => line(0, t),
            false => line(s, t),
        };
    }
    Some(ring)
}

/// The key of a nest with nothing barred.
#[inline(never)]
pub fn plan(nest: &Nest) -> Key {
    let (mut loops, mut rows) = Loops::new(nest.points());
    loops.collect(nest.deps(), &mut rows);
    loops.settle(&mut rows);
    let mut key = Key::default();
    if loops.has[0] {
        loops.lay(&mut rows, 0, 1, &mut key);
    }
    key
}

/// In `reach`, where no line starts.
const NONE: u8 = 255;

/// What is known of the loops of one depth, by gaps: of the lines that start there the least end, less one, or 0 where
/// a loop inside that holds barriers begins, since nothing further left cuts those; of the carried dependences that
/// start there the least target, and later of all from there on; the leftmost barrier of the suffix that begins there,
/// 0 for none, and the suffix that gives it.
#[derive(Clone)]
struct Row {
    reach: [u8; 256],
    limit: [u8; 256],
    left: [u8; 256],
    choice: [u8; 256],
}

/// Of each point the loop around it, of each DO its ENDDO, its depth, and whether it or a loop inside it has barriers.
struct Loops<'a> {
    points: &'a [u8],
    own: [u8; 256],
    ends: [u8; 256],
    depths: [u8; 256],
    has: [bool; 256],
}

impl Loops<'_> {
    /// The loops, and a row for each depth and one below, with nothing in them.
    fn new(points: &[u8]) -> (Loops<'_>, Vec<Row>) {
        let mut loops = Loops { points, own: [0; 256], ends: [0; 256], depths: [0; 256], has: [false; 256] };
        let (mut inner, mut depth, mut deepest) = (0u8, 0, 0);
        for (i, kind) in points.iter().enumerate() {
            loops.own[i] = inner;
            match *kind {
                DO => {
                    loops.depths[i] = depth;
                    depth += 1;
                    deepest = deepest.max(depth);
                    inner = i as u8;
                }
                ENDDO => {
                    loops.ends[inner as usize] = i as u8;
                    depth -= 1;
                    inner = loops.own[inner as usize];
                }
                _ => {}
            }
        }
        let row = Row { reach: [NONE; 256], limit: [255; 256], left: [0; 256], choice: [0; 256] };
        (loops, vec![row; deepest as usize + 1])
    }

    /// Each dependence in the row of its loop: of an independent one, the innermost around all its gaps.
    fn collect(&mut self, deps: &[Dependence], rows: &mut [Row]) {
        for dep in deps {
            let (s, t) = (dep.s as usize, dep.t);
            let mut home = dep.d as usize;
            if dep.carried {
                let limit = &mut rows[self.depths[home] as usize].limit[s];
                *limit = t.min(*limit);
            } else {
                home = if self.points[s] == DO { s } else { self.own[s] as usize };
                while self.ends[home] < t {
                    home = self.own[home] as usize;
                }
                let reach = &mut rows[self.depths[home] as usize].reach[s + 1];
                *reach = (t - 1).min(*reach);
            }
            self.has[home] = true;
        }
    }

    /// The rows of all loops, the inner ones first.
    fn settle(&mut self, rows: &mut [Row]) {
        for d in (0..self.points.len()).rev() {
            if self.points[d] == DO && self.has[d] {
                let depth = self.depths[d] as usize;
                self.settle_loop(&mut rows[depth..], d as u8);
                if d > 0 {
                    self.has[self.own[d] as usize] = true;
                    rows[depth - 1].reach[d + 1] = 0;
                }
            }
        }
    }

    /// The row of one loop that holds barriers, from the row of the loops inside it.
    fn settle_loop(&self, rows: &mut [Row], d: u8) {
        let (row, inner) = rows.split_first_mut().unwrap();
        let e = self.ends[d as usize];
        let mut sweeps = Sweeps { costs: [0; 256], fronts: [0; 256], links: [0; 256] };
        let first = last_start(&row.reach, e, d, e);
        sweeps.events(self, &row.reach, &inner[0].left, d, e, first);
        sweeps.follow(d, e, first);
        let least = sweeps.close(&mut row.limit, d, e);
        sweeps.choose(least, row, d, e);
    }

    /// Puts what the loop d lays for the suffix q, by one sweep from the right, and what the loops inside lay; the rows
    /// are those from the loop's own depth on.
    fn lay(&self, rows: &mut [Row], d: u8, q: u8, key: &mut Key) {
        let (row, inner) = rows.split_first_mut().unwrap();
        let e = self.ends[d as usize];
        let last = row.choice[q as usize] as usize;
        row.reach[last] = row.reach[last].min(e - 1);
        // The front, less one.
        let (mut f, mut p) = (e, e);
        while p > d {
            let before = p - 1;
            if self.points[before as usize] == ENDDO {
                let l = self.own[before as usize];
                let b = last_start(&row.reach, f, l, p);
                let kids = &inner[0].left;
                let mut ask = l + 1;
                if b > 0 && kids[b as usize] > 0 {
                    ask = b;
                } else if b > 0 {
                    key.put(p as usize);
                    f = before;
                }
                if self.has[l as usize] {
                    f = kids[ask as usize] - 1;
                    self.lay(inner, l, ask, key);
                }
                p = l;
            } else {
                if row.reach[p as usize] < f {
                    key.put(p as usize);
                    f = before;
                }
                p = before;
            }
        }
        if f >= row.limit[last] {
            key.put(d as usize + 1);
        }
    }
}

/// By gaps of one loop, what a sweep makes from a start there: own barriers, the front, which is the leftmost barrier,
/// and of a front the start that follows it.
struct Sweeps {
    costs: [u8; 256],
    fronts: [u8; 256],
    links: [u8; 256],
}

impl Sweeps {
    /// From each start to the next, from the right; the links only fall.
    #[inline(never)]
    fn events(&mut self, loops: &Loops, reach: &[u8; 256], kids: &[u8; 256], d: u8, e: u8, first: u8) {
        let (mut a, mut p) = (first, e);
        while p > d {
            let before = p - 1;
            let child = loops.points[before as usize] == ENDDO;
            let low = if child { loops.own[before as usize] } else { before };
            let outer = if child && loops.has[low as usize] { kids[low as usize + 1] } else { p };
            a = last_start(reach, before, d, a.min(low));
            self.costs[p as usize] = 1;
            self.fronts[p as usize] = outer;
            self.links[p as usize] = a;
            if child {
                for x in (low + 1..p).rev() {
                    let g = kids[x as usize];
                    a = last_start(reach, x - 1, d, a);
                    self.costs[x as usize] = (g == 0) as u8;
                    self.fronts[x as usize] = if g == 0 { outer } else { g };
                    self.links[x as usize] = a;
                }
            }
            p = low;
        }
    }

    /// From each start to the end: what follows its front is there already. The sweep of a suffix begins at its own
    /// gap, or at the first start if that lies further right.
    #[inline(never)]
    fn follow(&mut self, d: u8, e: u8, first: u8) {
        for x in d as usize + 1..e as usize + 1 {
            let next = self.links[self.fronts[x] as usize] as usize;
            if next > 0 {
                self.costs[x] += self.costs[next];
                self.fronts[x] = self.fronts[next];
            }
        }
        if first > d {
            let (cost, front) = (self.costs[first as usize], self.fronts[first as usize]);
            self.costs[d as usize + 1..first as usize].fill(cost);
            self.fronts[d as usize + 1..first as usize].fill(front);
        }
    }

    /// The limits, and a barrier right after the DO where a front lies beyond its limit; gives the fewest barriers.
    #[inline(never)]
    fn close(&mut self, limits: &mut [u8; 256], d: u8, e: u8) -> u8 {
        let (mut limit, mut least) = (e as u32, u32::MAX);
        for q in (d as usize + 1..e as usize + 1).rev() {
            limit = limit.min(limits[q] as u32);
            limits[q] = limit as u8;
            let mut cost = self.costs[q] as u32;
            if self.fronts[q] as u32 > limit {
                cost += 1;
                self.costs[q] = cost as u8;
                self.fronts[q] = d + 1;
            }
            least = least.min(cost);
        }
        least as u8
    }

    /// The leftmost front with the fewest barriers, and the suffix that gives it; from the right, none at first.
    #[inline(never)]
    fn choose(&self, least: u8, row: &mut Row, d: u8, e: u8) {
        let (mut best, mut at) = (u32::MAX, 0);
        let mut q = e as usize;
        while self.costs[q] > least {
            q -= 1;
        }
        while q > d as usize {
            let front = self.fronts[q] as u32;
            if self.costs[q] == least && front <= best {
                (best, at) = (front, q);
            }
            row.left[q] = best as u8;
            row.choice[q] = at as u8;
            q -= 1;
        }
    }
}

/// The last gap above `low`, at most `a`, where a line starts that ends at `end` or before; 0 for none.
#[inline]
fn last_start(reach: &[u8; 256], end: u8, low: u8, mut a: u8) -> u8 {
    while a > low {
        if reach[a as usize] < end {
            return a;
        }
        a -= 1;
    }
    0
}
