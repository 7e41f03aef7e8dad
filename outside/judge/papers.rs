//! Random papers, and texts that are damaged.

use crate::nests::*;
use crate::order::search;
use crate::texts::{line, take_point};

/// Nests of at most so many points are searched whole; random ones mostly have SMALL points or fewer.
pub const SEARCHED: usize = 15;
const SMALL: usize = 12;

/// Of papers with so many points or fewer, all are played.
pub const SMALLEST: usize = 7;

pub struct Random(u64);

impl Random {
    pub fn new(seed: u64, case: usize) -> Random {
        let mut random = Random(seed.wrapping_mul(0xd1342543de82ef95) ^ (case as u64) << 20);
        random.next();
        random
    }
    /// Splitmix64.
    pub fn next(&mut self) -> u64 {
        self.0 = self.0.wrapping_add(0x9e3779b97f4a7c15);
        let z = (self.0 ^ self.0 >> 30).wrapping_mul(0xbf58476d1ce4e5b9);
        let z = (z ^ z >> 27).wrapping_mul(0x94d049bb133111eb);
        z ^ z >> 31
    }
    pub fn below(&mut self, n: usize) -> usize { (self.next() % n as u64) as usize }
    pub fn one_in(&mut self, n: usize) -> bool { self.below(n) == 0 }
    pub fn pick<T: Copy>(&mut self, from: &[T]) -> T { from[self.below(from.len())] }
}

/// A closed nest of n points, at most `depth` deep, of any shape: at each place a kind is drawn from those that
/// leave room to close what is open. In one of three nests loops are flagged, some or all.
pub fn random_points(random: &mut Random, n: usize, depth: usize) -> Nest {
    let weights: Vec<usize> = (0..3).map(|_| 1 + random.below(4)).collect();
    let mut nest = Nest::default();
    take_point(&mut nest, DO).unwrap();
    while !nest.closed() {
        let (left, open) = (n - nest.points.len(), nest.open.len());
        let mut kinds = Vec::new();
        if open < depth && left >= open + 2 { kinds.extend(vec![DO; weights[0]]) }
        if open > 1 || left == 1 { kinds.extend(vec![ENDDO; weights[1]]) }
        if left > open { kinds.extend(vec![STATEMENT; weights[2]]) }
        take_point(&mut nest, random.pick(&kinds)).unwrap();
    }
    if random.one_in(3) { flag_loops(random, &mut nest) }
    nest
}

/// Flags each loop with the same chance: all of them, every second, or few.
pub fn flag_loops(random: &mut Random, nest: &mut Nest) {
    let chance = random.pick(&[1, 2, 2, 6]);
    nest.flagged = nest.loops().into_iter().filter(|_| random.one_in(chance)).collect();
}

/// Every closed nest of so many points.
pub fn every_shape(points: usize) -> Vec<Nest> {
    let mut open = vec![Nest::default()];
    for left in (0..points).rev() {
        let with = |nest: &Nest, kind: u8| {
            let mut nest = nest.clone();
            take_point(&mut nest, kind).ok().filter(|()| nest.open.len() <= left)?;
            if nest.closed() && left > 0 { None } else { Some(nest) }
        };
        open = open.iter().flat_map(|nest| [DO, ENDDO, STATEMENT].map(|kind| with(nest, kind))).flatten().collect();
    }
    open
}

/// Every paper of so many points with no dependence, one or two different ones, and any loops flagged.
pub fn every_paper(points: usize) -> Vec<Nest> {
    let mut papers = Vec::new();
    for nest in every_shape(points) {
        let loops = nest.loops();
        let ends = |kind, d| (0..points * points).map(move |i| Dependence { kind, d, s: i / points, t: i % points });
        let carried = loops.iter().flat_map(|&d| ends(CARRIED, d));
        let all: Vec<Dependence> = ends(INDEPENDENT, 0).chain(carried).filter(|x| nest.fault(x).is_none()).collect();
        let mut some = vec![Vec::new()];
        for i in 0..all.len() { some.extend((0..=i).map(|j| if j < i { vec![all[j], all[i]] } else { vec![all[i]] })) }
        for set in 0..1 << loops.len() {
            let flagged: Vec<usize> = (0..loops.len()).filter(|i| set >> i & 1 == 1).map(|i| loops[i]).collect();
            let with = |x: &Vec<Dependence>| Nest { dependences: x.clone(), flagged: flagged.clone(), ..nest.clone() };
            papers.extend(some.iter().map(with));
        }
    }
    papers
}

/// Adds up to `number` dependences whose gaps mostly span up to `reach`; some nests admit few.
pub fn add_dependences(random: &mut Random, nest: &mut Nest, number: usize, reach: usize) {
    let (n, loops) = (nest.points.len(), nest.loops());
    for _ in 0..number * 40 {
        if nest.dependences.len() == number { break }
        let x = if random.one_in(2) {
            let s = random.below(n);
            Dependence { kind: INDEPENDENT, d: 0, s, t: s + 1 + random.below(reach) }
        } else {
            let d = random.pick(&loops);
            let s = nest.end[d].saturating_sub(1 + random.below(reach));
            Dependence { kind: CARRIED, d, s, t: d + 1 + random.below(reach) }
        };
        let twice = random.one_in(12) && !nest.dependences.is_empty();
        let x = if twice { random.pick(&nest.dependences) } else { x };
        if nest.fault(&x).is_none() { nest.dependences.push(x) }
    }
}

pub fn small_nest(random: &mut Random) -> Nest {
    let most = if random.one_in(10) { SEARCHED } else { SMALL };
    let (n, depth) = (2 + random.below(most - 1), 1 + random.below(5));
    let mut nest = random_points(random, n, depth);
    let (number, reach) = (random.below(11), 1 + random.below(n));
    add_dependences(random, &mut nest, number, reach);
    nest
}

/// Bars gaps of a nest of one loop: at times just the gaps of a dependence, or all but one of these and others; mostly
/// up to so many, single gaps and stretches, some of them again, so that every dependence keeps a gap.
pub fn bar_gaps(random: &mut Random, nest: &mut Nest, number: usize) {
    let ring = nest.points.len() - 1;
    if !nest.dependences.is_empty() && random.one_in(5) {
        let x = random.pick(&nest.dependences);
        nest.barred = (1..=ring).filter(|&g| nest.has_gap(&x, g)).collect();
        if random.one_in(2) { return }
        nest.barred.remove(random.below(nest.barred.len()));
    }
    let (longest, any) = (random.pick(&[1, 2, 2 + ring / 4, ring]), random.one_in(8));
    let mut tries = 2 * number;
    while tries > 0 {
        let from = 1 + random.below(ring);
        for g in from..ring.min(from + random.below(longest)) + 1 {
            if nest.barred.len() >= number || tries == 0 { return }
            tries -= 1;
            nest.barred.push(g);
            if !any && nest.blocked() { nest.barred.pop(); }
        }
    }
}

/// A small nest of one loop with barred gaps.
pub fn small_barred(random: &mut Random) -> Nest {
    let most = if random.one_in(10) { SEARCHED } else { SMALL };
    let n = 2 + random.below(most - 1);
    let mut nest = random_points(random, n, 1);
    let (number, reach) = (random.below(9), 1 + random.below(n));
    add_dependences(random, &mut nest, number, reach);
    let bars = random.below(n + 3);
    bar_gaps(random, &mut nest, bars);
    nest
}

/// A small nest with flagged loops, short dependences that want barriers here and there, and longer ones past them.
pub fn small_flagged(random: &mut Random) -> Nest {
    let (n, depth) = (5 + random.below(SMALL - 4), 2 + random.below(3));
    let mut nest = random_points(random, n, depth);
    flag_loops(random, &mut nest);
    let (short, long) = (1 + random.below(5), 1 + random.below(3));
    add_dependences(random, &mut nest, short, 1);
    add_dependences(random, &mut nest, short + long, n);
    nest
}

/// 256 points in one loop, up to 512 dependences and up to 255 barred gaps.
pub fn full_barred(random: &mut Random) -> Nest {
    let mut nest = full_nest(random, 1);
    if random.one_in(4) { nest.dependences.truncate(random.below(60)) }
    let bars = random.pick(&[1, 20, 128, 200, 254, 255, 255]);
    bar_gaps(random, &mut nest, bars);
    nest
}

/// The text of a nest with its barred gaps anywhere among the dependences.
pub fn spelled(random: &mut Random, nest: &Nest) -> Vec<u8> {
    let mut lines = nest.lines();
    let barred = lines.split_off(lines.len() - nest.barred.len());
    let mut place = |_: &Vec<u8>| nest.points.len() + random.below(nest.dependences.len() + 1);
    let mut places: Vec<usize> = barred.iter().map(&mut place).collect();
    places.sort();
    places.into_iter().zip(barred).rev().for_each(|(at, line)| lines.insert(at, line));
    lines.concat()
}

/// The text of a small nest: any, of one loop with barred gaps, or with flagged loops.
pub fn small_text(random: &mut Random) -> (Vec<u8>, usize) {
    let nest = match random.below(6) {
        0 | 1 => small_barred(random),
        2 => small_flagged(random),
        _ => small_nest(random),
    };
    (spelled(random, &nest), nest.points.len())
}

/// 256 points and 512 dependences where the shape admits them.
pub fn full_nest(random: &mut Random, depth: usize) -> Nest {
    let mut nest = random_points(random, POINTS, depth);
    let reach = random.pick(&[2, 4, 8, 16, 40, 255]);
    add_dependences(random, &mut nest, DEPENDENCES, reach);
    nest
}

/// Small nests side by side in one more loop, as many as fit. No dependence goes from one to another, so the least
/// tree has their least trees under a root with count 0, and their first keys make the first key.
pub fn side_by_side(random: &mut Random, points: usize) -> (Nest, Vec<usize>) {
    let (mut whole, mut dependences, mut key) = (Nest::default(), Vec::new(), Vec::new());
    take_point(&mut whole, DO).unwrap();
    loop {
        let (part, at) = (small_nest(random), whole.points.len());
        if at + part.points.len() >= points { break }
        part.points.iter().for_each(|&k| take_point(&mut whole, k).unwrap());
        let moved = |x: &Dependence| Dependence { kind: x.kind, d: x.d + at, s: x.s + at, t: x.t + at };
        dependences.extend(part.dependences.iter().map(moved));
        whole.flagged.extend(part.flagged.iter().map(|d| d + at));
        key.extend(search(&part)[0].iter().map(|g| g + at));
    }
    take_point(&mut whole, ENDDO).unwrap();
    whole.dependences = dependences;
    (whole, key)
}

/// A frame that may be out of place: any kind, mostly of the right length, operands around the nest's size.
pub fn stray_line(random: &mut Random, n: usize) -> Vec<u8> {
    let kinds = [
        0, DO, ENDDO, STATEMENT, FLAGGED, 5, INDEPENDENT, INDEPENDENT, CARRIED, CARRIED, BARRED, BARRED, BARRIER, COUNT,
        REFUSAL,
    ];
    let kind = if random.one_in(12) { random.next() as u8 } else { random.pick(&kinds) };
    let right = match kind { DO | ENDDO | STATEMENT | FLAGGED => 0, INDEPENDENT | COUNT => 2, CARRIED => 3, _ => 1 };
    let length = if random.one_in(8) { random.below(6) } else { right };
    let mut operand = || if random.one_in(10) { random.next() as u8 } else { random.below(n + 2) as u8 };
    let operands: Vec<u8> = (0..length).map(|_| operand()).collect();
    line(&[&[kind], &operands[..]].concat())
}

/// Up to three damages: bytes changed, dropped, doubled; lines swapped, dropped, doubled, put in; the end cut off;
/// another point named.
pub fn damage(random: &mut Random, text: &[u8], n: usize) -> Vec<u8> {
    let mut text = text.to_vec();
    for _ in 0..random.pick(&[1, 1, 1, 2, 3]) {
        let mut lines: Vec<Vec<u8>> = text.split_inclusive(|&b| b == b'\n').map(|l| l.to_vec()).collect();
        if text.is_empty() { break }
        let (at, i, j) = (random.below(text.len()), random.below(lines.len()), random.below(lines.len()));
        match random.below(16) {
            0 => text[at] = random.pick(b"0123456789abcdef"),
            1 => text[at] = random.pick(b"\n\r\0 /:@`gABCDEFGx\x1f\x80\xff-"),
            2 => text[at] = random.next() as u8,
            3 => drop(text.remove(at)),
            4 => text.insert(at, text[at]),
            5 => drop(text.pop()),
            6 if random.one_in(3) => text.truncate(at),
            7 => { lines.swap(i, j); text = lines.concat() }
            8 => { lines.remove(i); text = lines.concat() }
            9 => { lines.insert(i, lines[j].clone()); text = lines.concat() }
            10 if random.one_in(4) => {
                let mut long = "03".repeat(1 + random.below(400)).into_bytes();
                if random.one_in(2) { let at = random.below(long.len()); long[at] = random.pick(b"gA /\r") }
                lines.insert(i, [&long[..], b"\n"].concat());
                text = lines.concat();
            }
            11 => { lines.insert(i, stray_line(random, n)); text = lines.concat() }
            12 => text.extend(stray_line(random, n)),
            _ if lines[i].len() > 4 => {
                let operand = 2 + 2 * random.below(lines[i].len() / 2 - 1);
                lines[i][operand..operand + 2].copy_from_slice(format!("{:02x}", random.below(n + 2) as u8).as_bytes());
                text = lines.concat();
            }
            _ => continue,
        }
    }
    text
}

/// Words, each a line.
pub fn words(words: &str) -> Vec<u8> { words.split_whitespace().flat_map(|w| [w.as_bytes(), b"\n"].concat()).collect() }

pub const P: &str = "01 01 03 03 03 03 02 01 03 03 03 03 02 02 110205 12010403 11080b 12070a09 12000a02 110409";
pub const Q: &str = "01 03 01 01 03 03 02 03 02 02 110105 12030504 110407";
pub const R: &str = "01 03 03 03 03 03 03 02 110104 110306 12000502";
