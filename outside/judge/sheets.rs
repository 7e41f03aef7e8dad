//! Timing sheets (02, job 14): when a run ends, with the waits of a sheet and with all barriers kept.

use crate::asking::{guarded, Call, Reply, GUARD};
use crate::desk_check::{check_altered, load, replies};
use crate::host;
use crate::papers::{Random, P};
use crate::self_check::Checks;

const PROCESSORS: usize = 16;
const PHASES: usize = 64;

/// How long each processor works in each phase, and before each phase but the first the set of those it waits for; both
/// phase by phase, processors rising in each.
#[derive(Clone, Debug, PartialEq)]
pub struct Sheet { pub processors: usize, pub phases: usize, pub durations: Vec<u16>, pub waits: Vec<u16> }

impl Sheet {
    /// 19, then 20.
    fn fault(&self) -> u8 {
        let (m, k) = (self.processors, self.phases);
        if !(1..=PROCESSORS).contains(&m) || !(1..=PHASES).contains(&k) { return 19 }
        if self.durations.len() != m * k || self.waits.len() != m * (k - 1) { return 19 }
        let is_set = |(i, set): (usize, &u16)| set >> (i % m) & 1 == 1 && (m..PROCESSORS).all(|q| set >> q & 1 == 0);
        if self.waits.iter().enumerate().all(is_set) { 0 } else { 20 }
    }

    fn waits_for(&self, phase: usize, p: usize, q: usize) -> bool {
        self.waits[(phase - 1) * self.processors + p] >> q & 1 == 1
    }

    /// The end of the run where before a phase a processor waits for the others as `waits` says.
    fn end(&self, waits: impl Fn(usize, usize, usize) -> bool) -> usize {
        let mut finish = vec![0; self.processors];
        for phase in 0..self.phases {
            let after = |p: usize| {
                let earlier = (0..self.processors).filter(|&q| phase > 0 && waits(phase, p, q)).map(|q| finish[q]);
                earlier.max().unwrap_or(0) + self.durations[phase * self.processors + p] as usize
            };
            finish = (0..self.processors).map(after).collect();
        }
        finish.into_iter().max().unwrap()
    }

    /// With its waits, and with all barriers kept.
    pub fn ends(&self) -> [usize; 2] {
        [self.end(|phase, p, q| self.waits_for(phase, p, q)), self.end(|_, _, _| true)]
    }
}

fn bytes(numbers: &[u16]) -> Vec<u8> { numbers.iter().flat_map(|n| n.to_ne_bytes()).collect() }

/// What the call answers: 19, then 20, or both ends.
pub fn answer(sheet: &Sheet) -> Reply {
    let number = sheet.fault();
    let values = if number == 0 { sheet.ends().to_vec() } else { vec![0, 0] };
    let lent = [guarded(&bytes(&sheet.durations)), guarded(&bytes(&sheet.waits))].concat();
    Reply { number, line: 0, values, lent }
}

/// The library's own answer.
pub fn play(sheet: &Sheet) -> Reply {
    let numbers = |lent: Vec<u8>| lent.chunks(2).map(|two| u16::from_ne_bytes([two[0], two[1]])).collect::<Vec<u16>>();
    let lend = |slice: &[u16]| numbers(guarded(&bytes(slice)));
    let (durations, waits, from) = (lend(&sheet.durations), lend(&sheet.waits), GUARD.len() / 2);
    let (one, two) = (durations[from..].as_ptr(), waits[from..].as_ptr());
    let Sheet { processors, phases, .. } = *sheet;
    let e = unsafe { host::desk_sheet(processors, phases, one, sheet.durations.len(), two, sheet.waits.len()) };
    let values = vec![e.waiting as usize, e.barriers as usize];
    Reply { number: e.number, line: e.line, values, lent: [bytes(&durations), bytes(&waits)].concat() }
}

/// A sheet without fault; its sets are sparse, full or any.
fn good_sheet(random: &mut Random, processors: usize, phases: usize) -> Sheet {
    let longest = random.pick(&[1, 2, 10, 1000, 65536]);
    let (all, chance) = (((1u32 << processors) - 1) as u16, random.pick(&[1, 2, 2, 4, 40]));
    let durations = (0..processors * phases).map(|_| random.below(longest) as u16).collect();
    let mut set = |i: usize| {
        let some = (0..processors).filter(|_| random.one_in(chance)).fold(0, |set, q| set | 1 << q);
        (some & all) | 1 << (i % processors)
    };
    let waits = (0..processors * (phases - 1)).map(&mut set).collect();
    Sheet { processors, phases, durations, waits }
}

/// Mostly without fault; else a count out of range, a slice one too short or too long, a set that is none.
pub fn random_sheet(random: &mut Random) -> Sheet {
    let (few, many) = (1 + random.below(5), 1 + random.below(PHASES));
    let processors = random.pick(&[1, 2, 3, few, few, PROCESSORS - 1, PROCESSORS]);
    let phases = random.pick(&[1, 2, 2, 3, few, many, PHASES]);
    let mut sheet = good_sheet(random, processors, phases);
    let at = random.below(sheet.waits.len().max(1));
    match random.below(20) {
        0 => sheet.processors = random.pick(&[0, 17, processors + 1, processors + (1 << 32), usize::MAX]),
        1 => sheet.phases = random.pick(&[0, 65, phases + 1, phases + (1 << 32), usize::MAX]),
        2 => drop(sheet.durations.pop()),
        3 => sheet.durations.push(1),
        4 => drop(sheet.waits.pop()),
        5 => sheet.waits.push(1),
        6 if !sheet.waits.is_empty() => sheet.waits[at] &= !(1 << (at % processors)),
        7 if !sheet.waits.is_empty() && processors < PROCESSORS => sheet.waits[at] |= 1 << processors,
        8 if !sheet.waits.is_empty() => sheet.waits[at] = random.next() as u16,
        9 => { let (a, b) = (sheet.durations.clone(), sheet.waits.clone()); (sheet.durations, sheet.waits) = (b, a) }
        _ => {}
    }
    sheet
}

/// Every sheet of two processors and three phases with durations up to 2; every pair of sets up to 5, good or not; the
/// limits, met and passed.
pub fn every_sheet() -> Vec<Vec<Call>> {
    let digit = |n: usize, place: u32, base: usize| (n / base.pow(place) % base) as u16;
    let small = (0..729 * 16).map(|n| Sheet {
        processors: 2,
        phases: 3,
        durations: (0..6).map(|place| digit(n, place, 3)).collect(),
        waits: (0..4).map(|place| digit(n / 729, place, 2) * 3 | 1 << (place % 2)).map(|set| set & 3).collect(),
    });
    let sets = (0..36).map(|n| {
        Sheet { processors: 2, phases: 2, durations: vec![5, 1, 1, 5], waits: vec![digit(n, 0, 6), digit(n, 1, 6)] }
    });
    let sizes = [0, 1, 15, 16, 17].into_iter().flat_map(|m| [0, 1, 2, 63, 64, 65].map(|k| (m, k)));
    let limits = sizes.flat_map(|(m, k): (usize, usize)| [0, 1, 65535].map(|duration| {
        let waits = (0..m * k.saturating_sub(1)).map(|i| 1 << (i % m)).collect();
        Sheet { processors: m, phases: k, durations: vec![duration; m * k], waits }
    }));
    small.chain(sets).chain(limits).map(|sheet| vec![Call::Sheet(sheet)]).collect()
}

// ---- The self-check

fn sheet(processors: usize, phases: usize, durations: &[u16], waits: &[u16]) -> Sheet {
    Sheet { processors, phases, durations: durations.to_vec(), waits: waits.to_vec() }
}

pub fn check_sheets(checks: &mut Checks) {
    let crossed: [u16; 4] = [5, 1, 1, 5];
    for (durations, waits, wanted) in [
        (&crossed[..], &[1, 2][..], [6, 10]), (&crossed, &[1, 3], [10, 10]), (&crossed, &[3, 2], [6, 10]),
        (&crossed, &[3, 3], [10, 10]), (&[5, 1, 1, 5, 5, 1], &[1, 2, 3, 2], [11, 15]),
        (&[5, 1, 1, 5, 5, 1], &[1, 2, 1, 2], [11, 15]), (&[0, 0], &[], [0, 0]), (&[3, 7], &[], [7, 7]),
    ] {
        let made = sheet(2, durations.len() / 2, durations, waits);
        checks.that(&format!("{wanted:?} for {made:?}"), made.fault() == 0 && made.ends() == wanted);
    }
    let most = Sheet { processors: 16, phases: 64, durations: vec![65535; 1024], waits: vec![65535; 1008] };
    checks.that("the largest sheet", most.fault() == 0 && most.ends() == [64 * 65535; 2]);
    for (number, made) in [
        (19, sheet(0, 1, &[], &[])), (19, sheet(17, 1, &[1; 17], &[])), (19, sheet(1, 0, &[], &[])),
        (19, sheet(1, 65, &[1; 65], &[1; 64])), (19, sheet(2, 2, &[1; 3], &[1, 2])),
        (19, sheet(2, 2, &[1; 5], &[1, 2])), (19, sheet(2, 2, &[1; 4], &[1])),
        (19, sheet(2, 2, &[1; 4], &[1, 2, 1])), (19, sheet(2, 2, &[1; 4], &[])),
        (19, sheet(usize::MAX, 2, &[], &[])), (19, sheet(2, usize::MAX, &[], &[])), (19, sheet(2, 2, &[1; 3], &[0, 0])),
        (20, sheet(2, 2, &[1; 4], &[2, 2])), (20, sheet(2, 2, &[1; 4], &[1, 1])), (20, sheet(2, 2, &[1; 4], &[5, 2])),
        (20, sheet(2, 2, &[1; 4], &[1, 0x8002])), (20, sheet(2, 2, &[1; 4], &[0, 2])), (0, sheet(1, 1, &[9], &[])),
        (0, sheet(16, 1, &[9; 16], &[])), (0, sheet(1, 64, &[9; 64], &[1; 63])),
    ] { checks.that(&format!("{number} for {made:?}"), made.fault() == number) }
    let call = |made: Sheet| Call::Sheet(made);
    let asked = replies(&[call(sheet(2, 2, &crossed, &[1, 2])), call(sheet(2, 2, &crossed, &[1, 1]))], 2);
    checks.that("given and refused", asked == [(0, 0, vec![6, 10]), (20, 0, vec![0, 0])]);
    let script = [sheet(2, 2, &crossed, &[1, 2]), sheet(2, 2, &crossed, &[1, 1]), sheet(2, 2, &crossed, &[1])];
    check_altered(checks, &[&[load(P)][..], &script.map(call)].concat());
    (0..400).for_each(|case| check_random(checks, &mut Random::new(20, case)));
}

/// On a random sheet: a run played by the clock ends at the same time; with fewer waits it ends no later; no end comes
/// before one processor's work is done.
fn check_random(checks: &mut Checks, random: &mut Random) {
    let (processors, phases) = (1 + random.below(6), 1 + random.below(8));
    let mut made = good_sheet(random, processors, phases);
    made.durations.iter_mut().for_each(|d| *d %= 20);
    let [waiting, barriers] = made.ends();
    let all = Sheet { waits: vec![((1u32 << processors) - 1) as u16; made.waits.len()], ..made.clone() };
    let played = [by_the_clock(&made), by_the_clock(&all)] == [waiting, barriers];
    checks.that(&format!("played by the clock: {made:?}"), played);
    let own = |i: usize| 1 << (i % processors);
    let fewer: Vec<u16> = made.waits.iter().enumerate().map(|(i, set)| set & random.next() as u16 | own(i)).collect();
    let within = Sheet { waits: fewer, ..made.clone() };
    checks.that(&format!("fewer waits: {made:?}"), within.fault() == 0 && within.ends()[0] <= waiting);
    let work = |p: usize| (0..phases).map(|k| made.durations[k * processors + p] as usize).sum::<usize>();
    let most = (0..processors).map(work).max().unwrap();
    checks.that(&format!("no less than one's work: {made:?}"), most <= waiting && waiting <= barriers);
}

/// Lets time pass: a processor begins a phase once all that it waits for have ended the phase before.
fn by_the_clock(sheet: &Sheet) -> usize {
    let (m, mut time) = (sheet.processors, 0);
    let (mut done, mut until): (Vec<usize>, Vec<Option<usize>>) = (vec![0; m], vec![None; m]);
    loop {
        let mut moved = true;
        while moved {
            moved = false;
            for p in 0..m {
                if until[p] == Some(time) { until[p] = None; done[p] += 1; moved = true }
                if until[p].is_some() || done[p] == sheet.phases { continue }
                let ready = |q: usize| done[p] == 0 || !sheet.waits_for(done[p], p, q) || done[q] >= done[p];
                if (0..m).all(ready) { until[p] = Some(time + sheet.durations[done[p] * m + p] as usize); moved = true }
            }
        }
        if done.iter().all(|&k| k == sheet.phases) { return time }
        time += 1;
    }
}
