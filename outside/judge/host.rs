//! The library's structs and calls, as crates/host/desk.h declares them. A C bool is a byte here, so that none is
//! trusted to be 0 or 1.

pub const WORDS: usize = 4;
pub const KEPT: usize = 64;

#[repr(C)]
#[derive(Clone, Copy, PartialEq)]
pub struct Dependence { pub kind: u8, pub d: u8, pub s: u8, pub t: u8 }

#[repr(C)]
#[derive(Clone, Copy, PartialEq)]
pub struct Nest {
    pub count: usize,
    pub points: [u8; 256],
    pub many: usize,
    pub deps: [Dependence; 512],
    pub bars: usize,
    pub barred: [u8; 255],
    pub flags: usize,
    pub flagged: [u8; 256],
}

#[repr(C)]
#[derive(Clone, Copy, PartialEq)]
pub struct Placement { pub words: [u64; WORDS] }

#[repr(C)]
#[derive(Clone, Copy, PartialEq)]
pub struct Sitting { pub placement: Placement, pub counts: [u8; 512], pub uncut: usize }

#[repr(C)]
#[derive(Clone, Copy, PartialEq)]
pub struct Move { pub gap: u8, pub put: u8 }

#[repr(C)]
#[derive(Clone, Copy, PartialEq)]
pub struct Moves { pub ring: [Move; KEPT], pub head: usize, pub many: usize }

#[repr(C)]
#[derive(Clone, Copy, PartialEq)]
pub struct Desk {
    pub loaded: u8,
    pub nest: Nest,
    pub planned: u8,
    pub key: Placement,
    pub sitting: Sitting,
    pub moves: Moves,
}

#[repr(C)]
#[derive(Clone, Copy)]
pub struct PlainDesk { pub loaded: u8, pub nest: Nest, pub planned: u8, pub key: Placement }

#[repr(C)]
pub struct Reply { pub number: u8, pub line: usize, pub desk: Desk }

#[repr(C)]
pub struct Answer { pub number: u8, pub line: usize, pub value: usize }

#[repr(C)]
pub struct Moved { pub number: u8, pub line: usize, pub uncut: usize, pub desk: Desk }

#[repr(C)]
pub struct Mark { pub number: u8, pub line: usize, pub verdict: u8, pub a: usize, pub b: usize, pub c: usize }

#[repr(C)]
pub struct Chosen { pub number: u8, pub line: usize, pub set: Placement }

#[repr(C)]
pub struct Shape { pub number: u8, pub line: usize, pub owners: [u8; 256], pub ends: [u8; 256], pub depths: [u8; 256] }

#[repr(C)]
pub struct Standing {
    pub number: u8,
    pub line: usize,
    pub placement: Placement,
    pub counts: [u8; 256],
    pub cuts: [u8; 512],
    pub uncut: usize,
}

#[repr(C)]
pub struct Calls { pub number: u8, pub line: usize, pub calls: u64 }

#[repr(C)]
pub struct Improved {
    pub number: u8,
    pub line: usize,
    pub placement: Placement,
    pub calls: u64,
    pub tries: usize,
    pub ended: u8,
    pub floor: u64,
}

#[repr(C)]
pub struct RunEnds { pub number: u8, pub line: usize, pub waiting: u32, pub barriers: u32 }

#[repr(C)]
pub struct Joined { pub number: u8, pub text: u8, pub line: usize, pub value: usize }

#[repr(C)]
pub struct Compared {
    pub number: u8,
    pub text: u8,
    pub line: usize,
    pub first: u8,
    pub second: u8,
    pub deciding: Placement,
}

#[repr(C)]
pub struct Weighed { pub number: u8, pub text: u8, pub line: usize }

extern "C" {
    pub fn desk_new() -> Desk;
    pub fn desk_reset(desk: Desk) -> Desk;
    pub fn desk_load(desk: Desk, text: *const u8, length: usize) -> Reply;
    pub fn desk_plan(desk: Desk) -> Reply;
    pub fn desk_count(desk: Desk, point: usize) -> Answer;
    pub fn desk_mark(desk: Desk, text: *const u8, length: usize) -> Mark;
    pub fn desk_write(desk: Desk, out: *mut u8, length: usize) -> Answer;
    pub fn desk_list(desk: Desk, list: *const u8, length: usize) -> Answer;
    pub fn desk_put(desk: Desk, gap: usize) -> Moved;
    pub fn desk_lift(desk: Desk, gap: usize) -> Moved;
    pub fn desk_take_back(desk: Desk) -> Moved;
    pub fn desk_sitting(desk: Desk, out: *mut u8, length: usize) -> Answer;
    pub fn desk_go_over(old: PlainDesk) -> Desk;
    pub fn desk_standing(desk: Desk) -> Standing;
    pub fn desk_shape(desk: Desk) -> Shape;
    pub fn desk_gaps(desk: Desk, dependence: usize) -> Chosen;
    pub fn desk_textbook(desk: Desk) -> Chosen;
    pub fn desk_candidate_slip(desk: Desk, text: *const u8, length: usize, out: *mut u8, room: usize) -> Answer;
    pub fn desk_examiner_slip(desk: Desk, text: *const u8, length: usize, out: *mut u8, room: usize) -> Answer;
    pub fn desk_compare(desk: Desk, a: *const u8, first: usize, b: *const u8, second: usize) -> Compared;
    pub fn desk_weigh(desk: Desk, text: *const u8, length: usize) -> Weighed;
    pub fn desk_weigh_placement(
        desk: Desk, placement: *const u8, gaps: usize, text: *const u8, length: usize,
    ) -> Weighed;
    pub fn desk_argue(desk: Desk, out: *mut u8, length: usize) -> Answer;
    pub fn desk_missing_runs(desk: Desk) -> Chosen;
    pub fn desk_relied_on(desk: Desk, text: *const u8, length: usize, dependence: usize) -> Chosen;
    pub fn desk_one_end(desk: Desk, dependence: usize) -> Chosen;
    pub fn desk_count_calls(desk: Desk, turns: *const u8, length: usize) -> Calls;
    pub fn desk_placement_calls(desk: Desk, text: *const u8, length: usize, turns: *const u8, loops: usize) -> Calls;
    pub fn desk_improve(desk: Desk, turns: *const u8, length: usize, budget: usize) -> Improved;
    pub fn desk_sheet(
        processors: usize, phases: usize, durations: *const u16, works: usize, waits: *const u16, sets: usize,
    ) -> RunEnds;
    pub fn desk_join(
        a: *const u8, first: usize, b: *const u8, second: usize, out: *mut u8, room: usize,
    ) -> Joined;
}

/// A set of gaps as four words.
pub fn words_of(gaps: &[usize]) -> Vec<usize> {
    (0..WORDS).map(|word| gaps.iter().filter(|&g| g / 64 == word).fold(0, |bits, g| bits | 1 << (g % 64))).collect()
}

/// The gaps of four words, rising.
pub fn gaps_of(placement: &Placement) -> Vec<usize> {
    (0..64 * WORDS).filter(|g| placement.words[g / 64] >> (g % 64) & 1 == 1).collect()
}
