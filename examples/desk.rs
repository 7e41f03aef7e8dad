//! Reads a paper, works out its key, marks the placement 3, 9 beside it, and puts a barrier at gap 5 of a sitting.
//!   rustc -L target/staticlib -l static=host examples/desk.rs -o target/desk && target/desk examples/p.hex

#[repr(C)] struct Version { major: usize, _minor: usize, _patch: usize }
#[repr(C)] #[derive(Clone, Copy)] struct Desk { words: [u64; 449] } // DESK_WORDS of desk.h: handed on, never opened
#[repr(C)] struct Reply { number: u8, line: usize, desk: Desk }
#[repr(C)] struct Answer { number: u8, line: usize, value: usize }
#[repr(C)] struct Moved { number: u8, line: usize, uncut: usize, desk: Desk }
#[repr(C)] struct Mark { number: u8, line: usize, verdict: u8, a: usize, b: usize, c: usize }

extern "C" {
    fn desk_version() -> Version;
    fn desk_new() -> Desk;
    fn desk_load(desk: Desk, text: *const u8, length: usize) -> Reply;
    fn desk_plan(desk: Desk) -> Reply;
    fn desk_write(desk: Desk, out: *mut u8, length: usize) -> Answer;
    fn desk_mark(desk: Desk, text: *const u8, length: usize) -> Mark;
    fn desk_put(desk: Desk, gap: usize) -> Moved;
}

fn main() {
    assert!(unsafe { desk_version() }.major == 1, "the library is of another version than this program"); // DESK_MAJOR
    let paper = std::env::args().nth(1).unwrap_or("examples/p.hex".into());
    let text = std::fs::read(paper).expect("the paper cannot be read");
    let (answer, mut key) = (b"2103\n2109\n", [0; 1275]);
    let mut reply = unsafe { desk_load(desk_new(), text.as_ptr(), text.len()) };
    if reply.number == 0 {
        reply = unsafe { desk_plan(reply.desk) };
    }
    if reply.number != 0 {
        println!("refused: number {}, line {}", reply.number, reply.line);
        std::process::exit(1);
    }
    let desk = reply.desk;
    let written = unsafe { desk_write(desk, key.as_mut_ptr(), key.len()) };
    print!("{}", String::from_utf8_lossy(&key[..written.value]));
    let mark = unsafe { desk_mark(desk, answer.as_ptr(), answer.len()) };
    println!("{} {} {} {}", ["Uncut", "Dearer", "Best"][mark.verdict as usize], mark.a, mark.b, mark.c);
    println!("gap 5 put: {} uncut", unsafe { desk_put(desk, 5) }.uncut);
}
