//! The program without proofs, for the comparison of speed only: what target/bin/key answers, byte by byte, written as
//! plain Rust with the same reading and the same linear planner.
mod planning;
mod reading;

use planning::{key, Key};
use reading::{read_nest, Nest, Refusal, DO};
use std::io::{Read, Write};

const LONGEST: usize = 8192;

fn put_line(out: &mut Vec<u8>, frame: &[u8]) {
    const DIGITS: &[u8; 16] = b"0123456789abcdef";
    for byte in frame {
        out.push(DIGITS[(byte >> 4) as usize]);
        out.push(DIGITS[(byte & 15) as usize]);
    }
    out.push(b'\n');
}

/// The gaps of the key, then for each loop in order of its DO how many it has of its own.
fn put_key(out: &mut Vec<u8>, nest: &Nest, key: &Key) {
    for g in key.gaps() {
        put_line(out, &[0x21, g as u8]);
    }
    let mut counts = [0u8; 256];
    let (mut open, mut depth) = ([0u8; 8], 0);
    for (i, kind) in nest.points().iter().enumerate() {
        if key.holds(i) {
            counts[open[depth - 1] as usize] += 1;
        }
        match *kind {
            DO => {
                open[depth] = i as u8;
                depth += 1;
            }
            reading::ENDDO => depth -= 1,
            _ => {}
        }
    }
    for (d, kind) in nest.points().iter().enumerate() {
        if *kind == DO {
            put_line(out, &[0x22, d as u8, counts[d]]);
        }
    }
}

fn put_answer(out: &mut Vec<u8>, text: &[u8]) -> Result<(), Refusal> {
    if text.len() > LONGEST {
        return Err(Refusal { number: 5, line: 0 });
    }
    let nest = read_nest(text)?;
    let key = key(&nest)?;
    put_key(out, &nest, &key);
    Ok(())
}

fn main() -> std::io::Result<()> {
    let mut text = Vec::with_capacity(LONGEST + 1);
    std::io::stdin().lock().take(LONGEST as u64 + 1).read_to_end(&mut text)?;
    let mut out = Vec::with_capacity(4096);
    if let Err(refusal) = put_answer(&mut out, &text) {
        put_line(&mut out, &[0x2f, refusal.number, (refusal.line >> 8) as u8, refusal.line as u8]);
    }
    std::io::stdout().write_all(&out)
}
