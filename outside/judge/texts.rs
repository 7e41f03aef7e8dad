//! Texts read line by line (01, "Text" and "Numbers from the input"; 02, jobs 1, 3, 7 and 10).

use crate::nests::*;

#[derive(Clone, Copy, Debug, PartialEq)]
pub struct Refusal { pub number: u8, pub line: usize }

pub fn line(frame: &[u8]) -> Vec<u8> {
    let mut line: Vec<u8> = frame.iter().flat_map(|b| format!("{b:02x}").into_bytes()).collect();
    line.push(b'\n');
    line
}

/// The first line of a text as a frame, with the rest of the text. None where the line is not as in Text: the
/// whole line is judged, up to its 0a, before anything is said of its kind.
pub fn read_line(text: &[u8]) -> Option<(Vec<u8>, &[u8])> {
    let length = text.iter().position(|&b| b == b'\n')?;
    let digits = &text[..length];
    if length == 0 || length % 2 == 1 || !digits.iter().all(|b| b"0123456789abcdef".contains(b)) { return None }
    let digit = |b: u8| (b as char).to_digit(16).unwrap() as u8;
    Some((digits.chunks(2).map(|two| 16 * digit(two[0]) + digit(two[1])).collect(), &text[length + 1..]))
}

/// Reads line by line. `take` gets each frame and gives the lowest number that applies to it. What is left is the
/// end of the text: the line after the last.
pub fn read_lines(mut text: &[u8], mut take: impl FnMut(&[u8]) -> Result<(), u8>) -> Result<usize, Refusal> {
    let mut line = 1;
    while !text.is_empty() {
        let (frame, rest) = read_line(text).ok_or(Refusal { number: 1, line })?;
        take(&frame).map_err(|number| Refusal { number, line })?;
        text = rest;
        line += 1;
    }
    Ok(line)
}

/// An empty text means the nest 01, 02, the blank paper.
pub fn read_nest(text: &[u8]) -> Result<Nest, Refusal> {
    let text = if text.is_empty() { &b"01\n02\n"[..] } else { text };
    let mut nest = Nest::default();
    let line = read_lines(text, |frame| take_frame(&mut nest, frame))?;
    if nest.closed() { Ok(nest) } else { Err(Refusal { number: 4, line }) }
}

pub fn take_frame(nest: &mut Nest, frame: &[u8]) -> Result<(), u8> {
    let at = |i: usize| frame[i] as usize;
    match (frame[0], frame.len()) {
        (kind @ (DO | ENDDO | STATEMENT), 1) => take_point(nest, kind),
        (FLAGGED, 1) => take_flagged(nest),
        (kind @ INDEPENDENT, 3) => take_dependence(nest, Dependence { kind, d: 0, s: at(1), t: at(2) }),
        (kind @ CARRIED, 4) => take_dependence(nest, Dependence { kind, d: at(1), s: at(2), t: at(3) }),
        (BARRED, 2) => take_barred(nest, at(1)),
        _ => Err(2),
    }
}

/// The numbers are tried rising, so the first that applies is the lowest.
pub fn take_point(nest: &mut Nest, kind: u8) -> Result<(), u8> {
    if !nest.dependences.is_empty() || !nest.barred.is_empty() { return Err(3) }
    if nest.closed() || (nest.points.is_empty() && kind != DO) { return Err(4) }
    if nest.points.len() == POINTS || (kind == DO && nest.open.len() == DEPTH) { return Err(5) }
    let point = nest.points.len();
    nest.points.push(kind);
    nest.end.push(0);
    match kind {
        DO => nest.open.push(point),
        ENDDO => { let d = nest.open.pop().unwrap(); nest.end[d] = point }
        _ => {}
    }
    Ok(())
}

/// A DO of a loop that may not run is refused where a DO would be.
pub fn take_flagged(nest: &mut Nest) -> Result<(), u8> {
    take_point(nest, DO)?;
    nest.flagged.push(nest.points.len() - 1);
    Ok(())
}

pub fn take_dependence(nest: &mut Nest, x: Dependence) -> Result<(), u8> {
    if !nest.closed() { return Err(4) }
    if nest.dependences.len() == DEPENDENCES { return Err(5) }
    if let Some(number) = nest.fault(&x) { return Err(number) }
    nest.dependences.push(x);
    Ok(())
}

pub fn take_barred(nest: &mut Nest, g: usize) -> Result<(), u8> {
    if !nest.closed() { return Err(4) }
    if nest.barred.len() == BARS { return Err(5) }
    if g == 0 || g >= nest.points.len() { return Err(8) }
    if nest.loops().len() > 1 { return Err(14) }
    nest.barred.push(g);
    Ok(())
}

/// A placement text for a nest: barriers only, gaps rising, none of them barred.
pub fn read_placement(nest: &Nest, text: &[u8]) -> Result<Vec<usize>, Refusal> {
    let mut gaps: Vec<usize> = Vec::new();
    read_lines(text, |frame| {
        if frame[0] != BARRIER || frame.len() != 2 { return Err(2) }
        let g = frame[1] as usize;
        if g == 0 || g >= nest.points.len() || gaps.last().is_some_and(|&last| g <= last) { return Err(8) }
        if nest.barred.contains(&g) { return Err(16) }
        gaps.push(g);
        Ok(())
    })?;
    Ok(gaps)
}

/// The text of a placement.
pub fn barrier_lines(gaps: &[usize]) -> Vec<u8> { gaps.iter().flat_map(|&g| line(&[BARRIER, g as u8])).collect() }

/// A text as the shell's printf takes it.
pub fn shown(text: &[u8]) -> String {
    let byte = |&b: &u8| match b {
        b'\n' => "\\n".to_string(),
        b'0'..=b'9' | b'a'..=b'z' | b'A'..=b'Z' | b' ' => (b as char).to_string(),
        _ => format!("\\{b:03o}"),
    };
    format!("printf '{}'", text.iter().map(byte).collect::<String>())
}
