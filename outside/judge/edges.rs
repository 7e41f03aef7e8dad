//! The texts of edges.txt, at the edge of each rule of 01, and texts of two lines that may both be at fault.

use crate::papers::{words, P, Q, R};
use crate::texts::Refusal;

pub type Edge = (Vec<u8>, Option<Refusal>);

/// The texts of edges.txt, each with the refusal that it must get.
pub fn edges() -> Vec<Edge> {
    let rows = include_str!("edges.txt").lines().map(|row| row.split('#').next().unwrap().split_whitespace());
    rows.filter_map(|mut row| {
        let number = row.next()?;
        let parse = |word: &str| word.parse().unwrap();
        let wanted = if number == "ok" { None } else { Some((parse(number), parse(row.next()?))) };
        Some((row.flat_map(edge_lines).collect(), wanted.map(|(number, line)| Refusal { number: number as u8, line })))
    }).collect()
}

/// Every two of some lines, one behind the other, behind some beginnings: the first faulty line decides, and on it the
/// lowest number.
pub fn pairs() -> Vec<Vec<u8>> {
    const BEGINNINGS: [&str; 11] = [
        "", "01", "04", "01 01", "01 04", "01 03 03 02", "01 01 03 02 02", "04 04 03 02 02", "01 03 03 02 110001 1302",
        "01 03*254 02 1301*255", "01 03*254 02 110001*512",
    ];
    const LINES: &str = "01 02 03 04 05 0401 04~ _ 00 11 110001 110002 110004 110101 110300 120001 12000101 12000102 \
        12000004 12010101 13 130 13g1 1300 1301 1303 1304 1305 13ff 130100 1301~ 2101";
    let text = |words: &str| words.split_whitespace().flat_map(edge_lines).collect::<Vec<u8>>();
    let lines: Vec<Vec<u8>> = LINES.split_whitespace().map(edge_lines).collect();
    let behind = |begin: &Vec<u8>, a: &Vec<u8>| lines.iter().map(|b| [&begin[..], a, b].concat()).collect::<Vec<_>>();
    BEGINNINGS.map(text).iter().flat_map(|begin| lines.iter().flat_map(|a| behind(begin, a))).collect()
}

/// A word of edges.txt as bytes.
pub fn edge_lines(word: &str) -> Vec<u8> {
    let times = |text: &str, sign: char| match text.split_once(sign) {
        Some((what, number)) => (what.to_string(), number.parse().unwrap()),
        None => (text.to_string(), 1),
    };
    if let Some(paper) = [("P", P), ("Q", Q), ("R", R)].iter().find(|paper| paper.0 == word) { return words(paper.1) }
    let (line, lines) = times(word.trim_end_matches('~'), '*');
    let mut bytes = Vec::new();
    for (part, number) in line.split('+').map(|part| times(part, '^')) {
        let mut pieces = part.split('\\');
        let mut piece = pieces.next().unwrap().replace('_', "").into_bytes();
        for escaped in pieces {
            piece.push(u8::from_str_radix(&escaped[..2], 16).unwrap());
            piece.extend(escaped[2..].bytes());
        }
        bytes.extend(piece.repeat(number));
    }
    if !word.ends_with('~') { bytes.push(b'\n') }
    bytes.repeat(lines)
}
