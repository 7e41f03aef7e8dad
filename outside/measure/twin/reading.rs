//! Nest texts, read line by line up to the first faulty one.

pub const DO: u8 = 1;
pub const ENDDO: u8 = 2;
const STATEMENT: u8 = 3;
const POINTS: usize = 256;
const DEPENDENCES: usize = 512;
const BARS: usize = 255;
const DEPTH: usize = 8;

pub struct Refusal {
    pub number: u8,
    pub line: usize,
}

/// From point s to point t, independent or carried by the loop of DO d.
#[derive(Clone, Copy, Default)]
pub struct Dependence {
    pub carried: bool,
    pub d: u8,
    pub s: u8,
    pub t: u8,
}

#[derive(Clone)]
pub struct Nest {
    pub count: usize,
    pub points: [u8; POINTS],
    pub many: usize,
    pub deps: [Dependence; DEPENDENCES],
    pub bars: usize,
    pub barred: [u8; BARS],
}

impl Nest {
    pub fn empty() -> Nest {
        let deps = [Dependence::default(); DEPENDENCES];
        Nest { count: 0, points: [0; POINTS], many: 0, deps, bars: 0, barred: [0; BARS] }
    }

    pub fn points(&self) -> &[u8] {
        &self.points[..self.count]
    }

    pub fn deps(&self) -> &[Dependence] {
        &self.deps[..self.many]
    }

    pub fn barred(&self) -> &[u8] {
        &self.barred[..self.bars]
    }
}

/// The value of each byte that is a digit; the others have 16.
const VALUES: [u8; 256] = {
    let mut values = [16; 256];
    let mut v = 0;
    while v < 16 {
        values[b"0123456789abcdef"[v] as usize] = v as u8;
        v += 1;
    }
    values
};

/// A line's first four bytes, how many it has, and where the next line begins.
struct Frame {
    bytes: [u8; 4],
    len: usize,
    next: usize,
}

/// The line that begins at a place of the text, none if it is no line of digits for whole bytes.
#[inline]
fn read_line(text: &[u8], at: usize) -> Option<Frame> {
    let (mut bytes, mut len, mut i) = ([0; 4], 0, at);
    loop {
        let high = VALUES[*text.get(i)? as usize];
        if high == 16 {
            let whole = text[i] == b'\n' && len > 0;
            return whole.then_some(Frame { bytes, len, next: i + 1 });
        }
        let low = VALUES[*text.get(i + 1)? as usize];
        if low == 16 {
            return None;
        }
        if len < 4 {
            bytes[len] = high << 4 | low;
        }
        len += 1;
        i += 2;
    }
}

/// A nest as it is read: how many loops are open, and of each loop that is closed its ENDDO.
struct Reader {
    nest: Nest,
    ends: [u8; POINTS],
    open: [u8; DEPTH],
    depth: usize,
    loops: usize,
}

impl Reader {
    fn closed(&self) -> bool {
        self.nest.count > 0 && self.depth == 0
    }

    /// One point more, or the number of its refusal.
    fn point(&mut self, kind: u8) -> Result<(), u8> {
        let nest = &mut self.nest;
        let count = nest.count;
        if nest.many > 0 || nest.bars > 0 {
            return Err(3);
        }
        if if count == 0 { kind != DO } else { self.depth == 0 } {
            return Err(4);
        }
        if count == POINTS || kind == DO && self.depth == DEPTH {
            return Err(5);
        }
        nest.points[count] = kind;
        nest.count += 1;
        if kind == DO {
            self.open[self.depth] = count as u8;
            self.depth += 1;
            self.loops += 1;
        } else if kind == ENDDO {
            self.depth -= 1;
            self.ends[self.open[self.depth] as usize] = count as u8;
        }
        Ok(())
    }

    fn dependence(&mut self, dep: Dependence) -> Result<(), u8> {
        if !self.closed() {
            return Err(4);
        }
        let nest = &mut self.nest;
        if nest.many == DEPENDENCES {
            return Err(5);
        }
        let kind = |p: u8| nest.points[p as usize];
        let (d, s, t) = (dep.d, dep.s, dep.t);
        if !matches!(kind(s), DO | STATEMENT) || !matches!(kind(t), ENDDO | STATEMENT) {
            return Err(6);
        }
        if dep.carried {
            if kind(d) != DO {
                return Err(6);
            }
            let end = self.ends[d as usize];
            if s <= d || s >= end || t <= d || t >= end {
                return Err(7);
            }
        } else if s >= t {
            return Err(7);
        }
        nest.deps[nest.many] = dep;
        nest.many += 1;
        Ok(())
    }

    fn barred(&mut self, gap: u8) -> Result<(), u8> {
        if !self.closed() {
            return Err(4);
        }
        let nest = &mut self.nest;
        if nest.bars == BARS {
            return Err(5);
        }
        if gap == 0 || gap as usize >= nest.count {
            return Err(8);
        }
        if self.loops > 1 {
            return Err(14);
        }
        nest.barred[nest.bars] = gap;
        nest.bars += 1;
        Ok(())
    }

    fn frame(&mut self, frame: &Frame) -> Result<(), u8> {
        let [kind, a, b, c] = frame.bytes;
        match (kind, frame.len) {
            (DO | ENDDO | STATEMENT, 1) => self.point(kind),
            (0x04, 1) => self.point(DO),
            (0x11, 3) => self.dependence(Dependence { carried: false, d: 0, s: a, t: b }),
            (0x12, 4) => self.dependence(Dependence { carried: true, d: a, s: b, t: c }),
            (0x13, 2) => self.barred(a),
            _ => Err(2),
        }
    }
}

/// The nest of a text, or the number and line of its refusal. An empty text is a loop with nothing in it.
#[inline(never)]
pub fn read_nest(text: &[u8]) -> Result<Nest, Refusal> {
    let text = if text.is_empty() { b"01\n02\n" } else { text };
    let mut reader = Reader { nest: Nest::empty(), ends: [0; POINTS], open: [0; DEPTH], depth: 0, loops: 0 };
    let (mut at, mut line) = (0, 1);
    while at < text.len() {
        let frame = read_line(text, at).ok_or(Refusal { number: 1, line })?;
        reader.frame(&frame).map_err(|number| Refusal { number, line })?;
        at = frame.next;
        line += 1;
    }
    if reader.closed() {
        Ok(reader.nest)
    } else {
        Err(Refusal { number: 4, line })
    }
}
