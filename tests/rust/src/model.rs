//! An independent implementation of documents 01 and 02 in plain Rust: tables of both forms, steps and their
//! refusals, deliveries, frames both ways, journals, the replay's text and the verdict count.
//! It was written from those documents alone and shares nothing with the proved code.
#![allow(dead_code)]

use crate::layout::{COLUMN_WORDS, COUNTS, JOURNAL, LIST, NODES, RECORD, ROOM, WORDS};
use std::collections::BTreeSet;
use std::fmt::Write as _;

/// One finding: a row of a log.
#[derive(Clone, Copy, PartialEq, Eq, Debug, Default)]
pub struct Record {
    pub origin: u32,
    pub timestamp: u32,
    pub block: u32,
    pub verdict: u32,
}

/// The parts of a table, those that take no part included: of 4,641 words with summaries and acknowledgements and no column, or of 8,225 words with
/// columns and neither of those. `columns[p][q]` is what node p keeps of node q.
#[derive(Clone, PartialEq, Eq, Debug)]
pub struct Table {
    pub count: u32,
    pub summaries: Vec<Vec<u32>>,
    pub acknowledgements: Vec<Vec<u32>>,
    pub columns: Vec<Vec<Vec<u32>>>,
    pub held: Vec<u32>,
    pub logs: Vec<Vec<Record>>,
    pub marks: Vec<u32>,
}

/// What one node knows: its summary and its acknowledgements, or its columns.
#[derive(Clone)]
enum Known {
    Vectors { summary: Vec<u32>, acknowledgements: Vec<u32> },
    Columns(Vec<Vec<u32>>),
}

impl Known {
    /// The summary of this node p.
    fn summary(&self, p: usize) -> &[u32] {
        match self {
            Known::Vectors { summary, .. } => summary,
            Known::Columns(columns) => &columns[p],
        }
    }

    /// What node p knows after it finished a session with q: "entry by entry, the greater" of what both knew at its start. Of columns this is so of
    /// each, "and its own column also takes the partner's own".
    fn finished(&self, p: usize, partner: &Known, q: usize, n: usize) -> Known {
        let greater = |own: &[u32], other: &[u32]| -> Vec<u32> { own.iter().zip(other).enumerate().map(|(o, (&x, &y))| if o < n { x.max(y) } else { x }).collect() };
        match (self, partner) {
            (Known::Vectors { summary, acknowledgements }, Known::Vectors { summary: of_q, acknowledgements: acknowledged }) => {
                Known::Vectors { summary: greater(summary, of_q), acknowledgements: greater(acknowledgements, acknowledged) }
            }
            (Known::Columns(own), Known::Columns(other)) => {
                let mut columns: Vec<Vec<u32>> = (0..NODES).map(|r| if r < n { greater(&own[r], &other[r]) } else { own[r].clone() }).collect();
                columns[p] = greater(&columns[p], &other[q]);
                Known::Columns(columns)
            }
            _ => unreachable!("nodes of one table"),
        }
    }
}

/// The four actions, each with its own fields, as wide as in the frame.
#[derive(Clone, Copy, PartialEq, Eq, Debug)]
pub enum Action {
    Write { node: u8, timestamp: u32, block: u32, verdict: u8 },
    Session { a: u8, b: u8, ca: u32, cb: u32, outcome: u8 },
    Purge { node: u8 },
    Deliver { node: u8 },
}

/// What a step says: the refusal number (0 for none) and the counts of its kind.
#[derive(Clone, Copy, PartialEq, Eq, Debug, Default)]
pub struct Reply {
    pub refusal: u32,
    pub to_a: u32,
    pub to_b: u32,
    pub removed: u32,
    pub lags: u32,
    pub delivered: u32,
}

/// A line that was read.
#[derive(Clone, Copy, PartialEq, Eq, Debug)]
pub enum Frame {
    Start(u8),
    Step(Action),
}

/// "Making one is refused with 1 if the count or the length is wrong."
pub fn fresh(length: usize, count: u32) -> Result<Table, u32> {
    if !(length == WORDS || length == COLUMN_WORDS) || !COUNTS.contains(&count) {
        return Err(1);
    }
    let (vectors, columns) = if length == WORDS { (NODES, 0) } else { (0, NODES) };
    Ok(Table {
        count,
        summaries: vec![vec![0; NODES]; vectors],
        acknowledgements: vec![vec![0; NODES]; vectors],
        columns: vec![vec![vec![0; NODES]; NODES]; columns],
        held: vec![0; NODES],
        logs: vec![vec![Record::default(); ROOM]; NODES],
        marks: vec![0; NODES],
    })
}

impl Table {
    /// The table that these words spell, if they are 4,641 or 8,225.
    pub fn from_words(words: &[u32]) -> Option<Table> {
        let (vectors, columns) = match words.len() {
            WORDS => (NODES, 0),
            COLUMN_WORDS => (0, NODES),
            _ => return None,
        };
        let mut rest = words;
        let mut take = |many: usize| {
            let (now, later) = rest.split_at(many);
            rest = later;
            now
        };
        let count = take(1)[0];
        let summaries = (0..vectors).map(|_| take(NODES).to_vec()).collect();
        let acknowledgements = (0..vectors).map(|_| take(NODES).to_vec()).collect();
        let columns = (0..columns).map(|_| (0..NODES).map(|_| take(NODES).to_vec()).collect()).collect();
        let held = take(NODES).to_vec();
        let logs = (0..NODES).map(|_| take(ROOM * RECORD).chunks(RECORD).map(|w| Record { origin: w[0], timestamp: w[1], block: w[2], verdict: w[3] }).collect()).collect();
        let marks = take(NODES).to_vec();
        Some(Table { count, summaries, acknowledgements, columns, held, logs, marks })
    }

    /// Writes the words of the table, in the order of its parts, over `out`.
    pub fn to_words(&self, out: &mut Vec<u32>) {
        out.clear();
        out.push(self.count);
        for row in self.summaries.iter().chain(&self.acknowledgements).chain(self.columns.iter().flatten()) {
            out.extend_from_slice(row);
        }
        out.extend_from_slice(&self.held);
        for log in &self.logs {
            for r in log {
                out.extend_from_slice(&[r.origin, r.timestamp, r.block, r.verdict]);
            }
        }
        out.extend_from_slice(&self.marks);
    }

    pub fn n(&self) -> usize {
        self.count as usize
    }

    /// "The unsynchronised form": each node keeps a column for every node.
    pub fn has_columns(&self) -> bool {
        !self.columns.is_empty()
    }

    /// How many words it has.
    pub fn length(&self) -> usize {
        if self.has_columns() {
            COLUMN_WORDS
        } else {
            WORDS
        }
    }

    /// A node's summary; of columns "its own being its summary".
    pub fn summary(&self, p: usize) -> &[u32] {
        if self.has_columns() {
            &self.columns[p][p]
        } else {
            &self.summaries[p]
        }
    }

    pub fn summary_mut(&mut self, p: usize) -> &mut Vec<u32> {
        if self.has_columns() {
            &mut self.columns[p][p]
        } else {
            &mut self.summaries[p]
        }
    }

    /// The records that node p holds.
    pub fn log(&self, p: usize) -> &[Record] {
        &self.logs[p][..self.held[p] as usize]
    }

    /// "A table is sound if .." (the length is right already).
    pub fn sound(&self) -> bool {
        COUNTS.contains(&self.count) && (0..self.n()).all(|p| self.held[p] as usize <= ROOM && self.log(p).iter().all(|r| r.origin < self.count && r.verdict <= 255))
    }

    /// What a session's side knows at its start: the own summary entry is the reading, and in the vector form "the own acknowledgement entry becomes
    /// the smallest entry of that summary".
    fn opened(&self, p: usize, reading: u32) -> Known {
        if self.has_columns() {
            let mut columns = self.columns[p].clone();
            columns[p][p] = reading;
            return Known::Columns(columns);
        }
        let (mut summary, mut acknowledgements) = (self.summaries[p].clone(), self.acknowledgements[p].clone());
        summary[p] = reading;
        acknowledgements[p] = *summary[..self.n()].iter().min().unwrap();
        Known::Vectors { summary, acknowledgements }
    }

    /// Node p knows this from now on.
    fn knows(&mut self, p: usize, known: Known) {
        match known {
            Known::Vectors { summary, acknowledgements } => (self.summaries[p], self.acknowledgements[p]) = (summary, acknowledgements),
            Known::Columns(columns) => self.columns[p] = columns,
        }
    }

    /// What a finishing side takes: the partner's records newer than its own starting summary.
    fn newer(&self, partner: usize, summary: &[u32]) -> Vec<Record> {
        self.log(partner).iter().filter(|r| r.timestamp > summary[r.origin as usize]).copied().collect()
    }

    /// Applies a step; a refused one changes nothing.
    pub fn apply(&mut self, action: Action) -> Reply {
        match self.try_apply(action) {
            Ok(reply) => reply,
            Err(refusal) => Reply { refusal, ..Reply::default() },
        }
    }

    fn try_apply(&mut self, action: Action) -> Result<Reply, u32> {
        if !self.sound() {
            return Err(1);
        }
        match action {
            Action::Write { node, timestamp, block, verdict } => self.write(node, timestamp, block, verdict),
            Action::Session { a, b, ca, cb, outcome } => self.session(a, b, ca, cb, outcome),
            Action::Purge { node } => self.purge(node),
            Action::Deliver { node } => self.deliver(node, &mut [0; LIST]),
        }
    }

    pub fn write(&mut self, node: u8, timestamp: u32, block: u32, verdict: u8) -> Result<Reply, u32> {
        let p = self.node(node)?;
        if timestamp <= self.summary(p)[p] {
            return Err(5);
        }
        if self.held[p] as usize == ROOM {
            return Err(6);
        }
        self.append(p, Record { origin: p as u32, timestamp, block, verdict: u32::from(verdict) });
        self.summary_mut(p)[p] = timestamp;
        Ok(Reply::default())
    }

    pub fn session(&mut self, a: u8, b: u8, ca: u32, cb: u32, outcome: u8) -> Result<Reply, u32> {
        if outcome > 3 {
            return Err(2);
        }
        let (a, b) = (self.node(a)?, self.node(b)?);
        if a == b {
            return Err(4);
        }
        if ca < self.summary(a)[a] || cb < self.summary(b)[b] {
            return Err(5);
        }
        let (a_finishes, b_finishes) = (outcome == 1 || outcome == 3, outcome == 2 || outcome == 3);
        let (start_a, start_b) = (self.opened(a, ca), self.opened(b, cb));
        let for_a = if a_finishes { self.newer(b, start_a.summary(a)) } else { Vec::new() };
        let for_b = if b_finishes { self.newer(a, start_b.summary(b)) } else { Vec::new() };
        if self.held[a] as usize + for_a.len() > ROOM || self.held[b] as usize + for_b.len() > ROOM {
            return Err(6);
        }
        // "a side that doesn't finish keeps its starting values"
        let end_a = if a_finishes { start_a.finished(a, &start_b, b, self.n()) } else { start_a.clone() };
        let end_b = if b_finishes { start_b.finished(b, &start_a, a, self.n()) } else { start_b };
        for (p, end, records) in [(a, end_a, &for_a), (b, end_b, &for_b)] {
            self.knows(p, end);
            for &record in records {
                self.append(p, record);
            }
        }
        Ok(Reply { to_a: for_a.len() as u32, to_b: for_b.len() as u32, ..Reply::default() })
    }

    /// The smallest entry that node p keeps of each node: its acknowledgement, or the smallest of its column's entries.
    pub fn lows(&self, p: usize) -> Vec<u32> {
        let n = self.n();
        if self.has_columns() {
            self.columns[p][..n].iter().map(|column| *column[..n].iter().min().unwrap()).collect()
        } else {
            self.acknowledgements[p][..n].to_vec()
        }
    }

    /// Whether a purge drops this record of node p's: "every column's entry for its origin is at least its timestamp", and no mark is read; or, in the vector
    /// form, it is not above the smallest acknowledgement and not above the mark.
    pub fn goes(&self, p: usize, r: &Record) -> bool {
        if self.has_columns() {
            self.columns[p][..self.n()].iter().all(|column| column[r.origin as usize] >= r.timestamp)
        } else {
            self.acknowledgements[p][..self.n()].iter().all(|&entry| entry >= r.timestamp) && r.timestamp <= self.marks[p]
        }
    }

    pub fn purge(&mut self, node: u8) -> Result<Reply, u32> {
        let p = self.node(node)?;
        let lows = self.lows(p);
        let smallest = *lows.iter().min().unwrap();
        // "the node that has it (the lowest among equals)"; of columns "the first whose column has the smallest entry of all"
        let lags = lows.iter().position(|&low| low == smallest).unwrap() as u32;
        let before = self.held[p] as usize;
        let kept: Vec<Record> = self.log(p).iter().filter(|r| !self.goes(p, r)).copied().collect();
        for row in 0..before {
            self.logs[p][row] = kept.get(row).copied().unwrap_or_default();
        }
        self.held[p] = kept.len() as u32;
        Ok(Reply { removed: (before - kept.len()) as u32, lags, ..Reply::default() })
    }

    /// "The smallest summary entry" of a node, among the nodes that there are.
    pub fn smallest_entry(&self, p: usize) -> u32 {
        *self.summary(p)[..self.n()].iter().min().unwrap()
    }

    /// "By timestamp and then origin, the held records above the mark and not above the smallest summary entry"; those
    /// of one timestamp and origin, which no run has, stay in the order of the log.
    pub fn due(&self, p: usize) -> Vec<Record> {
        let mut due: Vec<Record> = self.log(p).iter().filter(|r| r.timestamp > self.marks[p] && r.timestamp <= self.smallest_entry(p)).copied().collect();
        due.sort_by_key(|r| (r.timestamp, r.origin));
        due
    }

    /// A delivery into a lent list: refused ones leave it and the mark as they were, and the rest of it always stays.
    pub fn deliver(&mut self, node: u8, list: &mut [u32]) -> Result<Reply, u32> {
        if !self.sound() {
            return Err(1);
        }
        let p = self.node(node)?;
        // "a delivery on a column table gives 26, after 3"
        if self.has_columns() {
            return Err(26);
        }
        let due = self.due(p);
        if list.len() < RECORD * due.len() {
            return Err(7);
        }
        for (words, r) in list.chunks_mut(RECORD).zip(&due) {
            words.copy_from_slice(&[r.origin, r.timestamp, r.block, r.verdict]);
        }
        self.marks[p] = self.marks[p].max(self.smallest_entry(p));
        Ok(Reply { delivered: due.len() as u32, ..Reply::default() })
    }

    fn node(&self, node: u8) -> Result<usize, u32> {
        if u32::from(node) < self.count {
            Ok(usize::from(node))
        } else {
            Err(3)
        }
    }

    fn append(&mut self, p: usize, record: Record) {
        let row = self.held[p] as usize;
        self.logs[p][row] = record;
        self.held[p] += 1;
    }
}

/// The records of a list of words, those behind the last whole one left out.
pub fn records(words: &[u32]) -> Vec<Record> {
    words.chunks_exact(RECORD).map(|r| Record { origin: r[0], timestamp: r[1], block: r[2], verdict: r[3] }).collect()
}

/// Scrubbed, touched and the gap over a list of words, or refusal 1: "different pairs of origin and block with at least one
/// record of that class"; "the gap is the difference".
pub fn count(words: &[u32]) -> Result<[u32; 3], u32> {
    if words.len() % RECORD != 0 || words.len() > RECORD * ROOM || words.chunks(RECORD).any(|r| r[3] > 255) {
        return Err(1);
    }
    let different = |low, high| {
        let pairs: BTreeSet<(u32, u32)> = words.chunks(RECORD).filter(|r| (low..=high).contains(&r[3])).map(|r| (r[0], r[2])).collect();
        pairs.len() as u32
    };
    let (scrubbed, touched) = (different(0x10, 0x4F), different(0x20, 0x4F));
    Ok([scrubbed, touched, scrubbed - touched])
}

/// The bytes of a frame with their check byte, as a line with its LF.
pub fn line_of(bytes: &[u8]) -> Vec<u8> {
    let sum = bytes.iter().fold(0u8, |s, b| s.wrapping_add(*b));
    let mut text = String::new();
    for byte in bytes.iter().chain([0u8.wrapping_sub(sum)].iter()) {
        write!(text, "{byte:02X}").unwrap();
    }
    text.push('\n');
    text.into_bytes()
}

/// The frame of a start.
pub fn start_frame(n: u8) -> Vec<u8> {
    line_of(&[0, n])
}

/// The frame of a step, refused with 2 for a session with some other outcome.
pub fn frame(action: Action) -> Result<Vec<u8>, u32> {
    let mut bytes = Vec::new();
    match action {
        Action::Write { node, timestamp, block, verdict } => {
            bytes.extend([1, node]);
            bytes.extend(timestamp.to_be_bytes());
            bytes.extend(block.to_be_bytes());
            bytes.push(verdict);
        }
        Action::Session { a, b, ca, cb, outcome } => {
            if outcome > 3 {
                return Err(2);
            }
            bytes.extend([2, a, b]);
            bytes.extend(ca.to_be_bytes());
            bytes.extend(cb.to_be_bytes());
            bytes.push(outcome);
        }
        Action::Purge { node } => bytes.extend([3, node]),
        Action::Deliver { node } => bytes.extend([5, node]),
    }
    Ok(line_of(&bytes))
}

/// Why a line is refused, and "the place in the line, from 0, of the first character at fault".
#[derive(Clone, Copy, Debug, PartialEq, Eq)]
pub struct Fault {
    pub number: u32,
    pub place: usize,
}

fn fault<T>(number: u32, place: usize) -> Result<T, Fault> {
    Err(Fault { number, place })
}

/// Reads a single line without its LF: refusals 12, 18, 11, 19, 20, 13 and the last clause of 15.
pub fn read(line: &[u8]) -> Result<Frame, Fault> {
    let mut digits = Vec::with_capacity(line.len());
    for (place, &c) in line.iter().enumerate() {
        digits.push(match c {
            b'0'..=b'9' => c - b'0',
            b'A'..=b'F' => c - b'A' + 10,
            _ => return fault(12, place),
        });
    }
    if digits.is_empty() || digits.len() % 2 != 0 {
        return fault(18, line.len());
    }
    let bytes: Vec<u8> = digits.chunks(2).map(|d| d[0] * 16 + d[1]).collect();
    let due = match bytes[0] {
        0 | 3 | 5 => 6,
        1 => 24,
        2 => 26,
        _ => return fault(11, 0),
    };
    if line.len() != due {
        return fault(19, line.len().min(due));
    }
    let number = |at: usize| u32::from_be_bytes([bytes[at], bytes[at + 1], bytes[at + 2], bytes[at + 3]]);
    let frame = match bytes[0] {
        0 => Frame::Start(bytes[1]),
        1 => Frame::Step(Action::Write { node: bytes[1], timestamp: number(2), block: number(6), verdict: bytes[10] }),
        2 => Frame::Step(Action::Session { a: bytes[1], b: bytes[2], ca: number(3), cb: number(7), outcome: bytes[11] }),
        3 => Frame::Step(Action::Purge { node: bytes[1] }),
        _ => Frame::Step(Action::Deliver { node: bytes[1] }),
    };
    if matches!(frame, Frame::Step(Action::Session { outcome, .. }) if outcome > 3) {
        return fault(20, 22);
    }
    if bytes.iter().fold(0u8, |s, b| s.wrapping_add(*b)) != 0 {
        return fault(13, line.len() - 2);
    }
    if matches!(frame, Frame::Start(n) if !COUNTS.contains(&n.into())) {
        return fault(15, 0);
    }
    Ok(frame)
}

/// The kind of a frame and its fields in the order of document 01's table.
pub fn fields(frame: Frame) -> (u32, Vec<u32>) {
    let w = |b: u8| u32::from(b);
    match frame {
        Frame::Start(n) => (0, vec![w(n)]),
        Frame::Step(Action::Write { node, timestamp, block, verdict }) => (1, vec![w(node), timestamp, block, w(verdict)]),
        Frame::Step(Action::Session { a, b, ca, cb, outcome }) => (2, vec![w(a), w(b), ca, cb, w(outcome)]),
        Frame::Step(Action::Purge { node }) => (3, vec![w(node)]),
        Frame::Step(Action::Deliver { node }) => (5, vec![w(node)]),
    }
}

/// The line of a journal at a place, and the place after it.
fn next_line(journal: &[u8], at: usize) -> Result<(Frame, usize), Fault> {
    let left = &journal[at..];
    let Some(length) = left.iter().position(|&c| c == b'\n') else { return fault(14, left.len()) };
    let frame = read(&left[..length])?;
    if matches!(frame, Frame::Start(_)) == (at == 0) {
        Ok((frame, at + length + 1))
    } else {
        fault(15, 0)
    }
}

/// The lines of a journal up to the first refused, and its fault if there is one.
pub fn lines(journal: &[u8]) -> (Vec<Frame>, Option<Fault>) {
    let (mut at, mut frames) = (0, Vec::new());
    while at < journal.len() {
        match next_line(journal, at) {
            Ok((frame, next)) => {
                frames.push(frame);
                at = next;
            }
            Err(fault) => return (frames, Some(fault)),
        }
    }
    let empty = frames.is_empty().then_some(Fault { number: 15, place: 0 });
    (frames, empty)
}

/// One line on a table (none: words of a wrong length): the number, the two counts and the place in the line. The line's refusal
/// comes first, then 15 for a start, then the step's, which has no place.
pub fn apply_line(table: Option<&mut Table>, line: &[u8]) -> [u32; 4] {
    let action = match read(line) {
        Err(Fault { number, place }) => return [number, 0, 0, place as u32],
        Ok(Frame::Start(_)) => return [15, 0, 0, 0],
        Ok(Frame::Step(action)) => action,
    };
    let Some(table) = table else { return [1, 0, 0, 0] };
    let reply = table.apply(action);
    match action {
        Action::Purge { .. } => [reply.refusal, reply.removed, reply.lags, 0],
        Action::Deliver { .. } => [reply.refusal, reply.delivered, 0, 0],
        _ => [reply.refusal, reply.to_a, reply.to_b, 0],
    }
}

/// Many lines on a table, up to the first refused one: its number, the steps, those refused, where the reading stopped and the place
/// in the line there.
pub fn apply_lines(table: Option<&mut Table>, lines: &[u8]) -> [u32; 5] {
    let Some(table) = table.filter(|table| table.sound()) else { return [1, 0, 0, 0, 0] };
    let (mut rest, mut steps, mut refused) = (lines, 0, 0);
    let (number, place) = loop {
        if rest.is_empty() {
            break (0, 0);
        }
        let Some(end) = rest.iter().position(|&c| c == b'\n') else { break (14, rest.len()) };
        match read(&rest[..end]) {
            Err(Fault { number, place }) => break (number, place),
            Ok(Frame::Start(_)) => break (15, 0),
            Ok(Frame::Step(action)) => {
                steps += 1;
                refused += u32::from(table.apply(action).refusal != 0);
                rest = &rest[end + 1..];
            }
        }
    };
    [number, steps, refused, (lines.len() - rest.len()) as u32, place as u32]
}

/// What the replay program prints for a journal, and the table that the steps before a refused line,
/// or all of them, leave; none where no start is read.
pub fn replay(journal: &[u8]) -> (String, Option<Table>) {
    if journal.len() > JOURNAL {
        return ("BAD 0 16\n".into(), None);
    }
    let (frames, fault) = lines(journal);
    let bad = fault.map(|Fault { number, place }| format!("BAD {} {number} {place}\n", frames.len() + 1));
    let Some(&Frame::Start(n)) = frames.first() else { return (bad.unwrap(), None) };
    let mut table = fresh(WORDS, u32::from(n)).unwrap();
    let mut refused = 0;
    for frame in &frames[1..] {
        let Frame::Step(action) = *frame else { unreachable!() };
        refused += usize::from(table.apply(action).refusal != 0);
    }
    if let Some(bad) = bad {
        return (bad, Some(table));
    }
    let mut text = format!("N {} STEPS {} REFUSED {}\n", n, frames.len() - 1, refused);
    for p in 0..table.n() {
        write!(text, "{p} S").unwrap();
        table.summaries[p][..table.n()].iter().for_each(|e| write!(text, " {e}").unwrap());
        text.push_str(" K");
        table.acknowledgements[p][..table.n()].iter().for_each(|e| write!(text, " {e}").unwrap());
        writeln!(text, " L {}", table.held[p]).unwrap();
    }
    (text, Some(table))
}
