//! Lines, frames and verdict lists: valid ones, damaged ones and random bytes, on both sides.

use crate::layout::COUNTS;
use crate::library::{Answers, Calls, Library};
use crate::model::{count, fields, frame, read, records, start_frame, Action, Fault, Frame};
use crate::random::Random;
use crate::reached::Reached;
use crate::shrink::shortest;

const DIGITS: &[u8; 16] = b"0123456789ABCDEF";
const NEAR: &[u8] = b"0123456789ABCDEF0123456789ABCDEF/:@G`abcdefg \n\r\0\x80\xFF";

/// The lines, frames and lists of one seed.
pub const LINES: usize = 192;
const FRAMES: usize = 32;
const LISTS: usize = 16;

/// The answers to one line.
pub const LINE_ANSWERS: usize = 23;

/// The answers to one count of a list: the number, scrubbed, touched, the gap, and whether the words stayed.
pub const COUNT_ANSWERS: usize = 5;

pub fn action(rng: &mut Random) -> Action {
    let any = |rng: &mut Random| match rng.below(4) {
        0 => rng.below(300),
        1 => u32::MAX - rng.below(3),
        _ => rng.word(),
    };
    match rng.below(4) {
        0 => Action::Write { node: rng.byte(), timestamp: any(rng), block: any(rng), verdict: rng.byte() },
        1 => Action::Session { a: rng.byte(), b: rng.byte(), ca: any(rng), cb: any(rng), outcome: rng.below(4) as u8 },
        2 => Action::Deliver { node: rng.byte() },
        _ => Action::Purge { node: rng.byte() },
    }
}

/// A line of these bytes and their right check byte, whatever they are.
fn checked(bytes: &[u8]) -> Vec<u8> {
    let sum = bytes.iter().fold(0u8, |s, b| s.wrapping_add(*b));
    bytes.iter().chain(&[0u8.wrapping_sub(sum)]).flat_map(|b| [DIGITS[usize::from(b >> 4)], DIGITS[usize::from(b & 15)]]).collect()
}

fn valid(rng: &mut Random) -> Vec<u8> {
    let mut line = if rng.percent(15) { start_frame(2 + rng.below(15) as u8) } else { frame(action(rng)).unwrap() };
    line.pop();
    line
}

/// One line without its LF.
pub fn line(rng: &mut Random) -> Vec<u8> {
    match rng.below(16) {
        0..=4 => valid(rng),
        5 => checked(&[0, rng.byte()]),
        6 => {
            let mut bytes: Vec<u8> = (0..12).map(|_| rng.byte()).collect();
            bytes[0] = 2;
            bytes[11] = rng.below(6) as u8;
            checked(&bytes)
        }
        7 => {
            let many = rng.below(20) as usize;
            let mut bytes: Vec<u8> = (0..many).map(|_| rng.byte()).collect();
            if many > 0 {
                bytes[0] = rng.below(7) as u8;
            }
            checked(&bytes)
        }
        8 => (0..rng.below(30)).map(|_| rng.among(DIGITS)).collect(),
        9 => (0..rng.below(30)).map(|_| rng.among(NEAR)).collect(),
        10 => (0..rng.below(30)).map(|_| rng.byte()).collect(),
        11 if rng.percent(20) => (0..rng.below(400)).map(|_| rng.among(DIGITS)).collect(),
        11 if rng.percent(20) => Vec::new(),
        _ => damaged(rng),
    }
}

/// A valid line with one thing changed, left out, put in or cut off.
fn damaged(rng: &mut Random) -> Vec<u8> {
    let mut line = valid(rng);
    let at = rng.below(line.len() as u32) as usize;
    match rng.below(7) {
        0 => line[at] = rng.among(DIGITS),
        1 => line[at] = rng.among(NEAR),
        2 => line[at] ^= 1 << rng.below(8),
        3 => drop(line.remove(at)),
        4 => line.insert(at, rng.among(DIGITS)),
        5 => line.truncate(at),
        _ => line = line.to_ascii_lowercase(),
    }
    line
}

/// What the calls on a line must answer, in executor.c's order: the number and place of check; the kind; fields 0 to 5 and one far out; the number and
/// place of read with room for seven words, and those words (they begin as A5A5A5A5); the number and place of read with room for five, and whether
/// those words stayed; whether the line stayed.
fn should(line: &[u8]) -> Vec<u32> {
    const AS_LENT: u32 = 0xA5A5_A5A5;
    match read(line) {
        Ok(frame) => {
            let (kind, mut fields) = fields(frame);
            fields.resize(5, 0);
            [vec![0, 0, kind], fields.clone(), vec![0, 0, 0, 0, kind], fields, vec![AS_LENT, 17, 0, 1, 1]].concat()
        }
        Err(Fault { number, place }) => {
            let place = place as u32;
            [vec![number, place], vec![0; 8], vec![number, place], vec![AS_LENT; 7], vec![number, place, 1, 1]].concat()
        }
    }
}

/// Compares the answers to a line, which must read back as its frame.
fn compare_line(line: &[u8], answers: &mut Answers, reached: &mut Reached) -> Result<(), String> {
    let is = answers.words(LINE_ANSWERS);
    let should = should(line);
    reached.add(&format!("line {}", should[0]));
    if is == should {
        Ok(())
    } else {
        Err(format!("check and its place, kind, fields, read with its place and words: the library says {is:?}, the documents {should:?}"))
    }
}

/// Compares a frame's writer: the refusal, the length and every lent byte.
fn compare_frame(what: Frame, room: usize, answers: &mut Answers, reached: &mut Reached) -> Result<(), String> {
    let (name, made) = match what {
        Frame::Start(n) => ("start", if COUNTS.contains(&n.into()) { Ok(start_frame(n)) } else { Err(15) }),
        Frame::Step(action) => {
            let name = match action {
                Action::Write { .. } => "write",
                Action::Session { .. } => "session",
                Action::Purge { .. } => "purge",
                Action::Deliver { .. } => "deliver",
            };
            (name, frame(action))
        }
    };
    let made = made.and_then(|line| if line.len() > room { Err(17) } else { Ok(line) });
    let (refusal, line) = made.map_or_else(|refusal| (refusal, Vec::new()), |line| (0, line));
    reached.add(&format!("frame {name} {refusal}"));
    let mut bytes = vec![0xA5; room];
    bytes[..line.len()].copy_from_slice(&line);
    let is = (answers.word(), answers.word(), answers.bytes(room));
    let should = (refusal, line.len() as u32, bytes);
    if is == should {
        Ok(())
    } else {
        Err(format!("refusal, length and bytes: the library says {is:?}, the documents {should:?}"))
    }
}

fn a_frame(rng: &mut Random) -> Frame {
    if rng.percent(20) {
        return Frame::Start(if rng.percent(20) { rng.among(&[0, 1, 17, 255]) } else { 2 + rng.below(15) as u8 });
    }
    match action(rng) {
        Action::Session { a, b, ca, cb, .. } if rng.percent(30) => Frame::Step(Action::Session { a, b, ca, cb, outcome: rng.among(&[3, 4, 5, 255]) }),
        action => Frame::Step(action),
    }
}

/// How the pairs of a list are chosen: all at random; few origins and few blocks, so that most stand more than once; blocks one after
/// another, as a scrubber reads them; blocks that differ in high bits only; one block in all, or at every origin; origins that are no nodes.
fn a_pair(rng: &mut Random, style: u32, row: u32) -> (u32, u32) {
    match style {
        0 => (rng.word(), rng.word()),
        1 | 2 => (rng.below(2), rng.below(4)),
        3 => (rng.below(3), row / 3),
        4 => (3, 70_000 + row),
        5 => (rng.below(16), rng.below(4) << 30),
        6 => (9, 77),
        7 => (row, 77),
        8 => (rng.among(&[0, 15, 16, 17, 32, 256, 1 << 31, u32::MAX]), rng.below(3)),
        9 => (rng.below(2) * u32::MAX, rng.below(2) * u32::MAX),
        _ => (rng.below(16), rng.below(40)),
    }
}

/// A verdict: at the edges of the classes, of one class, scrubbed, or any.
fn a_verdict(rng: &mut Random, style: u32) -> u32 {
    match style {
        0 => rng.among(&[0x0F, 0x10, 0x1F, 0x20, 0x4F, 0x50]),
        1 => 0x10,
        2 => 0x20 + rng.below(0x30),
        3 => rng.among(&[0x10, 0x10, 0x10, 0x20]),
        4 => rng.below(256),
        _ => rng.below(0x60),
    }
}

fn a_list(rng: &mut Random) -> Vec<u32> {
    let many = match rng.below(8) {
        0 => rng.below(300),
        1 => rng.among(&[0, 4, 252, 256, 257, 260]),
        2 | 3 => 256,
        4 => 4 * rng.below(5),
        _ => 4 * rng.below(65),
    };
    let (pairs, verdicts) = (rng.below(12), rng.below(8));
    let mut list = Vec::new();
    for row in 0..many.div_ceil(4) {
        let (origin, block) = a_pair(rng, pairs, row);
        list.extend([origin, rng.word(), block, a_verdict(rng, verdicts)]);
    }
    list.truncate(many as usize);
    if many > 3 && rng.percent(15) {
        let at = rng.below(many / 4) as usize * 4 + 3;
        list[at] = rng.among(&[256, 255, 0x110, u32::MAX]);
    }
    list
}

fn compare_list(list: &[u32], answers: &mut Answers, reached: &mut Reached) -> Result<(), String> {
    let is = answers.words(COUNT_ANSWERS);
    let should = count(list).map_or_else(|refusal| [refusal, 0, 0, 0, 1], |c| [0, c[0], c[1], c[2], 1]);
    reached.add(if should[0] == 0 { "count 0" } else { "count 1" });
    if should[0] == 0 {
        reached.counted("count", &records(list));
    }
    if is == should {
        Ok(())
    } else {
        Err(format!("refusal, scrubbed, touched, gap, the words as they were: the library says {is:?}, the documents {should:?}"))
    }
}

/// Runs the lines, frames and lists of a seed; a mismatch is told with the shortest failing line.
pub fn seed(library: &mut Library, seed: u64, reached: &mut Reached) -> Result<usize, String> {
    let mut rng = Random::new(seed ^ 0x4C49_4E45);
    let lines: Vec<Vec<u8>> = (0..LINES).map(|_| line(&mut rng)).collect();
    let frames: Vec<(Frame, usize)> = (0..FRAMES).map(|_| (a_frame(&mut rng), rng.among(&[40, 27, 27, 26, 25, 25, 24, 7, 7, 6, 0]))).collect();
    let lists: Vec<Vec<u32>> = (0..LISTS).map(|_| a_list(&mut rng)).collect();
    let mut calls = Calls::default();
    reached.on(0);
    lines.iter().for_each(|line| calls.line(line));
    frames.iter().for_each(|(frame, room)| calls.frame(*room as u32, *frame));
    lists.iter().for_each(|list| calls.count(list));
    let Some(mut answers) = library.run(&calls) else { return Err(format!("seed {seed}: the library was killed in lines")) };
    let mut failing = None;
    for line in &lines {
        if compare_line(line, &mut answers, reached).is_err() {
            failing = Some(line);
            break;
        }
    }
    if let Some(line) = failing {
        return Err(told_line(library, seed, line));
    }
    for (frame, room) in &frames {
        compare_frame(*frame, *room, &mut answers, reached).map_err(|fault| format!("seed {seed}: frame {frame:?} with room {room}: {fault}"))?;
    }
    for list in &lists {
        if compare_list(list, &mut answers, reached).is_err() {
            return Err(told_list(library, seed, list));
        }
    }
    assert!(answers.done());
    Ok(LINES)
}

fn told_line(library: &mut Library, seed: u64, line: &[u8]) -> String {
    let mut nowhere = Reached::default();
    let mut try_line = |line: &[u8]| {
        let mut calls = Calls::default();
        calls.line(line);
        library.run(&calls).map_or(Err("the library was killed".into()), |mut answers| compare_line(line, &mut answers, &mut nowhere))
    };
    let short = shortest(line, &mut |line| try_line(line).is_err(), &|c| if *c == b'0' { Vec::new() } else { vec![b'0'] });
    format!("seed {seed}: {}\nthe shortest failing line: \"{}\"", try_line(&short).unwrap_err(), short.escape_ascii())
}

fn told_list(library: &mut Library, seed: u64, list: &[u32]) -> String {
    let mut nowhere = Reached::default();
    let mut try_list = |list: &[u32]| {
        let mut calls = Calls::default();
        calls.count(list);
        library.run(&calls).map_or(Err("the library was killed".into()), |mut answers| compare_list(list, &mut answers, &mut nowhere))
    };
    let rows: Vec<&[u32]> = list.chunks(4).collect();
    let short = shortest(&rows, &mut |rows| try_list(&rows.concat()).is_err(), &|_| Vec::new());
    let failing = try_list(&short.concat()).err().unwrap_or_else(|| "not again".into());
    format!("seed {seed}: the count of {} words: {failing}\nthe shortest failing list, origin, timestamp, block, verdict: {short:?}", list.len())
}
