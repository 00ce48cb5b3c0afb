//! Whole journals: those of the scenarios, full ones, damaged ones and random bytes; the text that
//! replay prints and the table that it leaves.

use crate::layout::{COLUMN_WORDS, JOURNAL, WORDS};
use crate::library::{Calls, Library, TEXT};
use crate::model::{frame, replay, start_frame, Action};
use crate::random::Random;
use crate::reached::Reached;
use crate::shrink::shortest;
use crate::{lines, steps};
use std::io::Write;
use std::process::{Command, Stdio};

/// The journal of a seed.
pub fn make(seed: u64) -> Vec<u8> {
    let mut rng = Random::new(seed ^ 0x4A4F_5552);
    if rng.percent(3) {
        let many = rng.below(300);
        return (0..many).map(|_| if rng.percent(10) { b'\n' } else { rng.byte() }).collect();
    }
    let (n, mut actions) = steps::steps_of(rng.next() >> 8);
    let full = rng.percent(2);
    while full && actions.len() < 2700 {
        let more = steps::steps_of(rng.next() >> 8).1;
        actions.extend(more);
    }
    let n = if rng.percent(3) { rng.below(20) as u8 } else { n as u8 };
    let mut journal: Vec<Vec<u8>> = vec![start_frame(n)];
    journal.extend(actions.iter().filter_map(|action| frame(*action).ok()));
    damage(&mut rng, &mut journal);
    let mut bytes = journal.concat();
    if full {
        bytes.truncate(JOURNAL);
        let whole = bytes.iter().rposition(|&c| c == b'\n').map_or(0, |at| at + 1);
        bytes.truncate(whole);
        // the last lines are purges, 7 bytes each, until nothing or little is left over
        while bytes.len() + 7 <= JOURNAL {
            bytes.extend(frame(Action::Purge { node: 0 }).unwrap());
        }
        let left = JOURNAL - bytes.len();
        let exact = make_exact(&bytes, left);
        bytes = exact.unwrap_or(bytes);
        if rng.percent(30) {
            bytes.push(b'\n');
        }
    }
    bytes
}

/// Puts `left` bytes more into a journal by lengthening purges (7 bytes) into writes (25), so far as
/// 18 divides; else by leaving purges out and putting a write or session in their place.
fn make_exact(bytes: &[u8], left: usize) -> Option<Vec<u8>> {
    let write = frame(Action::Write { node: 0, timestamp: 1, block: 0, verdict: 0 }).ok()?;
    let session = frame(Action::Session { a: 0, b: 1, ca: 0, cb: 0, outcome: 0 }).ok()?;
    for purges in 0..40 {
        let room = left + 7 * purges;
        for writes in 0..=room / 25 {
            if (room - 25 * writes) % 27 == 0 {
                let mut longer = bytes.get(..bytes.len().checked_sub(7 * purges)?)?.to_vec();
                if longer.last() != Some(&b'\n') {
                    return None;
                }
                longer.extend(write.repeat(writes));
                longer.extend(session.repeat((room - 25 * writes) / 27));
                return Some(longer);
            }
        }
    }
    None
}

/// Damages a journal's lines in one of many ways, or, as often, in none.
pub fn damage(rng: &mut Random, journal: &mut Vec<Vec<u8>>) {
    let many = journal.len() as u32;
    let at = rng.below(many) as usize;
    match rng.below(24) {
        0 => {
            let mut line = lines::line(rng);
            line.push(b'\n');
            journal[at] = line;
        }
        1 => drop(journal.last_mut().unwrap().pop()),
        2 => drop(journal[at].pop()),
        3 => journal[at] = start_frame(2 + rng.below(15) as u8),
        4 => drop(journal.remove(0)),
        5 => journal.insert(at, b"\n".to_vec()),
        6 => {
            let place = rng.below(journal[at].len() as u32) as usize;
            journal[at][place] = rng.byte();
        }
        7 => {
            let place = rng.below(journal[at].len() as u32) as usize;
            journal[at][place] ^= 1 << rng.below(8);
        }
        8 => {
            let place = rng.below(journal[at].len() as u32) as usize;
            journal[at].remove(place);
        }
        9 => journal.truncate(at),
        10 => journal[at].extend_from_slice(b"0"),
        11 => journal[at] = b"0002FF\n".to_vec(),
        12 => journal[at] = b"020001000000060000000404EF\n".to_vec(),
        _ => {}
    }
}

/// Compares one replay: its length and text, the bytes after it, and every word of the table.
fn compare(library: &mut Library, journal: &[u8], words: u32, room: u32, reached: &mut Reached) -> Result<(), String> {
    let mut calls = Calls::default();
    calls.replay(journal, words, room);
    reached.on(0);
    let Some(mut answers) = library.run(&calls) else { return Err("the library was killed".into()) };
    let (length, text, table) = (answers.word(), answers.bytes(room as usize), answers.words(words as usize));
    let nothing = words as usize != WORDS || room < TEXT;
    let (should, after) = if nothing { (String::new(), None) } else { replay(journal) };
    let done = should.starts_with('N');
    reached.add(&match () {
        () if nothing => "replay nothing".into(),
        () if done => "replay done".into(),
        () => format!("replay {}", should.trim_end().split(' ').nth(2).unwrap()),
    });
    if words as usize == COLUMN_WORDS {
        reached.add("replay nothing on columns");
    }
    if done && journal.len() == JOURNAL {
        reached.add("replay of 65536 bytes");
    }
    if done && !should.lines().next().unwrap().ends_with(" 0") {
        reached.add("replay with steps refused");
    }
    let mut bytes = vec![0xA5; room as usize];
    bytes[..should.len()].copy_from_slice(should.as_bytes());
    if length as usize != should.len() || text != bytes {
        let is = String::from_utf8_lossy(&text[..(length as usize).min(text.len())]).into_owned();
        return Err(format!("the text, or a byte after it: the library wrote {length} bytes\n{is}document 01 has\n{should}"));
    }
    let mut expected = Vec::new();
    match after {
        Some(after) => after.to_words(&mut expected),
        None => expected = vec![0xA5A5_A5A5; words as usize],
    }
    if table == expected {
        Ok(())
    } else {
        Err("the table that the replay left differs".into())
    }
}

/// Runs the program replay on a journal: what it writes must be the model's text, and its status 0.
pub fn program(words: &[String], journal: &[u8], reached: &mut Reached) -> Result<(), String> {
    let said = |fault: std::io::Error| format!("it cannot be run: {fault}");
    let mut child = Command::new(&words[0]).args(&words[1..]).stdin(Stdio::piped()).stdout(Stdio::piped()).spawn().map_err(said)?;
    let _ = child.stdin.take().unwrap().write_all(journal); // it need not read what is too long
    let output = child.wait_with_output().map_err(said)?;
    let should = replay(journal).0;
    reached.add(if should.starts_with('N') { "program done" } else { "program BAD" });
    if output.stdout == should.as_bytes() && output.status.success() {
        return Ok(());
    }
    let lines: Vec<Vec<u8>> = journal.split_inclusive(|&c| c == b'\n').map(<[u8]>::to_vec).collect();
    Err(format!("it wrote\n{}document 01 has\n{should}for the journal\n{}{}", String::from_utf8_lossy(&output.stdout), shown(&lines), output.status))
}

/// Runs the journal of a seed; a mismatch is told with the shortest failing journal.
pub fn seed(library: &mut Library, seed: u64, reached: &mut Reached) -> Result<usize, String> {
    let journal = make(seed);
    let mut rng = Random::new(seed ^ 0x524F_4F4D);
    let (words, room) = match rng.below(40) {
        0 | 2 => (rng.among(&[0, 4625, 4640, 4642, 8224, 8225, 8225, 8226]), TEXT),
        1 => (WORDS as u32, rng.among(&[0, 100, TEXT - 1])),
        _ => (WORDS as u32, rng.among(&[TEXT, TEXT, TEXT + 13])),
    };
    if compare(library, &journal, words, room, reached).is_ok() {
        return Ok(journal.iter().filter(|&&c| c == b'\n').count());
    }
    let mut nowhere = Reached::default();
    let lines: Vec<Vec<u8>> = journal.split_inclusive(|&c| c == b'\n').map(<[u8]>::to_vec).collect();
    let short = shortest(&lines, &mut |lines| compare(library, &lines.concat(), words, room, &mut nowhere).is_err(), &|_| Vec::new());
    let fault = compare(library, &short.concat(), words, room, &mut nowhere).unwrap_err();
    Err(format!("seed {seed}: {fault}\nthe shortest failing journal ({words} words, room {room}):\n{}", shown(&short)))
}

/// The lines as they can be read, the first and the last of a long journal.
fn shown(lines: &[Vec<u8>]) -> String {
    let mut text = String::new();
    for (i, line) in lines.iter().enumerate() {
        if i < 20 || i + 10 >= lines.len() {
            text += &format!("  {}\n", line.escape_ascii());
        } else if i == 20 {
            text += &format!("  .. {} lines more ..\n", lines.len() - 30);
        }
    }
    text
}
