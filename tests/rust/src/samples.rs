//! Writes journals, and beside each what the independent implementation of the documents prints for it:
//!   samples write FOLDER               the sample journals (all but long.journal, which was drawn once and is kept)
//!   samples random FOLDER COUNT SEED   random journals, half of them damaged, and two that are too long
//!   samples print FOLDER               FILE.out for each FILE.journal of the folder

mod layout;
mod model;
mod random;

use layout::{JOURNAL, ROOM};
use model::{replay, start_frame, Action};
use random::Random;
use std::path::Path;

const EXAMPLE: &[u8] = b"0002FE\n0100000000050000001010DA\n020001000000060000000403F0\n020001000000070000000701EE\n0300FD\n020001000000080000000803EA\n0300FD\n";
const PRINTED: &str = "N 2 STEPS 6 REFUSED 0\n0 S 8 8 K 7 6 L 1\n1 S 8 8 K 7 6 L 1\n";

/// "With a line `0500FB` before its last it prints 7 steps and the old node lines."
const DELIVERED: &[u8] = b"0002FE\n0100000000050000001010DA\n020001000000060000000403F0\n020001000000070000000701EE\n0300FD\n020001000000080000000803EA\n0500FB\n0300FD\n";
const PRINTED_DELIVERED: &str = "N 2 STEPS 7 REFUSED 0\n0 S 8 8 K 7 6 L 0\n1 S 8 8 K 7 6 L 1\n";

type Journal = Vec<u8>;

fn write(node: u8, timestamp: u32, block: u32, verdict: u8) -> Journal {
    model::frame(Action::Write { node, timestamp, block, verdict }).unwrap()
}

fn session(a: u8, b: u8, ca: u32, cb: u32, outcome: u8) -> Journal {
    model::frame(Action::Session { a, b, ca, cb, outcome }).unwrap()
}

fn purge(node: u8) -> Journal {
    model::frame(Action::Purge { node }).unwrap()
}

fn deliver(node: u8) -> Journal {
    model::frame(Action::Deliver { node }).unwrap()
}

/// A delivery and a purge of each node, one after the other.
fn clear(journal: &mut Journal, nodes: &[u8]) {
    for &node in nodes {
        journal.extend(deliver(node));
        journal.extend(purge(node));
    }
}

/// Has neighbours in a list meet, one pair after the other, at a clock that goes on.
fn ring(journal: &mut Journal, clock: &mut u32, nodes: &[u8], outcome: u8) {
    for pair in nodes.windows(2) {
        *clock += 1;
        journal.extend(session(pair[0], pair[1], *clock, *clock, outcome));
    }
}

/// 16 nodes. Node 0 fills its log and the others learn of it, while node 15 lags behind and nothing
/// can go. It comes back, node 0 delivers, empties its log and writes on; node 2 has no room for that until it
/// delivers and purges too; then all logs drain. On the way stands a step of each refusal number that a journal's
/// step can meet.
fn cluster() -> Journal {
    let (mut j, mut clock) = (start_frame(16), 100);
    let every: Vec<u8> = (0..16).collect();
    let back: Vec<u8> = (0..16).rev().collect();
    for i in 0..ROOM as u32 {
        j.extend(write(0, i + 1, 1000 + i, i as u8));
    }
    j.extend(write(0, 65, 2000, 0)); // 6: 64 held
    j.extend(write(0, 64, 2000, 0)); // 5: a full log and a clock gone back
    j.extend(session(3, 3, 9, 9, 3)); // 4
    j.extend(session(16, 1, 9, 9, 3)); // 3
    j.extend(session(0, 2, 1, 9, 3)); // 5: the reading went back
    j.extend(purge(16)); // 3
    j.extend(deliver(16)); // 3
    ring(&mut j, &mut clock, &every[..15], 3); // all but 15 learn
    ring(&mut j, &mut clock, &back[1..], 3);
    clear(&mut j, &every); // nothing is due and nothing goes: 15 has said nothing
    ring(&mut j, &mut clock, &[15, 14, 13], 0); // cut short: 15 still knows nothing
    ring(&mut j, &mut clock, &[14, 15], 1);
    j.extend(purge(14));
    for _ in 0..3 {
        ring(&mut j, &mut clock, &every, 3); // 15 is back
        ring(&mut j, &mut clock, &back, 3);
    }
    j.extend(purge(0)); // removes nothing: all have acknowledged, but nothing was delivered here
    clear(&mut j, &[0]); // delivers 64 and removes them
    clock += 1;
    j.extend(write(0, clock, 2000, 0x20)); // room freed by a purge is used again
    j.extend(session(2, 0, clock + 1, clock + 1, 1)); // 6: 2 would hold 65
    j.extend(session(2, 0, clock + 1, clock + 1, 2)); // nothing comes to 0, though 2 is full
    clear(&mut j, &[2]);
    clock += 1;
    j.extend(session(2, 0, clock + 1, clock + 1, 1));
    clock += 1;
    clear(&mut j, &every);
    for _ in 0..3 {
        ring(&mut j, &mut clock, &every, 3);
        ring(&mut j, &mut clock, &back, 3);
    }
    clear(&mut j, &every); // all drained
    j.extend(write(0, u32::MAX, 5000, 0xFF));
    j.extend(session(0, 1, u32::MAX, clock + 1, 3));
    j.extend(write(0, u32::MAX, 5000, 0xFF)); // 5: that node writes no more
    j.extend(session(0, 1, u32::MAX, clock + 2, 3));
    j
}

/// A full journal of five nodes that write out of step, meet in a ring, deliver and purge: timestamps of several origins between each other,
/// at times the same, purges that nothing was delivered for, and a node that falls back for a while.
fn delivering() -> Journal {
    let (mut rng, mut j) = (Random::new(5_055), start_frame(5));
    for clock in 1.. {
        let (p, q) = (rng.below(5) as u8, 1 + rng.below(4) as u8);
        let away = clock / 200 % 3 == 1 && rng.percent(90);
        let mut lines = Journal::new();
        match rng.below(8) {
            0..=1 => lines.extend(write(p, 3 * clock + rng.below(4), rng.word(), rng.byte())),
            2..=5 if away && (p == 4 || (p + q) % 5 == 4) => lines.extend(deliver(p)),
            2..=5 => lines.extend(session(p, (p + q) % 5, 3 * clock, 3 * clock, if rng.percent(5) { rng.below(4) as u8 } else { 3 })),
            6 => clear(&mut lines, &[p]),
            _ => lines.extend(purge(p)),
        }
        if j.len() + lines.len() > JOURNAL {
            break;
        }
        j.extend(lines);
    }
    j
}

/// The sample journals with their names.
fn samples() -> Vec<(&'static str, Journal)> {
    let ok = || [start_frame(2), write(0, 1, 0, 0x30)].concat();
    let and = |more: &[u8]| [&ok(), more].concat();
    let mut full = [start_frame(3), write(2, 9, 0, 0x30).repeat(JOURNAL / 25)].concat();
    full.truncate(JOURNAL - 6);
    full.extend(b"0300FD");
    vec![
        ("example", EXAMPLE.to_vec()),
        ("example-delivered", DELIVERED.to_vec()),
        ("delivers", delivering()),
        ("fills-lags-drains", cluster()),
        ("start-only", start_frame(16)),
        ("refused-11-unknown-kind", and(&model::line_of(&[4, 0]))),
        ("refused-11-wrong-sum", and(b"0400FF\n")),
        ("refused-12-lowercase", and(b"0300fd\n")),
        ("refused-12-return", and(b"0300FD\r\n")),
        ("refused-13", and(b"0300FE\n0300FD\n")),
        ("refused-14", and(b"0300FD")),
        ("refused-15-no-start", [write(0, 1, 0, 0x30), purge(0)].concat()),
        ("refused-15-second-start", and(&start_frame(2))),
        ("refused-15-count-1", start_frame(1)),
        ("refused-15-count-17", start_frame(17)),
        ("refused-15-empty", Journal::new()),
        ("refused-14-at-limit", full),
        ("refused-16", [start_frame(3), purge(0).repeat(9362)].concat()),
        ("refused-18-empty-line", and(b"\n0300FD\n")),
        ("refused-18-odd", and(b"03000\n")),
        ("refused-19-too-short", and(b"0300\n")),
        ("refused-19-too-long", and(&model::line_of(&[3, 0, 0]))),
        ("refused-20-outcome", and(&model::line_of(&[2, 0, 1, 0, 0, 0, 5, 0, 0, 0, 5, 4]))),
    ]
}

/// A random journal: few nodes or many, steps that are mostly accepted, and some that are not.
fn some(rng: &mut Random) -> Journal {
    let n = rng.among(&[2u8, 3, 5, 16]);
    let node = |rng: &mut Random| {
        let beyond = u32::from(rng.percent(3));
        rng.below(u32::from(n) + beyond) as u8
    };
    let (mut j, mut clock) = (start_frame(n), 0u32);
    for _ in 0..rng.among(&[3, 30, 300]) {
        clock += rng.among(&[0, 1, 1, 2, 50]);
        let near = |rng: &mut Random| if rng.percent(10) { clock.saturating_sub(rng.below(9)) } else { clock };
        j.extend(match rng.below(4) {
            0 => write(node(rng), clock, rng.word(), rng.byte()),
            1 => session(node(rng), node(rng), near(rng), near(rng), rng.below(4) as u8),
            2 => session(node(rng), node(rng), clock, clock, 3),
            _ if rng.percent(50) => deliver(node(rng)),
            _ => purge(node(rng)),
        });
    }
    j
}

/// A journal with one byte changed, left out or put in, cut short, without its start, or with two.
fn damaged(rng: &mut Random, mut j: Journal) -> Journal {
    let at = rng.below(j.len() as u32) as usize;
    match rng.below(10) {
        8 => drop(j.drain(..7)),
        9 => j.extend(start_frame(2)),
        0 | 1 => j[at] = rng.among(b"0123456789ABCDEFabcdefG\n\r "),
        2 | 3 => drop(j.remove(at)),
        4 | 5 => j.insert(at, rng.among(b"0123456789ABCDEF\n")),
        _ => j.truncate(at),
    }
    j
}

/// As many bytes of whole lines as a journal may have.
fn longest(rng: &mut Random) -> Journal {
    let mut j = start_frame(16);
    for clock in 1.. {
        let line = match rng.below(4) {
            3 => deliver(rng.below(16) as u8),
            0 => write(rng.below(16) as u8, clock, rng.word(), rng.byte()),
            1 => session(rng.below(16) as u8, rng.below(16) as u8, clock, clock, rng.below(4) as u8),
            _ => purge(rng.below(16) as u8),
        };
        if j.len() + line.len() > JOURNAL {
            break;
        }
        j.extend(line);
    }
    j
}

fn put(folder: &Path, name: &str, journal: &[u8]) -> std::io::Result<()> {
    std::fs::write(folder.join(format!("{name}.journal")), journal)
}

fn random(folder: &Path, count: u32, seed: u64) -> std::io::Result<()> {
    let mut rng = Random::new(seed);
    for i in 0..count {
        let journal = some(&mut rng);
        let journal = if i % 2 == 1 { damaged(&mut rng, journal) } else { journal };
        put(folder, &format!("random-{i}"), &journal)?;
    }
    let mut long = longest(&mut rng);
    put(folder, "longest", &long)?;
    long.resize(JOURNAL + 1, b'\n');
    put(folder, "too-long", &long)?;
    put(folder, "far-too-long", &long.repeat(2))
}

fn print(folder: &Path) -> std::io::Result<()> {
    for entry in std::fs::read_dir(folder)? {
        let path = entry?.path();
        if path.extension().is_some_and(|kind| kind == "journal") {
            std::fs::write(path.with_extension("out"), replay(&std::fs::read(&path)?).0)?;
        }
    }
    Ok(())
}

fn main() -> std::io::Result<()> {
    assert_eq!(replay(EXAMPLE).0, PRINTED, "the example of document 01");
    assert_eq!(replay(DELIVERED).0, PRINTED_DELIVERED, "the example of document 02");
    let words: Vec<String> = std::env::args().skip(1).collect();
    let words: Vec<&str> = words.iter().map(String::as_str).collect();
    let (folder, number) = (Path::new(words.get(1).copied().unwrap_or(".")), |at: usize| words[at].parse::<u64>().expect("a number"));
    match words[..] {
        ["write", _] => samples().iter().try_for_each(|(name, journal)| put(folder, name, journal)),
        ["random", _, _, _] => random(folder, number(2) as u32, number(3)),
        ["print", _] => print(folder),
        _ => {
            eprintln!("samples write FOLDER | random FOLDER COUNT SEED | print FOLDER");
            std::process::exit(2)
        }
    }
}
