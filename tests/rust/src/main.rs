//! Compares the library, over its C interface, with an independent implementation of document 01:
//! seed by seed, every reply, every word and every byte. On a mismatch it prints the seed and the
//! shortest failing list of steps, line or journal, and ends with status 1.

mod account;
mod edges;
mod journals;
mod layout;
mod library;
mod lines;
mod model;
mod random;
mod reached;
mod shrink;
mod steps;
mod texts;

use library::Library;
use reached::Reached;
use std::time::Instant;

/// A whole run; one that is not less must reach everything that `reached` names.
const STEPS: usize = 1_000_000;
const LINES: usize = 1_000_000;
const JOURNALS: usize = 4_000;
const TEXTS: usize = 200_000;

/// What is to be run: how much of each, from which seed, or one seed of one kind alone.
struct Wanted {
    steps: usize,
    lines: usize,
    journals: usize,
    texts: usize,
    first: u64,
    only: Option<(String, u64)>,
    edges: bool,
    through: Vec<String>,
    program: Vec<String>,
}

fn usage() -> ! {
    eprintln!("compare [--times K] [--steps N] [--lines N] [--journals N] [--texts N] [--from SEED] [--only steps|lines|journals|texts SEED] [--no-edges] --through PROGRAM WORDS.. | --program REPLAY WORDS..");
    std::process::exit(2)
}

fn wanted() -> Wanted {
    let mut wanted = Wanted { steps: STEPS, lines: LINES, journals: JOURNALS, texts: TEXTS, first: 1, only: None, edges: true, through: Vec::new(), program: Vec::new() };
    let mut words = std::env::args().skip(1);
    while let Some(word) = words.next() {
        let mut number = || words.next().and_then(|x| x.parse::<usize>().ok()).unwrap_or_else(|| usage());
        match word.as_str() {
            "--times" => {
                let k = number();
                (wanted.steps, wanted.lines, wanted.journals, wanted.texts) = (wanted.steps * k, wanted.lines * k, wanted.journals * k, wanted.texts * k);
            }
            "--steps" => wanted.steps = number(),
            "--lines" => wanted.lines = number(),
            "--journals" => wanted.journals = number(),
            "--texts" => wanted.texts = number(),
            "--from" => wanted.first = number() as u64,
            "--only" => {
                let kind = words.next().unwrap_or_else(|| usage());
                let seed = words.next().and_then(|x| x.parse().ok()).unwrap_or_else(|| usage());
                wanted.only = Some((kind, seed));
            }
            "--no-edges" => wanted.edges = false,
            "--program" => wanted.program = words.by_ref().collect(),
            "--through" => wanted.through = words.by_ref().collect(),
            _ => usage(),
        }
    }
    wanted
}

/// A kind of input: its name and the run of one of its seeds, which tells how much it had.
type Kind = (&'static str, fn(&mut Library, u64, &mut Reached) -> Result<usize, String>);

const KINDS: [Kind; 4] = [("steps", steps::seed), ("lines", lines::seed), ("journals", journals::seed), ("texts", texts::seed)];

fn fail(kind: &str, told: &str) -> ! {
    println!("MISMATCH in {kind}, {told}");
    if kind != "edges" {
        println!("run it again: --only {kind} SEED");
    }
    std::process::exit(1)
}

fn main() {
    let wanted = wanted();
    if !wanted.program.is_empty() {
        return programs(&wanted);
    }
    if wanted.through.is_empty() {
        usage()
    }
    let mut library = Library::through(&wanted.through).unwrap_or_else(|fault| {
        eprintln!("the program of --through does not answer: {fault}");
        std::process::exit(2)
    });
    let mut reached = Reached::default();
    if let Some((kind, seed)) = &wanted.only {
        let (name, run) = KINDS.into_iter().find(|k| k.0 == kind).unwrap_or_else(|| usage());
        run(&mut library, *seed, &mut reached).unwrap_or_else(|told| fail(name, &told));
        println!("seed {seed} of {kind}: no difference");
        return;
    }
    if wanted.edges {
        edges::all(&mut library).unwrap_or_else(|told| fail("edges", &told));
        println!("the edges and the sample of document 01: as it says");
    }
    for ((name, run), many) in KINDS.into_iter().zip([wanted.steps, wanted.lines, wanted.journals, wanted.texts]) {
        let (began, mut done, mut seed) = (Instant::now(), 0, wanted.first);
        while done < many {
            let did = run(&mut library, seed, &mut reached).unwrap_or_else(|told| fail(name, &told));
            done += if name == "journals" { 1 } else { did };
            seed += 1;
        }
        println!("{done} {name} compared, seeds {} to {}, no difference, {:.1} s", wanted.first, seed - 1, began.elapsed().as_secs_f64());
    }
    let never = reached.report();
    if !never.is_empty() {
        println!("NEVER REACHED: {}", never.join("; "));
        if wanted.steps >= STEPS && wanted.lines >= LINES && wanted.journals >= JOURNALS && wanted.texts >= TEXTS {
            std::process::exit(1);
        }
    }
}

/// Runs the program replay itself on the journals of the seeds, and the samples of document 01.
fn programs(wanted: &Wanted) {
    let began = Instant::now();
    let mut reached = Reached::default();
    for seed in wanted.first..wanted.first + wanted.journals as u64 {
        if let Err(told) = journals::program(&wanted.program, &journals::make(seed), &mut reached) {
            fail("journals", &format!("seed {seed}, the program: {told}"));
        }
    }
    for journal in edges::JOURNALS {
        if let Err(told) = journals::program(&wanted.program, journal, &mut reached) {
            fail("edges", &format!("the program: {told}"));
        }
    }
    println!("{} journals through the program, no difference, {:.1} s", wanted.journals + edges::JOURNALS.len(), began.elapsed().as_secs_f64());
    reached.report();
}
