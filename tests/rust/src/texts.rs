//! One line and many lines on a table: the steps of the scenarios as lines, damaged ones among them,
//! run by both calls that take lines, with every number, count and place and every word compared.

use crate::journals::damage;
use crate::library::{Answers, Calls, Library, BATCH};
use crate::lines;
use crate::model::{apply_line, apply_lines, fresh, line_of, start_frame, Action, Table};
use crate::random::Random;
use crate::reached::Reached;
use crate::shrink::shortest;
use crate::steps;

/// What happens to a table here.
#[derive(Clone, Debug)]
enum Event {
    Fresh(u32),
    Poke(u32, u32),
    Line(Vec<u8>),
    Lines(Vec<u8>),
}

/// The line of a step with its LF; that of a session with a wrong outcome too, which a reader refuses.
fn line(action: Action) -> Vec<u8> {
    match action {
        Action::Write { node, timestamp, block, verdict } => line_of(&[&[1, node][..], &timestamp.to_be_bytes(), &block.to_be_bytes(), &[verdict]].concat()),
        Action::Session { a, b, ca, cb, outcome } => line_of(&[&[2, a, b][..], &ca.to_be_bytes(), &cb.to_be_bytes(), &[outcome]].concat()),
        Action::Purge { node } => line_of(&[3, node]),
        Action::Deliver { node } => line_of(&[5, node]),
    }
}

/// Ends the text that was gathered: as it is, damaged, or with a start among its lines.
fn flush(rng: &mut Random, text: &mut Vec<Vec<u8>>, events: &mut Vec<Event>) {
    if text.is_empty() {
        return;
    }
    if rng.percent(30) {
        damage(rng, text);
    }
    events.push(Event::Lines(text.concat()));
    text.clear();
}

/// The first words and the events of a seed.
fn make(seed: u64) -> (Vec<u32>, Vec<Event>) {
    let mut rng = Random::new(seed ^ 0x5445_5854);
    let scenario = steps::make(rng.next() >> 8);
    let (mut events, mut text) = (Vec::new(), Vec::new());
    for event in &scenario.events {
        match (*event, event.step()) {
            (steps::Event::Fresh(n), _) => {
                flush(&mut rng, &mut text, &mut events);
                events.push(Event::Fresh(n));
            }
            (steps::Event::Poke(index, value), _) => {
                flush(&mut rng, &mut text, &mut events);
                events.push(Event::Poke(index, value));
            }
            (_, Some(action)) if text.is_empty() && rng.percent(50) => {
                let mut single = match rng.below(20) {
                    0 => start_frame(2 + rng.below(15) as u8),
                    _ => line(action),
                };
                single.pop();
                events.push(Event::Line(if rng.percent(15) { lines::line(&mut rng) } else { single }));
            }
            (_, Some(action)) => {
                text.push(line(action));
                if rng.percent(20) {
                    flush(&mut rng, &mut text, &mut events);
                }
            }
            _ if rng.percent(10) => events.push(Event::Lines(Vec::new())),
            _ => {}
        }
    }
    flush(&mut rng, &mut text, &mut events);
    (scenario.words, events)
}

/// Compares the answers to one event with the model's.
fn event(event: &Event, table: &mut Option<Table>, expected: &mut Vec<u32>, answers: &mut Answers, reached: &mut Reached) -> Result<usize, String> {
    let mut did = 1;
    let should: Vec<u32> = match event {
        Event::Fresh(n) => match fresh(expected.len(), *n) {
            Ok(made) => {
                *table = Some(made);
                vec![0, u32::MAX, u32::MAX]
            }
            Err(refusal) => vec![refusal, u32::MAX, u32::MAX],
        },
        Event::Poke(index, value) => {
            expected[*index as usize] = *value;
            *table = Table::from_words(expected);
            return Ok(0);
        }
        Event::Line(line) => {
            let said = apply_line(table.as_mut(), line);
            reached.add(&format!("apply_line {}", said[0]));
            [&said[..], &[1]].concat()
        }
        Event::Lines(text) => {
            let said = apply_lines(table.as_mut(), text);
            reached.add(&format!("apply_lines {}", said[0]));
            reached.when(said[0] != 0 && said[1] > 1, "apply_lines stopped after steps");
            reached.when(said[2] > 0, "apply_lines with steps refused");
            reached.when(said == [0; 5], "apply_lines of none");
            did = said[1] as usize;
            [&said[..], &[0, 1]].concat()
        }
    };
    if let Some(table) = table {
        table.to_words(expected);
    }
    let is = answers.words(should.len());
    if is != should {
        return Err(format!("number, what is stored, bytes unchanged: the library says {is:?}, it should be {should:?}"));
    }
    if answers.words(expected.len()) != expected {
        return Err("the table's words differ".into());
    }
    Ok(did)
}

/// Runs the events on both sides; the answer is how many steps and lines there were, or the event that differs.
fn compare(library: &mut Library, words: &[u32], events: &[Event], reached: &mut Reached) -> Result<usize, (usize, String)> {
    let (mut table, mut expected, mut done) = (Table::from_words(words), words.to_vec(), 0);
    let mut calls = Calls::default();
    reached.on(words.len());
    calls.table(words);
    for (batch, part) in events.chunks(BATCH).enumerate() {
        for event in part {
            match event {
                Event::Fresh(n) => calls.fresh(*n),
                Event::Poke(index, value) => calls.poke(*index, *value),
                Event::Line(line) => calls.apply_line(line),
                Event::Lines(text) => calls.apply_lines(text),
            }
        }
        let Some(mut answers) = library.run(&calls) else { return Err((batch * BATCH, "the library was killed".into())) };
        for (i, what) in part.iter().enumerate() {
            done += event(what, &mut table, &mut expected, &mut answers, reached).map_err(|fault| (batch * BATCH + i, fault))?;
        }
        assert!(answers.done());
        calls.clear();
    }
    Ok(done)
}

/// Runs the events of a seed; a mismatch is told with the shortest failing list.
pub fn seed(library: &mut Library, seed: u64, reached: &mut Reached) -> Result<usize, String> {
    let (words, events) = make(seed);
    let at = match compare(library, &words, &events, reached) {
        Ok(done) => return Ok(done),
        Err((at, _)) => at,
    };
    let mut nowhere = Reached::default();
    let events = shortest(&events[..=at.min(events.len() - 1)], &mut |events| compare(library, &words, events, &mut nowhere).is_err(), &|_| Vec::new());
    let fault = compare(library, &words, &events, &mut nowhere).unwrap_err().1;
    let mut text = format!("seed {seed}: {fault}\nthe shortest failing list, on {} words:\n", words.len());
    for event in &events {
        text += &match event {
            Event::Fresh(n) => format!("  fresh {n}\n"),
            Event::Poke(index, value) => format!("  word {index} set to {value}\n"),
            Event::Line(line) => format!("  line \"{}\"\n", line.escape_ascii()),
            Event::Lines(lines) => format!("  lines \"{}\"\n", lines.escape_ascii()),
        };
    }
    Err(text)
}
