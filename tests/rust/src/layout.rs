//! The numbers of documents 01 and 02 that say how large a thing is and where it stands in a table: the one
//! file of the Rust programs that knows them.
#![allow(dead_code)]

use std::ops::RangeInclusive;

/// The nodes that a table has room for, and the counts that it may have.
pub const NODES: usize = 16;
pub const COUNTS: RangeInclusive<u32> = 2..=NODES as u32;

/// The records that a log has room for, and the words of each.
pub const ROOM: usize = 64;
pub const RECORD: usize = 4;

/// The parts of a table in their order, each where the one before it ends.
pub const COUNT: usize = 0;
pub const SUMMARIES: usize = COUNT + 1;
pub const ACKNOWLEDGEMENTS: usize = SUMMARIES + NODES * NODES;
pub const HELD: usize = ACKNOWLEDGEMENTS + NODES * NODES;
pub const LOGS: usize = HELD + NODES;
pub const MARKS: usize = LOGS + NODES * ROOM * RECORD;
pub const WORDS: usize = MARKS + NODES;

/// A table of columns has 16 × 16 rows of 16 in place of both vectors; what stands behind them stands so much further.
pub const COLUMNS: usize = COUNT + 1;
pub const FURTHER: usize = NODES * NODES * NODES - 2 * NODES * NODES;
pub const COLUMN_WORDS: usize = WORDS + FURTHER;

/// The words of a list that every delivery fits in.
pub const LIST: usize = ROOM * RECORD;

/// The bytes that a journal may have at most, and those that a replay's text has room in.
pub const JOURNAL: usize = 65_536;
pub const TEXT: usize = 12_288;

const _: () = assert!(MARKS == 4_625 && WORDS == 4_641 && COLUMN_WORDS == 8_225 && COLUMNS + NODES * NODES * NODES == HELD + FURTHER);

/// The word of a record in a log, in a table of vectors.
pub fn record_at(p: usize, row: usize, word: usize) -> usize {
    LOGS + RECORD * (ROOM * p + row) + word
}

/// The word of an entry of a column.
pub fn column_at(p: usize, q: usize, o: usize) -> usize {
    COLUMNS + NODES * (NODES * p + q) + o
}

/// The place of a word, of a table of so many, in the documents' terms.
pub fn place(words: usize, at: usize) -> String {
    if words == COLUMN_WORDS && (COLUMNS..HELD + FURTHER).contains(&at) {
        let entry = at - COLUMNS;
        return format!("column of node {} for node {}, entry {}", entry / (NODES * NODES), entry / NODES % NODES, entry % NODES);
    }
    let at = if words == COLUMN_WORDS && at > 0 { at - FURTHER } else { at };
    let in_rows = |from: usize| ((at - from) / NODES, (at - from) % NODES);
    if at < SUMMARIES {
        return "the count".into();
    }
    if at < ACKNOWLEDGEMENTS {
        let (p, o) = in_rows(SUMMARIES);
        return format!("summary of node {p}, entry {o}");
    }
    if at < HELD {
        let (p, q) = in_rows(ACKNOWLEDGEMENTS);
        return format!("acknowledgements of node {p}, entry {q}");
    }
    if at < LOGS {
        return format!("held number of node {}", at - HELD);
    }
    if at >= MARKS {
        return format!("mark of node {}", at - MARKS);
    }
    let row = (at - LOGS) / RECORD;
    format!("log of node {}, row {}, word {}", row / ROOM, row % ROOM, (at - LOGS) % RECORD)
}
