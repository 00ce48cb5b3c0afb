//! The section "Both sides of each edge" of document 01, its sample journal and what document 02 adds, with the
//! numbers written out: the library and the model must both say them.

use crate::account::Account;
use crate::layout::{COLUMN_WORDS, NODES, WORDS};
use crate::library::{Calls, Library, TEXT};
use crate::lines::{COUNT_ANSWERS, LINE_ANSWERS};
use crate::model::{count, fresh, read, replay, Action, Record, Table};
use crate::steps::lent;

fn write(node: u8, timestamp: u32) -> Action {
    Action::Write { node, timestamp, block: 7, verdict: 0x20 }
}

fn session(a: u8, b: u8, ca: u32, cb: u32, outcome: u8) -> Action {
    Action::Session { a, b, ca, cb, outcome }
}

/// A table of 2 on which node 0 holds `many` records, at timestamps 1 and up.
fn holding(many: u32) -> Table {
    let mut table = fresh(WORDS, 2).unwrap();
    for timestamp in 1..=many {
        assert_eq!(table.apply(write(0, timestamp)).refusal, 0);
    }
    table
}

/// Steps on a table, each with the refusal and the two counts that it must report.
fn steps(library: &mut Library, name: &str, mut table: Table, list: &[(Action, [u32; 3])]) -> Result<(), String> {
    let mut words = Vec::new();
    table.to_words(&mut words);
    let mut calls = Calls::default();
    calls.table(&words);
    list.iter().for_each(|(action, _)| calls.step(*action));
    let mut answers = library.run(&calls).ok_or("the library was killed")?;
    for (action, should) in list {
        let reply = table.apply(*action);
        let (is, after) = (answers.words(3), answers.words(words.len()));
        table.to_words(&mut words);
        let counts: &[u32] = match action {
            Action::Write { .. } => &[],
            Action::Session { .. } => &[reply.to_a, reply.to_b],
            Action::Purge { .. } => &[reply.removed, reply.lags],
            Action::Deliver { .. } => unreachable!("deliveries are told with their lists"),
        };
        let right = reply.refusal == should[0] && counts == &should[1..=counts.len()] && is[0] == should[0] && is[1..=counts.len()] == *counts && after == words;
        if !right {
            return Err(format!("{name}: {action:?} should say {should:?}; the library says {is:?}, the model {reply:?}"));
        }
    }
    Ok(())
}

fn all_steps(library: &mut Library) -> Result<(), String> {
    let two = || fresh(WORDS, 2).unwrap();
    let mut acknowledged = holding(6);
    acknowledged.acknowledgements[0] = vec![5; NODES];
    let mut early = acknowledged.clone();
    (acknowledged.marks[0], early.marks[0], early.acknowledgements[0][0]) = (6, 3, 6);
    steps(library, "write at 0, 1, 1", two(), &[(write(0, 0), [5, 0, 0]), (write(0, 1), [0, 0, 0]), (write(0, 1), [5, 0, 0])])?;
    steps(library, "0 with 0", two(), &[(session(0, 0, 0, 0, 3), [4, 0, 0]), (write(0, 9), [0, 0, 0]), (session(0, 0, 1, 99, 3), [4, 0, 0])])?;
    steps(library, "node 2, outcome 4", two(), &[(write(2, 1), [3, 0, 0]), (session(0, 2, 1, 1, 3), [3, 0, 0]), (session(2, 2, 1, 1, 4), [2, 0, 0])])?;
    steps(library, "equal readings", two(), &[(write(0, 1), [0, 0, 0]), (session(0, 1, 0, 0, 3), [5, 0, 0]), (session(0, 1, 1, 0, 3), [0, 0, 1])])?;
    steps(library, "outcome 0", holding(2), &[(session(0, 1, 5, 6, 0), [0, 0, 0])])?;
    steps(library, "smallest acknowledgement 5", acknowledged, &[(Action::Purge { node: 0 }, [0, 5, 0]), (Action::Purge { node: 1 }, [0, 0, 0])])?;
    // the mark keeps the records at 4 and 5, and node 1, the lowest with the smallest acknowledgement, is told
    steps(library, "the same, delivered up to 3", early, &[(Action::Purge { node: 0 }, [0, 3, 1]), (Action::Purge { node: 0 }, [0, 0, 1])])?;
    // who lags: all equal, the last, two, one of 16; an entry beyond n takes no part; a refused purge tells node 0
    for (n, row, lags) in [
        (3, vec![5, 5, 5], 0),
        (3, vec![5, 5, 4], 2),
        (3, vec![5, 4, 4], 1),
        (3, vec![4, 5, 4], 0),
        (2, vec![5, 4, 3], 1),
        (16, vec![9; 16], 0),
        (16, [vec![9; 15], vec![8]].concat(), 15),
        (16, [vec![9; 7], vec![3, 9, 9, 3], vec![9; 5]].concat(), 7),
    ] {
        let mut table = fresh(WORDS, n).unwrap();
        table.acknowledgements[0][..row.len()].copy_from_slice(&row);
        steps(library, "who lags", table, &[(Action::Purge { node: 0 }, [0, 0, lags]), (Action::Purge { node: n as u8 }, [3, 0, 0])])?;
    }
    steps(library, "64 held", holding(64), &[(write(0, 65), [6, 0, 0]), (write(0, 64), [5, 0, 0]), (session(0, 1, 65, 1, 1), [0, 0, 0])])?;
    let mut full = holding(63);
    full.apply(write(1, 1));
    full.apply(write(1, 2));
    steps(library, "63 held and 2 coming", full, &[(session(0, 1, 63, 2, 1), [6, 0, 0]), (session(0, 1, 63, 2, 0), [0, 0, 0])])?;
    let largest = [(write(0, u32::MAX), [0, 0, 0]), (write(0, u32::MAX), [5, 0, 0]), (session(0, 1, u32::MAX, 3, 3), [0, 0, 1]), (session(0, 1, u32::MAX, 3, 3), [0, 0, 0])];
    steps(library, "the largest timestamp", two(), &largest)
}

/// A table of n with columns, node 0 having these for the first nodes.
fn columned(n: u32, columns: &[&[u32]]) -> Table {
    let mut table = fresh(COLUMN_WORDS, n).unwrap();
    for (q, column) in columns.iter().enumerate() {
        table.columns[0][q][..column.len()].copy_from_slice(column);
    }
    table
}

/// The same, node 0 holding records of these origins and timestamps, at a mark of 0.
fn knowing(n: u32, columns: &[&[u32]], records: &[(u32, u32)]) -> Table {
    let mut table = columned(n, columns);
    for (i, &(origin, timestamp)) in records.iter().enumerate() {
        table.logs[0][i] = Record { origin, timestamp, block: i as u32, verdict: 0x20 };
    }
    table.held[0] = records.len() as u32;
    table
}

/// T-06, both sides of each edge of it: what leaves, who lags, and each refusal as for vectors.
fn all_columns(library: &mut Library) -> Result<(), String> {
    let (two, purge) = (|| fresh(COLUMN_WORDS, 2).unwrap(), Action::Purge { node: 0 });
    steps(library, "columns: write at 0, 1, 1", two(), &[(write(0, 0), [5, 0, 0]), (write(0, 1), [0, 0, 0]), (write(0, 1), [5, 0, 0])])?;
    steps(library, "columns: 0 with 0", two(), &[(write(0, 9), [0, 0, 0]), (session(0, 0, 1, 99, 3), [4, 0, 0])])?;
    steps(library, "columns: node 2, outcome 4", two(), &[(write(2, 1), [3, 0, 0]), (session(0, 2, 1, 1, 3), [3, 0, 0]), (session(2, 2, 1, 1, 4), [2, 0, 0])])?;
    steps(library, "columns: equal readings", two(), &[(write(0, 1), [0, 0, 0]), (session(0, 1, 0, 0, 3), [5, 0, 0]), (session(0, 1, 1, 0, 3), [0, 0, 1])])?;
    // "every column's entry for its origin is at least its timestamp": at it, one below it in the own or in the other, and those for another origin play no part
    for (own, other, removed, lags) in
        [([5, 5], [5, 5], 1, 0), ([5, 5], [4, 5], 0, 1), ([4, 5], [5, 5], 0, 0), ([5, 0], [5, 0], 1, 0), ([9, 9], [5, 9], 1, 1), ([6, 1], [6, 0], 1, 1)]
    {
        steps(library, "columns: a record at 5", knowing(2, &[&own, &other], &[(0, 5)]), &[(purge, [0, removed, lags])])?;
    }
    // nothing is delivered first, and a column or an entry beyond n plays no part
    steps(library, "columns: two origins", knowing(2, &[&[5, 7, 0], &[6, 6, 0], &[0, 0]], &[(0, 5), (1, 7), (0, 6), (1, 6)]), &[(purge, [0, 2, 0]), (purge, [0, 0, 0])])?;
    for (columns, lags) in [
        ([[5, 5, 5], [5, 5, 5], [5, 5, 5]], 0),
        ([[5, 5, 5], [5, 5, 4], [4, 5, 5]], 1),
        ([[5, 5, 5], [5, 5, 5], [5, 4, 5]], 2),
        ([[4, 5, 5], [5, 5, 4], [5, 4, 5]], 0),
        ([[5, 3, 5], [2, 9, 9], [9, 9, 2]], 1),
    ] {
        let rows: Vec<&[u32]> = columns.iter().map(|c| &c[..]).collect();
        steps(library, "columns: who lags", columned(3, &rows), &[(purge, [0, 0, lags]), (Action::Purge { node: 3 }, [3, 0, 0])])?;
    }
    let mut full = fresh(COLUMN_WORDS, 2).unwrap();
    (1..=64).for_each(|timestamp| assert_eq!(full.apply(write(0, timestamp)).refusal, 0));
    steps(library, "columns: 64 held", full.clone(), &[(write(0, 65), [6, 0, 0]), (write(0, 64), [5, 0, 0]), (session(0, 1, 65, 1, 1), [0, 0, 0])])?;
    let mut room = full.clone();
    (room.held[0], room.logs[0][63]) = (63, Record::default());
    (room.apply(write(1, 1)), room.apply(write(1, 2)));
    steps(library, "columns: 63 held and 2 coming", room, &[(session(0, 1, 64, 2, 1), [6, 0, 0]), (session(0, 1, 64, 2, 0), [0, 0, 0])])?;
    // two sessions let both know of each other, and all leaves at both without a delivery
    let both = [
        (session(0, 1, 64, 1, 3), [0, 0, 64]),
        (purge, [0, 0, 1]),
        (session(1, 0, 2, 65, 3), [0, 0, 0]),
        (purge, [0, 64, 0]),
        (Action::Purge { node: 1 }, [0, 64, 0]),
        (write(0, 66), [0, 0, 0]),
    ];
    steps(library, "columns: all leaves after two sessions", full, &both)
}

/// A session's words, written out: node 0 and node 1 of three meet at 9 and 8, with each outcome. What stands beyond n stays.
fn all_learnt(library: &mut Library) -> Result<(), String> {
    let start = [[[7, 2, 3], [4, 1, 9], [1, 6, 2]], [[8, 1, 3], [3, 5, 6], [2, 5, 5]]];
    let opened = [[[9, 2, 3], [4, 1, 9], [1, 6, 2]], [[8, 1, 3], [3, 8, 6], [2, 5, 5]]];
    // of each column the greater; then node 0's own, [9, 2, 3], and node 1's own, [4, 8, 9], take the partner's own starting column
    let finished = [[[9, 8, 6], [4, 8, 9], [2, 6, 5]], [[9, 2, 3], [9, 8, 9], [2, 6, 5]]];
    for outcome in 0..4u8 {
        let mut table = fresh(COLUMN_WORDS, 3).unwrap();
        let mut beyond = 0;
        for column in table.columns.iter_mut().flatten() {
            column.iter_mut().for_each(|entry| {
                beyond += 1;
                *entry = beyond;
            });
        }
        let put = |table: &mut Table, p: usize, columns: &[[u32; 3]; 3]| (0..3).for_each(|q| table.columns[p][q][..3].copy_from_slice(&columns[q]));
        put(&mut table, 0, &start[0]);
        put(&mut table, 1, &start[1]);
        let mut after = table.clone();
        put(&mut after, 0, if outcome & 1 == 1 { &finished[0] } else { &opened[0] });
        put(&mut after, 1, if outcome & 2 == 2 { &finished[1] } else { &opened[1] });
        let (mut words, mut should) = (Vec::new(), Vec::new());
        table.to_words(&mut words);
        after.to_words(&mut should);
        let action = session(0, 1, 9, 8, outcome);
        let mut calls = Calls::default();
        calls.table(&words);
        calls.step(action);
        let mut answers = library.run(&calls).ok_or("the library was killed")?;
        let (is, left) = (answers.words(3), answers.words(COLUMN_WORDS));
        let reply = table.apply(action).refusal;
        if reply != 0 || is != [0, 0, 0] || table != after || left != should {
            return Err(format!(
                "columns: a session with outcome {outcome} leaves other words; the library says {is:?}, the model {reply}, and is {}",
                if table == after { "right" } else { "wrong" }
            ));
        }
    }
    Ok(())
}

/// A table of 3 with node 0 at a mark of 4 and summary entries 9, 7, 8: of its records those at 5, 7, 7 and 7 are due.
fn waiting() -> Table {
    let mut table = fresh(WORDS, 3).unwrap();
    table.summaries[0][..3].copy_from_slice(&[9, 7, 8]);
    table.marks[0] = 4;
    for (i, (origin, timestamp)) in [(2, 7), (1, 8), (1, 7), (0, 4), (2, 5), (1, 7)].into_iter().enumerate() {
        table.logs[0][i] = Record { origin, timestamp, block: i as u32, verdict: 0x20 };
    }
    table.held[0] = 6;
    table
}

/// Deliveries of one table: its name, the node, the words lent, what it says, the blocks of the list in order, and the mark after.
type Delivery = (&'static str, u8, u32, [u32; 2], &'static [u32], u32);
const DELIVERIES: [Delivery; 7] = [
    ("by timestamp, then origin, then the log", 0, 16, [0, 4], &[4, 2, 5, 0], 7),
    ("a longer list", 0, 259, [0, 4], &[4, 2, 5, 0], 7),
    ("one word short", 0, 15, [7, 0], &[], 4),
    ("no list", 0, 0, [7, 0], &[], 4),
    ("none due", 1, 0, [0, 0], &[], 0),
    ("node 3", 3, 0, [3, 0], &[], 4),
    ("node 3, a long list", 3, 256, [3, 0], &[], 4),
];

fn all_deliveries(library: &mut Library) -> Result<(), String> {
    for (name, node, many, should, blocks, mark) in DELIVERIES {
        let (mut table, mut words, mut list) = (waiting(), Vec::new(), lent(many));
        table.to_words(&mut words);
        let mut calls = Calls::default();
        calls.table(&words);
        calls.deliver(node, &list);
        let mut answers = library.run(&calls).ok_or("the library was killed")?;
        let reply = table.deliver(node, &mut list).map_or_else(|refusal| [refusal, 0], |reply| [0, reply.delivered]);
        let listed: Vec<u32> = list.chunks(4).take(blocks.len()).map(|r| r[2]).collect();
        table.to_words(&mut words);
        let (is, its_list, after) = (answers.words(3), answers.words(many as usize), answers.words(WORDS));
        if reply != should || listed != blocks || table.marks[usize::from(node) % 3] != mark || is[..2] != should || its_list != list || after != words {
            return Err(format!("a delivery, {name}: it should say {should:?} and {blocks:?}; the library says {is:?}, the model {reply:?} and {listed:?}"));
        }
        let again = table.deliver(node, &mut []).map_or_else(|refusal| refusal, |reply| reply.delivered);
        if should[0] == 0 && again != 0 {
            return Err(format!("a delivery, {name}: once more, and there is something due"));
        }
    }
    // "a delivery on a column table gives 26, after 3", whatever the list; an unsound one 1
    for (node, many, count, should) in [(0, 0, 2, 26), (1, 256, 2, 26), (2, 256, 2, 3), (2, 0, 2, 3), (255, 0, 2, 3), (0, 256, 17, 1), (255, 0, 17, 1)] {
        let (mut table, mut words, mut list) = (knowing(2, &[&[9, 9]], &[(0, 5)]), Vec::new(), lent(many));
        table.count = count;
        table.to_words(&mut words);
        let mut calls = Calls::default();
        calls.table(&words);
        calls.deliver(node, &list);
        let mut answers = library.run(&calls).ok_or("the library was killed")?;
        let reply = table.deliver(node, &mut list).map_or_else(|refusal| refusal, |_| 0);
        let (is, its_list, after) = (answers.words(3), answers.words(many as usize), answers.words(COLUMN_WORDS));
        if reply != should || is[..2] != [should, 0] || its_list != lent(many) || after != words {
            return Err(format!("a delivery of node {node} on columns should say {should}; the library says {is:?}, the model {reply}"));
        }
    }
    Ok(())
}

/// Lines with their refusal and its place, both sides of each edge.
const LINES: [(&[u8], u32, u32); 44] = [
    (b"0002FE", 0, 0),
    (b"0010F0", 0, 0),
    (b"0100000000050000001010DA", 0, 0),
    (b"020001000000060000000403F0", 0, 0),
    (b"0300FD", 0, 0),
    (b"0500FB", 0, 0),
    (b"05FFFC", 0, 0),
    // 12: a character that is no digit, at the first, a middle and the last place; before every other fault
    (b"0002fe", 12, 4),
    (b"0002FE ", 12, 6),
    (b"f002FE", 12, 0),
    (b"01000000000500f0001010DA", 12, 14),
    (b"0100000000050000001010Da", 12, 23),
    (b"x", 12, 0),
    (b"00020", 18, 5),
    (b"0002G", 12, 4),
    // 18: none, or odd in number
    (b"", 18, 0),
    (b"0", 18, 1),
    (b"000", 18, 3),
    (b"040", 18, 3),
    // 11: an unknown kind, whatever its length and sum
    (b"04", 11, 0),
    (b"0400FC", 11, 0),
    (b"0400FF", 11, 0),
    (b"FF0001", 11, 0),
    (b"06", 11, 0),
    (b"0600FA", 11, 0),
    // 19: a purge of 4 and 8 digits, a write of 22, 26 and 28, a session of 24, a kind alone
    (b"03", 19, 2),
    (b"0300", 19, 4),
    (b"0300FD00", 19, 6),
    (b"01000000000500000010FA", 19, 22),
    (b"0100000000050000001010DA00", 19, 24),
    (b"0100000000050000001010DA0000", 19, 24),
    (b"0200010000000600000004F0", 19, 24),
    (b"05", 19, 2),
    (b"0500", 19, 4),
    (b"0500FB00", 19, 6),
    // 20: an outcome of 3, 4 and 255, before the sum
    (b"020001000000060000000404EF", 20, 22),
    (b"020001000000060000000404F0", 20, 22),
    (b"0200010000000600000004FFF4", 20, 22),
    // 13: a wrong sum, before a start's n
    (b"0002FF", 13, 4),
    (b"0100000000050000001010DB", 13, 22),
    (b"020001000000060000000403F1", 13, 24),
    (b"0500FC", 13, 4),
    // 15: a start's n is not 2 to 16
    (b"0001FF", 15, 0),
    (b"0011EF", 15, 0),
];

fn all_lines(library: &mut Library) -> Result<(), String> {
    let mut calls = Calls::default();
    LINES.iter().for_each(|(line, ..)| calls.line(line));
    let mut answers = library.run(&calls).ok_or("the library was killed")?;
    for (line, number, place) in LINES {
        let is = &answers.words(LINE_ANSWERS)[..2];
        let model = read(line).err().map_or([0, 0], |fault| [fault.number, fault.place as u32]);
        if is != [number, place] || model != [number, place] {
            return Err(format!("line \"{}\" should say {number} at {place}, the library says {is:?}, the model {model:?}", line.escape_ascii()));
        }
    }
    Ok(())
}

/// Records, each an origin, a block and a verdict, with what they count: scrubbed, touched and the gap.
type Counted = (&'static str, &'static [[u32; 3]], [u32; 3]);
const VERDICTS: [Counted; 18] = [
    ("verdict 0F", &[[0, 2, 0x0F]], [0, 0, 0]),
    ("verdict 10", &[[0, 2, 0x10]], [1, 0, 1]),
    ("verdict 1F", &[[0, 2, 0x1F]], [1, 0, 1]),
    ("verdict 20", &[[0, 2, 0x20]], [1, 1, 0]),
    ("verdict 4F", &[[0, 2, 0x4F]], [1, 1, 0]),
    ("verdict 50", &[[0, 2, 0x50]], [0, 0, 0]),
    ("no record", &[], [0, 0, 0]),
    ("one block thrice", &[[0, 2, 0x20], [0, 2, 0x20], [0, 2, 0x20]], [1, 1, 0]),
    ("one block thrice, from page cache", &[[0, 2, 0x10], [0, 2, 0x11], [0, 2, 0x1F]], [1, 0, 1]),
    ("one block at two origins", &[[0, 2, 0x20], [1, 2, 0x20]], [2, 2, 0]),
    ("two blocks of one origin", &[[0, 2, 0x20], [0, 3, 0x20]], [2, 2, 0]),
    ("cache, then platter", &[[0, 2, 0x10], [0, 2, 0x20]], [1, 1, 0]),
    ("platter, then cache", &[[0, 2, 0x20], [0, 2, 0x10]], [1, 1, 0]),
    ("cache, then the platter of another origin", &[[0, 2, 0x10], [1, 2, 0x20]], [2, 1, 1]),
    ("not read, then platter", &[[0, 2, 0x00], [0, 2, 0x30]], [1, 1, 0]),
    ("platter, then reserved", &[[0, 2, 0x30], [0, 2, 0x50]], [1, 1, 0]),
    ("another block between", &[[0, 2, 0x20], [0, 3, 0x10], [0, 2, 0x20]], [2, 1, 1]),
    ("origins that are no nodes", &[[16, 2, 0x20], [0, 2, 0x20], [u32::MAX, 2, 0x10]], [3, 2, 1]),
];

fn all_verdicts(library: &mut Library) -> Result<(), String> {
    for (name, records, should) in VERDICTS {
        let list: Vec<u32> = records.iter().zip(1..).flat_map(|(&[origin, block, verdict], timestamp)| [origin, timestamp, block, verdict]).collect();
        let mut calls = Calls::default();
        calls.count(&list);
        let mut answers = library.run(&calls).ok_or("the library was killed")?;
        let is = answers.words(COUNT_ANSWERS);
        if is[..4] != [0, should[0], should[1], should[2]] || count(&list) != Ok(should) {
            return Err(format!("the count, {name}: it should say {should:?}; the library says {is:?}, the model {:?}", count(&list)));
        }
    }
    Ok(())
}

const SAMPLE: &[u8] = b"0002FE\n0100000000050000001010DA\n020001000000060000000403F0\n020001000000070000000701EE\n0300FD\n020001000000080000000803EA\n0300FD\n";
const PRINTED: &str = "N 2 STEPS 6 REFUSED 0\n0 S 8 8 K 7 6 L 1\n1 S 8 8 K 7 6 L 1\n";

/// The same with a delivery before its last line.
const DELIVERED: &[u8] = b"0002FE\n0100000000050000001010DA\n020001000000060000000403F0\n020001000000070000000701EE\n0300FD\n020001000000080000000803EA\n0500FB\n0300FD\n";
const PRINTED_DELIVERED: &str = "N 2 STEPS 7 REFUSED 0\n0 S 8 8 K 7 6 L 0\n1 S 8 8 K 7 6 L 1\n";

/// Small journals for the program itself.
pub const JOURNALS: [&[u8]; 6] = [SAMPLE, DELIVERED, b"", b"\n", b"0002FE\n", b"0002FE"];

fn all_journals(library: &mut Library) -> Result<(), String> {
    let long = vec![b'0'; 65_537];
    for (journal, printed) in [
        (SAMPLE, PRINTED),
        (DELIVERED, PRINTED_DELIVERED),
        (b"", "BAD 1 15 0\n"),
        (b"0002FE\n\n0300FD", "BAD 2 18 0\n"),
        (b"0002FE\n0300FD\n0300", "BAD 3 14 4\n"),
        (b"0300FD\n", "BAD 1 15 0\n"),
        (&long, "BAD 0 16\n"),
        (&long[1..], "BAD 1 14 65536\n"),
    ] {
        let mut calls = Calls::default();
        calls.replay(journal, WORDS as u32, TEXT);
        let mut answers = library.run(&calls).ok_or("the library was killed")?;
        let length = answers.word() as usize;
        let text = answers.bytes(TEXT as usize);
        if text.get(..length) != Some(printed.as_bytes()) || replay(journal).0 != printed {
            return Err(format!("a replay should print {printed}, the library wrote {length} bytes: {}", text[..length.min(200)].escape_ascii()));
        }
    }
    Ok(())
}

fn all_counts(library: &mut Library) -> Result<(), String> {
    let mut cases = vec![(2, 0, 1), (2, 1, 1), (2, 4625, 1)];
    for length in [WORDS, COLUMN_WORDS] {
        cases.extend([(1, length, 1), (2, length, 0), (16, length, 0), (17, length, 1), (2, length - 1, 1), (2, length + 1, 1)]);
    }
    for (n, length, should) in cases {
        let mut calls = Calls::default();
        calls.table(&vec![9; length]);
        calls.fresh(n);
        let mut answers = library.run(&calls).ok_or("the library was killed")?;
        let (is, words) = (answers.words(3)[0], answers.words(length));
        let zeros = |from: usize| words[from..].iter().all(|&word| word == 0);
        let right = if should == 0 { words[0] == n && zeros(1) } else { words.iter().all(|&word| word == 9) };
        if is != should || !right || fresh(length, n).map_or(1, |_| 0) != should {
            return Err(format!("a fresh table of {n} in {length} words: the library says {is}"));
        }
    }
    Ok(())
}

/// The account of demand 3 must be able to fail: a record that is dropped too early, a summary that
/// covers what did not arrive, and a log out of order are each told.
fn account_tells() -> Result<(), String> {
    let (mut table, mut account) = (fresh(WORDS, 3).unwrap(), Account::fresh(3));
    for action in [write(0, 1), write(0, 2), session(0, 1, 2, 1, 3), session(0, 1, 3, 2, 3)] {
        assert_eq!(table.apply(action).refusal, 0);
        account.accepted(action);
    }
    let (mut dropped, mut covered, mut turned) = (table.clone(), table.clone(), table.clone());
    dropped.held[1] = 1;
    covered.summaries[2][0] = 1;
    turned.logs[1].swap(0, 1);
    let right = (0..3).all(|p| account.fault(&table, p).is_none());
    let told = [(&dropped, 1), (&covered, 2), (&turned, 1)].into_iter().all(|(table, p)| account.fault(table, p).is_some());
    if right && told {
        Ok(())
    } else {
        Err("the account of demand 3 does not tell right from wrong".into())
    }
}

/// The order's account must be able to fail too: lists of which neither begins the other, a list that lacks a record up to its
/// mark, a mark that was not raised, and a record purged before it was delivered are each told.
fn order_tells() -> Result<(), String> {
    let (mut table, mut account) = (fresh(WORDS, 2).unwrap(), Account::fresh(2));
    for action in [write(0, 1), write(1, 1), session(0, 1, 2, 2, 3)] {
        assert_eq!(table.apply(action).refusal, 0);
        account.accepted(action);
    }
    let (due, undelivered) = (table.due(0), table.clone());
    let mut purged = table.clone();
    purged.held[1] = 1;
    let purge_told = account.out_of_order(&purged, 1).is_some() && account.out_of_order(&undelivered, 1).is_none();
    let told = |first: &[Record], second: &[Record], marks: [u32; 2]| {
        let (mut account, mut table) = (account.clone(), undelivered.clone());
        account.delivered(0, first);
        account.delivered(1, second);
        table.marks[..2].copy_from_slice(&marks);
        (0..2).any(|p| account.out_of_order(&table, p).is_some())
    };
    let turned = [due[1], due[0]];
    let right = !told(&due, &due, [2, 2]) && !told(&due, &[], [2, 0]);
    let wrong = told(&due, &turned, [2, 2]) && told(&turned, &turned, [2, 2]) && told(&due, &due[..1], [2, 2]) && told(&due, &due, [2, 0]);
    if due.len() == 2 && purge_told && right && wrong {
        Ok(())
    } else {
        Err("the account of the order does not tell right from wrong".into())
    }
}

pub fn all(library: &mut Library) -> Result<(), String> {
    account_tells()?;
    order_tells()?;
    all_counts(library)?;
    all_steps(library)?;
    all_columns(library)?;
    all_learnt(library)?;
    all_deliveries(library)?;
    all_lines(library)?;
    all_verdicts(library)?;
    all_journals(library)
}
