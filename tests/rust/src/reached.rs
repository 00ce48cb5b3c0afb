//! How often each refusal number, and each situation that document 01 names, was reached.

use crate::layout::{COLUMN_WORDS, RECORD};
use crate::model::{Action, Record, Table};
use crate::steps::{Event, MOST};
use std::borrow::Cow;
use std::collections::BTreeMap;

/// What was reached and how often, and what stands before the names: the form of the table.
#[derive(Default)]
pub struct Reached(BTreeMap<String, u64>, &'static str);

const ON_COLUMNS: &str = "columns: ";

/// Everything that a run must have reached at least once on tables of columns.
const MUST_ON_COLUMNS: [&str; 72] = [
    "fresh 0",
    "fresh 1",
    "write 0",
    "write 1",
    "write 3",
    "write 5",
    "write 6",
    "session 0",
    "session 1",
    "session 2",
    "session 3",
    "session 4",
    "session 5",
    "session 6",
    "purge 0",
    "purge 1",
    "purge 3",
    "deliver 1",
    "deliver 3",
    "deliver 26",
    "session accepted, outcome 0",
    "session accepted, outcome 1",
    "session accepted, outcome 2",
    "session accepted, outcome 3",
    "session carried 32 or more",
    "session carried to both sides",
    "session with 64 held, bringing none",
    "session refused with 6, 63 held",
    "session at 4294967295",
    "session, the own column takes the partner's own",
    "session, a third node's column is taken",
    "session, the own column takes the partner's column for it",
    "session, a cut side would have learnt",
    "session, a column beyond n would rise",
    "session, an entry beyond n would rise",
    "write refused with 5 on a full log",
    "write at 4294967295",
    "purge of none",
    "purge of some",
    "purge of a full log to none",
    "purge of none, another node lags",
    "purge, the last node lags",
    "purge, two nodes lag, the lower above 0",
    "purge drops what is above the mark",
    "purge keeps what is not above the mark",
    "purge drops a record that an entry is just at",
    "purge drops what is above the smallest entry of all",
    "purge keeps what the own column covers",
    "purge keeps what the last column alone does not cover",
    "write into room that a purge freed",
    "demand 3 looked at",
    "count_node 0",
    "count_node 1",
    "count_node 3",
    "a column's entry read",
    "a column read that is none",
    "apply_line 0",
    "apply_line 1",
    "apply_line 3",
    "apply_line 4",
    "apply_line 5",
    "apply_line 6",
    "apply_line 15",
    "apply_line 26",
    "apply_lines 0",
    "apply_lines 1",
    "apply_lines 12",
    "apply_lines 14",
    "apply_lines 15",
    "apply_lines of none",
    "apply_lines stopped after steps",
    "apply_lines with steps refused",
];

/// Everything that a run must have reached at least once.
const MUST: [&str; 139] = [
    "fresh 0",
    "fresh 1",
    "write 0",
    "write 1",
    "write 3",
    "write 5",
    "write 6",
    "session 0",
    "session 1",
    "session 2",
    "session 3",
    "session 4",
    "session 5",
    "session 6",
    "purge 0",
    "purge 1",
    "purge 3",
    "session accepted, outcome 0",
    "session accepted, outcome 1",
    "session accepted, outcome 2",
    "session accepted, outcome 3",
    "session carried 32 or more",
    "session carried to both sides",
    "session with 64 held, bringing none",
    "session refused with 6, 63 held",
    "write refused with 5 on a full log",
    "write at 4294967295",
    "session at 4294967295",
    "purge of none",
    "purge of some",
    "purge of a full log to none",
    "purge of none, another node lags",
    "purge, the last node lags",
    "purge, two nodes lag, the lower above 0",
    "write into room that a purge freed",
    "purge leaves what is delivered and not acknowledged",
    "purge held back by the mark",
    "purge held back by the mark, node 0 does not lag",
    "demand 3 looked at",
    "a column read of a table without columns",
    "deliver 0",
    "deliver 1",
    "deliver 3",
    "deliver 7",
    "deliver of none",
    "deliver of 16 or more",
    "deliver, others are above the smallest entry",
    "deliver in another order than the log's",
    "deliver of one timestamp from two origins",
    "deliver of one timestamp and origin twice",
    "deliver into a list that is just long enough",
    "deliver into a longer list",
    "deliver refused with 7, one word short",
    "deliver, the mark at the smallest entry",
    "deliver, the mark above the smallest entry",
    "the order looked at",
    "count 0",
    "count 1",
    "count_node 0",
    "count_node 1",
    "count_node 3",
    "count, a block thrice",
    "count, one block at two origins",
    "count, page cache then platter",
    "count, platter then page cache",
    "count, not read then scrubbed",
    "count, a block read again after another",
    "count, every class",
    "count, an origin of 16 or more",
    "count, 64 different blocks",
    "count, 64 records of one block",
    "count_node, a block thrice",
    "count_node, one block at two origins",
    "count_node, page cache then platter",
    "count_node, platter then page cache",
    "count_node, not read then scrubbed",
    "count_node, a block read again after another",
    "count_node, every class",
    "count_node, 64 records",
    "line 0",
    "line 11",
    "line 12",
    "line 13",
    "line 15",
    "line 18",
    "line 19",
    "line 20",
    "frame start 0",
    "frame start 15",
    "frame start 17",
    "frame write 0",
    "frame write 17",
    "frame session 0",
    "frame session 2",
    "frame session 17",
    "frame purge 0",
    "frame purge 17",
    "frame deliver 0",
    "frame deliver 17",
    "replay done",
    "replay nothing",
    "replay nothing on columns",
    "replay 11",
    "replay 12",
    "replay 13",
    "replay 14",
    "replay 15",
    "replay 16",
    "replay 18",
    "replay 19",
    "replay 20",
    "replay of 65536 bytes",
    "replay with steps refused",
    "apply_line 0",
    "apply_line 1",
    "apply_line 3",
    "apply_line 4",
    "apply_line 5",
    "apply_line 6",
    "apply_line 11",
    "apply_line 12",
    "apply_line 13",
    "apply_line 15",
    "apply_line 18",
    "apply_line 19",
    "apply_line 20",
    "apply_lines 0",
    "apply_lines 1",
    "apply_lines 11",
    "apply_lines 12",
    "apply_lines 13",
    "apply_lines 14",
    "apply_lines 15",
    "apply_lines 18",
    "apply_lines 19",
    "apply_lines 20",
    "apply_lines of none",
    "apply_lines stopped after steps",
    "apply_lines with steps refused",
];

impl Reached {
    /// From now on it is a table of so many words that is looked at.
    pub fn on(&mut self, words: usize) {
        self.1 = if words == COLUMN_WORDS { ON_COLUMNS } else { "" };
    }

    pub fn add(&mut self, what: &str) {
        let name = if self.1.is_empty() { Cow::Borrowed(what) } else { Cow::Owned(format!("{}{what}", self.1)) };
        match self.0.get_mut(name.as_ref()) {
            Some(many) => *many += 1,
            None => {
                self.0.insert(name.into_owned(), 1);
            }
        }
    }

    /// A step with its reply and what its nodes held before.
    pub fn step(&mut self, event: Event, said: [u32; 3], held: [u32; 2]) {
        match event {
            Event::Fresh(_) => self.numbered(&["fresh 0", "fresh 1"], said[0]),
            Event::Step(Action::Write { timestamp, .. }) => {
                self.numbered(&["write 0", "write 1", "", "write 3", "", "write 5", "write 6"], said[0]);
                self.when(said[0] == 5 && held[0] == MOST, "write refused with 5 on a full log");
                self.when(said[0] == 0 && timestamp == u32::MAX, "write at 4294967295");
            }
            Event::Step(Action::Session { ca, cb, outcome, .. }) => {
                self.numbered(&["session 0", "session 1", "session 2", "session 3", "session 4", "session 5", "session 6"], said[0]);
                self.when(said[0] == 6 && (held[0] == MOST - 1 || held[1] == MOST - 1), "session refused with 6, 63 held");
                if said[0] == 0 {
                    self.numbered(&["session accepted, outcome 0", "session accepted, outcome 1", "session accepted, outcome 2", "session accepted, outcome 3"], outcome.into());
                    self.when(said[1] >= 32 || said[2] >= 32, "session carried 32 or more");
                    self.when(said[1] > 0 && said[2] > 0, "session carried to both sides");
                    self.when((held[0] == MOST && outcome & 1 == 1) || (held[1] == MOST && outcome & 2 == 2), "session with 64 held, bringing none");
                    self.when(ca == u32::MAX || cb == u32::MAX, "session at 4294967295");
                }
            }
            Event::Step(Action::Purge { .. }) => {
                self.numbered(&["purge 0", "purge 1", "", "purge 3"], said[0]);
                if said[0] == 0 {
                    self.when(said[1] == 0, "purge of none");
                    self.when(said[1] > 0 && said[1] < held[0], "purge of some");
                    self.when(said[1] == MOST, "purge of a full log to none");
                }
            }
            _ => {}
        }
    }

    /// A delivery into a list of so many words, with its reply and the table before, where that was sound.
    pub fn delivery(&mut self, before: Option<&Table>, p: usize, said: [u32; 3], words: usize) {
        self.add(&format!("deliver {}", said[0]));
        let Some(table) = before.filter(|t| p < t.n()) else { return };
        let (due, smallest, mark) = (table.due(p), table.smallest_entry(p), table.marks[p]);
        self.when(said[0] == 7 && words + 1 == RECORD * due.len(), "deliver refused with 7, one word short");
        if said[0] != 0 {
            return;
        }
        let in_log_order: Vec<Record> = table.log(p).iter().filter(|r| r.timestamp > mark && r.timestamp <= smallest).copied().collect();
        let (tie, twin) = (|w: &[Record]| w[0].timestamp == w[1].timestamp, |w: &[Record]| w[0].origin == w[1].origin);
        self.when(due.is_empty(), "deliver of none");
        self.when(due.len() >= 16, "deliver of 16 or more");
        self.when(!due.is_empty() && table.log(p).iter().any(|r| r.timestamp > smallest), "deliver, others are above the smallest entry");
        self.when(due != in_log_order, "deliver in another order than the log's");
        self.when(due.windows(2).any(|w| tie(w) && !twin(w)), "deliver of one timestamp from two origins");
        self.when(due.windows(2).any(|w| tie(w) && twin(w)), "deliver of one timestamp and origin twice");
        self.when(!due.is_empty() && words == RECORD * due.len(), "deliver into a list that is just long enough");
        self.when(words > RECORD * due.len(), "deliver into a longer list");
        self.when(mark == smallest, "deliver, the mark at the smallest entry");
        self.when(mark > smallest, "deliver, the mark above the smallest entry");
    }

    /// A count that was not refused, with the records that it was over. Records of one pair of origin and block are of one block.
    pub fn counted(&mut self, call: &str, records: &[Record]) {
        let pair = |r: &Record| (r.origin, r.block);
        let class = |r: &Record| (r.verdict >> 4).min(5);
        let scrubbed: Vec<Record> = records.iter().filter(|r| (1..=4).contains(&class(r))).copied().collect();
        let mut blocks: BTreeMap<(u32, u32), Vec<u32>> = BTreeMap::new();
        for r in &scrubbed {
            blocks.entry(pair(r)).or_default().push(class(r));
        }
        let follows = |first: &dyn Fn(u32) -> bool, then: &dyn Fn(u32) -> bool| {
            records.iter().enumerate().any(|(i, a)| first(class(a)) && records[i + 1..].iter().any(|b| pair(a) == pair(b) && then(class(b))))
        };
        let (cache, platter) = (|class| class == 1, |class| (2..=4).contains(&class));
        let apart = |i: usize| scrubbed[..i].iter().any(|r| pair(r) == pair(&scrubbed[i])) && pair(&scrubbed[i - 1]) != pair(&scrubbed[i]);
        let mut when = |it_is: bool, what: &str| self.when(it_is, &format!("{call}, {what}"));
        when(blocks.values().any(|classes| classes.len() >= 3), "a block thrice");
        when(blocks.keys().any(|&(o, b)| blocks.keys().any(|&(other, same)| same == b && other != o)), "one block at two origins");
        when(follows(&cache, &platter), "page cache then platter");
        when(follows(&platter, &cache), "platter then page cache");
        when(follows(&|class| class == 0, &|class| (1..=4).contains(&class)), "not read then scrubbed");
        when((1..scrubbed.len()).any(apart), "a block read again after another");
        when((0..=5).all(|c| records.iter().any(|r| class(r) == c)), "every class");
        when(scrubbed.iter().any(|r| r.origin >= 16), "an origin of 16 or more");
        when(blocks.len() == 64, "64 different blocks");
        when(scrubbed.len() == 64 && blocks.len() == 1, "64 records of one block");
        when(records.len() == 64, "64 records");
    }

    pub fn when(&mut self, it_is: bool, what: &str) {
        if it_is {
            self.add(what);
        }
    }

    fn numbered(&mut self, names: &[&str], number: u32) {
        self.add(names[number as usize]);
    }

    /// Prints the table of what was reached; the answer is what never was.
    pub fn report(&self) -> Vec<String> {
        for (what, many) in &self.0 {
            println!("  {many:>12}  {what}");
        }
        let must = MUST.into_iter().map(String::from).chain(MUST_ON_COLUMNS.into_iter().map(|what| format!("{ON_COLUMNS}{what}")));
        must.filter(|what| !self.0.contains_key(what)).collect()
    }
}
