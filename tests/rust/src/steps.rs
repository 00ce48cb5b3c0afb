//! Random clusters in many styles and in both forms, run step by step on the model and on the library, compared word
//! by word, with the account of demand 3 and the delivered lists beside them.

use crate::account::Account;
use crate::layout::{column_at, place, record_at, ACKNOWLEDGEMENTS, COLUMN_WORDS, COUNTS, FURTHER, HELD, LIST, LOGS, MARKS, NODES, RECORD, ROOM, SUMMARIES, WORDS};
use crate::library::{Calls, Library, BATCH};
use crate::lines::COUNT_ANSWERS;
use crate::model::{count, fresh, Action, Record, Table};
use crate::random::Random;
use crate::reached::Reached;
use crate::shrink::shortest;

/// What may happen to a table: the calls of the C interface, a delivery into a list of so many words among them, and damage.
#[derive(Clone, Copy, PartialEq, Debug)]
pub enum Event {
    Fresh(u32),
    Step(Action),
    Deliver { node: u8, words: u32 },
    Poke(u32, u32),
    CountNode(u8),
    Look { node: u8, column: u8, origin: u8, index: u32, word: u32 },
}

/// A table's first words and what then happens to it.
#[derive(Clone)]
pub struct Scenario {
    pub words: Vec<u32>,
    pub events: Vec<Event>,
}

#[derive(Clone, Copy, PartialEq, Debug)]
pub enum Style {
    Gossip,
    Full,
    Lagging,
    Largest,
    Wild,
    Edges,
    Cut,
    Drain,
    Damaged,
    Arbitrary,
    WrongLength,
}

const STYLES: [Style; 11] =
    [Style::Gossip, Style::Full, Style::Lagging, Style::Largest, Style::Wild, Style::Edges, Style::Cut, Style::Drain, Style::Damaged, Style::Arbitrary, Style::WrongLength];

/// Makes the scenario of a seed, of vectors or of columns. Its events aim at the model's own table, which runs along.
pub fn make(seed: u64) -> Scenario {
    let mut rng = Random::new(seed);
    let length = if rng.percent(45) { COLUMN_WORDS } else { WORDS };
    make_of(rng, length)
}

/// A scenario on a table of so many words; the style that has a wrong length goes by itself.
fn make_of(mut rng: Random, length: usize) -> Scenario {
    let style = match rng.below(40) {
        0 | 1 => Style::WrongLength,
        2 | 3 => Style::Wild,
        4..=6 => Style::Damaged,
        _ => rng.among(&STYLES[..10]),
    };
    let n = 2 + rng.below(15);
    let n = if rng.percent(40) || style == Style::Drain { n.min(4) } else { n };
    let words = first_words(&mut rng, style, length, n);
    let mut table = Table::from_words(&words);
    let mut maker = Maker { clocks: (0..NODES).map(|_| rng.below(40)).collect(), mended: None, turn: 0, style, rng };
    let mut events = Vec::new();
    if !matches!(style, Style::Arbitrary | Style::WrongLength) {
        events.push(Event::Fresh(n));
    }
    let many = match style {
        Style::Full => 200 + maker.rng.below(300),
        Style::WrongLength => 8,
        _ => 20 + maker.rng.below(240),
    };
    for _ in 0..many {
        if let (Some(table), Some(&last)) = (&mut table, events.last()) {
            let _ = apply(table, last);
        }
        let event = match &table {
            Some(table) => maker.event(table),
            None => maker.event(&fresh(length, n).unwrap()),
        };
        events.push(event);
    }
    Scenario { words, events }
}

/// The lengths that no table has, near those that one has and others.
pub const WRONG_LENGTHS: [usize; 11] = [0, 1, LOGS, MARKS, WORDS - 1, WORDS + 1, LOGS + FURTHER, MARKS + FURTHER, COLUMN_WORDS - 1, COLUMN_WORDS + 1, WORDS + COLUMN_WORDS - 4096];

/// How much further than in a table of vectors stands what stands behind the rows.
fn further(words: usize) -> usize {
    if words == COLUMN_WORDS {
        FURTHER
    } else {
        0
    }
}

/// The words that a scenario starts from: rubbish for a fresh table to be made in, an arbitrary
/// sound table, or a wrong length.
fn first_words(rng: &mut Random, style: Style, length: usize, n: u32) -> Vec<u32> {
    let length = if style == Style::WrongLength { rng.among(&WRONG_LENGTHS) } else { length };
    // of a wrong length most are such that nothing but the length is wrong
    let small = rng.percent(if style == Style::WrongLength { 90 } else { 50 });
    let bound = if style == Style::WrongLength { 2 } else { 12 };
    let mut words: Vec<u32> = (0..length).map(|_| if small { rng.below(bound) } else { rng.word() }).collect();
    if length > 0 && style != Style::Arbitrary {
        words[0] = n;
    }
    if style == Style::Arbitrary {
        words[0] = n;
        let behind = further(length);
        for p in 0..NODES {
            let (held, takes_part) = (if rng.percent(20) { MOST } else { rng.below(MOST + 1) }, p < n as usize);
            words[behind + HELD + p] = if takes_part || rng.percent(50) { held } else { rng.word() };
            for row in (0..held as usize).filter(|_| takes_part) {
                words[behind + record_at(p, row, 0)] = rng.below(n);
                words[behind + record_at(p, row, 3)] = rng.below(256);
            }
        }
        if length == COLUMN_WORDS && rng.percent(60) {
            know(rng, &mut words, n as usize);
        }
    }
    words
}

/// Gives the nodes of an arbitrary table columns by which records leave: the entries lie a little around the timestamps of the records that are held.
fn know(rng: &mut Random, words: &mut [u32], n: usize) {
    for p in 0..n {
        for o in 0..n {
            let row = rng.below(MOST) as usize;
            let about = words[FURTHER + record_at(p, row, 1)];
            for q in 0..n {
                words[column_at(p, q, o)] = about.saturating_add(rng.below(3)).saturating_sub(u32::from(rng.percent(20)));
            }
        }
    }
}

/// The maker of events: a style, a clock for each node, the word that damage is to be mended to, and
/// a turn for the style that fills a log and drains it.
struct Maker {
    rng: Random,
    style: Style,
    clocks: Vec<u32>,
    mended: Option<(u32, u32)>,
    turn: u32,
}

impl Maker {
    fn event(&mut self, t: &Table) -> Event {
        if self.style == Style::Damaged {
            if let Some((index, value)) = self.mended {
                if self.rng.percent(25) {
                    self.mended = None;
                    return Event::Poke(index, value);
                }
            } else if self.rng.percent(25) {
                return self.damage(t);
            }
        }
        if self.style == Style::Drain && self.rng.percent(99) {
            return self.drain(t);
        }
        let (writes, sessions) = match self.style {
            Style::Full => (70, 26),
            Style::Gossip => (40, 40),
            Style::Cut => (30, 55),
            _ => (40, 42),
        };
        let n = t.count.clamp(*COUNTS.start(), *COUNTS.end());
        match self.rng.below(100) {
            97 => Event::CountNode(self.node(n)),
            95 | 96 if self.style == Style::Damaged => Event::CountNode(self.node(n)),
            98 => Event::Look { node: self.node(n), column: self.node(n), origin: self.node(n), index: self.rng.below(70), word: self.rng.below(6) },
            99 if self.rng.percent(10) => Event::Fresh(self.rng.below(20)),
            99 if self.rng.percent(3) => Event::Fresh(self.rng.word()),
            k if k < writes => Event::Step(self.write(t, n)),
            k if k < writes + sessions => Event::Step(self.session(t, n)),
            k if k % 2 == 0 && (!t.has_columns() || self.rng.percent(15)) => self.delivery(t, n),
            _ => Event::Step(Action::Purge { node: self.node(n) }),
        }
    }

    /// A delivery into a list that is long enough, or now and then just, or not at all.
    fn delivery(&mut self, t: &Table, n: u32) -> Event {
        let node = self.node(n);
        let due = if t.sound() && u32::from(node) < t.count { (RECORD * t.due(node.into()).len()) as u32 } else { 0 };
        let any = self.rng.below(300);
        let words = self.rng.among(&[LIST as u32, LIST as u32, LIST as u32, due, due + 1, due.saturating_sub(1), due.saturating_sub(4), any, due + 7, 0]);
        Event::Deliver { node, words }
    }

    /// Fills node 0's log, lets all pairs meet until all is acknowledged, and has every node deliver and purge.
    fn drain(&mut self, t: &Table) -> Event {
        let n = t.count.clamp(*COUNTS.start(), *COUNTS.end());
        let last = MOST + 1 + 4 * (n - 1);
        if (last..last + n).contains(&self.turn) {
            self.turn += 1;
            return Event::Deliver { node: (self.turn - 1 - last) as u8, words: LIST as u32 };
        }
        Event::Step(self.drain_step(t))
    }

    fn drain_step(&mut self, t: &Table) -> Action {
        let (n, turn) = (t.count.clamp(*COUNTS.start(), *COUNTS.end()), self.turn);
        self.turn += 1;
        if turn < MOST + 1 {
            let timestamp = self.reading(0, self.own(t, 0));
            return Action::Write { node: 0, timestamp, block: turn, verdict: self.rng.byte() };
        }
        let meeting = turn - MOST - 1;
        if meeting < 4 * (n - 1) {
            let (round, k) = (meeting / (n - 1) % 2, meeting % (n - 1));
            let a = if round == 0 { k } else { n - 2 - k } as u8;
            let (ca, cb) = (self.reading(a, self.own(t, a)), self.reading(a + 1, self.own(t, a + 1)));
            let late = self.clocks.iter().copied().max().unwrap_or(0);
            return Action::Session { a, b: a + 1, ca: ca.max(late), cb: cb.max(late), outcome: 3 };
        }
        let purges = 4 * (n - 1) + n; // after the deliveries
        if meeting + 1 == purges + n {
            self.turn = self.rng.below(MOST);
        }
        Action::Purge { node: (meeting - purges) as u8 }
    }

    /// A node below n, or now and then another.
    fn node(&mut self, n: u32) -> u8 {
        match self.rng.below(if self.style == Style::Wild { 4 } else { 150 }) {
            0 => self.rng.byte(),
            1 => n as u8,
            _ if self.style == Style::Full => self.rng.below(n.min(3)) as u8,
            _ => self.rng.below(n) as u8,
        }
    }

    /// A timestamp or reading for a node whose own entry is `own`.
    fn reading(&mut self, node: u8, own: u32) -> u32 {
        let p = usize::from(node) % NODES;
        self.clocks[p] = self.clocks[p].saturating_add(self.rng.below(4));
        match self.style {
            Style::Gossip | Style::Full | Style::Drain | Style::Damaged if self.rng.percent(96) => {
                self.clocks[p] = self.clocks[p].max(own).saturating_add(self.rng.below(3));
                self.clocks[p].max(own.saturating_add(1))
            }
            Style::Lagging if p == 0 => own.saturating_add(self.rng.below(2)),
            Style::Lagging => self.clocks[p],
            Style::Largest => {
                let near = own.saturating_add(self.rng.below(3));
                self.rng.among(&[u32::MAX, u32::MAX - 1, u32::MAX - 2, near, near, near, near, 0])
            }
            Style::Wild => self.rng.word(),
            Style::Edges => self.rng.below(6),
            _ => match self.rng.below(12) {
                0 => own.wrapping_sub(1),
                1 => own,
                2 => self.rng.word(),
                k => own.saturating_add(k - 2),
            },
        }
    }

    fn own(&self, t: &Table, node: u8) -> u32 {
        let p = usize::from(node) % NODES;
        t.summary(p)[p]
    }

    fn write(&mut self, t: &Table, n: u32) -> Action {
        let node = self.node(n);
        let timestamp = self.reading(node, self.own(t, node));
        let block = if self.rng.percent(50) { self.rng.below(5) } else { self.rng.word() };
        let verdict = if self.rng.percent(50) { self.rng.below(0x60) as u8 } else { self.rng.byte() };
        Action::Write { node, timestamp, block, verdict }
    }

    fn session(&mut self, t: &Table, n: u32) -> Action {
        let a = self.node(n);
        let b = if self.rng.percent(97) { (a as u32 + 1 + self.rng.below(n - 1)) as u8 } else { self.node(n) };
        let b = if u32::from(b) >= n && self.rng.percent(98) { b % n as u8 } else { b };
        let outcome = match self.rng.below(100) {
            0 => self.rng.byte(),
            1 => 4,
            k if self.style == Style::Cut || k < 25 => self.rng.below(4) as u8,
            _ => 3,
        };
        let (ca, cb) = (self.reading(a, self.own(t, a)), self.reading(b, self.own(t, b)));
        Action::Session { a, b, ca, cb, outcome }
    }

    /// A word to spoil, chosen among those that matter, and the value that mends it.
    fn damage(&mut self, t: &Table) -> Event {
        let p = self.rng.below(NODES as u32) as usize;
        let behind = further(t.length());
        let entries = (behind + HELD - SUMMARIES) as u32;
        let index = match self.rng.below(8) {
            0 => 0,
            7 => behind + MARKS + p,
            1 | 2 => behind + HELD + p,
            3 => SUMMARIES + self.rng.below(entries) as usize,
            4 if t.has_columns() => column_at(p, self.rng.below(NODES as u32) as usize, self.rng.below(NODES as u32) as usize),
            4 => ACKNOWLEDGEMENTS + self.rng.below((NODES * NODES) as u32) as usize,
            5 => behind + record_at(p, self.rng.below(8) as usize, self.rng.among(&[0, 3])),
            _ => behind + record_at(p, t.held[p].wrapping_sub(1).min(MOST - 1) as usize, self.rng.among(&[0, 0, 1, 3, 3])),
        };
        let mut words = Vec::new();
        t.to_words(&mut words);
        let old = words[index];
        self.mended = Some((index as u32, old));
        let (low, high) = (self.rng.below(18), self.rng.word());
        let least_wrong = match index.checked_sub(behind) {
            _ if index == 0 => self.rng.among(&[0, 1, NODES as u32 + 1]),
            Some(HELD..LOGS) => MOST + 1,
            Some(word @ LOGS..MARKS) if (word - LOGS) % RECORD == 0 => t.count,
            Some(LOGS..MARKS) => 256,
            _ => u32::MAX,
        };
        Event::Poke(index as u32, self.rng.among(&[least_wrong, least_wrong, least_wrong, 0, 1, 2, 16, 64, 255, low, high, u32::MAX, old.wrapping_add(1), old.wrapping_sub(1)]))
    }
}

/// Applies an event to the model; the answer is what a step or a making says.
fn apply(table: &mut Table, event: Event) -> Option<[u32; 3]> {
    const NONE: u32 = u32::MAX;
    match event {
        Event::Fresh(n) => Some(match fresh(table.length(), n) {
            Ok(made) => {
                *table = made;
                [0, NONE, NONE]
            }
            Err(refusal) => [refusal, NONE, NONE],
        }),
        Event::Step(action) => {
            let r = table.apply(action);
            Some(match action {
                Action::Write { .. } => [r.refusal, NONE, NONE],
                Action::Session { .. } => [r.refusal, r.to_a, r.to_b],
                Action::Purge { .. } => [r.refusal, r.removed, r.lags],
                Action::Deliver { .. } => [r.refusal, r.delivered, NONE],
            })
        }
        Event::Deliver { node, words } => Some(delivered(table, node, &mut lent(words))),
        Event::Poke(index, value) => {
            let mut words = Vec::new();
            table.to_words(&mut words);
            words[index as usize] = value;
            *table = Table::from_words(&words).unwrap();
            None
        }
        _ => None,
    }
}

/// The words of a list as it is lent, each another, and what a delivery into it says.
pub fn lent(words: u32) -> Vec<u32> {
    (0..words).map(|i| 0xA5A5_A5A5 ^ i).collect()
}

fn delivered(table: &mut Table, node: u8, list: &mut [u32]) -> [u32; 3] {
    match table.deliver(node, list) {
        Ok(reply) => [0, reply.delivered, u32::MAX],
        Err(refusal) => [refusal, 0, u32::MAX],
    }
}

/// What the verdict count over one node's log, and a look at the table, must say.
fn counted(table: Option<&Table>, node: u8) -> [u32; COUNT_ANSWERS] {
    let Some(t) = table.filter(|t| t.sound()) else { return [1, 0, 0, 0, 1] };
    if u32::from(node) >= t.count {
        return [3, 0, 0, 0, 1];
    }
    let words: Vec<u32> = t.log(node.into()).iter().flat_map(|r| [r.origin, r.timestamp, r.block, r.verdict]).collect();
    let [scrubbed, touched, gap] = count(&words).unwrap();
    [0, scrubbed, touched, gap, 1]
}

/// The answers to a look: summary, acknowledgement, column, held number, mark, record.
const LOOK_ANSWERS: usize = 6;

fn looked(table: Option<&Table>, node: u8, column: u8, origin: u8, index: u32, word: u32) -> [u32; LOOK_ANSWERS] {
    let Some(t) = table.filter(|t| t.sound() && u32::from(node) < t.count) else { return [0; LOOK_ANSWERS] };
    let (p, q, o) = (usize::from(node), usize::from(column), usize::from(origin));
    let entry = |row: Option<&Vec<u32>>| row.filter(|_| o < t.n()).map_or(0, |row| row[o]);
    let record = t.log(p).get(index as usize).map_or(0, |r| match word {
        0 => r.origin,
        1 => r.timestamp,
        2 => r.block,
        3 => r.verdict,
        _ => 0,
    });
    let of_q = t.columns.get(p).filter(|_| q < t.n()).and_then(|columns| columns.get(q));
    [if o < t.n() { t.summary(p)[o] } else { 0 }, entry(t.acknowledgements.get(p)), entry(of_q), t.held[p], t.marks[p], record]
}

/// One run of a scenario on both sides.
struct Run<'a> {
    table: Option<Table>,
    expected: Vec<u32>,
    account: Option<Account>,
    /// The nodes whose full log a purge has made room in.
    freed: [bool; 256],
    reached: &'a mut Reached,
}

impl Run<'_> {
    /// Compares the answers to one event; a text says what differs.
    fn event(&mut self, event: Event, answers: &mut crate::library::Answers) -> Result<(), String> {
        let before_held = self.situation(event);
        self.held_back(event);
        self.learning(event);
        match event {
            Event::Fresh(_) | Event::Step(_) => {
                let said = match &mut self.table {
                    Some(table) => apply(table, event).unwrap(),
                    None => refused_with_1(event),
                };
                same("the reply", &[answers.word(), answers.word(), answers.word()], &said)?;
                self.reached.step(event, said, before_held);
                if said[0] == 0 {
                    self.table.as_ref().unwrap().to_words(&mut self.expected);
                }
                words(answers.words(self.expected.len()), &self.expected)?;
                if said[0] == 0 {
                    self.lag(event, said);
                    self.room(event, said, before_held);
                    self.demand_3(event)?;
                }
            }
            Event::Deliver { node, words: many } => self.delivery(node, many, answers)?,
            Event::Poke(index, value) => {
                if let Some(table) = &mut self.table {
                    let _ = apply(table, event);
                    self.expected[index as usize] = value;
                }
                self.account = None;
            }
            Event::CountNode(node) => {
                let said = counted(self.table.as_ref(), node);
                self.reached.add(&format!("count_node {}", said[0]));
                if let (0, Some(table)) = (said[0], &self.table) {
                    self.reached.counted("count_node", table.log(node.into()));
                }
                same("the count", answers.words(COUNT_ANSWERS), &said)?;
            }
            Event::Look { node, column, origin, index, word } => {
                let said = looked(self.table.as_ref(), node, column, origin, index, word);
                let there = |p: u8| self.table.as_ref().is_some_and(|t| t.sound() && u32::from(p) < t.count);
                let columns = self.table.as_ref().is_some_and(Table::has_columns);
                self.reached.when(columns && there(node) && there(column) && there(origin), "a column's entry read");
                self.reached.when(columns && there(node) && !there(column), "a column read that is none");
                self.reached.when(!columns && there(node) && there(column) && there(origin), "a column read of a table without columns");
                same("summary, acknowledgement, column, held, mark, record", answers.words(LOOK_ANSWERS), &said)?;
                words(answers.words(self.expected.len()), &self.expected)?;
            }
        }
        Ok(())
    }

    /// Notes where the node that a purge tells stands: it is the last, or another has the same entry. A purge changes no acknowledgement and no column.
    fn lag(&mut self, event: Event, said: [u32; 3]) {
        let (Some(table), Event::Step(Action::Purge { node })) = (&self.table, event) else { return };
        let entries = table.lows(usize::from(node));
        let lags = said[2] as usize;
        self.reached.when(lags + 1 == entries.len(), "purge, the last node lags");
        self.reached.when(lags > 0 && entries[lags + 1..].contains(&entries[lags]), "purge, two nodes lag, the lower above 0");
        self.reached.when(said[1] == 0 && lags != usize::from(node), "purge of none, another node lags");
    }

    /// Compares a delivery: the reply, every word of the list and of the table; then the order, with what was delivered.
    fn delivery(&mut self, node: u8, many: u32, answers: &mut crate::library::Answers) -> Result<(), String> {
        let (p, mut list) = (usize::from(node), lent(many));
        let before = self.table.clone();
        let said = self.table.as_mut().map_or([1, 0, u32::MAX], |table| delivered(table, node, &mut list));
        same("the reply", &[answers.word(), answers.word(), answers.word()], &said)?;
        let is = answers.words(list.len());
        if let Some(at) = (0..list.len()).find(|&i| is[i] != list[i]) {
            return Err(format!("word {at} of the list: the library has {}, document 02 {}", is[at], list[at]));
        }
        if let Some(table) = self.table.as_ref().filter(|_| said[0] == 0) {
            table.to_words(&mut self.expected);
        }
        words(answers.words(self.expected.len()), &self.expected)?;
        self.reached.delivery(before.as_ref().filter(|t| t.sound() && !t.has_columns()), p, said, many as usize);
        if let (0, Some(account), Some(table)) = (said[0], &mut self.account, &self.table) {
            let records: Vec<Record> = list.chunks(RECORD).take(said[1] as usize).map(|w| Record { origin: w[0], timestamp: w[1], block: w[2], verdict: w[3] }).collect();
            account.delivered(p, &records);
            self.reached.add("the order looked at");
            if let Some(fault) = account.out_of_order(table, p) {
                return Err(format!("the same order everywhere: {fault}"));
            }
        }
        Ok(())
    }

    /// "Room freed by a purge is used again": notes when it is.
    fn room(&mut self, event: Event, said: [u32; 3], held: [u32; 2]) {
        match event {
            Event::Step(Action::Purge { node }) if said[1] > 0 && held[0] == MOST => self.freed[usize::from(node)] = true,
            Event::Step(Action::Write { node, .. }) if self.freed[usize::from(node)] => self.reached.add("write into room that a purge freed"),
            Event::Fresh(_) => self.freed = [false; 256],
            _ => {}
        }
    }

    /// What keeps the records of a node that is purged: its mark alone, or its acknowledgements alone. Of columns what one that goes by another rule would do.
    fn held_back(&mut self, event: Event) {
        let (Event::Step(Action::Purge { node }), Some(t)) = (event, &self.table) else { return };
        let p = usize::from(node);
        if !t.sound() || p >= t.n() {
            return;
        }
        let (smallest, mark) = (*t.lows(p).iter().min().unwrap(), t.marks[p]);
        if t.has_columns() {
            let entries = |r: &Record| t.columns[p][..t.n()].iter().map(|column| column[r.origin as usize]).collect::<Vec<u32>>();
            let any = |test: &dyn Fn(&Record) -> bool| t.log(p).iter().any(test);
            self.reached.when(any(&|r| t.goes(p, r) && r.timestamp > mark), "purge drops what is above the mark");
            self.reached.when(any(&|r| !t.goes(p, r) && r.timestamp <= mark), "purge keeps what is not above the mark");
            self.reached.when(any(&|r| t.goes(p, r) && entries(r).contains(&r.timestamp)), "purge drops a record that an entry is just at");
            self.reached.when(any(&|r| t.goes(p, r) && r.timestamp > smallest), "purge drops what is above the smallest entry of all");
            self.reached.when(any(&|r| !t.goes(p, r) && t.columns[p][p][r.origin as usize] >= r.timestamp), "purge keeps what the own column covers");
            self.reached.when(any(&|r| !t.goes(p, r) && entries(r)[..t.n() - 1].iter().all(|&e| e >= r.timestamp)), "purge keeps what the last column alone does not cover");
            return;
        }
        let any = |low: u32, high: u32| t.log(p).iter().any(|r| low < r.timestamp && r.timestamp <= high);
        self.reached.when(any(mark, smallest), "purge held back by the mark");
        self.reached.when(any(mark, smallest) && t.acknowledgements[p][0] > smallest, "purge held back by the mark, node 0 does not lag");
        self.reached.when(any(smallest, mark), "purge leaves what is delivered and not acknowledged");
    }

    /// Of a session of columns that is accepted: where what a side takes comes from, and what a side that is cut leaves.
    fn learning(&mut self, event: Event) {
        let (Event::Step(Action::Session { a, b, ca, cb, outcome }), Some(t)) = (event, &self.table) else { return };
        if !t.has_columns() || t.clone().apply(Action::Session { a, b, ca, cb, outcome }).refusal != 0 {
            return;
        }
        let n = t.n();
        let more = |x: &[u32], y: &[u32]| x[..n].iter().zip(&y[..n]).any(|(x, y)| x > y);
        let mut seen = Vec::new();
        for (p, q, finishes) in [(usize::from(a), usize::from(b), outcome & 1 != 0), (usize::from(b), usize::from(a), outcome & 2 != 0)] {
            let (own, other) = (&t.columns[p], &t.columns[q]);
            let rises = (0..n).any(|r| more(&other[r], &own[r]));
            seen.push((finishes && more(&other[q], &own[p]), "session, the own column takes the partner's own"));
            seen.push((finishes && (0..n).any(|r| r != p && r != q && more(&other[r], &own[r])), "session, a third node's column is taken"));
            seen.push((finishes && more(&other[p], &own[p]), "session, the own column takes the partner's column for it"));
            seen.push((!finishes && rises, "session, a cut side would have learnt"));
            seen.push((finishes && n < NODES && (n..NODES).any(|r| other[r][0] > own[r][0]), "session, a column beyond n would rise"));
            seen.push((finishes && n < NODES && other[0][n] > own[0][n], "session, an entry beyond n would rise"));
        }
        seen.into_iter().for_each(|(it_is, what)| self.reached.when(it_is, what));
    }

    /// What the nodes of a step held before it, for the situations that must be reached.
    fn situation(&self, event: Event) -> [u32; 2] {
        let held = |p: u8| self.table.as_ref().map_or(0, |t| t.held[usize::from(p) % NODES]);
        match event {
            Event::Step(Action::Write { node, .. } | Action::Purge { node } | Action::Deliver { node }) => [held(node), 0],
            Event::Step(Action::Session { a, b, .. }) => [held(a), held(b)],
            _ => [0, 0],
        }
    }

    /// The account takes the accepted step in; the nodes of the step are looked at.
    fn demand_3(&mut self, event: Event) -> Result<(), String> {
        let table = self.table.as_ref().unwrap();
        if let Event::Fresh(n) = event {
            self.account = Some(Account::fresh(n as usize));
        }
        let (Some(account), Event::Step(action)) = (&mut self.account, event) else { return Ok(()) };
        account.accepted(action);
        self.reached.add("demand 3 looked at");
        let nodes = match action {
            Action::Write { node, .. } | Action::Purge { node } | Action::Deliver { node } => [node, node],
            Action::Session { a, b, .. } => [a, b],
        };
        for p in nodes {
            if let Some(fault) = account.fault(table, p.into()) {
                return Err(format!("demand 3: {fault}"));
            }
        }
        Ok(())
    }

    fn demand_3_everywhere(&self) -> Result<(), String> {
        let (Some(account), Some(table)) = (&self.account, &self.table) else { return Ok(()) };
        (0..table.n()).find_map(|p| account.fault(table, p)).map_or(Ok(()), |fault| Err(format!("demand 3: {fault}")))?;
        (0..table.n()).find_map(|p| account.out_of_order(table, p)).map_or(Ok(()), |fault| Err(format!("the same order everywhere: {fault}")))
    }
}

fn refused_with_1(event: Event) -> [u32; 3] {
    match event {
        Event::Step(Action::Session { .. } | Action::Purge { .. }) => [1, 0, 0],
        Event::Step(Action::Deliver { .. }) => [1, 0, u32::MAX],
        _ => [1, u32::MAX, u32::MAX],
    }
}

fn same(what: &str, is: &[u32], should: &[u32]) -> Result<(), String> {
    if is == should {
        Ok(())
    } else {
        Err(format!("{what}: the library says {is:?}, the documents {should:?} (4294967295: not reported)"))
    }
}

fn words(is: &[u32], should: &[u32]) -> Result<(), String> {
    if is == should {
        return Ok(());
    }
    let at = (0..should.len()).find(|&i| is[i] != should[i]).unwrap();
    Err(format!("word {at} of the table ({}): the library has {}, the documents {}", place(should.len(), at), is[at], should[at]))
}

/// Runs a scenario on the model and the library; the answer is the event that differs and how.
pub fn compare(library: &mut Library, scenario: &Scenario, reached: &mut Reached) -> Result<(), (usize, String)> {
    reached.on(scenario.words.len());
    let mut run = Run { table: Table::from_words(&scenario.words), expected: scenario.words.clone(), account: None, freed: [false; 256], reached };
    let mut calls = Calls::default();
    calls.table(&scenario.words);
    for (batch, events) in scenario.events.chunks(BATCH).enumerate() {
        for event in events {
            match *event {
                Event::Fresh(n) => calls.fresh(n),
                Event::Step(action) => calls.step(action),
                Event::Deliver { node, words } => calls.deliver(node, &lent(words)),
                Event::Poke(index, value) => calls.poke(index, value),
                Event::CountNode(node) => calls.count_node(node),
                Event::Look { node, column, origin, index, word } => calls.look(node, column, origin, index, word),
            }
        }
        let Some(mut answers) = library.run(&calls) else { return Err((batch * BATCH, "the library was killed".into())) };
        for (i, event) in events.iter().enumerate() {
            run.event(*event, &mut answers).map_err(|fault| (batch * BATCH + i, fault))?;
        }
        run.demand_3_everywhere().map_err(|fault| (batch * BATCH + events.len() - 1, fault))?;
        assert!(answers.done());
        calls.clear();
    }
    Ok(())
}

/// Runs the scenario of a seed; a mismatch is told with the shortest failing list of steps.
pub fn seed(library: &mut Library, seed: u64, reached: &mut Reached) -> Result<usize, String> {
    let scenario = make(seed);
    let Err((at, _)) = compare(library, &scenario, reached) else {
        return Ok(scenario.events.iter().filter(|event| matches!(event, Event::Step(_) | Event::Deliver { .. })).count());
    };
    let mut nowhere = Reached::default();
    let mut fails = |events: &[Event]| {
        let tried = Scenario { words: scenario.words.clone(), events: events.to_vec() };
        compare(library, &tried, &mut nowhere).is_err()
    };
    let events = shortest(&scenario.events[..=at], &mut fails, &smaller);
    let last = Scenario { words: scenario.words.clone(), events: events.clone() };
    let fault = compare(library, &last, &mut nowhere).unwrap_err().1;
    let mut text = format!("seed {seed}: {fault}\nthe shortest failing list, of {} events:\n", scenario.events.len());
    if scenario.words.len() == COLUMN_WORDS || !matches!(events[0], Event::Fresh(_)) {
        text += &format!("  (on the table of {} words that this seed starts from, count {})\n", scenario.words.len(), scenario.words.first().unwrap_or(&0));
    }
    events.iter().for_each(|event| text += &format!("  {}\n", written(scenario.words.len(), *event)));
    Err(text)
}

/// Events that are simpler than this one.
fn smaller(event: &Event) -> Vec<Event> {
    // less by each power of two, the greatest first: a number comes down to any bound in 32 turns
    let less = |x: u32| [0, 1].into_iter().chain((0..32).rev().filter_map(move |k| x.checked_sub(1 << k))).filter(move |&y| y < x);
    match *event {
        Event::Fresh(n) => less(n).map(Event::Fresh).collect(),
        Event::Step(Action::Write { node, timestamp, block, verdict }) => {
            let mut all: Vec<Event> = less(timestamp).map(|timestamp| Event::Step(Action::Write { node, timestamp, block, verdict })).collect();
            all.extend(less(block).map(|block| Event::Step(Action::Write { node, timestamp, block, verdict })));
            all.extend(less(verdict.into()).map(|v| Event::Step(Action::Write { node, timestamp, block, verdict: v as u8 })));
            all
        }
        Event::Step(Action::Session { a, b, ca, cb, outcome }) => {
            let mut all: Vec<Event> = less(ca).map(|ca| Event::Step(Action::Session { a, b, ca, cb, outcome })).collect();
            all.extend(less(cb).map(|cb| Event::Step(Action::Session { a, b, ca, cb, outcome })));
            all
        }
        _ => Vec::new(),
    }
}

fn written(words: usize, event: Event) -> String {
    match event {
        Event::Fresh(n) => format!("fresh {n}"),
        Event::Step(Action::Write { node, timestamp, block, verdict }) => format!("write node {node} timestamp {timestamp} block {block} verdict {verdict}"),
        Event::Step(Action::Session { a, b, ca, cb, outcome }) => format!("session {a} with {b} readings {ca} and {cb} outcome {outcome}"),
        Event::Step(Action::Purge { node }) => format!("purge node {node}"),
        Event::Step(Action::Deliver { node }) => format!("delivery of node {node}"),
        Event::Deliver { node, words } => format!("delivery of node {node} into {words} words"),
        Event::Poke(index, value) => format!("word {index} ({}) set to {value}", place(words, index as usize)),
        Event::CountNode(node) => format!("count of node {node}"),
        Event::Look { node, column, origin, index, word } => format!("look at node {node}, column {column}, entry {origin}, record {index}, word {word}"),
    }
}

/// The steps of a seed's scenario of vectors that came after a making of a fresh table, with its count: for journals.
pub fn steps_of(seed: u64) -> (u32, Vec<Action>) {
    let scenario = make_of(Random::new(seed), WORDS);
    let n = match scenario.events[0] {
        Event::Fresh(n) => n,
        _ => scenario.words.first().copied().unwrap_or(2).clamp(*COUNTS.start(), *COUNTS.end()),
    };
    let steps = scenario.events.iter().filter_map(|event| event.step()).collect();
    (n, steps)
}

impl Event {
    /// The step that a line can give, if the event is one: a line has no say in the list of a delivery.
    pub fn step(self) -> Option<Action> {
        match self {
            Event::Step(action) => Some(action),
            Event::Deliver { node, .. } => Some(Action::Deliver { node }),
            _ => None,
        }
    }
}

/// The most records that a log holds, for the situations.
pub const MOST: u32 = ROOM as u32;
