//! Demand 3 and the same order everywhere, as a run: the plain account that never drops a record and each
//! node's delivered list, kept beside the table, and the facts that tie them to every node's summary, log and mark.

use crate::model::{Action, Record, Table};

#[derive(Clone)]
pub struct Account {
    /// Every accepted write.
    written: Vec<Record>,
    /// Each node's account: places in `written`, in order of arrival, and the same as a set.
    nodes: Vec<(Vec<usize>, Vec<bool>)>,
    /// What each node was given, all its deliveries one after the other.
    delivered: Vec<Vec<Record>>,
}

impl Account {
    pub fn fresh(n: usize) -> Account {
        Account { written: Vec::new(), nodes: vec![(Vec::new(), Vec::new()); n], delivered: vec![Vec::new(); n] }
    }

    /// Takes in an accepted step: "a node gains its own writes, and from each session it finishes
    /// all that the partner's account held at its beginning and its own lacked".
    pub fn accepted(&mut self, action: Action) {
        match action {
            Action::Write { node, timestamp, block, verdict } => {
                self.written.push(Record { origin: node.into(), timestamp, block, verdict: verdict.into() });
                for (_, set) in &mut self.nodes {
                    set.push(false);
                }
                self.gain(node.into(), self.written.len() - 1);
            }
            Action::Session { a, b, outcome, .. } => {
                let (a, b) = (usize::from(a), usize::from(b));
                let for_a = if outcome == 1 || outcome == 3 { self.lacking(a, b) } else { Vec::new() };
                let for_b = if outcome == 2 || outcome == 3 { self.lacking(b, a) } else { Vec::new() };
                for_a.into_iter().for_each(|r| self.gain(a, r));
                for_b.into_iter().for_each(|r| self.gain(b, r));
            }
            Action::Purge { .. } | Action::Deliver { .. } => {}
        }
    }

    /// Takes in what an accepted delivery wrote.
    pub fn delivered(&mut self, p: usize, list: &[Record]) {
        self.delivered[p].extend_from_slice(list);
    }

    fn gain(&mut self, p: usize, record: usize) {
        self.nodes[p].0.push(record);
        self.nodes[p].1[record] = true;
    }

    fn lacking(&self, mine: usize, theirs: usize) -> Vec<usize> {
        self.nodes[theirs].0.iter().filter(|&&r| !self.nodes[mine].1[r]).copied().collect()
    }

    /// "For any two nodes, one's delivered list must be a beginning of the other's": what fails of it at node p, if anything. And what
    /// it comes from: the list is the written records that are not above the mark, by timestamp and origin; none above it has left the log.
    /// A table of columns delivers nothing and reads no mark: there it says nothing.
    pub fn out_of_order(&self, table: &Table, p: usize) -> Option<String> {
        if table.has_columns() {
            return None;
        }
        let (mine, mark) = (&self.delivered[p], table.marks[p]);
        for (q, theirs) in self.delivered.iter().enumerate() {
            let both = mine.len().min(theirs.len());
            if mine[..both] != theirs[..both] {
                return Some(format!("of nodes {p} and {q} neither delivered list is a beginning of the other"));
            }
        }
        let mut all: Vec<Record> = self.written.iter().filter(|r| r.timestamp <= mark).copied().collect();
        all.sort_by_key(|r| (r.timestamp, r.origin));
        if all != *mine {
            return Some(format!("node {p}: its delivered list is not what was written up to its mark {mark}"));
        }
        let gone = self.nodes[p].0.iter().map(|&i| &self.written[i]).find(|r| r.timestamp > mark && !table.log(p).contains(r));
        gone.map(|r| format!("node {p} dropped {r:?} before it was delivered"))
    }

    /// The first of the three facts that fails at node p, if any.
    pub fn fault(&self, table: &Table, p: usize) -> Option<String> {
        let (list, set) = &self.nodes[p];
        for (i, r) in self.written.iter().enumerate() {
            if set[i] != (r.timestamp <= table.summary(p)[r.origin as usize]) {
                return Some(format!("node {p}: its account and its summary disagree on {r:?}"));
            }
        }
        let mut log = table.log(p).iter().peekable();
        for &i in list {
            if log.peek() == Some(&&self.written[i]) {
                log.next();
            } else if !self.nodes.iter().all(|(_, every)| every[i]) {
                return Some(format!("node {p} dropped {:?}, which some account lacks", self.written[i]));
            }
        }
        log.next().map(|r| format!("node {p}: its log has {r:?} out of its account's order"))
    }
}
