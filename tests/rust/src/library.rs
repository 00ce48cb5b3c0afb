//! The library under test: lists of calls, run by executor.c in another process. The one place that knows how calls and answers are written down.

use crate::layout::COLUMN_WORDS;
use crate::model::{Action, Frame};
use std::fs::OpenOptions;
use std::io::{Read, Write};
use std::os::fd::{AsRawFd, IntoRawFd};
use std::process::{Child, Command, Stdio};

const HALF: usize = 16 << 20;

/// The room for a replay's text that is always enough.
pub const TEXT: u32 = crate::layout::TEXT as u32;

extern "C" {
    fn mmap(at: *mut u8, size: usize, prot: i32, flags: i32, file: i32, from: i64) -> *mut u8;
}

/// A list of calls as executor.c reads it.
#[derive(Default)]
pub struct Calls(Vec<u32>);

impl Calls {
    pub fn clear(&mut self) {
        self.0.clear();
    }

    fn bytes(&mut self, bytes: &[u8]) {
        for four in bytes.chunks(4) {
            let mut word = [0; 4];
            word[..four.len()].copy_from_slice(four);
            self.0.push(u32::from_le_bytes(word));
        }
    }

    pub fn table(&mut self, words: &[u32]) {
        self.0.extend([1, words.len() as u32]);
        self.0.extend_from_slice(words);
    }

    pub fn fresh(&mut self, n: u32) {
        self.0.extend([2, n]);
    }

    pub fn step(&mut self, action: Action) {
        match action {
            Action::Write { node, timestamp, block, verdict } => self.0.extend([3, node.into(), timestamp, block, verdict.into()]),
            Action::Session { a, b, ca, cb, outcome } => self.0.extend([4, a.into(), b.into(), ca, cb, outcome.into()]),
            Action::Purge { node } => self.0.extend([5, node.into()]),
            Action::Deliver { .. } => unreachable!("its list is told too"),
        }
    }

    pub fn deliver(&mut self, node: u8, list: &[u32]) {
        self.0.extend([15, node.into(), list.len() as u32]);
        self.0.extend_from_slice(list);
    }

    pub fn line(&mut self, line: &[u8]) {
        self.0.extend([6, line.len() as u32]);
        self.bytes(line);
    }

    pub fn frame(&mut self, room: u32, frame: Frame) {
        let mut call = match frame {
            Frame::Start(n) => vec![7, room, 0, n.into()],
            Frame::Step(Action::Write { node, timestamp, block, verdict }) => vec![7, room, 1, node.into(), timestamp, block, verdict.into()],
            Frame::Step(Action::Session { a, b, ca, cb, outcome }) => vec![7, room, 2, a.into(), b.into(), ca, cb, outcome.into()],
            Frame::Step(Action::Purge { node }) => vec![7, room, 3, node.into()],
            Frame::Step(Action::Deliver { node }) => vec![7, room, 5, node.into()],
        };
        call.resize(8, 0);
        self.0.extend(call);
    }

    pub fn replay(&mut self, journal: &[u8], words: u32, room: u32) {
        self.0.extend([8, journal.len() as u32, words, room]);
        self.bytes(journal);
    }

    pub fn count(&mut self, words: &[u32]) {
        self.0.extend([9, words.len() as u32]);
        self.0.extend_from_slice(words);
    }

    pub fn count_node(&mut self, node: u8) {
        self.0.extend([10, node.into()]);
    }

    pub fn look(&mut self, node: u8, column: u8, origin: u8, index: u32, word: u32) {
        self.0.extend([11, node.into(), column.into(), origin.into(), index, word]);
    }

    pub fn apply_line(&mut self, line: &[u8]) {
        self.0.extend([13, line.len() as u32]);
        self.bytes(line);
    }

    pub fn apply_lines(&mut self, lines: &[u8]) {
        self.0.extend([14, lines.len() as u32]);
        self.bytes(lines);
    }

    pub fn poke(&mut self, index: u32, value: u32) {
        self.0.extend([12, index, value]);
    }
}

/// The answers to a list of calls, taken in order.
pub struct Answers<'a>(&'a [u32]);

impl<'a> Answers<'a> {
    pub fn word(&mut self) -> u32 {
        self.words(1)[0]
    }

    pub fn words(&mut self, many: usize) -> &'a [u32] {
        let (now, later) = self.0.split_at(many);
        self.0 = later;
        now
    }

    pub fn bytes(&mut self, many: usize) -> Vec<u8> {
        let mut bytes: Vec<u8> = self.words(many.div_ceil(4)).iter().flat_map(|w| w.to_le_bytes()).collect();
        bytes.truncate(many);
        bytes
    }

    pub fn done(&self) -> bool {
        self.0.is_empty()
    }
}

/// The process that runs the calls, and the memory that it shares with this one.
pub struct Library {
    child: Child,
    shared: *mut u32,
    command: Vec<String>,
}

impl Library {
    /// Has the words of `command`, with the path of a shared file after them, answer.
    pub fn through(command: &[String]) -> std::io::Result<Library> {
        let path = std::env::temp_dir().join(format!("pollencart-{}", std::process::id()));
        let file = OpenOptions::new().read(true).write(true).create(true).truncate(true).open(&path)?;
        file.set_len(2 * HALF as u64)?;
        std::fs::remove_file(&path)?;
        let shared = unsafe { mmap(std::ptr::null_mut(), 2 * HALF, 3, 1, file.as_raw_fd(), 0) }.cast::<u32>();
        assert!(shared as isize != -1, "the shared file cannot be mapped");
        // the file has no name, but the other process finds it here for as long as this one runs
        let place = format!("/proc/{}/fd/{}", std::process::id(), file.into_raw_fd());
        let command = [command, &[place]].concat();
        let mut library = Library { child: spawn(&command)?, shared, command };
        library.run(&Calls::default()).ok_or(std::io::Error::other("it ended"))?;
        Ok(library)
    }

    /// Runs the calls. None: the process that ran them died; another one runs the next.
    pub fn run(&mut self, calls: &Calls) -> Option<Answers<'_>> {
        assert!(calls.0.len() < HALF / 4);
        unsafe {
            std::ptr::copy_nonoverlapping(calls.0.as_ptr(), self.shared, calls.0.len());
            *self.shared.add(calls.0.len()) = 0;
        }
        let Ok(many) = ask(&mut self.child) else {
            let _ = self.child.wait();
            self.child = spawn(&self.command).expect("it was started before");
            return None;
        };
        Some(Answers(unsafe { std::slice::from_raw_parts(self.shared.add(HALF / 4), many) }))
    }
}

fn spawn(command: &[String]) -> std::io::Result<Child> {
    Command::new(&command[0]).args(&command[1..]).stdin(Stdio::piped()).stdout(Stdio::piped()).spawn()
}

/// Asks for the calls to be run and waits for the number of words of their answers.
fn ask(child: &mut Child) -> std::io::Result<usize> {
    let mut many = [0; 8];
    child.stdin.as_mut().unwrap().write_all(&[1])?;
    child.stdout.as_mut().unwrap().read_exact(&mut many)?;
    Ok(usize::try_from(u64::from_le_bytes(many)).unwrap())
}

/// The most steps whose answers fit.
pub const BATCH: usize = 48;
const _: () = assert!(BATCH * (COLUMN_WORDS + 300 + 8) * 4 < HALF);
