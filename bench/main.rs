//! The benchmark: the proved library, a plain C version written for speed (under two compilers) and
//! the independent Rust implementation, on the same inputs, in one run, by turns. It prints a table
//! of medians, the ratio to the better of the others, and the spread. A row's name says its case (what
//! is done, on how large a table) and stays when a request changes what the case costs; a new case is a
//! new row.

#[path = "../tests/rust/src/layout.rs"]
mod layout;
#[path = "../tests/rust/src/model.rs"]
mod model;

use layout::{COLUMN_WORDS, JOURNAL, LIST, TEXT, WORDS};
use model::{Action, Record, Table};
use std::hint::black_box;
use std::time::Instant;

type CheckLine = unsafe extern "C" fn(*const u8, usize, *mut usize) -> u32;
type ReadLine = unsafe extern "C" fn(*const u8, usize, *mut u32, usize, *mut usize) -> u32;
type Kind = unsafe extern "C" fn(*const u8, usize) -> u32;
type Field = unsafe extern "C" fn(*const u8, usize, u32) -> u32;
type FrameWrite = unsafe extern "C" fn(*mut u8, usize, u8, u32, u32, u8, *mut u32) -> u32;
type FrameSession = unsafe extern "C" fn(*mut u8, usize, u8, u8, u32, u32, u8, *mut u32) -> u32;
type FrameShort = unsafe extern "C" fn(*mut u8, usize, u8, *mut u32) -> u32;
type Write = unsafe extern "C" fn(*mut u32, usize, u8, u32, u32, u8) -> u32;
type Session = unsafe extern "C" fn(*mut u32, usize, u8, u8, u32, u32, u8, *mut u32, *mut u32) -> u32;
type Purge = unsafe extern "C" fn(*mut u32, usize, u8, *mut u32, *mut u32) -> u32;
type Deliver = unsafe extern "C" fn(*mut u32, usize, u8, *mut u32, usize, *mut u32) -> u32;
type Count = unsafe extern "C" fn(*const u32, usize, *mut u32, *mut u32, *mut u32) -> u32;
type CountNode = unsafe extern "C" fn(*const u32, usize, u8, *mut u32, *mut u32, *mut u32) -> u32;
type CountBefore = unsafe extern "C" fn(*const u32, usize, *mut u32, *mut u32) -> u32;
type ApplyLine = unsafe extern "C" fn(*mut u32, usize, *const u8, usize, *mut u32, *mut u32, *mut usize) -> u32;
type ApplyLines = unsafe extern "C" fn(*mut u32, usize, *const u8, usize, *mut usize, *mut usize, *mut usize, *mut usize) -> u32;
type Replay = unsafe extern "C" fn(*const u8, usize, *mut u32, usize, *mut u8, usize) -> u32;

/// The calls of one C library.
#[derive(Clone, Copy)]
struct Api {
    check_line: CheckLine,
    read_line: ReadLine,
    kind: Kind,
    field: Field,
    frame_start: FrameShort,
    frame_write: FrameWrite,
    frame_session: FrameSession,
    frame_purge: FrameShort,
    frame_deliver: FrameShort,
    write: Write,
    session: Session,
    purge: Purge,
    deliver: Deliver,
    count: Count,
    count_node: CountNode,
    apply_line: ApplyLine,
    apply_lines: ApplyLines,
    replay: Replay,
}

macro_rules! api {
    ($check_line:ident $read_line:ident $kind:ident $field:ident $frame_start:ident $frame_write:ident $frame_session:ident $frame_purge:ident $frame_deliver:ident $write:ident $session:ident $purge:ident $deliver:ident $count:ident $count_node:ident $apply_line:ident $apply_lines:ident $replay:ident) => {{
        extern "C" {
            fn $check_line(l: *const u8, n: usize, p: *mut usize) -> u32;
            fn $read_line(l: *const u8, n: usize, v: *mut u32, m: usize, p: *mut usize) -> u32;
            fn $kind(l: *const u8, n: usize) -> u32;
            fn $field(l: *const u8, n: usize, i: u32) -> u32;
            fn $frame_start(o: *mut u8, n: usize, p: u8, r: *mut u32) -> u32;
            fn $frame_write(o: *mut u8, n: usize, p: u8, t: u32, b: u32, v: u8, r: *mut u32) -> u32;
            fn $frame_session(o: *mut u8, n: usize, a: u8, b: u8, x: u32, y: u32, c: u8, r: *mut u32) -> u32;
            fn $frame_purge(o: *mut u8, n: usize, p: u8, r: *mut u32) -> u32;
            fn $frame_deliver(o: *mut u8, n: usize, p: u8, r: *mut u32) -> u32;
            fn $write(w: *mut u32, n: usize, p: u8, t: u32, b: u32, v: u8) -> u32;
            fn $session(w: *mut u32, n: usize, a: u8, b: u8, x: u32, y: u32, c: u8, r: *mut u32, s: *mut u32) -> u32;
            fn $purge(w: *mut u32, n: usize, p: u8, r: *mut u32, l: *mut u32) -> u32;
            fn $deliver(w: *mut u32, n: usize, p: u8, l: *mut u32, m: usize, r: *mut u32) -> u32;
            fn $count(w: *const u32, n: usize, s: *mut u32, t: *mut u32, g: *mut u32) -> u32;
            fn $count_node(w: *const u32, n: usize, p: u8, s: *mut u32, t: *mut u32, g: *mut u32) -> u32;
            fn $apply_line(w: *mut u32, n: usize, l: *const u8, m: usize, x: *mut u32, y: *mut u32, p: *mut usize) -> u32;
            fn $apply_lines(w: *mut u32, n: usize, l: *const u8, m: usize, x: *mut usize, y: *mut usize, z: *mut usize, p: *mut usize) -> u32;
            fn $replay(j: *const u8, n: usize, w: *mut u32, m: usize, o: *mut u8, r: usize) -> u32;
        }
        Api {
            check_line: $check_line,
            read_line: $read_line,
            kind: $kind,
            field: $field,
            frame_start: $frame_start,
            frame_write: $frame_write,
            frame_session: $frame_session,
            frame_purge: $frame_purge,
            frame_deliver: $frame_deliver,
            write: $write,
            session: $session,
            purge: $purge,
            deliver: $deliver,
            count: $count,
            count_node: $count_node,
            apply_line: $apply_line,
            apply_lines: $apply_lines,
            replay: $replay,
        }
    }};
}

fn apis() -> [Api; 3] {
    [
        api!(pollencart_check_line pollencart_read_line pollencart_kind pollencart_field pollencart_frame_start pollencart_frame_write pollencart_frame_session pollencart_frame_purge pollencart_frame_deliver pollencart_write pollencart_session pollencart_purge pollencart_deliver pollencart_count pollencart_count_node pollencart_apply_line pollencart_apply_lines pollencart_replay),
        api!(plain_check_line plain_read_line plain_kind plain_field plain_frame_start plain_frame_write plain_frame_session plain_frame_purge plain_frame_deliver plain_write plain_session plain_purge plain_deliver plain_count plain_count_node plain_apply_line plain_apply_lines plain_replay),
        api!(clang_check_line clang_read_line clang_kind clang_field clang_frame_start clang_frame_write clang_frame_session clang_frame_purge clang_frame_deliver clang_write clang_session clang_purge clang_deliver clang_count clang_count_node clang_apply_line clang_apply_lines clang_replay),
    ]
}

const COLUMNS: [&str; 4] = ["library", "C, gcc", "C, clang", "Rust"];
const ROUNDS: usize = 61;

/// One row: its name and, for each column, a sample: nanoseconds for one operation. A row without the library's column has no ratio.
struct Row {
    name: String,
    samples: Vec<Box<dyn FnMut() -> f64>>,
}

/// Times `many` operations, after `before` has made ready for them.
fn sample(many: usize, mut before: impl FnMut() + 'static, mut operation: impl FnMut(usize) + 'static) -> Box<dyn FnMut() -> f64> {
    Box::new(move || {
        before();
        let began = Instant::now();
        for i in 0..many {
            operation(i);
        }
        began.elapsed().as_nanos() as f64 / many as f64
    })
}

/// A row on a fixed input: one closure for the C libraries, one for Rust.
fn row<C, R>(name: &str, many: usize, c: impl Fn(Api) -> C, rust: R) -> Row
where
    C: FnMut(usize) + 'static,
    R: FnMut(usize) + 'static,
{
    let mut samples: Vec<Box<dyn FnMut() -> f64>> = apis().into_iter().map(|api| sample(many, || (), c(api))).collect();
    samples.push(sample(many, || (), rust));
    Row { name: name.into(), samples }
}

/// Has the compiler think that a result is used.
fn seen<T>(result: T) {
    let _ = black_box(result);
}

fn lines(rows: &mut Vec<Row>) {
    let frames = [
        ("start", model::start_frame(16)),
        ("write", model::frame(Action::Write { node: 3, timestamp: 0x5F37_59DF, block: 0xDEAD_BEEF, verdict: 0x2A }).unwrap()),
        ("session", model::frame(Action::Session { a: 3, b: 11, ca: 0x5F37_59DF, cb: 0x0BAD_CAFE, outcome: 3 }).unwrap()),
        ("purge", model::frame(Action::Purge { node: 9 }).unwrap()),
        ("delivery", model::frame(Action::Deliver { node: 9 }).unwrap()),
    ];
    for (name, mut line) in frames {
        line.pop();
        let given = line.clone();
        let check = |api: Api| {
            let line = line.clone();
            move |_: usize| {
                let mut place = 0;
                seen(unsafe { (api.check_line)(black_box(line.as_ptr()), line.len(), &mut place) });
                black_box(place);
            }
        };
        let rust = given.clone();
        rows.push(row(&format!("check a line: {name}"), 4000, check, move |_| seen(model::read(black_box(&rust)))));
        let many = model::fields(model::read(&given).unwrap()).1.len() as u32;
        let whole = |api: Api| {
            let line = line.clone();
            move |_: usize| {
                let (at, size, mut place) = (black_box(line.as_ptr()), line.len(), 0);
                unsafe {
                    black_box((api.check_line)(at, size, &mut place));
                    black_box((api.kind)(at, size));
                    for i in 0..many {
                        black_box((api.field)(at, size, i));
                    }
                }
            }
        };
        let rust = given.clone();
        rows.push(row(&format!("check, kind and all fields: {name}"), 1000, whole, move |_| seen(model::read(black_box(&rust)).map(model::fields))));
        let once = |api: Api| {
            let line = line.clone();
            move |_: usize| {
                let (mut values, mut place) = ([0; 6], 0);
                seen(unsafe { (api.read_line)(black_box(line.as_ptr()), line.len(), values.as_mut_ptr(), 6, &mut place) });
                black_box((values, place));
            }
        };
        let rust = given.clone();
        rows.push(row(&format!("kind and all fields in one call: {name}"), 4000, once, move |_| seen(model::read(black_box(&rust)).map(model::fields))));
    }
}

fn frames(rows: &mut Vec<Row>) {
    let many = 4000;
    let start = |api: Api| {
        move |i: usize| unsafe {
            let (mut out, mut length) = ([0u8; 32], 0);
            (api.frame_start)(out.as_mut_ptr(), 32, black_box(2 + (i as u8 & 7)), &mut length);
            black_box((out, length));
        }
    };
    rows.push(row("write a frame: start", many, start, |i| seen(model::start_frame(black_box(2 + (i as u8 & 7))))));
    let write = |api: Api| {
        move |i: usize| unsafe {
            let (mut out, mut length) = ([0u8; 32], 0);
            (api.frame_write)(out.as_mut_ptr(), 32, 3, black_box(i as u32), black_box(0xDEAD_BEEF), 0x2A, &mut length);
            black_box((out, length));
        }
    };
    rows.push(row("write a frame: write", many, write, |i| seen(model::frame(black_box(Action::Write { node: 3, timestamp: i as u32, block: 0xDEAD_BEEF, verdict: 0x2A })))));
    let session = |api: Api| {
        move |i: usize| unsafe {
            let (mut out, mut length) = ([0u8; 32], 0);
            (api.frame_session)(out.as_mut_ptr(), 32, 3, 11, black_box(i as u32), black_box(0x0BAD_CAFE), 3, &mut length);
            black_box((out, length));
        }
    };
    rows.push(row("write a frame: session", many, session, |i| seen(model::frame(black_box(Action::Session { a: 3, b: 11, ca: i as u32, cb: 0x0BAD_CAFE, outcome: 3 })))));
    let purge = |api: Api| {
        move |i: usize| unsafe {
            let (mut out, mut length) = ([0u8; 32], 0);
            (api.frame_purge)(out.as_mut_ptr(), 32, black_box(i as u8), &mut length);
            black_box((out, length));
        }
    };
    rows.push(row("write a frame: purge", many, purge, |i| seen(model::frame(black_box(Action::Purge { node: i as u8 })))));
    let deliver = |api: Api| {
        move |i: usize| unsafe {
            let (mut out, mut length) = ([0u8; 32], 0);
            (api.frame_deliver)(out.as_mut_ptr(), 32, black_box(i as u8), &mut length);
            black_box((out, length));
        }
    };
    rows.push(row("write a frame: delivery", many, deliver, |i| seen(model::frame(black_box(Action::Deliver { node: i as u8 })))));
}

/// A cluster of n nodes, each with `held` records of its own at timestamps 1 and up.
fn cluster(n: u32, held: u32) -> Table {
    cluster_in(WORDS, n, held)
}

/// The same in a table of so many words.
fn cluster_in(words: usize, n: u32, held: u32) -> Table {
    let mut table = model::fresh(words, n).unwrap();
    for p in 0..n {
        for timestamp in 1..=held {
            assert_eq!(table.apply(Action::Write { node: p as u8, timestamp, block: timestamp, verdict: (timestamp % 96) as u8 }).refusal, 0);
        }
    }
    table
}

fn call(api: Api, table: &mut [u32], action: Action) -> u32 {
    let (at, size, mut x, mut y) = (table.as_mut_ptr(), table.len(), 0, 0);
    let answer = unsafe {
        match action {
            Action::Write { node, timestamp, block, verdict } => (api.write)(at, size, node, timestamp, block, verdict),
            Action::Session { a, b, ca, cb, outcome } => (api.session)(at, size, a, b, ca, cb, outcome, &mut x, &mut y),
            Action::Purge { node } => (api.purge)(at, size, node, &mut x, &mut y),
            Action::Deliver { .. } => unreachable!("its list is told too"),
        }
    };
    black_box((x, y));
    answer
}

/// A delivery of node 0 into a list that has room for all; the answer is 0 where it is not refused and delivers as many as are due.
fn delivered(api: Api, table: &mut [u32], list: &mut [u32], due: u32) -> u32 {
    let mut many = 0;
    let refusal = unsafe { (api.deliver)(table.as_mut_ptr(), table.len(), black_box(0), list.as_mut_ptr(), list.len(), &mut many) };
    black_box(&list);
    refusal + (many ^ due)
}

/// A sample of an operation on 24 copies of a table, which are made anew outside the time; it answers a refusal, which must be 0.
fn copied(words: &[u32], mut operation: impl FnMut(&mut Vec<u32>) -> u32 + 'static) -> Box<dyn FnMut() -> f64> {
    const COPIES: usize = 24;
    let (words, mut copies) = (words.to_vec(), vec![words.to_vec(); COPIES]);
    Box::new(move || {
        copies.iter_mut().for_each(|copy| copy.copy_from_slice(&words));
        let began = Instant::now();
        for copy in &mut copies {
            assert_eq!(operation(copy), 0);
        }
        began.elapsed().as_nanos() as f64 / COPIES as f64
    })
}

/// A row on copies of a caller's table: one closure for the C libraries, one for Rust.
fn on_copies<C>(rows: &mut Vec<Row>, name: &str, table: &Table, c: impl Fn(Api) -> C, rust: impl Fn(&mut Table) -> u32 + 'static)
where
    C: FnMut(&mut Vec<u32>) -> u32 + 'static,
{
    let mut words = Vec::new();
    table.to_words(&mut words);
    let mut samples: Vec<Box<dyn FnMut() -> f64>> = apis().into_iter().map(|api| copied(&words, c(api))).collect();
    samples.push(copied(&words, move |copy| {
        let mut table = Table::from_words(copy).unwrap();
        let answer = rust(&mut table);
        table.to_words(copy);
        answer
    }));
    rows.push(Row { name: name.into(), samples });
}

/// A step on a caller's table.
fn step(rows: &mut Vec<Row>, name: &str, table: &Table, action: Action) {
    let c = |api: Api| move |copy: &mut Vec<u32>| call(api, copy, black_box(action));
    on_copies(rows, name, table, c, move |table| table.apply(black_box(action)).refusal);
}

fn steps(rows: &mut Vec<Row>) {
    let session = |ca, cb| Action::Session { a: 0, b: 1, ca, cb, outcome: 3 };
    for (n, held, which) in [(2, 4, "2 nodes, 4 held"), (16, 32, "16 nodes, 32 held")] {
        let table = cluster(n, held);
        step(rows, &format!("write ({which})"), &table, Action::Write { node: 1, timestamp: 99, block: 1, verdict: 0x20 });
        let mut met = table.clone();
        for p in 0..n as usize {
            met.summaries[p][..n as usize].fill(held);
        }
        step(rows, &format!("session, none carried ({which})"), &met, session(99, 99));
        let mut some = met.clone();
        (some.summaries[0][1], some.summaries[1][0]) = (held - 2, held - 2);
        step(rows, &format!("session, 2 to each ({which})"), &some, session(99, 99));
        let mut purged = met.clone();
        purged.acknowledgements[0][..n as usize].fill(held / 2);
        assert_eq!(purged.apply(Action::Deliver { node: 0 }).refusal, 0);
        step(rows, &format!("purge of half ({which})"), &purged, Action::Purge { node: 0 });
        step(rows, &format!("purge of none ({which})"), &met, Action::Purge { node: 0 });
    }
    step(rows, "session, 32 to each (16 nodes, 32 held)", &cluster(16, 32), session(99, 99));
}

/// The same steps on tables of columns.
fn column_steps(rows: &mut Vec<Row>) {
    let session = |outcome| Action::Session { a: 0, b: 1, ca: 99, cb: 99, outcome };
    for (n, held, which) in [(2, 4, "2 nodes, 4 held"), (16, 32, "16 nodes, 32 held")] {
        let table = cluster_in(COLUMN_WORDS, n, held);
        step(rows, &format!("columns: write ({which})"), &table, Action::Write { node: 1, timestamp: 99, block: 1, verdict: 0x20 });
        let mut met = table.clone();
        met.columns.iter_mut().take(n as usize).flatten().take((n * 16) as usize).for_each(|column| column[..n as usize].fill(held));
        step(rows, &format!("columns: session, none carried ({which})"), &met, session(3));
        step(rows, &format!("columns: session, none carried, only a finishes ({which})"), &met, session(1));
        step(rows, &format!("columns: session, neither side finishes ({which})"), &met, session(0));
        // the own column is the summary, the others are behind it: at half, or at nothing
        let behind = |entry: u32| {
            let mut behind = met.clone();
            behind.columns[0][1..n as usize].iter_mut().for_each(|column| column[..n as usize].fill(entry));
            behind
        };
        let (half, none) = (behind(held / 2), behind(0));
        assert_eq!(half.clone().apply(Action::Purge { node: 0 }).removed, held / 2);
        assert_eq!(none.clone().apply(Action::Purge { node: 0 }).removed, 0);
        step(rows, &format!("columns: purge of half ({which})"), &half, Action::Purge { node: 0 });
        step(rows, &format!("columns: purge of none ({which})"), &none, Action::Purge { node: 0 });
        line_applied(rows, &format!("columns: a line applied: session, none carried ({which})"), &met, session(3));
        line_applied(rows, &format!("columns: a line applied: purge of none ({which})"), &none, Action::Purge { node: 0 });
    }
    step(rows, "columns: session, 32 to each (16 nodes, 32 held)", &cluster_in(COLUMN_WORDS, 16, 32), session(3));
}

/// A delivery of node 0: a log of so many records of n origins at timestamps 1 and up, in order or in reverse, of which the last `due` are above the mark.
fn deliveries(rows: &mut Vec<Row>) {
    for (name, n, held, due, reverse) in [
        ("delivery of none (2 nodes, 4 held)", 2, 4, 0, false),
        ("delivery of none (16 nodes, 32 held)", 16, 32, 0, false),
        ("delivery of 8 in order (2 nodes, 8 held)", 2, 8, 8, false),
        ("delivery of 8 in order (16 nodes, 32 held)", 16, 32, 8, false),
        ("delivery of 64 in order (16 nodes, 64 held)", 16, 64, 64, false),
        ("delivery of 64 in reverse order (16 nodes, 64 held)", 16, 64, 64, true),
    ] {
        let mut table = cluster(n, held);
        let at = |i: u32| if reverse { held - i } else { i + 1 };
        for i in 0..held {
            table.logs[0][i as usize] = Record { origin: i % n, timestamp: at(i), block: i, verdict: 0x20 };
        }
        table.summaries[0][..n as usize].fill(held);
        table.marks[0] = held - due;
        assert_eq!(table.clone().apply(Action::Deliver { node: 0 }).delivered, due);
        let c = |api: Api| {
            let mut list = [0; LIST];
            move |copy: &mut Vec<u32>| delivered(api, copy, &mut list, due)
        };
        on_copies(rows, name, &table, c, move |table| table.deliver(black_box(0), black_box(&mut [0; LIST])).map_or_else(|refusal| refusal, |_| 0));
    }
}

/// A step's line applied to a caller's table.
fn line_applied(rows: &mut Vec<Row>, name: &str, table: &Table, action: Action) {
    let mut line = model::frame(action).unwrap();
    line.pop();
    let given = line.clone();
    let c = |api: Api| {
        let line = line.clone();
        move |copy: &mut Vec<u32>| {
            let (mut x, mut y, mut place) = (0, 0, 0);
            let answer = unsafe { (api.apply_line)(copy.as_mut_ptr(), copy.len(), black_box(line.as_ptr()), line.len(), &mut x, &mut y, &mut place) };
            black_box((x, y, place));
            answer
        }
    };
    on_copies(rows, name, table, c, move |table| model::apply_line(Some(table), black_box(&given))[0]);
}

/// Many lines applied to a fresh table in one call; the time is that of one line.
fn lines_applied(rows: &mut Vec<Row>, name: &str, length: usize, actions: &[Action]) {
    let text: Vec<u8> = actions.iter().flat_map(|action| model::frame(*action).unwrap()).collect();
    let (mut words, mut after, many) = (Vec::new(), Vec::new(), actions.len());
    let mut table = model::fresh(length, 16).unwrap();
    table.to_words(&mut words);
    let said = model::apply_lines(Some(&mut table), &text);
    table.to_words(&mut after);
    assert_eq!([said[0], said[1], said[3]], [0, many as u32, text.len() as u32]);
    let mut samples: Vec<Box<dyn FnMut() -> f64>> = Vec::new();
    for api in apis() {
        let (words, after, text, mut copy) = (words.clone(), after.clone(), text.clone(), words.clone());
        samples.push(Box::new(move || {
            copy.copy_from_slice(&words);
            let (mut applied, mut refused, mut stopped, mut place) = (0, 0, 0, 0);
            let began = Instant::now();
            let number = unsafe { (api.apply_lines)(copy.as_mut_ptr(), copy.len(), black_box(text.as_ptr()), text.len(), &mut applied, &mut refused, &mut stopped, &mut place) };
            let took = began.elapsed().as_nanos() as f64 / many as f64;
            assert_eq!((number, applied, refused as u32, stopped, place), (0, many, said[2], text.len(), 0));
            assert!(copy == after);
            took
        }));
    }
    samples.push(Box::new(move || {
        let mut table = Table::from_words(&words).unwrap();
        let began = Instant::now();
        assert_eq!(model::apply_lines(Some(&mut table), black_box(&text)), said);
        began.elapsed().as_nanos() as f64 / many as f64
    }));
    rows.push(Row { name: name.into(), samples });
}

fn applies(rows: &mut Vec<Row>) {
    for (n, held, which) in [(2, 4, "2 nodes, 4 held"), (16, 32, "16 nodes, 32 held")] {
        let mut table = cluster(n, held);
        for p in 0..n as usize {
            table.summaries[p][..n as usize].fill(held);
        }
        line_applied(rows, &format!("a line applied: write ({which})"), &table, Action::Write { node: 1, timestamp: 99, block: 1, verdict: 0x20 });
        line_applied(rows, &format!("a line applied: session, none carried ({which})"), &table, Action::Session { a: 0, b: 1, ca: 99, cb: 99, outcome: 3 });
        line_applied(rows, &format!("a line applied: purge of none ({which})"), &table, Action::Purge { node: 0 });
        line_applied(rows, &format!("a line applied: delivery of all ({which})"), &table, Action::Deliver { node: 0 });
    }
    let writes: Vec<Action> = (0..1000).map(|i| Action::Write { node: (i % 16) as u8, timestamp: i + 1, block: i, verdict: 0x20 }).collect();
    lines_applied(rows, "a line of many applied: write", WORDS, &writes);
    let none: Vec<Action> = (0..2400).map(|i| Action::Session { a: (i % 16) as u8, b: ((i + 1) % 16) as u8, ca: i, cb: i, outcome: 3 }).collect();
    lines_applied(rows, "a line of many applied: session, none carried", WORDS, &none);
    let purges: Vec<Action> = (0..2400).map(|i| Action::Purge { node: (i % 16) as u8 }).collect();
    lines_applied(rows, "a line of many applied: purge of none", WORDS, &purges);
    let deliveries: Vec<Action> = (0..2400).map(|i| Action::Deliver { node: (i % 16) as u8 }).collect();
    lines_applied(rows, "a line of many applied: delivery of none", WORDS, &deliveries);
    lines_applied(rows, "columns: a line of many applied: write", COLUMN_WORDS, &writes);
    lines_applied(rows, "columns: a line of many applied: session, none carried", COLUMN_WORDS, &none);
    lines_applied(rows, "columns: a line of many applied: purge of none", COLUMN_WORDS, &purges);
}

/// A journal of a start and these steps, with its replay's text checked against the model once.
fn journal(rows: &mut Vec<Row>, name: &str, n: u8, actions: &[Action], per: usize) {
    let mut text = model::start_frame(n);
    actions.iter().for_each(|action| text.extend(model::frame(*action).unwrap()));
    assert!(text.len() <= JOURNAL);
    let printed = model::replay(&text).0;
    let mut samples: Vec<Box<dyn FnMut() -> f64>> = Vec::new();
    for api in apis() {
        let (text, printed) = (text.clone(), printed.clone());
        let (mut table, mut out) = (vec![0u32; WORDS], vec![0u8; TEXT]);
        samples.push(Box::new(move || {
            let began = Instant::now();
            let length = unsafe { (api.replay)(black_box(text.as_ptr()), text.len(), table.as_mut_ptr(), WORDS, out.as_mut_ptr(), out.len()) };
            let took = began.elapsed().as_nanos() as f64 / per as f64;
            assert_eq!(&out[..length as usize], printed.as_bytes());
            took
        }));
    }
    samples.push(Box::new(move || {
        let began = Instant::now();
        let said = model::replay(black_box(&text)).0;
        let took = began.elapsed().as_nanos() as f64 / per as f64;
        assert_eq!(said, printed);
        took
    }));
    rows.push(Row { name: name.into(), samples });
}

fn journals(rows: &mut Vec<Row>) {
    let many = 2400u32;
    let writes: Vec<Action> = (0..many).map(|i| Action::Write { node: (i % 16) as u8, timestamp: i + 1, block: i, verdict: 0x20 }).take(1000).collect();
    journal(rows, "a journal's line and step: write", 16, &writes, writes.len());
    let none: Vec<Action> = (0..many).map(|i| Action::Session { a: (i % 16) as u8, b: ((i + 1) % 16) as u8, ca: i, cb: i, outcome: 3 }).collect();
    journal(rows, "a journal's line and step: session, none carried", 16, &none, none.len());
    let purges: Vec<Action> = (0..many).map(|i| Action::Purge { node: (i % 16) as u8 }).collect();
    journal(rows, "a journal's line and step: purge of none", 16, &purges, purges.len());
    let mut mixed = Vec::new();
    for i in 0..many {
        let (p, t) = ((i % 7) as u8, i + 1);
        mixed.push(match i % 8 {
            0..=2 => Action::Write { node: p, timestamp: t, block: i, verdict: (i % 96) as u8 },
            3..=6 => Action::Session { a: p, b: (p + 1 + (i / 8 % 6) as u8) % 7, ca: t, cb: t, outcome: if i % 24 == 3 { 1 } else { 3 } },
            _ => Action::Purge { node: (i / 8 % 7) as u8 },
        });
    }
    let refused: usize = model::replay(&mixed.iter().fold(model::start_frame(7), |text, action| [text, model::frame(*action).unwrap()].concat()))
        .0
        .lines()
        .next()
        .unwrap()
        .rsplit(' ')
        .next()
        .unwrap()
        .parse()
        .unwrap();
    eprintln!("the full journal: {} steps, {refused} refused", mixed.len());
    journal(rows, "the run of a full journal", 7, &mixed, 1);
    let deliveries: Vec<Action> = (0..many).map(|i| Action::Deliver { node: (i % 16) as u8 }).collect();
    journal(rows, "a journal's line and step: delivery of none", 16, &deliveries, deliveries.len());
    // the same steps, each purge after a delivery at its node, so that records leave and room comes free
    let with: Vec<Action> = mixed.iter().flat_map(|&action| if let Action::Purge { node } = action { vec![Action::Deliver { node }, action] } else { vec![action] }).collect();
    journal(rows, "the run of a full journal with deliveries", 7, &with, 1);
}

/// Records of four words: row i has this origin, this block and this verdict.
fn list(records: u32, row: impl Fn(u32) -> [u32; 3]) -> Vec<u32> {
    (0..records).flat_map(|i| [row(i)[0], i + 1, row(i)[1], row(i)[2]]).collect()
}

/// The count of a list by a C library: the refusal, then scrubbed, touched and the gap.
fn counted(api: Api, words: &[u32]) -> (u32, [u32; 3]) {
    let mut c = [0; 3];
    let [scrubbed, touched, gap] = &mut c;
    let refusal = unsafe { (api.count)(black_box(words.as_ptr()), words.len(), scrubbed, touched, gap) };
    (refusal, c)
}

fn counts(rows: &mut Vec<Row>) {
    // blocks as a scrubber reads them, one after another, at all 16 origins, each touched
    let different = |i: u32| [i % 16, 70_000 + i, 0x20];
    let lists: [(&str, Vec<u32>); 7] = [
        ("4 records", (0..16).map(|i| (i * 37) % 256).collect()),
        ("64 records", (0..256).map(|i| (i * 37) % 256).collect()),
        ("4 different blocks", list(4, different)),
        ("16 different blocks", list(16, different)),
        ("64 different blocks", list(64, different)),
        ("16 blocks four times", list(64, |i| [3, 70_000 + i % 16, if i < 32 { 0x10 } else { 0x20 }])),
        ("one block 64 times", list(64, |_| [3, 70_000, 0x20])),
    ];
    for (name, words) in lists {
        let should = (0, model::count(&words).unwrap());
        apis().into_iter().for_each(|api| assert_eq!(counted(api, &words), should, "{name}"));
        let c = |api: Api| {
            let words = words.clone();
            move |_: usize| seen(counted(api, &words))
        };
        let rust = words.clone();
        rows.push(row(&format!("the verdict count, {name}"), 2000, c, move |_| seen(model::count(black_box(&rust)))));
    }
    node_counts(rows);
    counts_before(rows, list(64, different));
}

/// The count of node 0's log, all of its blocks different, and the scan of the whole table before it.
fn node_counts(rows: &mut Vec<Row>) {
    for (n, held, which) in [(2, 4, "2 nodes, 4 held"), (16, 64, "16 nodes, 64 held")] {
        let mut table = cluster(n, held);
        table.logs[0].iter_mut().take(held as usize).for_each(|r| r.verdict = 0x20);
        let mut words = Vec::new();
        table.to_words(&mut words);
        let c = |api: Api| {
            let words = words.clone();
            move |_: usize| {
                let mut c = [0; 3];
                let [scrubbed, touched, gap] = &mut c;
                let refusal = unsafe { (api.count_node)(black_box(words.as_ptr()), words.len(), black_box(0), scrubbed, touched, gap) };
                assert_eq!((refusal, c), (0, [held, held, 0]));
            }
        };
        let rust = words.clone();
        let log = move |_: usize| {
            let table = Table::from_words(black_box(&rust)).unwrap();
            assert!(table.sound());
            let log: Vec<u32> = table.log(0).iter().flat_map(|r| [r.origin, r.timestamp, r.block, r.verdict]).collect();
            seen(model::count(&log));
        };
        rows.push(row(&format!("the verdict count of a node's log ({which})"), 500, c, log));
    }
}

/// The count by the rule before T-05, which only plain C still has: what the different blocks cost beside a count of records.
fn counts_before(rows: &mut Vec<Row>, words: Vec<u32>) {
    extern "C" {
        fn plain_count_before(w: *const u32, n: usize, s: *mut u32, t: *mut u32) -> u32;
        fn clang_count_before(w: *const u32, n: usize, s: *mut u32, t: *mut u32) -> u32;
    }
    let before = |count: CountBefore| {
        let words = words.clone();
        sample(
            2000,
            || (),
            move |_| {
                let (mut scrubbed, mut touched) = (0, 0);
                seen(unsafe { count(black_box(words.as_ptr()), words.len(), &mut scrubbed, &mut touched) });
                black_box((scrubbed, touched));
            },
        )
    };
    rows.push(Row { name: "the count of records before T-05, 64 records".into(), samples: vec![before(plain_count_before), before(clang_count_before)] });
}

/// The median and the spread (the distance of the quartiles, as a share of the median).
fn middle(mut samples: Vec<f64>) -> (f64, f64) {
    samples.sort_by(f64::total_cmp);
    let at = |share: usize| samples[samples.len() * share / 4];
    (at(2), (at(3) - at(1)) / at(2) * 100.0)
}

fn main() {
    let mut rows = Vec::new();
    lines(&mut rows);
    frames(&mut rows);
    steps(&mut rows);
    column_steps(&mut rows);
    deliveries(&mut rows);
    applies(&mut rows);
    journals(&mut rows);
    counts(&mut rows);
    // a row is known by its name, from one request to the next: a name is never given twice, nor to another case
    let names: std::collections::BTreeSet<&str> = rows.iter().map(|row| row.name.as_str()).collect();
    assert_eq!(names.len(), rows.len(), "two rows with one name");
    // words on the command line choose the rows whose name has one of them
    let chosen: Vec<String> = std::env::args().skip(1).collect();
    rows.retain(|row| chosen.is_empty() || chosen.iter().any(|word| row.name.contains(word)));
    println!("| ns for one | {} | ratio | spread |", COLUMNS.join(" | "));
    println!("|---|{}---:|---:|", "---:|".repeat(COLUMNS.len()));
    let (mut below, mut compared) = (Vec::new(), 0);
    for row in &mut rows {
        let columns = row.samples.len();
        let mut samples = vec![Vec::new(); columns];
        for sample in &mut row.samples {
            sample();
        }
        for round in 0..ROUNDS {
            for turn in 0..columns {
                let column = (round + turn) % columns;
                samples[column].push((row.samples[column])());
            }
        }
        let middles: Vec<(f64, f64)> = samples.into_iter().map(middle).collect();
        if columns < COLUMNS.len() {
            println!("| {} | | {:.1} | {:.1} | | | {:.0} % |", row.name, middles[0].0, middles[1].0, middles[0].1.max(middles[1].1));
            continue;
        }
        compared += 1;
        let better = middles[1..].iter().map(|m| m.0).fold(f64::INFINITY, f64::min);
        let ratio = better / middles[0].0;
        let times: Vec<String> = middles.iter().map(|m| format!("{:.1}", m.0)).collect();
        let widest = middles.iter().map(|m| m.1).fold(0.0, f64::max);
        println!("| {} | {} | {ratio:.2} | {widest:.0} % |", row.name, times.join(" | "));
        if ratio < 1.0 {
            below.push(format!("{} {ratio:.2}", row.name));
        }
    }
    println!("\nratio: the better of the others to the library; above 1 the library is the faster.");
    println!("{} of {compared} rows below 1.0{}", below.len(), if below.is_empty() { String::new() } else { format!(": {}", below.join("; ")) });
}
