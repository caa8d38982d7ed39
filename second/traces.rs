//! Writes traces for the replay into a folder. The same call always writes the
//! same bytes: all that looks random comes from fixed seeds.
//!
//!     traces FOLDER            the traces for comparing listings
//!     traces --bench FOLDER    a few long traces for measuring time
//!
//! Build: rustc --edition 2021 -O -o traces traces.rs
//!
//! The generator knows the trace format and nothing else: it never computes
//! what a call answers.
//!
//! File names begin with a number; the hundreds tell what a trace is about:
//!   0 whole traces and the examples of docs/    5 splitting and flushing
//!   1, 2 bad records                            6 reservations
//!   3 refused calls, sizes of the machine       7 random calls
//!   4 superpages arise                          8 damaged traces
//!                                               9 long traces

use std::fs;
use std::path::{Path, PathBuf};

fn main() {
    let arguments: Vec<String> = std::env::args().skip(1).collect();
    let arguments: Vec<&str> = arguments.iter().map(String::as_str).collect();
    match arguments[..] {
        ["--bench", folder] => write_bench_traces(&mut Folder::make(folder)),
        [folder] if !folder.starts_with('-') => write_traces(&mut Folder::make(folder)),
        _ => {
            eprintln!("usage: traces [--bench] FOLDER");
            std::process::exit(2);
        }
    }
}

fn write_traces(folder: &mut Folder) {
    whole_traces(folder);
    examples_of_the_docs(folder);
    length_edges(folder);
    unknown_kinds(folder);
    wrong_lengths(folder);
    cut_records(folder);
    misplaced_machines(folder);
    refused_calls(folder);
    refused_machines(folder);
    machine_sizes(folder);
    promotions(folder);
    promotions_by_chance(folder);
    demotions(folder);
    flushes(folder);
    breaking(folder);
    full_reservation_table(folder);
    releases_and_reservations(folder);
    odd_sizes(folder);
    random_calls(folder);
    damaged_traces(folder);
    long_traces(folder);
}

// ---------------------------------------------------------------------------
// Tools

struct Folder {
    path: PathBuf,
    next_number: usize,
}

impl Folder {
    fn make(path: &str) -> Folder {
        fs::create_dir_all(path).expect("the folder can be made");
        Folder { path: Path::new(path).to_path_buf(), next_number: 0 }
    }

    /// Numbers go on from here.
    fn section(&mut self, number: usize) {
        assert!(self.next_number <= number, "section {number} begins inside another");
        self.next_number = number;
    }

    fn add(&mut self, name: &str, trace: &Trace) {
        let file = self.path.join(format!("{:03}-{name}.trace", self.next_number));
        fs::write(file, &trace.bytes).expect("the trace can be written");
        self.next_number += 1;
    }
}

/// xorshift64*
struct Random {
    state: u64,
}

impl Random {
    fn of_seed(seed: u64) -> Random {
        // The state must not be 0; the factor spreads small seeds.
        let mut random = Random { state: (seed + 1).wrapping_mul(0x9E37_79B9_7F4A_7C15) };
        random.next();
        random
    }

    fn next(&mut self) -> u64 {
        self.state ^= self.state >> 12;
        self.state ^= self.state << 25;
        self.state ^= self.state >> 27;
        self.state.wrapping_mul(0x2545_F491_4F6C_DD1D) >> 32
    }

    fn below(&mut self, bound: usize) -> usize {
        self.next() as usize % bound
    }

    fn percent(&mut self, percent: usize) -> bool {
        self.below(100) < percent
    }

    fn pick<T: Copy>(&mut self, choices: &[T]) -> T {
        choices[self.below(choices.len())]
    }

    fn shuffle<T>(&mut self, items: &mut [T]) {
        for unplaced in (1..items.len()).rev() {
            items.swap(unplaced, self.below(unplaced + 1));
        }
    }
}

#[derive(Clone, Copy, PartialEq, Eq)]
enum Board {
    Alpha,
    Sv39,
}

impl Board {
    fn number(self) -> u8 {
        match self {
            Board::Alpha => 1,
            Board::Sv39 => 2,
        }
    }

    fn name(self) -> &'static str {
        match self {
            Board::Alpha => "alpha",
            Board::Sv39 => "sv39",
        }
    }
}

use Board::{Alpha, Sv39};

/// The boards with their orders above 0.
const SUPERPAGES: [(Board, u16); 4] = [(Alpha, 3), (Alpha, 6), (Alpha, 9), (Sv39, 9)];

#[derive(Clone)]
struct Trace {
    bytes: Vec<u8>,
}

impl Trace {
    fn of_bytes(bytes: &[u8]) -> Trace {
        Trace { bytes: bytes.to_vec() }
    }

    fn without_records() -> Trace {
        Trace::of_bytes(&[1])
    }

    fn on(board: Board, frames: u16, quota: u16) -> Trace {
        let mut trace = Trace::without_records();
        trace.machine(board.number(), frames, quota);
        trace
    }

    /// A trace with Q = N whose objects 0, 1, … are opened with these sizes.
    fn with_objects(board: Board, frames: u16, sizes: &[u16]) -> Trace {
        let mut trace = Trace::on(board, frames, frames);
        trace.open_all(sizes);
        trace
    }

    fn raw(&mut self, bytes: &[u8]) -> &mut Trace {
        self.bytes.extend(bytes);
        self
    }

    /// A record of kind and fields, with its right length byte.
    fn record(&mut self, kind_and_fields: &[u8]) -> &mut Trace {
        self.bytes.push(kind_and_fields.len() as u8);
        self.raw(kind_and_fields)
    }

    fn machine(&mut self, hardware: u8, frames: u16, quota: u16) -> &mut Trace {
        let ([n1, n0], [q1, q0]) = (frames.to_be_bytes(), quota.to_be_bytes());
        self.record(&[b'M', hardware, n1, n0, q1, q0])
    }

    fn open(&mut self, object: u8, size: u16) -> &mut Trace {
        let [s1, s0] = size.to_be_bytes();
        self.record(&[b'O', object, s1, s0])
    }

    fn open_all(&mut self, sizes: &[u16]) {
        for (object, &size) in sizes.iter().enumerate() {
            self.open(object as u8, size);
        }
    }

    fn load(&mut self, object: u8, page: u16) -> &mut Trace {
        self.load_word(object, page, 0)
    }

    fn load_word(&mut self, object: u8, page: u16, word: u16) -> &mut Trace {
        let ([p1, p0], [w1, w0]) = (page.to_be_bytes(), word.to_be_bytes());
        self.record(&[b'L', object, p1, p0, w1, w0])
    }

    fn store(&mut self, object: u8, page: u16, value: u32) -> &mut Trace {
        self.store_word(object, page, 0, value)
    }

    fn store_word(&mut self, object: u8, page: u16, word: u16, value: u32) -> &mut Trace {
        let ([p1, p0], [w1, w0]) = (page.to_be_bytes(), word.to_be_bytes());
        let [v3, v2, v1, v0] = value.to_be_bytes();
        self.record(&[b'S', object, p1, p0, w1, w0, v3, v2, v1, v0])
    }

    fn release(&mut self, object: u8, page: u16) -> &mut Trace {
        let [p1, p0] = page.to_be_bytes();
        self.record(&[b'R', object, p1, p0])
    }

    fn flush(&mut self, object: u8) -> &mut Trace {
        self.record(&[b'F', object])
    }

    fn load_all(&mut self, object: u8, pages: impl IntoIterator<Item = u16>) -> &mut Trace {
        for page in pages {
            self.load(object, page);
        }
        self
    }

    /// Stores a value into each page that tells the page.
    fn store_all(&mut self, object: u8, pages: impl IntoIterator<Item = u16>) -> &mut Trace {
        for page in pages {
            self.store(object, page, u32::from(page) * 1_000_003);
        }
        self
    }

    fn release_all(&mut self, object: u8, pages: impl IntoIterator<Item = u16>) -> &mut Trace {
        for page in pages {
            self.release(object, page);
        }
        self
    }
}

#[derive(Clone, Copy)]
enum Sequence {
    Rising,
    Falling,
    Shuffled,
}

const SEQUENCES: [(Sequence, &str); 3] = [
    (Sequence::Rising, "rising"),
    (Sequence::Falling, "falling"),
    (Sequence::Shuffled, "shuffled"),
];

impl Sequence {
    fn of(self, pages: std::ops::Range<u16>, random: &mut Random) -> Vec<u16> {
        let mut pages: Vec<u16> = pages.collect();
        match self {
            Sequence::Rising => {}
            Sequence::Falling => pages.reverse(),
            Sequence::Shuffled => random.shuffle(&mut pages),
        }
        pages
    }
}

// ---------------------------------------------------------------------------
// 0: whole traces

fn worked_example() -> Trace {
    let mut trace = Trace::on(Alpha, 16, 9);
    trace.open(0, 20).load(0, 9).store(0, 19, 5).load(0, 17).flush(0);
    trace
}

fn whole_traces(folder: &mut Folder) {
    folder.section(10);
    folder.add("worked-example", &worked_example());
    folder.add("version-only", &Trace::without_records());
    folder.add("empty", &Trace::of_bytes(&[]));
    folder.add("version-0", &Trace::of_bytes(&[0]));
    folder.add("version-2", &Trace::of_bytes(&[2]));
    folder.add("version-255", &Trace::of_bytes(&[255]));
    for (version, name) in [(0, "version-0-then-good"), (2, "version-2-then-good")] {
        let mut trace = worked_example();
        trace.bytes[0] = version;
        folder.add(name, &trace);
    }
    folder.add("no-version-byte", &Trace::of_bytes(&worked_example().bytes[1..]));
    folder.add("machine-only", &Trace::on(Alpha, 16, 9));
    folder.add("machine-only-sv39", &Trace::on(Sv39, 16, 9));
}

fn examples_of_the_docs(folder: &mut Folder) {
    folder.section(30);

    let mut refused = Trace::on(Sv39, 4, 4);
    refused.open(4, 1).open(0, 0).open(0, 1_025).open(0, 2).open(0, 2);
    refused.load(1, 0).load(0, 2).load_word(0, 1, 1).release(0, 1).flush(0);
    refused.store(0, 1, u32::MAX).load(0, 1).release(0, 1).load(0, 1);
    folder.add("mostly-refused", &refused);

    let mut eight_pages = Trace::with_objects(Alpha, 16, &[8]);
    eight_pages.load_all(0, 0..8).store(0, 2, 9).load(0, 0).flush(0).load(0, 2);
    eight_pages.release(0, 3).load(0, 0).load(0, 3);
    folder.add("eight-pages", &eight_pages);

    let mut choice = Trace::with_objects(Alpha, 128, &[80]);
    choice.load(0, 70).load(0, 5);
    folder.add("choice-of-size", &choice);

    let mut age = Trace::with_objects(Alpha, 16, &[16, 1]);
    age.load(0, 0).load(0, 8).load(0, 1).load(1, 0).load(0, 9).release(0, 0).release(0, 1);
    folder.add("age-and-breaking", &age);

    let mut quota_0 = Trace::on(Alpha, 16, 0);
    quota_0.open(0, 20).load(0, 0);
    folder.add("quota-0", &quota_0);

    let mut one_frame = Trace::on(Alpha, 1, 2);
    one_frame.open(0, 2).load(0, 0).load(0, 1);
    folder.add("one-frame", &one_frame);

    // The store into one page of an order 6 leaf, with a look at every page.
    let mut split = Trace::with_objects(Alpha, 64, &[64]);
    split.load_all(0, 0..64).store(0, 20, 1).load_all(0, 0..64).flush(0).load_all(0, 0..64);
    folder.add("split-of-order-6", &split);
}

/// The longest trace there may be, and one byte more. Nearly all records are
/// stores into an object that does not exist: many bytes, short lines.
fn length_edges(folder: &mut Folder) {
    folder.section(50);
    let filled = |stores: usize, releases: usize| {
        let mut trace = Trace::on(Sv39, 1, 1);
        trace.open(0, 2).store(0, 0, 77);
        for _ in 0..stores {
            trace.store(4, 0, 0);
        }
        for _ in 0..releases {
            trace.release(1, 0);
        }
        // The last record is refused with 11, so that its place is told.
        trace.load(0, 1);
        trace
    };
    let longest = filled(5_954, 2);
    assert_eq!(longest.bytes.len(), 65_535);
    folder.add("65535-bytes", &longest);
    let too_long = filled(5_955, 0);
    assert_eq!(too_long.bytes.len(), 65_536);
    folder.add("65536-bytes", &too_long);
}

// ---------------------------------------------------------------------------
// 1, 2: bad records

/// Some good records to stand before a bad one.
fn good_records() -> Trace {
    let mut trace = Trace::on(Alpha, 16, 12);
    trace.open(0, 10).load(0, 3).store(0, 9, 6).flush(0).load(0, 4);
    trace
}

/// The same bad bytes at the start and after good records. Good records follow,
/// which must not be read any more.
fn add_bad(folder: &mut Folder, name: &str, bad: &[u8]) {
    let mut first = Trace::without_records();
    first.raw(bad).machine(1, 16, 12).open(1, 5);
    folder.add(&format!("{name}-first"), &first);
    let mut later = good_records();
    later.raw(bad).load(0, 5).release(0, 3);
    folder.add(&format!("{name}-later"), &later);
}

fn unknown_kinds(folder: &mut Folder) {
    folder.section(100);
    add_bad(folder, "kind-close", &[2, b'C', 0]);
    add_bad(folder, "kind-close-of-object-4", &[2, b'C', 4]);
    add_bad(folder, "kind-close-too-long", &[3, b'C', 0, 0]);
    add_bad(folder, "kind-x", &[4, b'X', 0, 0, 1]);
    add_bad(folder, "kind-t", &[2, b'T', 0]);
    add_bad(folder, "kind-p", &[6, b'P', 0, 0, 0, 0, 0]);
    add_bad(folder, "kind-zero", &[2, 0, 0]);
    add_bad(folder, "kind-255", &[2, 255, 0]);
    add_bad(folder, "kind-with-high-bit", &[2, b'F' | 0x80, 0]);
    add_bad(folder, "lower-case-m", &[6, b'm', 1, 0, 16, 0, 12]);
    for (name, body) in [
        ("lower-case-o", &[b'o', 1, 0, 5][..]),
        ("lower-case-l", &[b'l', 0, 0, 5, 0, 0]),
        ("lower-case-s", &[b's', 0, 0, 5, 0, 0, 0, 0, 0, 1]),
        ("lower-case-r", &[b'r', 0, 0, 3]),
        ("lower-case-f", &[b'f', 0]),
    ] {
        let mut trace = good_records();
        trace.record(body).load(0, 5);
        folder.add(name, &trace);
    }
}

/// A good record of each kind but M: kind and fields.
const GOOD_BODIES: [(&str, &[u8]); 5] = [
    ("open", &[b'O', 1, 0, 5]),
    ("load", &[b'L', 0, 0, 5, 0, 0]),
    ("store", &[b'S', 0, 0, 5, 0, 0, 0, 0, 0, 1]),
    ("release", &[b'R', 0, 0, 3]),
    ("flush", &[b'F', 0]),
];

const GOOD_MACHINE: [u8; 6] = [b'M', 1, 0, 16, 0, 12];

fn wrong_lengths(folder: &mut Folder) {
    folder.section(130);
    add_bad(folder, "length-0", &[0]);
    add_bad(folder, "length-0-with-kind", &[0, b'F', 0]);
    add_bad(folder, "length-1-flush", &[1, b'F']);
    add_bad(folder, "length-1-unknown", &[1, b'Z']);
    add_bad(folder, "length-255", &[255, b'L', 0, 0, 5, 0, 0]);

    let mut short_machine = Trace::without_records();
    short_machine.record(&GOOD_MACHINE[..5]).open(0, 5);
    folder.add("machine-one-less", &short_machine);
    let mut long_machine = Trace::without_records();
    long_machine.record(&[b'M', 1, 0, 16, 0, 12, 0]).open(0, 5);
    folder.add("machine-one-more", &long_machine);

    for (name, body) in GOOD_BODIES {
        let mut one_less = good_records();
        one_less.record(&body[..body.len() - 1]).flush(0);
        folder.add(&format!("{name}-one-less"), &one_less);
        let mut one_more = good_records();
        one_more.record(&[body, &[0]].concat()).flush(0);
        folder.add(&format!("{name}-one-more"), &one_more);
        // Only the length byte is wrong; the bytes are those of a good record.
        let mut one_more_said = good_records();
        one_more_said.raw(&[body.len() as u8 + 1]).raw(body).flush(0);
        folder.add(&format!("{name}-one-more-said"), &one_more_said);
    }

    // The length of another kind.
    let mut as_load = good_records();
    as_load.record(&[b'S', 0, 0, 5, 0, 0]).flush(0);
    folder.add("store-with-length-of-load", &as_load);
    let mut as_open = Trace::without_records();
    as_open.record(&[b'M', 1, 0, 16]).open(0, 5);
    folder.add("machine-with-length-of-open", &as_open);
}

fn cut_records(folder: &mut Folder) {
    folder.section(170);
    for cut in 1..=GOOD_MACHINE.len() {
        let mut trace = Trace::without_records();
        trace.record(&GOOD_MACHINE);
        trace.bytes.truncate(1 + cut);
        folder.add(&format!("machine-cut-after-{cut}"), &trace);
    }
    for (name, body) in GOOD_BODIES {
        let mut cuts = vec![1, 2, 1 + body.len() / 2, body.len()];
        cuts.dedup();
        for cut in cuts {
            let mut trace = good_records();
            let whole_length = trace.bytes.len();
            trace.record(body);
            trace.bytes.truncate(whole_length + cut);
            folder.add(&format!("{name}-cut-after-{cut}"), &trace);
        }
    }
    for length in [0, 1, 2, 3, 255] {
        let mut after_good = good_records();
        after_good.raw(&[length]);
        folder.add(&format!("lone-length-{length}"), &after_good);
    }
    folder.add("lone-length-6-first", &Trace::of_bytes(&[1, 6]));
    folder.add("lone-length-0-first", &Trace::of_bytes(&[1, 0]));
}

fn misplaced_machines(folder: &mut Folder) {
    folder.section(210);
    for (name, body) in GOOD_BODIES {
        let mut trace = Trace::without_records();
        trace.record(body).machine(1, 16, 12).open(0, 5);
        folder.add(&format!("first-record-{name}"), &trace);
    }
    let mut second = Trace::on(Alpha, 16, 9);
    second.machine(1, 16, 9).open(0, 5);
    folder.add("machine-second", &second);
    let mut later = good_records();
    later.machine(2, 16, 9).load(0, 5);
    folder.add("machine-later", &later);
    let mut later_refused = good_records();
    later_refused.machine(1, 0, 9).load(0, 5);
    folder.add("machine-later-with-n-0", &later_refused);

    for hardware in [0, 3, 255] {
        let mut trace = Trace::without_records();
        trace.machine(hardware, 16, 9).open(0, 5);
        folder.add(&format!("hardware-{hardware}"), &trace);
    }
    let mut no_frames = Trace::without_records();
    no_frames.machine(3, 0, 9).open(0, 5);
    folder.add("hardware-3-with-n-0", &no_frames);
    let mut great_quota = Trace::without_records();
    great_quota.machine(0, 16, 2_049);
    folder.add("hardware-0-with-q-2049", &great_quota);
}

// ---------------------------------------------------------------------------
// 3: refused calls and machines

fn refused_calls(folder: &mut Folder) {
    folder.section(300);

    let mut no_object = Trace::with_objects(Alpha, 16, &[8]);
    for object in [4, 5, 128, 255] {
        no_object.open(object, 1).open(object, 0).load(object, 0).load_word(object, 9, 9);
        no_object.store(object, 0, 1).release(object, 0).flush(object);
    }
    no_object.load(0, 0);
    folder.add("3-no-such-object", &no_object);

    let mut bad_size = Trace::on(Alpha, 16, 16);
    bad_size.open(0, 0).open(1, 1_025).open(2, 65_535).open(3, 1_024).open(2, 1);
    // On an object that is open already 4 still counts before 5.
    bad_size.open(3, 0).open(3, 1_025).open(3, 1_024).load(3, 1_023).load(2, 0);
    folder.add("4-bad-size", &bad_size);

    let mut open_twice = Trace::with_objects(Sv39, 16, &[8, 3]);
    open_twice.open(0, 8).open(0, 9).store(0, 7, 1).open(0, 4).load(0, 7).open(1, 3).load(1, 3);
    folder.add("5-open-twice", &open_twice);

    let mut closed = Trace::on(Alpha, 16, 16);
    closed.open(2, 4);
    for object in [0, 1, 3] {
        closed.load(object, 0).load_word(object, 2_000, 1).store(object, 0, 1);
        closed.release(object, 0).flush(object);
    }
    closed.open(0, 1).load(0, 0).load(2, 0);
    folder.add("6-not-open", &closed);

    let mut no_page = Trace::with_objects(Alpha, 64, &[8, 1_024, 1]);
    for (object, size) in [(0, 8), (1, 1_024), (2, 1)] {
        for page in [size, size + 1, 2_048, 65_535] {
            no_page.load(object, page).load_word(object, page, 1);
            no_page.store(object, page, 5).release(object, page);
        }
        no_page.load(object, size - 1);
    }
    folder.add("7-no-such-page", &no_page);

    let mut no_word = Trace::with_objects(Sv39, 1, &[2]);
    for word in [1, 2, 255, 256, 65_535] {
        no_word.load_word(0, 0, word).store_word(0, 0, word, 3);
    }
    // Word 1 of an absent page with the limit reached is 8, word 0 is 11.
    no_word.store(0, 0, 3).load_word(0, 1, 1).store_word(0, 1, 1, 3).load(0, 1);
    no_word.load_word(0, 0, 1).load(0, 0).flush(0);
    folder.add("8-no-such-word", &no_word);

    let mut absent = Trace::with_objects(Alpha, 16, &[8, 3]);
    absent.release(0, 0).load(0, 1).release(0, 0).release(0, 7).release(0, 1).release(0, 1);
    absent.store(1, 2, 4).release(1, 1).release(1, 2).release(1, 2).release(0, 8).flush(1);
    folder.add("9-page-absent", &absent);

    no_frame(folder);
    precedence(folder);
}

/// 11 with both depths, and what goes on working after it.
fn no_frame(folder: &mut Folder) {
    for (name, frames, quota) in [
        ("11-depth-0-quota-exhausted", 16, 3),
        ("11-depth-1-buddy-exhausted", 3, 16),
        ("11-depth-0-both-exhausted", 3, 3),
    ] {
        for board in [Alpha, Sv39] {
            let mut trace = Trace::on(board, frames, quota);
            trace.open(0, 6).open(1, 20).load(0, 0).store(0, 5, 8).load(1, 10);
            trace.load(0, 1).store(0, 1, 2).load(1, 0).store(1, 19, 2);
            // Present pages go on; a release makes room for one page again.
            trace.load(0, 5).store(1, 10, 1).release(0, 0).store(1, 19, 7).load(0, 0).flush(1);
            trace.load(1, 19).flush(0).release(0, 0);
            folder.add(&format!("{name}-{}", board.name()), &trace);
        }
    }
    // A place that needs all its digits.
    let mut far = Trace::on(Alpha, 2, 1);
    far.open(0, 3).store(0, 0, 1);
    for _ in 0..150 {
        far.load(0, 0);
    }
    far.load(0, 1).store(0, 2, 1);
    folder.add("11-far-place", &far);
}

/// Each pair of refusals that can hold at once.
fn precedence(folder: &mut Folder) {
    let mut trace = Trace::on(Alpha, 1, 1);
    trace.open(0, 2).load(0, 0);
    trace.open(9, 0).open(9, 1_025).open(0, 0).open(0, 1_025).open(0, 2);
    trace.load_word(9, 5, 5).load_word(1, 5, 5).load_word(0, 5, 5).load_word(0, 1, 5).load(0, 1);
    trace.store_word(9, 5, 5, 1).store_word(1, 5, 5, 1).store_word(0, 5, 5, 1);
    trace.store_word(0, 1, 5, 1).store(0, 1, 1);
    trace.release(9, 5).release(1, 5).release(0, 5).release(0, 1).flush(9).flush(1).flush(0);
    folder.add("precedence", &trace);
}

fn refused_machines(folder: &mut Folder) {
    folder.section(330);
    for (name, frames, quota) in [
        ("n-0", 0, 9),
        ("n-0-q-0", 0, 0),
        ("n-2049", 2_049, 9),
        ("n-65535", 65_535, 9),
        ("q-2049", 16, 2_049),
        ("q-65535", 16, 65_535),
        ("both-65535", 65_535, 65_535),
    ] {
        for board in [Alpha, Sv39] {
            let mut trace = Trace::on(board, frames, quota);
            trace.open(0, 3).load(0, 0);
            folder.add(&format!("14-{name}-{}", board.name()), &trace);
        }
    }
    let mut bad_behind = Trace::on(Alpha, 0, 9);
    bad_behind.raw(&[0, 200, 3]);
    folder.add("14-then-bad-record", &bad_behind);
    folder.add("14-alone", &Trace::on(Sv39, 2_049, 2_049));
}

/// N and Q at their edges, with the same few calls on each machine.
fn machine_sizes(folder: &mut Folder) {
    folder.section(350);
    let sizes = [
        (1, 0),
        (1, 1),
        (1, 2),
        (1, 2_048),
        (2, 2),
        (5, 5),
        (7, 8),
        (8, 7),
        (8, 8),
        (9, 2_048),
        (16, 15),
        (16, 17),
        (64, 63),
        (511, 2_048),
        (512, 511),
        (512, 512),
        (513, 513),
        (2_047, 2_048),
        (2_048, 0),
        (2_048, 1),
        (2_048, 8),
        (2_048, 2_047),
        (2_048, 2_048),
    ];
    for (frames, quota) in sizes {
        for board in [Alpha, Sv39] {
            let mut trace = Trace::on(board, frames, quota);
            trace.open(0, 1_024).open(1, 12).open(3, 1).open(2, 1_024);
            trace.load(0, 1_023).load(3, 0).store(1, 8, 1).load(1, 0).load(0, 0).load(2, 700);
            trace.load(2, 100).load(0, 1_022).store(0, 1, 2).load_all(1, 1..8).load(1, 3);
            trace.release(0, 1_023).release(3, 0).load(0, 65).load(2, 701).flush(0).load(3, 0);
            trace.load_all(1, 9..12).release(1, 4).load(1, 3).load(1, 4).load(1, 3).flush(1);
            folder.add(&format!("n-{frames}-q-{quota}-{}", board.name()), &trace);
        }
    }
}

// ---------------------------------------------------------------------------
// 4: superpages arise

/// A machine on which the pages from `length` on, `length` many, of object 2
/// get a reservation that begins neither at frame 0 nor at the page's number.
fn before_promotion(board: Board, length: u16) -> Trace {
    let mut trace = Trace::on(board, 2_048, 2_048);
    trace.open(2, 2 * length).open(0, 4).load(0, 1);
    trace
}

/// A look at pages at the edges of a block's parts.
fn look_at(trace: &mut Trace, object: u8, first: u16, length: u16) {
    for distance in [0, 1, 7, 8, 9, 62, 63, 64, length / 2, length - 8, length - 1] {
        if distance < length {
            trace.load(object, first + distance);
        }
    }
}

fn promotions(folder: &mut Folder) {
    folder.section(400);
    let mut random = Random::of_seed(400);
    for (board, order) in SUPERPAGES {
        let length = 1 << order;
        for (sequence, name) in SEQUENCES {
            let pages = sequence.of(length..2 * length, &mut random);
            let mut loads = before_promotion(board, length);
            loads.load_all(2, pages.iter().copied());
            look_at(&mut loads, 2, length, length);
            folder.add(&format!("{}-order-{order}-loads-{name}", board.name()), &loads);
            let mut stores = before_promotion(board, length);
            stores.store_all(2, pages.iter().copied());
            look_at(&mut stores, 2, length, length);
            folder.add(&format!("{}-order-{order}-stores-{name}", board.name()), &stores);
        }
    }

    // Stored and unstored parts of one block of order 6 join step by step.
    let mut mixed = Trace::with_objects(Alpha, 64, &[64]);
    mixed.store_all(0, 0..8).load_all(0, 8..64);
    look_at(&mut mixed, 0, 0, 64);
    for block in 1..8 {
        mixed.store_all(0, 8 * block..8 * block + 8).load(0, 0).load(0, 8 * block).load(0, 63);
    }
    folder.add("alpha-order-6-stored-in-parts", &mixed);

    // Both halves of an object, in turn.
    let mut two_halves = Trace::with_objects(Alpha, 128, &[128]);
    for page in 0..64 {
        two_halves.load(0, page).load(0, 64 + page);
    }
    two_halves.load(0, 0).load(0, 127);
    folder.add("alpha-two-order-6-in-turn", &two_halves);
}

/// Leaves above order 0 for pages that lie in the right single frames though
/// no reservation was made for them.
fn promotions_by_chance(folder: &mut Folder) {
    folder.section(440);

    // Object 1 holds the low frames while page 7 of object 0 gets frame 7.
    // Then the single frames are such that each page gets its own number.
    let mut order_3 = Trace::with_objects(Alpha, 8, &[8, 7]);
    order_3.load_all(1, 0..7).load(0, 7).release_all(1, 0..7);
    order_3.load_all(0, [6, 4, 5, 0, 1, 2, 3]).load_all(0, 0..8);
    folder.add("alpha-order-3-singles", &order_3);

    // The same with stores but one, which a last store joins.
    let mut order_3_stored = Trace::with_objects(Alpha, 8, &[8, 7]);
    order_3_stored.load_all(1, 0..7).store(0, 7, 1).release_all(1, 0..7);
    order_3_stored.store_all(0, [6, 4, 5, 0]).load(0, 1).store_all(0, [2, 3]).load_all(0, 0..8);
    order_3_stored.store(0, 1, 1).load_all(0, 0..8);
    folder.add("alpha-order-3-singles-stored", &order_3_stored);

    // Pages 0 to 7 in frames 1 to 8. They are consecutive, but the first is no
    // multiple of 8: no superpage. (Of 9 frames the first single one is 8.)
    let mut shifted = Trace::with_objects(Alpha, 9, &[8, 2]);
    shifted.load(1, 0).load(1, 1).load_all(0, 0..7).release(1, 0).load(0, 7).load_all(0, 0..8);
    folder.add("alpha-frames-shifted-by-1", &shifted);

    // Pages 0 to 6 in frames 1 to 7 and page 7 in frame 0: no superpage.
    let mut rotated = Trace::on(Alpha, 16, 8);
    rotated.open(0, 8).open(1, 1).load(1, 0).load_all(0, 0..7).release(1, 0).load(0, 7);
    rotated.load_all(0, 0..8);
    folder.add("alpha-frames-rotated", &rotated);

    // The right frames but for two pages that have changed places.
    let mut swapped = Trace::with_objects(Alpha, 8, &[8, 1]);
    swapped.load_all(0, 0..8).release(0, 2).release(0, 6).load(0, 6).load(0, 2);
    swapped.load_all(0, 0..8);
    folder.add("alpha-frames-swapped", &swapped);

    // Frames that fall while the pages rise: no superpage.
    let mut falling = Trace::with_objects(Alpha, 8, &[8, 7]);
    falling.load_all(1, 0..7).load(0, 0);
    for page in 1..8 {
        falling.release(1, 7 - page).load(0, page);
    }
    falling.load_all(0, 0..8);
    folder.add("alpha-frames-falling", &falling);

    // Object 1 holds frame 0, so the seven other blocks of order 3 get
    // reservations of their own and the last one single frames.
    let mut order_6 = Trace::with_objects(Alpha, 64, &[64, 1]);
    order_6.load(1, 0).load_all(0, 8..64).load_all(0, 1..8).release(1, 0);
    order_6.load(0, 63).load(0, 0);
    look_at(&mut order_6, 0, 0, 64);
    folder.add("alpha-order-6-parts", &order_6);

    let mut order_9 = Trace::with_objects(Alpha, 512, &[512, 1]);
    order_9.load(1, 0).load_all(0, 64..512).load_all(0, 8..64).load_all(0, 1..8).release(1, 0);
    order_9.load(0, 511).load(0, 0);
    look_at(&mut order_9, 0, 0, 512);
    folder.add("alpha-order-9-parts", &order_9);

    // The quota is one short of a reservation, then one frame comes back.
    let mut sv39 = Trace::on(Sv39, 2_048, 512);
    sv39.open(0, 512).open(1, 1).load(1, 0).load_all(0, 1..512).load(0, 0).release(1, 0);
    sv39.load(0, 0);
    look_at(&mut sv39, 0, 0, 512);
    folder.add("sv39-order-9-singles", &sv39);

    // The right frames in the wrong half of the object.
    let mut other_half = Trace::on(Sv39, 2_048, 512);
    other_half.open(0, 1_024).open(1, 1).load(1, 0).load_all(0, 513..1_024).release(1, 0);
    other_half.load(0, 0).load(0, 512).release(0, 0).load(0, 512);
    look_at(&mut other_half, 0, 512, 512);
    folder.add("sv39-order-9-singles-upper-half", &other_half);
}

// ---------------------------------------------------------------------------
// 5: splitting and flushing

fn demotions(folder: &mut Folder) {
    folder.section(500);
    for (board, order) in SUPERPAGES {
        let length: u16 = 1 << order;
        let filled = || {
            let mut trace = before_promotion(board, length);
            trace.load_all(2, length..2 * length);
            trace
        };
        let mut by_store = filled();
        let mut by_release = filled();
        for distance in [0, length / 2 + length / 8 + 1, length - 1] {
            let page = length + distance;
            by_store.store(2, page, 9);
            look_at(&mut by_store, 2, length, length);
            by_store.flush(2).load(2, page);
            look_at(&mut by_store, 2, length, length);
            by_release.release(2, page).load(2, page ^ 1);
            for shift in [8, 64] {
                by_release.load(2, length + (distance + shift) % length);
            }
            by_release.load(2, page).load(2, page ^ 1).load(2, length);
        }
        folder.add(&format!("{}-order-{order}-by-store", board.name()), &by_store);
        folder.add(&format!("{}-order-{order}-by-release", board.name()), &by_release);
        for (name, distance) in [("first", 0), ("middle", length / 2), ("last", length - 1)] {
            let mut release_once = filled();
            release_once.release(2, length + distance);
            let others = (0..length).filter(|&d| d != distance && (order == 3 || d % 37 == 5));
            release_once.load_all(2, others.map(|d| length + d));
            release_once.store(2, length + distance, 4).load(2, length + (distance + 1) % length);
            release_once.flush(2).load(2, length + (distance + 1) % length);
            folder.add(&format!("{}-order-{order}-release-{name}", board.name()), &release_once);
        }
    }

    // A stored leaf is split by a release, and by nothing else than that.
    let mut stored = Trace::with_objects(Alpha, 64, &[64]);
    stored.store_all(0, 0..64).store(0, 5, 1).load(0, 5).release(0, 13).load_all(0, 0..13);
    stored.load(0, 13).load(0, 12).load(0, 63).flush(0).load(0, 0);
    folder.add("alpha-order-6-stored", &stored);
}

fn flushes(folder: &mut Folder) {
    folder.section(540);
    for (board, order) in SUPERPAGES {
        let length: u16 = 1 << order;
        let mut random = Random::of_seed(540 + u64::from(order));
        let mut trace = before_promotion(board, length);
        for page in length..2 * length {
            if random.percent(30) {
                trace.store(2, page, u32::MAX - u32::from(page));
            } else {
                trace.load(2, page);
            }
        }
        look_at(&mut trace, 2, length, length);
        trace.flush(0).load(2, length).flush(2);
        look_at(&mut trace, 2, length, length);
        trace.flush(2).store(2, length, 1).store(2, length, 1).load(2, length + 1).flush(2);
        trace.load(2, length + 1);
        folder.add(&format!("{}-order-{order}-joined-by-flush", board.name()), &trace);
    }

    let mut objects = Trace::with_objects(Sv39, 40, &[10, 10, 10, 10]);
    for object in 0..4 {
        objects.flush(object).store_all(object, [9, 2, 5, u16::from(object)]);
    }
    objects.flush(2).load(2, 9).flush(2).store(2, 9, 0).release(2, 9).load(2, 9).flush(2);
    objects.flush(0).flush(1).flush(3).flush(3).load(3, 3);
    folder.add("flush-of-four-objects", &objects);
}

// ---------------------------------------------------------------------------
// 6: reservations

fn breaking(folder: &mut Folder) {
    folder.section(600);

    // Object 1 has no room for a reservation; each of its pages wants a single
    // frame, and every eighth of them finds none.
    let mut several = Trace::with_objects(Alpha, 32, &[32, 7, 7, 7]);
    several.load_all(0, [0, 8, 16, 24]);
    for object in 1..4 {
        several.load_all(object, 0..7);
    }
    several.load_all(0, 0..32);
    folder.add("break-several", &several);

    for (name, populated) in [
        ("first", &[0][..]),
        ("last", &[7]),
        ("middle", &[3]),
        ("two", &[1, 6]),
        ("comb", &[0, 2, 4, 6]),
        ("one-left", &[0, 1, 2, 4, 5, 6, 7]),
    ] {
        let mut holes = Trace::with_objects(Alpha, 8, &[8, 7]);
        holes.load_all(0, populated.iter().copied()).load_all(1, 0..7).load_all(0, 0..8);
        folder.add(&format!("break-with-holes-{name}"), &holes);
    }

    // Larger reservations with random holes; the single pages of object 1 and
    // new reservations of object 2 show what came back.
    for (board, order, seed) in [(Alpha, 6, 1), (Alpha, 6, 2), (Alpha, 9, 3), (Sv39, 9, 4)] {
        let mut random = Random::of_seed(600 + seed);
        let length: u16 = 1 << order;
        let mut trace = Trace::with_objects(board, length, &[length, 7, 63]);
        for page in 0..length {
            if random.percent(12) {
                trace.load(0, page);
            }
        }
        trace.load_all(1, 0..7);
        for page in 0..63 {
            if page < 8 || page % 3 == 0 {
                trace.load(2, page);
            }
        }
        trace.load_all(0, (0..length).step_by(5)).flush(2);
        folder.add(&format!("break-{}-order-{order}-holes-{seed}", board.name()), &trace);
    }

    ages(folder);
    lesser_sizes(folder);
}

/// What makes a reservation the youngest, and what does not. Reservation 0 is
/// the oldest before the middle call; a single page then breaks the oldest.
fn ages(folder: &mut Folder) {
    type Middle = fn(&mut Trace) -> &mut Trace;
    let middles: [(&str, Middle); 8] = [
        ("nothing", |trace| trace),
        ("load-of-absent", |trace| trace.load(0, 1)),
        ("store-into-absent", |trace| trace.store(0, 1, 1)),
        ("load-of-present", |trace| trace.load(0, 0)),
        ("store-into-present", |trace| trace.store(0, 0, 1)),
        ("flush", |trace| trace.store(0, 0, 1).flush(0)),
        ("release", |trace| trace.load(0, 1).load(0, 9).load(0, 17).release(0, 1)),
        ("refused", |trace| trace.load(0, 24).load_word(0, 1, 1).release(0, 2)),
    ];
    for (name, middle) in middles {
        let mut trace = Trace::with_objects(Alpha, 24, &[24, 3, 7]);
        trace.load_all(0, [0, 8, 16]);
        middle(&mut trace);
        trace.load(1, 0).load_all(0, [2, 10, 18]).load_all(2, 0..7).load_all(0, [3, 11, 19]);
        folder.add(&format!("age-after-{name}"), &trace);
    }

    // Many touches in turn, then all reservations are broken one by one.
    let mut in_turn = Trace::with_objects(Alpha, 64, &[63, 63, 63]);
    in_turn.load_all(0, [0, 8, 16, 24]).load_all(1, [0, 8, 16, 24]);
    in_turn.load(0, 9).load(1, 1).load(0, 25).load(1, 17).load(0, 1).load(0, 2);
    in_turn.load_all(2, 56..63).load_all(0, 56..63).load_all(1, 56..63).load_all(2, 0..40);
    folder.add("age-in-turn", &in_turn);
}

/// The source or the pages do not allow the greatest size.
fn lesser_sizes(folder: &mut Folder) {
    // 512 + 64 + 8 + 1 frames: each load gets the next lesser size.
    let mut by_source = Trace::with_objects(Alpha, 585, &[1_024, 1_024]);
    by_source.load(0, 0).load(0, 512).load(1, 0).load(1, 100).load(1, 600);
    by_source.load(1, 601).load(0, 1).load(0, 513).load(1, 1).load(1, 101);
    folder.add("lesser-size-by-source", &by_source);

    for quota in [7, 8, 63, 64, 71, 72, 511, 512, 575, 576] {
        let mut by_quota = Trace::on(Alpha, 2_048, quota);
        by_quota.open(0, 1_024).open(1, 1_024);
        by_quota.load(0, 600).load(0, 3).load(1, 1_000).load(1, 20).load(1, 21).load(0, 601);
        folder.add(&format!("lesser-size-by-quota-{quota}"), &by_quota);
    }

    // A reservation of order 3 lies in the block of order 6, and both lie in
    // the block of order 9. Object 1 takes the larger free blocks at first.
    let mut by_pages = Trace::with_objects(Alpha, 1_160, &[1_024, 1_024, 64]);
    by_pages.load(1, 0).load(1, 512).load(2, 0).load(0, 100).load(0, 700).load(0, 108);
    by_pages.release(1, 0).release(1, 512).release(2, 0);
    by_pages.load(0, 80).load(0, 0).load(0, 300).load(0, 512).load(0, 764).load(0, 109);
    folder.add("lesser-size-by-pages", &by_pages);
}

/// 64 reservations, and calls that would need a 65th.
fn full_reservation_table(folder: &mut Folder) {
    folder.section(650);

    // Eleven reservations use up all frames. The oldest, of order 9, has a
    // page in each of its blocks of order 6; when object 1 breaks it, neither
    // its pages nor its frames allow anything but order 3 any more.
    let mut trace = Trace::with_objects(Alpha, 1_152, &[1_024, 7, 127, 8]);
    trace.load_all(0, (0..512).step_by(64)).load_all(0, (512..1_024).step_by(64));
    trace.load(2, 0).load_all(2, (64..120).step_by(8)).load(3, 0);
    trace.load(1, 0);
    let free_blocks: Vec<u16> = (0..512).step_by(8).filter(|first| first % 64 != 0).collect();
    let (reserved, spare) = free_blocks.split_at(54);
    for (index, &first) in reserved.iter().enumerate() {
        trace.load(0, first + index as u16 % 8);
    }
    let full_table = trace.clone();

    // The 65th gets a single frame. Once a reservation is full there is room.
    trace.load(0, spare[0] + 2).load(0, spare[0] + 3).load_all(0, 8..16).load(0, spare[1] + 2);
    trace.load_all(0, spare[1]..spare[1] + 8).load(1, 1);
    folder.add("reservation-65", &trace);

    // The same, but room arises by a release.
    let mut by_release = full_table.clone();
    by_release.load(0, spare[0] + 2).release(3, 0).load(0, spare[1] + 2).load(0, spare[1] + 3);
    by_release.load(3, 0).load(3, 1);
    folder.add("reservation-65-after-release", &by_release);

    // Single frames until the oldest reservations are broken.
    let mut broken = full_table.clone();
    for first in (0..512).step_by(64) {
        broken.load_all(0, first + 1..first + 8);
    }
    broken.load_all(1, 1..7).load_all(0, spare[0]..spare[0] + 8).load_all(0, 513..530);
    broken.load_all(0, spare[1]..spare[1] + 8).load_all(2, 0..6).load(3, 7);
    folder.add("reservation-64-then-break", &broken);

    // Random calls around the full table: reservations come and go.
    for seed in [1, 2, 3] {
        let churn = Churn {
            board: Alpha,
            frames: 1_152,
            quota: 1_152,
            sizes: &[1_024, 7, 127, 8],
            run_orders: &[0, 0, 3],
            wrong_percent: 1,
            release_percent: 35,
            length: 5_000,
        };
        let trace = churn.continued(full_table.clone(), 650 + seed);
        folder.add(&format!("reservation-64-then-seed-{seed}"), &trace);
    }
}

fn releases_and_reservations(folder: &mut Folder) {
    folder.section(660);
    for (board, order) in SUPERPAGES {
        let length: u16 = 1 << order;
        // A release that empties a reservation gives the whole block back.
        let mut emptied = Trace::with_objects(board, 2 * length + 1, &[length, length, length, 1]);
        emptied.load(0, 3).load(1, 0).load(2, 0).load(0, 4).release(0, 3).release(0, 4).load(3, 0);
        emptied.load(2, 1).release(3, 0).load(2, 2).release(2, 0).release(2, 1).release(2, 2);
        emptied.load(2, 5).load(0, length - 1);
        folder.add(&format!("{}-order-{order}-release-empties", board.name()), &emptied);
    }
    for (board, order) in SUPERPAGES {
        let length: u16 = 1 << order;
        // A full reservation is gone; its page goes to the source, and another
        // object may get the frame.
        let mut full = Trace::with_objects(board, length, &[length, 2]);
        full.load_all(0, 0..length).load(1, 0).release(0, 5).load(1, 0).load(0, 5);
        full.release(1, 0).load(0, 5).load(0, 6).release(0, 7).release(0, 5).load(0, 7);
        full.load(0, 5).load(0, 6);
        folder.add(&format!("{}-order-{order}-release-of-full", board.name()), &full);
    }

    // Released and brought in again under the same reservation.
    let mut again = Trace::with_objects(Alpha, 16, &[16]);
    again.store(0, 2, 5).load(0, 3).release(0, 2).load(0, 2).release(0, 3).load(0, 5);
    again.load_all(0, 0..8).release(0, 0).load(0, 8).load(0, 0).load(0, 1).flush(0);
    folder.add("release-and-again", &again);

    // All pages of a broken reservation go one by one; the frames then merge.
    let mut after_break = Trace::with_objects(Alpha, 16, &[16, 2]);
    after_break.load_all(0, [0, 3, 5, 8, 12]).load(1, 0).release(0, 3).release(0, 0).release(1, 0);
    after_break.load(1, 1).release(0, 5).release(1, 1).load(0, 2).release(0, 8).load(0, 9);
    folder.add("release-after-break", &after_break);

    // Frames released in an order that merges late.
    let mut merging = Trace::with_objects(Alpha, 16, &[7, 7, 2, 8]);
    merging.load_all(0, 0..7).load_all(1, 0..7).load_all(2, 0..2).load(3, 0);
    for page in [1, 3, 5, 0, 2, 4, 6] {
        merging.release(0, page);
    }
    merging.load(3, 0).release(1, 0).load(3, 1).release(3, 0).release(3, 1).load(3, 6);
    folder.add("release-merges", &merging);
}

fn odd_sizes(folder: &mut Folder) {
    folder.section(680);
    for sizes in [
        [7, 8, 9, 15],
        [17, 63, 64, 65],
        [71, 72, 73, 127],
        [128, 129, 511, 512],
        [513, 519, 520, 575],
        [576, 577, 1_023, 1_024],
    ] {
        for (board, frames) in [(Alpha, 2_048), (Alpha, 300), (Sv39, 2_048), (Sv39, 700)] {
            let mut trace = Trace::with_objects(board, frames, &sizes);
            for (object, &size) in sizes.iter().enumerate() {
                let object = object as u8;
                // The last pages lie in blocks that do not fit.
                trace.load(object, size - 1).load(object, size / 2).load(object, 0);
                trace.load(object, (size - 1) & !7).load(object, (size - 1) & !63);
            }
            for (object, &size) in sizes.iter().enumerate() {
                trace.load_all(object as u8, size - 7..size).store(object as u8, size / 3, 1);
            }
            let name = sizes.map(|size| size.to_string()).join("-");
            folder.add(&format!("sizes-{name}-{}-{frames}", board.name()), &trace);
        }
    }
}

// ---------------------------------------------------------------------------
// 7: random calls

struct Churn {
    board: Board,
    frames: u16,
    quota: u16,
    /// The sizes of objects 0, 1, …
    sizes: &'static [u16],
    /// Runs of neighbouring pages are blocks of these orders.
    run_orders: &'static [u16],
    wrong_percent: usize,
    release_percent: usize,
    /// The trace ends soon after it has this many bytes.
    length: usize,
}

/// A churn under way: the trace so far and the pages it has touched.
struct Churning<'a> {
    churn: &'a Churn,
    random: Random,
    trace: Trace,
    touched: Vec<(u8, u16)>,
}

impl Churn {
    fn trace(&self, seed: u64) -> Trace {
        let mut trace = Trace::on(self.board, self.frames, self.quota);
        trace.open_all(self.sizes);
        self.continued(trace, seed)
    }

    fn continued(&self, trace: Trace, seed: u64) -> Trace {
        let random = Random::of_seed(seed);
        let mut churning = Churning { churn: self, random, trace, touched: Vec::new() };
        while churning.trace.bytes.len() < self.length {
            churning.step();
        }
        churning.trace
    }
}

impl Churning<'_> {
    fn step(&mut self) {
        if self.random.percent(self.churn.wrong_percent) {
            return self.wrong_call();
        }
        if self.random.percent(self.churn.release_percent) {
            return self.release();
        }
        match self.random.below(100) {
            0..=34 => self.touch_run(),
            35..=64 => self.touch_page(),
            65..=94 => self.touch_again(),
            _ => {
                let object = self.object();
                self.trace.flush(object);
            }
        }
    }

    fn object(&mut self) -> u8 {
        self.random.below(self.churn.sizes.len()) as u8
    }

    fn page(&mut self) -> (u8, u16) {
        let object = self.object();
        (object, self.random.below(self.churn.sizes[usize::from(object)].into()) as u16)
    }

    /// The pages of some block, as far as the object has them.
    fn run(&mut self) -> (u8, std::ops::Range<u16>) {
        let (object, page) = self.page();
        let length = 1 << self.random.pick(self.churn.run_orders);
        let first = page - page % length;
        (object, first..self.churn.sizes[usize::from(object)].min(first + length))
    }

    fn touch(&mut self, object: u8, page: u16, store: bool) {
        if store {
            let value = self.random.next() as u32;
            self.trace.store(object, page, value);
        } else {
            self.trace.load(object, page);
        }
        self.touched.push((object, page));
    }

    fn touch_run(&mut self) {
        let (object, pages) = self.run();
        let sequence = self.random.pick(&SEQUENCES).0;
        let pages = sequence.of(pages, &mut self.random);
        let hole_percent = self.random.pick(&[0, 0, 0, 10]);
        let store_percent = self.random.pick(&[0, 0, 0, 20, 100]);
        for page in pages {
            // A run does not make a trace much longer than it was to be.
            if self.trace.bytes.len() >= self.churn.length {
                break;
            }
            if !self.random.percent(hole_percent) {
                let store = self.random.percent(store_percent);
                self.touch(object, page, store);
            }
        }
    }

    fn touch_page(&mut self) {
        let (object, page) = self.page();
        let store = self.random.percent(25);
        self.touch(object, page, store);
    }

    fn touch_again(&mut self) {
        if !self.touched.is_empty() {
            let (object, page) = self.random.pick(&self.touched);
            // Mostly a neighbour, to see how leaves change around the page.
            let neighbour = page ^ self.random.pick(&[0, 1, 1, 7, 8, 64]);
            let store = self.random.percent(10);
            self.touch(object, neighbour, store);
        }
    }

    fn release(&mut self) {
        if self.touched.is_empty() {
            return;
        }
        let index = self.random.below(self.touched.len());
        let (object, page) = self.touched.swap_remove(index);
        if self.random.percent(80) {
            self.trace.release(object, page);
            return;
        }
        // A whole block around it. Most of a larger one would be absent.
        let length = 1 << self.random.pick(self.churn.run_orders).min(6);
        let first = page - page % length;
        let sequence = self.random.pick(&SEQUENCES).0;
        for page in sequence.of(first..first + length, &mut self.random) {
            if self.trace.bytes.len() < self.churn.length {
                self.trace.release(object, page);
            }
        }
    }

    fn wrong_call(&mut self) {
        let (object, page) = self.page();
        let size = self.churn.sizes[usize::from(object)];
        let no_object = self.random.pick(&[4, 5, 255]);
        match self.random.below(11) {
            0 => self.trace.open(object, size),
            1 => self.trace.open(object, self.random.pick(&[0, 1_025, 65_535])),
            2 => self.trace.open(no_object, 1),
            3 => self.trace.load(no_object, page),
            4 => self.trace.store(no_object, page, 1),
            5 => self.trace.load(object, size),
            6 => self.trace.store(object, self.random.pick(&[size, 1_024, 65_535]), 1),
            7 => self.trace.load_word(object, page, 1),
            8 => self.trace.store_word(object, page, 65_535, 1),
            9 => self.trace.release(object, page),
            _ => self.trace.flush(no_object),
        };
    }
}

fn random_calls(folder: &mut Folder) {
    folder.section(710);
    let small = &[0, 3, 3, 3];
    let middle = &[0, 3, 3, 6];
    let large = &[3, 6, 9];
    let churns: [(Board, u16, u16, &'static [u16], &'static [u16], usize); 24] = [
        // Board, N, Q, sizes, orders of runs, length
        (Alpha, 8, 8, &[8, 8], small, 1_500),
        (Alpha, 16, 16, &[16, 9], small, 2_000),
        (Alpha, 16, 13, &[8, 8, 8, 8], small, 2_000),
        (Alpha, 13, 2_048, &[24, 10], small, 2_000),
        (Alpha, 32, 32, &[63, 1, 40], small, 3_000),
        (Alpha, 40, 33, &[20, 20, 20, 20], small, 3_000),
        (Alpha, 64, 64, &[64, 64], middle, 5_000),
        (Alpha, 70, 70, &[80, 8, 17], middle, 5_000),
        (Alpha, 100, 71, &[128, 64, 30, 7], middle, 5_000),
        (Alpha, 128, 2_048, &[128, 127, 64], middle, 6_000),
        (Alpha, 200, 150, &[1_024, 100], middle, 6_000),
        (Alpha, 500, 500, &[200, 200, 200, 200], middle, 6_000),
        (Alpha, 513, 513, &[512, 64], large, 6_000),
        (Alpha, 700, 690, &[1_024, 600, 8, 63], large, 6_000),
        (Alpha, 1_024, 1_024, &[1_024], large, 6_000),
        (Alpha, 2_048, 2_048, &[1_024, 1_024, 1_024, 1_024], middle, 6_000),
        (Alpha, 2_048, 2_048, &[1_023, 511, 63, 7], large, 6_000),
        (Alpha, 2_048, 600, &[1_024, 1_024, 1_024, 1_024], middle, 6_000),
        (Sv39, 16, 16, &[12, 9], small, 2_000),
        (Sv39, 20, 14, &[600, 600], small, 2_000),
        (Sv39, 600, 600, &[512, 100], middle, 6_000),
        (Sv39, 1_024, 1_000, &[1_024, 512], middle, 6_000),
        (Sv39, 2_048, 2_048, &[1_024, 1_024, 1_024, 1_024], middle, 6_000),
        (Sv39, 2_048, 512, &[1_024, 511, 512, 513], middle, 5_000),
    ];
    for (index, (board, frames, quota, sizes, run_orders, length)) in churns.into_iter().enumerate() {
        for (seed, release_percent, wrong_percent) in [(1, 15, 2), (2, 40, 8)] {
            let churn = Churn {
                board,
                frames,
                quota,
                sizes,
                run_orders,
                wrong_percent,
                release_percent,
                length,
            };
            let trace = churn.trace(1_000 * index as u64 + seed);
            folder.add(&format!("{}-n-{frames}-q-{quota}-seed-{seed}", board.name()), &trace);
        }
    }

    // On Sv39 a block must be filled before anything can happen to its leaf.
    folder.section(770);
    for (seed, frames) in [(1, 513), (2, 1_024), (3, 1_025), (4, 2_048)] {
        let mut filled = Trace::with_objects(Sv39, frames, &[512, 30]);
        filled.load_all(0, 0..512);
        let churn = Churn {
            board: Sv39,
            frames,
            quota: frames,
            sizes: &[512, 30],
            run_orders: &[0, 3],
            wrong_percent: 2,
            release_percent: 25,
            length: 6_000,
        };
        let trace = churn.continued(filled, 770 + seed);
        folder.add(&format!("sv39-filled-n-{frames}-seed-{seed}"), &trace);
    }
}

// ---------------------------------------------------------------------------
// 8: damaged traces

fn damaged_traces(folder: &mut Folder) {
    folder.section(800);
    let churned = |board, sizes, seed| {
        let churn = Churn {
            board,
            frames: 48,
            quota: 40,
            sizes,
            run_orders: &[0, 3, 3],
            wrong_percent: 3,
            release_percent: 20,
            length: 1_500,
        };
        churn.trace(seed)
    };
    let wholes = [
        ("worked-example", worked_example()),
        ("alpha-churn", churned(Alpha, &[16, 8, 33], 801)),
        ("sv39-churn", churned(Sv39, &[10, 20, 5], 802)),
        ("alpha-few-objects", churned(Alpha, &[64], 803)),
    ];
    for (name, whole) in wholes {
        let mut random = Random::of_seed(800 + whole.bytes.len() as u64);
        let length = whole.bytes.len();
        for flips in [1, 1, 1, 2, 3, 8] {
            let mut flipped = whole.clone();
            for _ in 0..flips {
                // The machine is spared, else most would end at place 1.
                let at = 8 + random.below(length - 8);
                flipped.bytes[at] ^= 1 << random.below(8);
            }
            folder.add(&format!("{name}-{flips}-flipped"), &flipped);
        }
        for _ in 0..3 {
            let mut cut = whole.clone();
            cut.bytes.truncate(1 + random.below(length - 1));
            folder.add(&format!("{name}-cut-to-{}", cut.bytes.len()), &cut);
        }
        let mut shorter = whole.clone();
        shorter.bytes.remove(8 + random.below(length - 8));
        folder.add(&format!("{name}-byte-missing"), &shorter);
        let mut longer = whole.clone();
        longer.bytes.insert(8 + random.below(length - 8), random.next() as u8);
        folder.add(&format!("{name}-byte-added"), &longer);
    }
    // Every byte of the machine record changed once.
    for at in 0..8 {
        let mut trace = worked_example();
        trace.bytes[at] ^= 0x11;
        folder.add(&format!("worked-example-byte-{at}-changed"), &trace);
    }
}

// ---------------------------------------------------------------------------
// 9: long traces

fn long_traces(folder: &mut Folder) {
    folder.section(900);

    // The longest line there is: a flush of 1,024 pages.
    let mut longest_line = Trace::with_objects(Sv39, 1_024, &[1_024]);
    longest_line.store_all(0, 0..1_024).flush(0).load(0, 0).load(0, 1_023).flush(0);
    folder.add("longest-line", &longest_line);

    for (board, frames, run_orders) in [(Alpha, 1_100, &[3, 6, 6, 9][..]), (Sv39, 1_600, &[3, 6, 9])] {
        let churn = Churn {
            board,
            frames,
            quota: 2_048,
            sizes: &[1_024, 512, 513, 40],
            run_orders,
            wrong_percent: 1,
            release_percent: 30,
            length: 20_000,
        };
        folder.add(&format!("long-{}", board.name()), &churn.trace(900));
    }
}

// ---------------------------------------------------------------------------
// Traces for measuring

const BENCH_LENGTH: usize = 60_000;

fn write_bench_traces(folder: &mut Folder) {
    folder.section(10);
    for board in [Alpha, Sv39] {
        for (sequence, name) in [(Sequence::Rising, "rising"), (Sequence::Shuffled, "shuffled")] {
            folder.add(&format!("{}-fill-{name}", board.name()), &bench_fill(board, sequence));
        }
        folder.add(&format!("{}-store-flush", board.name()), &bench_store_flush(board));
        // Plenty of frames, then so few that reservations break all the time.
        for (frames, name) in [(2_048, "wide"), (600, "tight")] {
            folder.add(&format!("{}-churn-{name}", board.name()), &bench_churn(board, frames));
        }
    }
}

/// Fills the memory and empties it, again and again.
fn bench_fill(board: Board, sequence: Sequence) -> Trace {
    let mut random = Random::of_seed(10);
    let mut trace = Trace::with_objects(board, 2_048, &[1_024, 512, 512]);
    let objects: [(u8, u16); 3] = [(0, 1_024), (1, 512), (2, 512)];
    while trace.bytes.len() < BENCH_LENGTH {
        for (object, size) in objects {
            trace.load_all(object, sequence.of(0..size, &mut random));
        }
        for (object, size) in objects {
            trace.release_all(object, sequence.of(0..size, &mut random));
        }
    }
    cut_near(trace, BENCH_LENGTH)
}

/// Fills the memory, then stores into pages, looks around them and flushes.
fn bench_store_flush(board: Board) -> Trace {
    let mut random = Random::of_seed(20);
    let mut trace = Trace::with_objects(board, 2_048, &[1_024, 1_024]);
    trace.load_all(0, 0..1_024).load_all(1, 0..1_024);
    while trace.bytes.len() < BENCH_LENGTH {
        let object = random.below(2) as u8;
        for _ in 0..16 {
            let page = random.below(1_024) as u16;
            trace.store(object, page, random.next() as u32).load(object, page ^ 1);
        }
        trace.flush(object).load(object, random.below(1_024) as u16);
    }
    cut_near(trace, BENCH_LENGTH)
}

fn bench_churn(board: Board, frames: u16) -> Trace {
    let churn = Churn {
        board,
        frames,
        quota: frames,
        sizes: &[1_024, 1_024, 600, 63],
        run_orders: &[0, 3, 3, 6],
        wrong_percent: 1,
        release_percent: 30,
        length: BENCH_LENGTH,
    };
    churn.trace(30)
}

/// Drops the last records, so that no more than `length` bytes remain.
fn cut_near(trace: Trace, length: usize) -> Trace {
    let mut end = 1;
    while end < trace.bytes.len() && end + 1 + usize::from(trace.bytes[end]) <= length {
        end += 1 + usize::from(trace.bytes[end]);
    }
    Trace::of_bytes(&trace.bytes[..end])
}
