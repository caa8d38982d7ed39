//! A second implementation of the trace replay, written from docs/ alone.
//!
//! It reads a trace from standard input and prints its listing on standard
//! output. It shares no code and no data layout with the main implementation,
//! so that the two can be compared. There are no table entries here: the leaf
//! of a page is computed from its definition whenever a line asks for it.
//!
//! Build: rustc --edition 2021 -O -o replay replay.rs
//! Check: rustc --edition 2021 -O --test -o checks replay.rs && ./checks

use std::collections::BTreeSet;
use std::fmt::Write as _;
use std::io::{self, Read, Write as _};
use std::ops::Range;

#[cfg(test)]
mod checks;

const GREATEST_ORDER: usize = 9;
const GREATEST_FRAME_COUNT: usize = 2_048;
const OBJECT_COUNT: usize = 4;
const GREATEST_OBJECT_SIZE: usize = 1_024;
const GREATEST_RESERVATION_COUNT: usize = 64;
const WORDS_PER_PAGE: usize = 1;
const GREATEST_TRACE_LENGTH: usize = 65_535;
const TRACE_VERSION: u8 = 1;

fn main() {
    let mut trace = Vec::new();
    // A read or write that fails is nothing the listing could tell, and the
    // exit status is 0 for every input; so neither failure is looked at.
    let _ = io::stdin().lock().read_to_end(&mut trace);
    let _ = io::stdout().lock().write_all(replay(&trace).as_bytes());
}

// ---------------------------------------------------------------------------
// Blocks (PAGES_AND_BLOCKS.md)

/// 2^order consecutive numbers, the first a multiple of 2^order.
#[derive(Clone, Copy, Debug, PartialEq, Eq)]
struct Block {
    first: usize,
    order: usize,
}

impl Block {
    fn around(number: usize, order: usize) -> Block {
        let first = number - number % (1 << order);
        Block { first, order }
    }

    fn len(self) -> usize {
        1 << self.order
    }

    fn end(self) -> usize {
        self.first + self.len()
    }

    fn numbers(self) -> Range<usize> {
        self.first..self.end()
    }

    fn contains(self, number: usize) -> bool {
        self.numbers().contains(&number)
    }

    fn meets(self, other: Block) -> bool {
        self.first < other.end() && other.first < self.end()
    }

    /// The other half of the block of the next order.
    fn buddy(self) -> Block {
        Block { first: self.first ^ self.len(), order: self.order }
    }
}

/// The maximal blocks within a run of numbers, rising.
///
/// From the start of the run take the greatest block that begins there and
/// fits, and go on behind it. No larger block of the run can contain a block
/// found so: it would begin further left, where it would have been found.
fn maximal_blocks(run: Range<usize>) -> Vec<Block> {
    let mut blocks = Vec::new();
    let mut first = run.start;
    while first < run.end {
        let fits = |order: &usize| first % (1 << order) == 0 && first + (1 << order) <= run.end;
        let order = (0..=GREATEST_ORDER).rev().find(fits).unwrap_or(0);
        blocks.push(Block { first, order });
        first += 1 << order;
    }
    blocks
}

// ---------------------------------------------------------------------------
// Frame sources (FRAME_SOURCES.md)

/// The answer "none" of a frame source.
#[derive(Clone, Copy, Debug, PartialEq, Eq)]
struct NoBlock {
    depth: u8,
}

/// The buddy allocator: the free frames, kept as their maximal blocks.
struct Buddy {
    /// For each order the first frames of the free blocks of that order.
    free_blocks: [BTreeSet<usize>; GREATEST_ORDER + 1],
    available: usize,
}

impl Buddy {
    fn new(frame_count: usize) -> Buddy {
        let mut buddy = Buddy { free_blocks: Default::default(), available: frame_count };
        for block in maximal_blocks(0..frame_count) {
            buddy.free_blocks[block.order].insert(block.first);
        }
        buddy
    }

    fn take(&mut self, order: usize) -> Result<Block, NoBlock> {
        for found_order in order..=GREATEST_ORDER {
            if let Some(first) = self.free_blocks[found_order].pop_first() {
                // The lower part is given. Of the rest the upper halves are
                // maximal, since the half below each is no longer all free.
                for rest_order in order..found_order {
                    self.free_blocks[rest_order].insert(first + (1 << rest_order));
                }
                self.available -= 1 << order;
                return Ok(Block { first, order });
            }
        }
        Err(NoBlock { depth: 0 })
    }

    /// Gives back a block none of whose frames is free.
    fn give(&mut self, block: Block) {
        self.available += block.len();
        // A buddy that is all free is a free block itself: a larger one would
        // contain the given block, which was not free. So a look into the set
        // of its own order is enough, and merging upwards keeps the blocks
        // maximal.
        let mut merged = block;
        while merged.order < GREATEST_ORDER
            && self.free_blocks[merged.order].remove(&merged.buddy().first)
        {
            merged = Block::around(merged.first, merged.order + 1);
        }
        self.free_blocks[merged.order].insert(merged.first);
    }
}

/// A quota over the buddy.
struct Quota {
    left: usize,
    below: Buddy,
}

impl Quota {
    fn available(&self) -> usize {
        self.left.min(self.below.available)
    }

    fn take(&mut self, order: usize) -> Result<Block, NoBlock> {
        if self.left < 1 << order {
            return Err(NoBlock { depth: 0 });
        }
        let taken = self.below.take(order);
        match taken {
            Ok(block) => {
                self.left -= block.len();
                Ok(block)
            }
            Err(none) => Err(NoBlock { depth: none.depth.saturating_add(1) }),
        }
    }

    fn give(&mut self, block: Block) {
        self.below.give(block);
        self.left += block.len();
    }
}

// ---------------------------------------------------------------------------
// The manager (PAGE_MACHINE.md, PLACEMENT.md)

#[derive(Clone, Copy, Debug, PartialEq, Eq)]
enum Hardware {
    Alpha,
    Sv39,
}

impl Hardware {
    /// The hardware's sizes above 0, rising.
    fn superpage_orders(self) -> &'static [usize] {
        match self {
            Hardware::Alpha => &[3, 6, 9],
            Hardware::Sv39 => &[9],
        }
    }
}

/// The refusals that a record's line can tell (REFUSALS.md).
#[derive(Clone, Copy, Debug, PartialEq, Eq)]
enum Refusal {
    NoSuchObject,
    BadSize,
    AlreadyOpen,
    NotOpen,
    NoSuchPage,
    NoSuchWord,
    PageAbsent,
    NoFrame { depth: u8 },
    BadMachine,
}

impl Refusal {
    fn number(self) -> u8 {
        match self {
            Refusal::NoSuchObject => 3,
            Refusal::BadSize => 4,
            Refusal::AlreadyOpen => 5,
            Refusal::NotOpen => 6,
            Refusal::NoSuchPage => 7,
            Refusal::NoSuchWord => 8,
            Refusal::PageAbsent => 9,
            Refusal::NoFrame { .. } => 11,
            Refusal::BadMachine => 14,
        }
    }
}

/// A page that is present. Its only word is kept here instead of in a frame
/// memory: no two present pages share a frame, and no page changes its frame.
#[derive(Clone, Copy, Debug)]
struct PresentPage {
    frame: usize,
    stored: bool,
    word: u32,
}

/// A reservation. Which of its pages are present is told by the object's
/// pages, so the population map is not kept a second time, only its count.
#[derive(Clone, Copy, Debug)]
struct Reservation {
    object: usize,
    pages: Block,
    frames: Block,
    population: usize,
}

impl Reservation {
    fn covers(&self, object: usize, page: usize) -> bool {
        self.object == object && self.pages.contains(page)
    }

    fn matching_frame(&self, page: usize) -> usize {
        self.frames.first + (page - self.pages.first)
    }

    fn empty_frame_count(&self) -> usize {
        self.frames.len() - self.population
    }
}

/// Where a page lies, as a line tells it.
struct Placing {
    frame: usize,
    order: usize,
}

/// The three counts.
#[derive(Debug, PartialEq, Eq)]
struct Counts {
    present: usize,
    reserved: usize,
    available: usize,
}

struct Manager {
    hardware: Hardware,
    source: Quota,
    /// The pages of each object; `None` is an absent page. The length is the
    /// object's size, so that a closed object has no pages.
    objects: [Vec<Option<PresentPage>>; OBJECT_COUNT],
    /// From the oldest to the youngest.
    reservations: Vec<Reservation>,
}

impl Manager {
    fn start(hardware: Hardware, frame_count: usize, quota: usize) -> Result<Manager, Refusal> {
        let frames_fit = (1..=GREATEST_FRAME_COUNT).contains(&frame_count);
        if !frames_fit || quota > GREATEST_FRAME_COUNT {
            return Err(Refusal::BadMachine);
        }
        Ok(Manager {
            hardware,
            source: Quota { left: quota, below: Buddy::new(frame_count) },
            objects: Default::default(),
            reservations: Vec::new(),
        })
    }

    // The calls.

    fn open(&mut self, object: usize, size: usize) -> Result<(), Refusal> {
        if object >= OBJECT_COUNT {
            return Err(Refusal::NoSuchObject);
        }
        if !(1..=GREATEST_OBJECT_SIZE).contains(&size) {
            return Err(Refusal::BadSize);
        }
        if !self.objects[object].is_empty() {
            return Err(Refusal::AlreadyOpen);
        }
        self.objects[object] = vec![None; size];
        Ok(())
    }

    fn load(&mut self, object: usize, page: usize, word: usize) -> Result<(u32, Placing), Refusal> {
        let present = *self.reach_word(object, page, word)?;
        Ok((present.word, self.placing(object, page, present.frame)))
    }

    fn store(
        &mut self,
        object: usize,
        page: usize,
        word: usize,
        value: u32,
    ) -> Result<Placing, Refusal> {
        let present = self.reach_word(object, page, word)?;
        present.word = value;
        present.stored = true;
        let frame = present.frame;
        Ok(self.placing(object, page, frame))
    }

    fn release(&mut self, object: usize, page: usize) -> Result<(), Refusal> {
        self.check_page(object, page)?;
        let released = self.objects[object][page].take().ok_or(Refusal::PageAbsent)?;
        match self.reservation_of(object, page) {
            Some(index) => self.leave_reservation(index),
            None => self.source.give(Block { first: released.frame, order: 0 }),
        }
        Ok(())
    }

    /// Removes the stored marks and tells the pages that had one, rising.
    fn flush(&mut self, object: usize) -> Result<Vec<usize>, Refusal> {
        self.check_open(object)?;
        let mut flushed = Vec::new();
        for (number, page) in self.objects[object].iter_mut().enumerate() {
            if let Some(PresentPage { stored: stored @ true, .. }) = page {
                *stored = false;
                flushed.push(number);
            }
        }
        Ok(flushed)
    }

    fn counts(&self) -> Counts {
        Counts {
            present: self.objects.iter().flatten().flatten().count(),
            reserved: self.reservations.iter().map(Reservation::empty_frame_count).sum(),
            available: self.source.available(),
        }
    }

    // Checks.

    fn check_open(&self, object: usize) -> Result<(), Refusal> {
        match self.objects.get(object) {
            None => Err(Refusal::NoSuchObject),
            Some(pages) if pages.is_empty() => Err(Refusal::NotOpen),
            Some(_) => Ok(()),
        }
    }

    fn check_page(&self, object: usize, page: usize) -> Result<(), Refusal> {
        self.check_open(object)?;
        if page >= self.objects[object].len() {
            return Err(Refusal::NoSuchPage);
        }
        Ok(())
    }

    // Bringing in.

    /// The page of a load or store, brought in if it was absent.
    fn reach_word(
        &mut self,
        object: usize,
        page: usize,
        word: usize,
    ) -> Result<&mut PresentPage, Refusal> {
        self.check_page(object, page)?;
        if word >= WORDS_PER_PAGE {
            return Err(Refusal::NoSuchWord);
        }
        let present = match self.objects[object][page] {
            Some(present) => present,
            None => {
                PresentPage { frame: self.find_frame(object, page)?, stored: false, word: 0 }
            }
        };
        Ok(self.objects[object][page].insert(present))
    }

    /// The three steps of placing an absent page.
    fn find_frame(&mut self, object: usize, page: usize) -> Result<usize, Refusal> {
        let covering = self.reservation_of(object, page);
        match covering.or_else(|| self.reserve_around(object, page)) {
            Some(index) => Ok(self.enter_reservation(index, page)),
            None => self.take_single_frame(),
        }
    }

    /// Step 1: tells the matching frame and makes the reservation the
    /// youngest, or lets it go if it is full now.
    fn enter_reservation(&mut self, index: usize, page: usize) -> usize {
        let mut reservation = self.reservations.remove(index);
        reservation.population += 1;
        if reservation.empty_frame_count() > 0 {
            self.reservations.push(reservation);
        }
        reservation.matching_frame(page)
    }

    /// Step 2: a new reservation of the greatest size that can be had, without
    /// population as yet. Tells its index.
    fn reserve_around(&mut self, object: usize, page: usize) -> Option<usize> {
        if self.reservations.len() >= GREATEST_RESERVATION_COUNT {
            return None;
        }
        for &order in self.hardware.superpage_orders().iter().rev() {
            let pages = Block::around(page, order);
            if !self.is_untouched(object, pages) {
                continue;
            }
            if let Ok(frames) = self.source.take(order) {
                self.reservations.push(Reservation { object, pages, frames, population: 0 });
                return Some(self.reservations.len() - 1);
            }
        }
        None
    }

    /// Step 3: one frame from the source, at the cost of old reservations.
    fn take_single_frame(&mut self) -> Result<usize, Refusal> {
        loop {
            match self.source.take(0) {
                Ok(block) => return Ok(block.first),
                Err(none) if self.reservations.is_empty() => {
                    return Err(Refusal::NoFrame { depth: none.depth });
                }
                Err(_) => self.break_oldest_reservation(),
            }
        }
    }

    /// Whether the block lies within the object and has no page that is
    /// present or covered. (A covered page cannot come without a present one,
    /// since every reservation has one; the rule is kept as it is written.)
    fn is_untouched(&self, object: usize, pages: Block) -> bool {
        let within = self.objects[object].get(pages.numbers());
        let none_present = within.is_some_and(|within| within.iter().all(Option::is_none));
        none_present
            && !self.reservations.iter().any(|r| r.object == object && r.pages.meets(pages))
    }

    // Reservations.

    /// The index of the reservation that covers the page.
    fn reservation_of(&self, object: usize, page: usize) -> Option<usize> {
        // From the youngest on, since neighbouring pages tend to be brought
        // in one after the other.
        self.reservations.iter().rposition(|r| r.covers(object, page))
    }

    /// A page of the reservation has been released.
    fn leave_reservation(&mut self, index: usize) {
        self.reservations[index].population -= 1;
        if self.reservations[index].population == 0 {
            let emptied = self.reservations.remove(index);
            self.source.give(emptied.frames);
        }
    }

    fn break_oldest_reservation(&mut self) {
        let oldest = self.reservations.remove(0);
        for block in self.empty_blocks(&oldest) {
            self.source.give(block);
        }
    }

    /// The maximal blocks within the reservation's empty frames, rising.
    fn empty_blocks(&self, reservation: &Reservation) -> Vec<Block> {
        let mut blocks = Vec::new();
        let mut run_start = reservation.frames.first;
        for page in reservation.pages.numbers() {
            if self.objects[reservation.object][page].is_some() {
                let used = reservation.matching_frame(page);
                blocks.extend(maximal_blocks(run_start..used));
                run_start = used + 1;
            }
        }
        blocks.extend(maximal_blocks(run_start..reservation.frames.end()));
        blocks
    }

    // Leaves.

    fn placing(&self, object: usize, page: usize, frame: usize) -> Placing {
        Placing { frame, order: self.leaf_order(object, page) }
    }

    /// The order of a present page's leaf: the greatest size whose block
    /// around the page can be one leaf.
    ///
    /// Every part of such a block can be a leaf too. So the sizes are tried
    /// from the least on, and the first that fails ends the search.
    fn leaf_order(&self, object: usize, page: usize) -> usize {
        let orders = self.hardware.superpage_orders().iter().copied();
        let leaf_orders =
            orders.take_while(|&order| self.can_be_leaf(object, Block::around(page, order)));
        leaf_orders.last().unwrap_or(0)
    }

    /// Whether all pages of the block are present, lie in rising consecutive
    /// frames from a multiple of the block's length on, and are all stored or
    /// all unstored.
    fn can_be_leaf(&self, object: usize, block: Block) -> bool {
        let Some(pages) = self.objects[object].get(block.numbers()) else {
            return false;
        };
        let Some(first) = pages[0] else {
            return false;
        };
        let continues_first = |distance: usize| {
            pages[distance].is_some_and(|page| {
                page.frame == first.frame + distance && page.stored == first.stored
            })
        };
        // The last page is looked at before the others: while a block is being
        // filled in rising order it is the one that is missing.
        first.frame % block.len() == 0
            && continues_first(block.len() - 1)
            && (1..block.len() - 1).all(continues_first)
    }
}

// ---------------------------------------------------------------------------
// Trace and listing (TRACE_AND_LISTING.md)

#[derive(Debug, PartialEq, Eq)]
enum Record {
    Machine { hardware: Hardware, frame_count: usize, quota: usize },
    Open { object: usize, size: usize },
    Load { object: usize, page: usize, word: usize },
    Store { object: usize, page: usize, word: usize, value: u32 },
    Release { object: usize, page: usize },
    Flush { object: usize },
}

fn one(byte: &u8) -> usize {
    usize::from(*byte)
}

fn two(high: &u8, low: &u8) -> usize {
    usize::from(u16::from_be_bytes([*high, *low]))
}

/// The bytes behind the length byte at `place`, if there are that many.
fn record_bytes(trace: &[u8], place: usize) -> Option<&[u8]> {
    let length = one(trace.get(place)?);
    trace.get(place + 1..place + 1 + length)
}

/// Reads kind and fields. Tells none if kind, length or hardware is bad.
fn read_record(bytes: &[u8]) -> Option<Record> {
    // Each pattern has exactly the length of its kind, so that a record of
    // any other length matches nothing.
    match bytes {
        [b'M', hardware, n1, n0, q1, q0] => Some(Record::Machine {
            hardware: read_hardware(*hardware)?,
            frame_count: two(n1, n0),
            quota: two(q1, q0),
        }),
        [b'O', object, s1, s0] => Some(Record::Open { object: one(object), size: two(s1, s0) }),
        [b'L', object, p1, p0, w1, w0] => {
            Some(Record::Load { object: one(object), page: two(p1, p0), word: two(w1, w0) })
        }
        [b'S', object, p1, p0, w1, w0, v3, v2, v1, v0] => Some(Record::Store {
            object: one(object),
            page: two(p1, p0),
            word: two(w1, w0),
            value: u32::from_be_bytes([*v3, *v2, *v1, *v0]),
        }),
        [b'R', object, p1, p0] => Some(Record::Release { object: one(object), page: two(p1, p0) }),
        [b'F', object] => Some(Record::Flush { object: one(object) }),
        _ => None,
    }
}

fn read_hardware(number: u8) -> Option<Hardware> {
    match number {
        1 => Some(Hardware::Alpha),
        2 => Some(Hardware::Sv39),
        _ => None,
    }
}

/// The listing of a trace.
fn replay(trace: &[u8]) -> String {
    let mut listing = Listing::new();
    let length_fits = (1..=GREATEST_TRACE_LENGTH).contains(&trace.len());
    if !length_fits || trace[0] != TRACE_VERSION {
        listing.bad_trace();
    } else if trace.len() > 1 {
        replay_records(trace, &mut listing);
    }
    listing.text
}

/// Replays a trace that has a first record, which must be M.
fn replay_records(trace: &[u8], listing: &mut Listing) {
    let first_place = 1;
    let first_bytes = record_bytes(trace, first_place).unwrap_or_default();
    let Some(Record::Machine { hardware, frame_count, quota }) = read_record(first_bytes) else {
        return listing.bad_record(first_place);
    };
    let started = Manager::start(hardware, frame_count, quota);
    listing.machine(&started);
    if let Ok(mut manager) = started {
        replay_calls(trace, first_place + 1 + first_bytes.len(), &mut manager, listing);
        listing.totals(manager.counts());
    }
}

/// Carries out the records from `first_place` on, up to the end or a bad one.
fn replay_calls(trace: &[u8], first_place: usize, manager: &mut Manager, listing: &mut Listing) {
    let mut place = first_place;
    while place < trace.len() {
        let bytes = record_bytes(trace, place).unwrap_or_default();
        match read_record(bytes) {
            None | Some(Record::Machine { .. }) => return listing.bad_record(place),
            Some(Record::Open { object, size }) => {
                listing.done('O', manager.open(object, size));
            }
            Some(Record::Load { object, page, word }) => {
                listing.load(manager.load(object, page, word), place);
            }
            Some(Record::Store { object, page, word, value }) => {
                listing.store(manager.store(object, page, word, value), place);
            }
            Some(Record::Release { object, page }) => {
                listing.done('R', manager.release(object, page));
            }
            Some(Record::Flush { object }) => listing.flush(manager.flush(object)),
        }
        place += 1 + bytes.len();
    }
}

/// The lines printed so far.
struct Listing {
    text: String,
}

impl Listing {
    fn new() -> Listing {
        Listing { text: String::from("superpage replay 1\n") }
    }

    fn line(&mut self, line: std::fmt::Arguments) {
        // Writing into a string cannot fail.
        let _ = self.text.write_fmt(line);
        self.text.push('\n');
    }

    fn bad_trace(&mut self) {
        self.line(format_args!("X 20 0"));
    }

    fn bad_record(&mut self, place: usize) {
        self.line(format_args!("X 21 {place}"));
    }

    fn totals(&mut self, counts: Counts) {
        let Counts { present, reserved, available } = counts;
        self.line(format_args!("T {present} {reserved} {available}"));
    }

    fn machine(&mut self, started: &Result<Manager, Refusal>) {
        match started {
            Ok(_) => self.line(format_args!("M 0")),
            Err(refusal) => self.refused('M', *refusal),
        }
    }

    /// The line of a call that tells nothing when it is accepted.
    fn done(&mut self, kind: char, reply: Result<(), Refusal>) {
        match reply {
            Ok(()) => self.line(format_args!("{kind} 0")),
            Err(refusal) => self.refused(kind, refusal),
        }
    }

    fn load(&mut self, reply: Result<(u32, Placing), Refusal>, place: usize) {
        match reply {
            Ok((word, Placing { frame, order })) => {
                self.line(format_args!("L 0 {word} {frame} {order}"));
            }
            Err(refusal) => self.access_refused('L', refusal, place),
        }
    }

    fn store(&mut self, reply: Result<Placing, Refusal>, place: usize) {
        match reply {
            Ok(Placing { frame, order }) => self.line(format_args!("S 0 {frame} {order}")),
            Err(refusal) => self.access_refused('S', refusal, place),
        }
    }

    fn flush(&mut self, reply: Result<Vec<usize>, Refusal>) {
        match reply {
            Ok(pages) => {
                let _ = write!(self.text, "F 0 {}", pages.len());
                for page in pages {
                    let _ = write!(self.text, " {page}");
                }
                self.text.push('\n');
            }
            Err(refusal) => self.refused('F', refusal),
        }
    }

    /// Only 11, which loads and stores alone can get, tells more than its number.
    fn access_refused(&mut self, kind: char, refusal: Refusal, place: usize) {
        match refusal {
            Refusal::NoFrame { depth } => self.line(format_args!("{kind} 11 {depth} {place}")),
            other => self.refused(kind, other),
        }
    }

    fn refused(&mut self, kind: char, refusal: Refusal) {
        self.line(format_args!("{kind} {}", refusal.number()));
    }
}
