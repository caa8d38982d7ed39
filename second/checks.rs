//! Checks of the second replay: the worked examples of docs/, and random calls
//! after which the quick ways of replay.rs are held against the definitions.
//!
//! Run: rustc --edition 2021 -O --test -o checks replay.rs && ./checks

use super::*;

/// The listing of a trace given in hexadecimal, without its first line.
fn lines_of(hexadecimal: &str) -> String {
    let trace: Vec<u8> = hexadecimal
        .split_whitespace()
        .map(|byte| u8::from_str_radix(byte, 16).expect("two hexadecimal digits"))
        .collect();
    let listing = replay(&trace);
    let rest = listing.strip_prefix("superpage replay 1\n").expect("the first line");
    assert!(rest.is_empty() || rest.ends_with('\n'));
    rest.trim_end_matches('\n').replace('\n', ", ")
}

// ---------------------------------------------------------------------------
// TRACE_AND_LISTING.md

#[test]
fn worked_example() {
    let lines = lines_of(
        "01 06 4D 01 00 10 00 09 04 4F 00 00 14 06 4C 00 00 09 00 00 \
         0A 53 00 00 13 00 00 00 00 00 05 06 4C 00 00 11 00 00 02 46 00",
    );
    assert_eq!(lines, "M 0, O 0, L 0 0 1 0, S 0 8 0, L 0 0 0 0, F 0 1 19, T 3 0 6");
}

#[test]
fn short_examples() {
    let examples = [
        ("", "X 20 0"),
        ("02", "X 20 0"),
        ("01", ""),
        ("01 04 4F 00 00 14", "X 21 1"),
        ("01 06 4D 03 00 00 00 09", "X 21 1"),
        ("01 06 4D 01 00 00 00 09 04 4F 00 00 03", "M 14"),
        ("01 06 4D 01 00 10 00 09", "M 0, T 0 0 9"),
        ("01 06 4D 01 00 10 00 09 00", "M 0, X 21 8, T 0 0 9"),
        ("01 06 4D 01 00 10 00 09 06 4D 01 00 10 00 09", "M 0, X 21 8, T 0 0 9"),
        (
            "01 06 4D 01 00 10 00 09 04 4F 00 00 14 06 4C 00 00 00",
            "M 0, O 0, X 21 13, T 0 0 9",
        ),
        (
            "01 06 4D 01 00 10 00 00 04 4F 00 00 14 06 4C 00 00 00 00 00",
            "M 0, O 0, L 11 0 13, T 0 0 0",
        ),
        (
            "01 06 4D 01 00 01 00 02 04 4F 00 00 02 06 4C 00 00 00 00 00 06 4C 00 00 01 00 00",
            "M 0, O 0, L 0 0 0 0, L 11 1 20, T 1 0 0",
        ),
    ];
    for (trace, lines) in examples {
        assert_eq!(lines_of(trace), lines, "{trace}");
    }
}

#[test]
fn mostly_refused() {
    let lines = lines_of(
        "01 06 4D 02 00 04 00 04 04 4F 04 00 01 04 4F 00 00 00 04 4F 00 04 01 04 4F 00 00 02 \
         04 4F 00 00 02 06 4C 01 00 00 00 00 06 4C 00 00 02 00 00 06 4C 00 00 01 00 01 \
         04 52 00 00 01 02 46 00 0A 53 00 00 01 00 00 FF FF FF FF 06 4C 00 00 01 00 00 \
         04 52 00 00 01 06 4C 00 00 01 00 00",
    );
    assert_eq!(
        lines,
        "M 0, O 3, O 4, O 4, O 0, O 5, L 6, L 7, L 8, R 9, F 0 0, S 0 0 0, \
         L 0 4294967295 0 0, R 0, L 0 0 0 0, T 1 0 3"
    );
}

#[test]
fn length_limit_of_a_trace() {
    let mut trace = vec![1, 6, b'M', 1, 0, 16, 0, 9];
    while trace.len() < 65_535 {
        trace.extend([10, b'S', 9, 0, 0, 0, 0, 0, 0, 0, 0]);
    }
    assert_eq!(trace.len(), 65_535);
    assert!(replay(&trace).ends_with("S 3\nS 3\nT 0 0 9\n"));
    trace.push(2);
    assert_eq!(replay(&trace), "superpage replay 1\nX 20 0\n");
}

#[test]
fn longest_line() {
    let mut manager = Manager::start(Hardware::Alpha, 1_024, 1_024).unwrap();
    manager.open(0, 1_024).unwrap();
    for page in 0..1_024 {
        manager.store(0, page, 0, 1).unwrap();
    }
    let mut listing = Listing { text: String::new() };
    listing.flush(manager.flush(0));
    assert_eq!(listing.text.len(), 4_019);
}

// ---------------------------------------------------------------------------
// FRAME_SOURCES.md

fn first(taken: Result<Block, NoBlock>) -> Option<usize> {
    taken.ok().map(|block| block.first)
}

/// The free blocks as pairs of first frame and order, rising by order.
fn free_blocks(buddy: &Buddy) -> Vec<(usize, usize)> {
    let with_order = |(order, firsts): (usize, &BTreeSet<usize>)| {
        firsts.iter().map(|&first| (first, order)).collect::<Vec<_>>()
    };
    buddy.free_blocks.iter().enumerate().flat_map(with_order).collect()
}

#[test]
fn buddy_examples() {
    let mut of_16 = Buddy::new(16);
    assert_eq!(first(of_16.take(3)), Some(0));
    assert_eq!(first(of_16.take(0)), Some(8));
    assert_eq!(free_blocks(&of_16), [(9, 0), (10, 1), (12, 2)]);
    assert_eq!(of_16.available, 7);

    let mut of_5 = Buddy::new(5);
    assert_eq!(free_blocks(&of_5), [(4, 0), (0, 2)]);
    assert_eq!(first(of_5.take(2)), Some(0));
    assert_eq!(of_5.take(2), Err(NoBlock { depth: 0 }));
    assert_eq!(first(of_5.take(0)), Some(4));
    assert_eq!(of_5.take(0), Err(NoBlock { depth: 0 }));

    let mut of_2048 = Buddy::new(2_048);
    assert_eq!(free_blocks(&of_2048), [(0, 9), (512, 9), (1_024, 9), (1_536, 9)]);
    assert_eq!(first(of_2048.take(0)), Some(0));
    let powers = (0..9).map(|order| (1 << order, order));
    let rest = powers.chain([(512, 9), (1_024, 9), (1_536, 9)]);
    assert_eq!(free_blocks(&of_2048), rest.collect::<Vec<_>>());
}

#[test]
fn least_order_before_lowest_address() {
    let mut buddy = Buddy { free_blocks: Default::default(), available: 0 };
    buddy.give(Block { first: 0, order: 2 });
    buddy.give(Block { first: 9, order: 0 });
    assert_eq!(first(buddy.take(0)), Some(9));
}

#[test]
fn quota_examples() {
    let mut of_9 = Quota { left: 9, below: Buddy::new(16) };
    assert_eq!(of_9.available(), 9);
    assert_eq!(first(of_9.take(3)), Some(0));
    assert_eq!(of_9.available(), 1);
    assert_eq!(of_9.take(3), Err(NoBlock { depth: 0 }));
    assert_eq!(first(of_9.take(0)), Some(8));
    assert_eq!(of_9.take(0), Err(NoBlock { depth: 0 }));

    let mut of_20 = Quota { left: 20, below: Buddy::new(16) };
    assert_eq!(of_20.available(), 16);
    assert_eq!(first(of_20.take(4)), Some(0));
    assert_eq!(of_20.left, 4);
    assert_eq!(of_20.take(0), Err(NoBlock { depth: 1 }));
}

// ---------------------------------------------------------------------------
// PLACEMENT.md

/// A manager with Q = N, and its objects 0, 1, … opened with these sizes.
fn manager_of(hardware: Hardware, frame_count: usize, sizes: &[usize]) -> Manager {
    let mut manager = Manager::start(hardware, frame_count, frame_count).ok().unwrap();
    for (object, &size) in sizes.iter().enumerate() {
        manager.open(object, size).unwrap();
    }
    manager
}

/// Loads and tells word, frame and order.
fn load(manager: &mut Manager, object: usize, page: usize) -> (u32, usize, usize) {
    let (word, placing) = manager.load(object, page, 0).ok().unwrap();
    (word, placing.frame, placing.order)
}

fn counts(manager: &Manager) -> (usize, usize, usize) {
    let Counts { present, reserved, available } = manager.counts();
    (present, reserved, available)
}

#[test]
fn eight_pages_make_a_superpage() {
    let mut manager = manager_of(Hardware::Alpha, 16, &[8]);
    for page in 0..7 {
        assert_eq!(load(&mut manager, 0, page), (0, page, 0));
    }
    assert_eq!(counts(&manager), (7, 1, 8));
    assert_eq!(load(&mut manager, 0, 7), (0, 7, 3));
    assert_eq!(counts(&manager), (8, 0, 8));

    let stored = manager.store(0, 2, 0, 9).ok().unwrap();
    assert_eq!((stored.frame, stored.order), (2, 0));
    assert_eq!(load(&mut manager, 0, 0), (0, 0, 0));
    assert_eq!(manager.flush(0), Ok(vec![2]));
    assert_eq!(load(&mut manager, 0, 2), (9, 2, 3));
    manager.release(0, 3).unwrap();
    assert_eq!(load(&mut manager, 0, 0), (0, 0, 0));
    assert_eq!(load(&mut manager, 0, 3), (0, 3, 3));
    assert_eq!(counts(&manager), (8, 0, 8));
}

#[test]
fn choice_of_size() {
    let mut manager = manager_of(Hardware::Alpha, 128, &[80]);
    assert_eq!(load(&mut manager, 0, 70), (0, 6, 0));
    assert_eq!(load(&mut manager, 0, 5), (0, 69, 0));
    assert_eq!(counts(&manager), (2, 70, 56));
}

#[test]
fn age_and_breaking() {
    let mut manager = manager_of(Hardware::Alpha, 16, &[16, 1]);
    assert_eq!(load(&mut manager, 0, 0), (0, 0, 0));
    assert_eq!(load(&mut manager, 0, 8), (0, 8, 0));
    assert_eq!(load(&mut manager, 0, 1), (0, 1, 0));
    assert_eq!(load(&mut manager, 1, 0), (0, 9, 0));
    assert_eq!(load(&mut manager, 0, 9), (0, 10, 0));
    manager.release(0, 0).unwrap();
    manager.release(0, 1).unwrap();
    assert_eq!(counts(&manager), (3, 0, 13));
}

#[test]
fn empty_frames_go_back_as_maximal_blocks() {
    let mut manager = manager_of(Hardware::Alpha, 8, &[8]);
    load(&mut manager, 0, 1);
    let blocks = manager.empty_blocks(&manager.reservations[0]);
    let pairs: Vec<_> = blocks.iter().map(|block| (block.first, block.order)).collect();
    assert_eq!(pairs, [(0, 0), (2, 1), (4, 2)]);
}

#[test]
fn a_store_splits_an_order_6_leaf() {
    let mut manager = manager_of(Hardware::Alpha, 64, &[64]);
    for page in 0..64 {
        load(&mut manager, 0, page);
    }
    assert_eq!(manager.leaf_order(0, 0), 6);
    manager.store(0, 20, 0, 0).ok().unwrap();
    for page in 0..64 {
        let expected = if (16..24).contains(&page) { 0 } else { 3 };
        assert_eq!(manager.leaf_order(0, page), expected);
    }
}

// ---------------------------------------------------------------------------
// The quick ways against the definitions

struct Random(u64);

impl Random {
    fn below(&mut self, bound: usize) -> usize {
        self.0 ^= self.0 << 13;
        self.0 ^= self.0 >> 7;
        self.0 ^= self.0 << 17;
        (self.0 >> 16) as usize % bound
    }
}

/// The maximal blocks within a set, straight from the definition.
fn defined_maximal_blocks(set: &BTreeSet<usize>) -> Vec<(usize, usize)> {
    let within = |block: Block| block.numbers().all(|number| set.contains(&number));
    let mut found = Vec::new();
    for order in 0..=9 {
        for first in (0..2_048).step_by(1 << order) {
            let in_larger = (order + 1..=9).any(|larger| within(Block::around(first, larger)));
            if within(Block { first, order }) && !in_larger {
                found.push((first, order));
            }
        }
    }
    found
}

/// The frames that nothing uses and no reservation holds.
fn defined_free_frames(manager: &Manager, frame_count: usize) -> BTreeSet<usize> {
    let mut free: BTreeSet<usize> = (0..frame_count).collect();
    for reservation in &manager.reservations {
        for frame in reservation.frames.numbers() {
            assert!(free.remove(&frame), "a frame of two reservations");
        }
    }
    for (object, pages) in manager.objects.iter().enumerate() {
        for (number, page) in pages.iter().enumerate() {
            let Some(page) = page else { continue };
            match manager.reservations.iter().find(|r| r.covers(object, number)) {
                Some(covering) => assert_eq!(covering.matching_frame(number), page.frame),
                None => assert!(free.remove(&page.frame), "a frame of two pages"),
            }
        }
    }
    free
}

/// The canonical leaf's order, tried from the greatest size on.
fn defined_leaf_order(manager: &Manager, object: usize, page: usize) -> usize {
    let sizes: &[usize] = match manager.hardware {
        Hardware::Alpha => &[9, 6, 3, 0],
        Hardware::Sv39 => &[9, 0],
    };
    let meets = |order: usize| {
        let first = page / (1 << order) * (1 << order);
        let members: Vec<Option<PresentPage>> = (first..first + (1 << order))
            .map(|number| manager.objects[object].get(number).copied().flatten())
            .collect();
        members.iter().all(Option::is_some)
            && members.windows(2).all(|w| w[1].unwrap().frame == w[0].unwrap().frame + 1)
            && members[0].unwrap().frame % (1 << order) == 0
            && (members.iter().all(|m| m.unwrap().stored)
                || members.iter().all(|m| !m.unwrap().stored))
    };
    sizes.iter().copied().find(|&order| meets(order)).expect("size 0 always meets it")
}

fn check_state(manager: &Manager, frame_count: usize, limit: usize) {
    let free = defined_free_frames(manager, frame_count);
    assert_eq!(free.len(), manager.source.below.available);
    assert_eq!(defined_maximal_blocks(&free), free_blocks(&manager.source.below));
    let (present, reserved, available) = counts(manager);
    assert_eq!(present + reserved + available, limit);
    assert!(manager.reservations.len() <= 64);
    for (index, reservation) in manager.reservations.iter().enumerate() {
        let pages = &manager.objects[reservation.object][reservation.pages.numbers()];
        assert_eq!(pages.iter().flatten().count(), reservation.population);
        assert!((1..reservation.frames.len()).contains(&reservation.population));
        assert!(manager.reservations[..index]
            .iter()
            .all(|other| other.object != reservation.object || !other.pages.meets(reservation.pages)));
    }
    for (object, pages) in manager.objects.iter().enumerate() {
        for number in (0..pages.len()).filter(|&number| pages[number].is_some()) {
            let defined = defined_leaf_order(manager, object, number);
            assert_eq!(defined, manager.leaf_order(object, number));
        }
    }
}

/// Random calls in runs of neighbouring pages, so that leaves of all sizes
/// arise; every so often the whole state is held against the definitions.
fn churn(hardware: Hardware, frame_count: usize, quota: usize, sizes: &[usize], seed: u64) {
    let mut random = Random(seed);
    let mut manager = Manager::start(hardware, frame_count, quota).ok().unwrap();
    for (object, &size) in sizes.iter().enumerate() {
        manager.open(object, size).unwrap();
    }
    let run_lengths = [1, 3, 8, 64, 512];
    for _ in 0..400 {
        let object = random.below(sizes.len());
        let length = run_lengths[random.below(run_lengths.len())];
        let start = random.below(sizes[object]) / length * length;
        let action = random.below(10);
        for page in start..sizes[object].min(start + length) {
            match action {
                0..=4 => drop(manager.load(object, page, 0)),
                5..=6 => drop(manager.store(object, page, 0, 7)),
                7..=8 => drop(manager.release(object, page)),
                _ => drop(manager.flush(object)),
            }
        }
        if random.below(4) == 0 {
            check_state(&manager, frame_count, frame_count.min(quota));
        }
    }
}

#[test]
fn random_calls_keep_to_the_definitions() {
    churn(Hardware::Alpha, 100, 100, &[64, 20, 9, 130], 11);
    churn(Hardware::Alpha, 100, 71, &[200, 8, 8, 30], 12);
    churn(Hardware::Alpha, 2_048, 2_048, &[1_024, 1_024, 513, 63], 13);
    churn(Hardware::Alpha, 700, 2_000, &[1_024, 600, 127, 80], 14);
    churn(Hardware::Sv39, 1_500, 1_400, &[1_024, 513, 40, 511], 15);
    churn(Hardware::Sv39, 600, 512, &[512, 100], 16);
    churn(Hardware::Alpha, 5, 2_048, &[3, 30], 17);
}
