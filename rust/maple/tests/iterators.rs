//! What iterators give, from either end, on trees of each kind.

use maple::{Kind, Lock, Range, Reader, Shared, Tree};
use std::num::NonZeroU64;

const KINDS: [Kind; 4] = [Kind::Range, Kind::Alloc, Kind::Range32, Kind::Alloc32];

fn top_of(kind: Kind) -> u64 {
    match kind {
        Kind::Range | Kind::Alloc => u64::MAX,
        Kind::Range32 | Kind::Alloc32 => u64::from(u32::MAX),
    }
}

/// 2,000 ranges with holes between them, and one that ends at the greatest index.
fn ranges_of(kind: Kind) -> Vec<Range> {
    let entry = |n| NonZeroU64::new(4 * n + 4).expect("an entry is not 0");
    let low = (0..2000).map(|n| Range { first: 7 * n, last: 7 * n + n % 5, entry: entry(n) });
    let high = Range { first: top_of(kind) - 3, last: top_of(kind), entry: entry(0) };
    low.chain([high]).collect()
}

#[test]
fn windows_are_given_from_both_ends() {
    for kind in KINDS {
        let ranges = ranges_of(kind);
        let tree = Tree::build(kind, 5000, &ranges).unwrap();
        for (from, to) in [(0, u64::MAX), (0, top_of(kind)), (3, 3), (5, 6), (100, 9000), (top_of(kind), u64::MAX)] {
            let wanted: Vec<Range> = ranges.iter().copied().filter(|r| r.first <= to && r.last >= from).collect();
            assert_eq!(tree.range(from..=to).collect::<Vec<_>>(), wanted);
            let mut falling: Vec<Range> = tree.range(from..=to).rev().collect();
            falling.reverse();
            assert_eq!(falling, wanted);
            let mut both = tree.range(from..=to);
            let (mut front, mut back) = (Vec::new(), Vec::new());
            while let Some(range) = both.next() {
                front.push(range);
                back.extend(both.next_back());
            }
            assert_eq!((both.next(), both.next_back()), (None, None));
            front.extend(back.into_iter().rev());
            assert_eq!(front, wanted);
        }
        #[allow(clippy::reversed_empty_ranges)]
        let empty = 9..=3;
        assert_eq!(tree.range(empty.clone()).next(), None);
        assert_eq!(tree.range(empty).next_back(), None);
    }
}

#[test]
fn two_walks_of_one_tree_do_not_disturb_each_other() {
    let ranges = ranges_of(Kind::Range);
    let tree = Tree::build(Kind::Range, 5000, &ranges).unwrap();
    assert!(tree
        .iter()
        .zip(tree.range(0..=u64::MAX))
        .all(|(one, other)| one == other && tree.load(one.last) == Some(one)));
}

#[test]
fn copies_and_images_have_the_same_ranges() {
    for kind in KINDS {
        let ranges = ranges_of(kind);
        let tree = Tree::build(kind, 5000, &ranges).unwrap();
        let form = tree.check().unwrap();
        assert_eq!(form.ranges, ranges.len() as u64);
        let mut copy = tree.copy(form.rows).unwrap();
        let mut read = Tree::of_image(&tree.image().unwrap(), 5000).unwrap();
        assert!(copy.iter().eq(ranges.iter().copied()) && read.iter().eq(ranges.iter().copied()));
        copy.clear().unwrap();
        assert_eq!(read.erase(7), Ok(Some(ranges[1])));
        assert!(tree.iter().eq(ranges.iter().copied()));
    }
}

#[test]
fn a_shared_tree_is_read_as_it_was_written() {
    for kind in KINDS {
        let ranges = ranges_of(kind);
        let shared = Shared::new(kind, 5000, 2).unwrap();
        let mut writer = shared.writer(Lock::Waits).unwrap();
        let mut reader = shared.reader().unwrap();
        drop(shared);
        ranges.iter().for_each(|range| writer.insert(range.indexes(), range.entry).unwrap());
        assert!(reader.learn(writer.number()));
        assert!(reader.iter().eq(ranges.iter().copied()));
        assert_eq!(reader.window(), 2001..=2001);
        assert!(reader.iter().rev().eq(ranges.iter().rev().copied()));
        assert!(reader.range(100..=9000).rev().eq(ranges
            .iter()
            .rev()
            .copied()
            .filter(|r| r.first <= 9000 && r.last >= 100)));
        assert!(meets_in_the_middle(&mut reader, &ranges));
        assert_eq!(reader.range(100..=9000).count(), tree_count(&ranges, 100, 9000));
        assert_eq!(reader.last_in(0..=6), Some(ranges[0]));
        assert_eq!(reader.prev_in(0..=7), Some(ranges[0]));
        assert_eq!(reader.next_in(0..=u64::MAX), Some(ranges[1]));
        assert_eq!(writer.reader().first_in(5..=u64::MAX), Some(ranges[1]));
    }
}

fn tree_count(ranges: &[Range], from: u64, to: u64) -> usize {
    ranges.iter().filter(|r| r.first <= to && r.last >= from).count()
}

/// Steps from either end give each range once.
fn meets_in_the_middle(reader: &mut Reader, ranges: &[Range]) -> bool {
    let mut steps = reader.iter();
    let (mut low, mut high) = (Vec::new(), Vec::new());
    while let Some(range) = steps.next() {
        low.push(range);
        high.extend(steps.next_back());
    }
    low.extend(high.into_iter().rev());
    low == ranges
}

#[test]
fn many_look_ups_answer_as_single_ones() {
    for kind in KINDS {
        let ranges = ranges_of(kind);
        let tree = Tree::build(kind, 5000, &ranges).unwrap();
        let indexes: Vec<u64> = (0..300).map(|n| 47 * n).chain([top_of(kind), u64::MAX, 8]).collect();
        let none = NonZeroU64::new(7);
        for (asked, places) in [(0, 9), (9, 0), (1, 1), (8, 8), (9, 9), (300, 20), (20, 300), (303, 303)] {
            let mut entries = vec![none; places];
            tree.load_many(&indexes[..asked], &mut entries);
            let wanted = |k: usize| if k < asked { tree.get(indexes[k]) } else { none };
            assert!(entries.iter().enumerate().all(|(k, entry)| *entry == wanted(k)));
        }
    }
}
