//! Windows in each form, and trees as Rust's collections.

use maple::{entries, Error, Kind, Lock, Range, Shared, Tree};
use std::ops::Bound::{Excluded, Included, Unbounded};

fn range(n: u64) -> Range {
    Range { first: 10 * n, last: 10 * n + 4, entry: entries::of_value(n).unwrap() }
}

fn firsts(ranges: impl Iterator<Item = Range>) -> Vec<u64> {
    ranges.map(|range| range.first).collect()
}

#[test]
fn windows_are_those_of_rust() {
    let tree: Tree = (0..10).map(range).collect();
    assert_eq!(firsts(tree.range(4..20)), [0, 10]);
    assert_eq!(firsts(tree.range(4..=20)), [0, 10, 20]);
    assert_eq!(firsts(tree.range(5..10)), [0_u64; 0]);
    assert_eq!(firsts(tree.range(85..)), [90]);
    assert_eq!(firsts(tree.range(..10)), [0]);
    assert_eq!(firsts(tree.range((Excluded(4), Included(10)))), [10]);
    assert_eq!(firsts(tree.range((Excluded(u64::MAX), Unbounded))), [0_u64; 0]);
    assert_eq!(tree.range(..0).next_back(), None);
    assert_eq!(tree.range(..).count(), 10);
    assert_eq!((tree.first_in(5..), tree.last_in(..10), tree.first_in(7..7)), (Some(range(1)), Some(range(0)), None));
    assert_eq!((tree.get(34), tree.get(35)), (entries::of_value(3), None));
}

#[test]
fn a_store_over_no_index_is_refused() {
    let mut tree = Tree::new(Kind::Alloc, 100).unwrap();
    let entry = entries::of_value(7).unwrap();
    assert_eq!(tree.store(5..5, Some(entry)), Err(Error::Invalid));
    assert_eq!(tree.insert(..0, entry), Err(Error::Invalid));
    assert_eq!(tree.alloc(1, 3..3, entry), Err(Error::Invalid));
    assert_eq!(tree.store(.., Some(entry)), Ok(None));
    assert_eq!(tree.load(u64::MAX).unwrap().indexes(), 0..=u64::MAX);
    let shared = Shared::new(Kind::Alloc, 100, 1).unwrap();
    let mut writer = shared.writer(Lock::Waits).unwrap();
    assert_eq!(writer.store(5..5, Some(entry)), Err(Error::Invalid));
    assert_eq!(writer.alloc(3, 10.., entry), Ok(10));
    assert_eq!(firsts(writer.reader().range(..=10)), [10]);
    assert_eq!((writer.reader().get(12), writer.reader().is_empty()), (Some(entry), false));
}

#[test]
fn a_tree_is_collected_cloned_and_handed_over() {
    let mut tree: Tree = (0..3000).rev().map(range).collect();
    assert!(tree.rows() > 16 && tree.iter().eq((0..3000).map(range)));
    let clone = tree.clone();
    assert_eq!(clone.rows(), tree.rows());
    tree.extend([Range { first: 0, last: 14, entry: range(7).entry }]);
    assert_eq!(tree.iter().count(), 2999);
    let mut all = clone.into_iter();
    assert_eq!((all.next(), all.next_back()), (Some(range(0)), Some(range(2999))));
    assert!(all.eq((1..2999).map(range)));
    assert_eq!(format!("{:?}", Tree::new(Kind::Range, 1).unwrap()), "[]");
}

#[test]
#[should_panic(expected = "a range cannot be stored: Invalid")]
fn what_is_extended_by_a_reserved_entry_panics() {
    let mut tree = Tree::new(Kind::Range, 100).unwrap();
    tree.extend([Range { first: 0, last: 9, entry: std::num::NonZeroU64::new(2).unwrap() }]);
}
