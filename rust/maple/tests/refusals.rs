//! What each refusal is, and what it leaves.

use maple::{Error, Kind, Lock, OpenError, Range, Shared, Tree};
use std::num::NonZeroU64;

fn entry(value: u64) -> NonZeroU64 {
    NonZeroU64::new(value).expect("an entry is not 0")
}

#[test]
fn each_refusal_is_told_and_changes_nothing() {
    let mut tree = Tree::new(Kind::Alloc, 100).unwrap();
    tree.insert(10..=19, entry(4)).unwrap();
    let before: Vec<_> = tree.iter().collect();
    assert_eq!(tree.insert(19..=30, entry(8)), Err(Error::Exists));
    #[allow(clippy::reversed_empty_ranges)]
    let turned = 9..=3;
    assert_eq!(tree.store(turned, Some(entry(8))), Err(Error::Invalid));
    assert_eq!(tree.store(0..=3, Some(entry(2))), Err(Error::Invalid));
    assert_eq!(tree.alloc(11, 10..=29, entry(8)), Err(Error::NoRoom));
    assert_eq!(tree.erase(9), Ok(None));
    assert_eq!(tree.iter().collect::<Vec<_>>(), before);
}

#[test]
fn a_small_tree_is_short_of_rows() {
    let mut tree = Tree::new(Kind::Range, 4).unwrap();
    let stored = (0..100).take_while(|n| tree.store(n * 10..=n * 10 + 4, Some(entry(8))).is_ok()).count();
    assert!(stored < 100);
    assert_eq!(tree.preallocate(), Err(Error::NoRows));
    assert_eq!(tree.iter().count(), stored);
    assert_eq!(tree.iter().rev().last().unwrap().first, 0);
}

#[test]
fn a_tree_that_cannot_be_made_says_why() {
    let ranges = [(0, 4), (10, 14), (14, 20)].map(|(first, last)| Range { first, last, entry: entry(8) });
    assert_eq!(Tree::build(Kind::Range, 100, &ranges).err(), Some(OpenError::Range(2)));
    assert!(Tree::build(Kind::Range, 100, &ranges[..2]).is_ok());
    assert_eq!(Tree::build(Kind::Range, 70_000, &ranges[..2]).err(), Some(OpenError::Rows));
    assert_eq!(Tree::new(Kind::Range, 100).unwrap().copy(70_000).err(), Some(OpenError::Rows));
    assert_eq!(Shared::new(Kind::Range, 3, 1).err(), Some(OpenError::Rows));
    assert_eq!(Shared::new(Kind::Range, 65_505, 1).err(), Some(OpenError::Rows));
    assert_eq!(Shared::new(Kind::Range, 100, u32::MAX).err(), Some(OpenError::Users));
}

#[test]
fn a_writer_is_refused_as_a_tree_is_and_each_call_has_a_number() {
    let shared = Shared::new(Kind::Alloc, 100, 1).unwrap();
    let mut writer = shared.writer(Lock::Tries).unwrap();
    assert_eq!(writer.number(), 0);
    assert_eq!(writer.insert(10..=19, entry(4)), Ok(()));
    assert_eq!(writer.insert(19..=30, entry(8)), Err(Error::Exists));
    assert_eq!(writer.alloc(11, 10..=29, entry(8)), Err(Error::NoRoom));
    assert_eq!(writer.store(0..=3, Some(entry(2))), Err(Error::Invalid));
    assert_eq!(writer.erase(9), Ok(None));
    assert_eq!(writer.number(), 5);
    assert_eq!(writer.erase(12), Ok(Some(Range { first: 10, last: 19, entry: entry(4) })));
    assert_eq!(writer.reader().iter().count(), 0);
    assert_eq!(writer.reader().sync(), 6);
}

#[test]
fn a_tree_of_rows_enough_refuses_nothing() {
    for ranges in [1, 10, 100, 1000] {
        let mut tree = Tree::new(Kind::Range, maple::rows_for(ranges).unwrap()).unwrap();
        for n in 0..=ranges {
            assert_eq!(tree.store(7 * n..7 * n + 3, Some(entry(4096))), Ok(None));
        }
        assert_eq!(tree.stats().calls, ranges + 1);
    }
}

#[test]
fn an_iterator_that_is_gone_holds_no_rows() {
    let mut tree = Tree::new(Kind::Range, 40).unwrap();
    (0..20).for_each(|n| assert!(tree.store(10 * n..10 * n + 5, Some(entry(4096))).is_ok()));
    let shared = tree.share(40, 2).unwrap();
    let (mut writer, mut reader) = (shared.writer(Lock::Waits).unwrap(), shared.reader().unwrap());
    let place = reader.place();
    let mut steps = reader.range(..);
    assert_eq!(steps.by_ref().take(3).count(), 3);
    let replace = |writer: &mut maple::Writer, n: u64| {
        let (at, there) = (10 * (n % 20), n / 20 % 2 == 0);
        writer.store(at + 6..at + 9, there.then(|| entry(4096)))
    };
    assert_eq!((0..1000).find_map(|n| replace(&mut writer, n).err()), Some(Error::NoRows));
    assert!(writer.shortage().is_some_and(|it| it.held > 0 && it.by == place && it.epoch == 0));
    drop(steps);
    assert_eq!((0..1000).find_map(|n| replace(&mut writer, n).err()), None);
    assert_eq!(writer.shortage(), None);
}
