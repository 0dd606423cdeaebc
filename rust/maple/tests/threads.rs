//! Threads on one shared tree.

use maple::{Error, Kind, Lock, Shared, Tree};
use std::num::NonZeroU64;
use std::thread;

const READERS: u64 = 3;
const CALLS: u64 = 20_000;

/// The entry that a writer stores over ten indexes tells their first index and how often it wrote before.
fn entry(first: u64, times: u64) -> NonZeroU64 {
    NonZeroU64::new(1 << 40 | first << 20 | times << 2 | 1).expect("an entry is not 0")
}

#[test]
fn readers_beside_a_writer_see_what_was_stored_and_never_go_back() {
    let shared = Shared::new(Kind::Range, 5000, READERS as u32 + 1).unwrap();
    let mut writer = shared.writer(Lock::Waits).unwrap();
    thread::scope(|scope| {
        for number in 0..READERS {
            let mut reader = shared.reader().unwrap();
            scope.spawn(move || {
                let (mut floor, mut latest) = (0, [0; 100]);
                while floor < CALLS {
                    for (first, latest) in (0..).step_by(10).zip(&mut latest) {
                        let found = reader.load(first + number);
                        assert!(*reader.window().start() >= floor && !reader.window().is_empty());
                        floor = *reader.window().start();
                        if let Some(range) = found {
                            let times = range.entry.get() >> 2 & 0x3ffff;
                            assert_eq!((range.indexes(), range.entry), (first..=first + 9, entry(first, times)));
                            assert!(*latest <= times);
                            *latest = times;
                        }
                    }
                }
            });
        }
        scope.spawn(move || {
            for n in 0..CALLS {
                let first = 10 * (n * 7 % 100);
                writer.store(first..=first + 9, Some(entry(first, n / 100))).unwrap();
            }
            assert_eq!(writer.number(), CALLS);
        });
    });
}

#[test]
fn writers_draw_numbers_that_no_other_has() {
    let shared = Shared::new(Kind::Alloc, 5000, 4).unwrap();
    let drawn: Vec<u64> = thread::scope(|scope| {
        let threads: Vec<_> = (0..4)
            .map(|number| {
                let mut writer = shared.writer(if number == 0 { Lock::Tries } else { Lock::Waits }).unwrap();
                scope.spawn(move || {
                    let mut mine = Vec::new();
                    while mine.len() < 1000 {
                        match writer.alloc(1, 0..=9999, entry(number, 0)) {
                            Ok(start) => mine.push(start),
                            Err(Error::Locked) => thread::yield_now(),
                            Err(error) => panic!("{error}"),
                        }
                    }
                    mine
                })
            })
            .collect();
        threads.into_iter().flat_map(|thread| thread.join().unwrap()).collect()
    });
    let mut sorted = drawn.clone();
    sorted.sort_unstable();
    assert!(sorted.into_iter().eq(0..4000));
}

#[test]
fn a_tree_of_one_thread_goes_from_thread_to_thread() {
    let mut tree = Tree::new(Kind::Range, 1000).unwrap();
    for times in 0..10 {
        tree = thread::spawn(move || {
            assert_eq!(tree.iter().count(), times as usize);
            tree.insert(100 * times..=100 * times + 9, entry(100 * times, times)).unwrap();
            tree
        })
        .join()
        .unwrap();
    }
    assert!(tree.iter().map(|range| range.entry).eq((0..10).map(|times| entry(100 * times, times))));
}
