//! Readers and writers that come and go.

use maple::{Kind, Lock, OpenError, Shared};
use std::num::NonZeroU64;
use std::thread;

#[test]
fn threads_come_and_go_at_few_places_and_all_see_one_history() {
    let shared = Shared::new(Kind::Alloc, 5000, 4).unwrap();
    thread::scope(|scope| {
        for thread in 0..4 {
            let shared = &shared;
            scope.spawn(move || {
                for n in 0..200 {
                    let mut writer = shared.writer(Lock::Waits).unwrap();
                    let at = writer.alloc(1, 0..=u64::MAX, NonZeroU64::new(4 * thread + 4).unwrap()).unwrap();
                    assert_eq!(writer.reader().load(at).unwrap().entry.get(), 4 * thread + 4);
                    if n % 2 == 0 {
                        assert!(writer.erase(at).unwrap().is_some());
                    }
                }
            });
        }
    });
    assert_eq!(shared.settle(), (1200, 4));
    let mut readers: Vec<_> = (0..4).map(|_| shared.reader().unwrap()).collect();
    assert_eq!(shared.reader().err(), Some(OpenError::NoPlace));
    drop(shared);
    assert!(readers.iter_mut().all(|reader| reader.sync() == 1200 && reader.iter().count() == 400));
}
