//! Trees that threads share.

use crate::errors::{done, opened, ENOENT, ERANGE};
use crate::raw::{self, RawDone, RawForm, RawRange, RawRead, RawStats, RawUser, RawWindow};
use crate::waits::until_done;
use crate::windows::{ends, Walk};
use crate::{CheckError, Error, Form, Kind, OpenError, Range, Shortage, Stats};
use std::fmt;
use std::iter::FusedIterator;
use std::num::NonZeroU64;
use std::ops::{RangeBounds, RangeInclusive};
use std::sync::{Mutex, MutexGuard, PoisonError};

/// At most this many writes are made on a tree.
const MOST_CALLS: u64 = (1 << 62) - 1;

/// A tree has at most this many readers and writers at a time: one more place is the tree's own.
const MOST_USERS: u32 = 61;

/// A map from ranges that threads share: each has a [`Reader`] or a [`Writer`] of its own. The tree has one history of writes,
/// numbered from 1: after the write n it has the version n. Each reader and writer sees a beginning of the history, which only
/// grows. Writes are linearizable, and take the tree's lock. Reads take no lock, and return the answer of one version.
///
/// What a thread wrote elsewhere before a write, for example to a place that the entry represents, is visible to a reader that
/// gets the entry, and to one that has seen the write ([`Reader::learn`]), as by an atomic of `Release` and `Acquire`.
///
/// The tree lives until it and all its readers and writers are gone, in any order. The place of one that is gone is free for
/// another.
///
/// ```
/// use maple::{Kind, Lock, Shared};
/// use std::num::NonZeroU64;
///
/// let shared = Shared::new(Kind::Range, 1000, 2)?;
/// let mut writer = shared.writer(Lock::Waits)?;
/// let mut reader = shared.reader()?;
/// let entry = NonZeroU64::new(8).unwrap();
/// std::thread::scope(|scope| {
///     scope.spawn(move || (0..500).for_each(|n| writer.insert(10 * n..=10 * n + 4, entry).unwrap()));
///     scope.spawn(move || {
///         let mut before = 0;
///         while before < 500 {
///             let now = reader.iter().count();
///             assert!(now >= before);
///             before = now;
///         }
///     });
/// });
/// # Ok::<(), maple::OpenError>(())
/// ```
pub struct Shared {
    /// The first user, which opens all others.
    first: Mutex<RawUser>,
}

impl Shared {
    /// An empty tree with 4 to 65,504 nodes (`rows`), for at most 61 readers and writers at a time (`users`).
    ///
    /// ```
    /// use maple::{Kind, OpenError, Shared};
    /// let shared = Shared::new(Kind::Alloc, 100, 1)?;
    /// let reader = shared.reader()?;
    /// assert_eq!(shared.reader().err(), Some(OpenError::NoPlace));
    /// drop(reader);
    /// assert!(shared.reader().is_ok());
    /// assert_eq!(Shared::new(Kind::Alloc, 3, 1).err(), Some(OpenError::Rows));
    /// assert_eq!(Shared::new(Kind::Alloc, 100, 62).err(), Some(OpenError::Users));
    /// # Ok::<(), OpenError>(())
    /// ```
    pub fn new(kind: Kind, rows: u64, users: u32) -> Result<Shared, OpenError> {
        // SAFETY: the user is closed.
        Shared::opened_by(users, |user, users, calls| unsafe {
            raw::maple_shared_open(user, kind as u32, rows, users, calls)
        })
    }

    /// Makes a tree by what opens a closed user for a number of users and calls; one place is the tree's own.
    pub(crate) fn opened_by(users: u32, open: impl FnOnce(&mut RawUser, u32, u64) -> u32) -> Result<Shared, OpenError> {
        if users > MOST_USERS {
            return Err(OpenError::Users);
        }
        let mut first = RawUser::CLOSED;
        opened(open(&mut first, users + 1, MOST_CALLS))?;
        Ok(Shared { first: Mutex::new(first) })
    }

    /// The first user. A panic elsewhere does it no harm.
    fn first(&self) -> MutexGuard<'_, RawUser> {
        self.first.lock().unwrap_or_else(PoisonError::into_inner)
    }

    /// A reader, which may go to another thread.
    ///
    /// ```
    /// use maple::{Kind, Shared};
    /// let mut reader = Shared::new(Kind::Range, 100, 1)?.reader()?;
    /// assert!(reader.is_empty());
    /// # Ok::<(), maple::OpenError>(())
    /// ```
    pub fn reader(&self) -> Result<Reader, OpenError> {
        let (mut first, mut user) = (self.first(), RawUser::CLOSED);
        // SAFETY: the first user is open, the other closed, and nobody else uses them now.
        opened(until_done(|| unsafe { raw::maple_share(&mut *first, &mut user) }))?;
        Ok(Reader { user, window: 0..=0 })
    }

    /// A writer, which may go to another thread, and what its calls do where another thread has the lock.
    ///
    /// ```
    /// use maple::{Kind, Lock, Shared};
    /// let mut writer = Shared::new(Kind::Range, 100, 1)?.writer(Lock::Tries)?;
    /// assert_eq!(writer.clear(), Ok(()));
    /// # Ok::<(), maple::OpenError>(())
    /// ```
    pub fn writer(&self, lock: Lock) -> Result<Writer, OpenError> {
        Ok(Writer { reader: self.reader()?, lock, number: 0, shortage: None })
    }

    /// Shows the whole history to this and to all places that no reader or writer has, under the lock as soon as that is free.
    /// Returns the number of writes in it, and of such places. Where these are as many as the tree was made for, no reader or
    /// writer is left, and each write of the history was made by one that is gone.
    ///
    /// ```
    /// use maple::{Kind, Lock, Shared};
    /// use std::num::NonZeroU64;
    /// let shared = Shared::new(Kind::Range, 100, 2)?;
    /// let (mut writer, reader) = (shared.writer(Lock::Waits)?, shared.reader()?);
    /// writer.store(0..=9, NonZeroU64::new(4)).unwrap();
    /// drop(writer);
    /// assert_eq!(shared.settle(), (1, 1));
    /// drop(reader);
    /// assert_eq!(shared.settle(), (1, 2));
    /// # Ok::<(), maple::OpenError>(())
    /// ```
    pub fn settle(&self) -> (u64, u64) {
        let (mut first, mut calls, mut places) = (self.first(), 0, 0);
        // SAFETY: the user is open, the pointers are of three objects, and nobody else uses them now.
        until_done(|| unsafe { raw::maple_settle(&mut *first, &mut calls, &mut places) });
        (calls, places)
    }

    /// How the tree uses its nodes, under the lock as soon as that is free.
    ///
    /// ```
    /// use maple::{entries::of_value, Kind, Lock, Shared};
    /// let shared = Shared::new(Kind::Range, 100, 1)?;
    /// shared.writer(Lock::Waits)?.store(3..=5, of_value(1)).unwrap();
    /// let stats = shared.stats();
    /// assert_eq!((stats.rows, stats.free, stats.live, stats.calls), (100, 99, 1, 1));
    /// # Ok::<(), maple::OpenError>(())
    /// ```
    pub fn stats(&self) -> Stats {
        let (mut first, mut told) = (self.first(), RawStats::default());
        // SAFETY: the user is open, and the pointers are of two objects that nobody else uses now.
        until_done(|| unsafe { raw::maple_shared_stats(&mut *first, &mut told) });
        let RawStats { rows, free, live, held, height, calls } = told;
        Stats { rows, free, live, held, height, calls }
    }

    /// Tests each word of the tree, under the lock as soon as that is free, and returns its form.
    ///
    /// ```
    /// use maple::{entries::of_value, Kind, Lock, Shared};
    /// let shared = Shared::new(Kind::Range, 100, 1)?;
    /// shared.writer(Lock::Waits)?.store(3..=5, of_value(1)).unwrap();
    /// let form = shared.check().unwrap();
    /// assert_eq!((form.height, form.rows, form.ranges), (1, 1, 1));
    /// # Ok::<(), maple::OpenError>(())
    /// ```
    pub fn check(&self) -> Result<Form, CheckError> {
        let (mut first, mut form) = (self.first(), RawForm::default());
        // SAFETY: the user is open, and the pointers are of two objects that nobody else uses now.
        match until_done(|| unsafe { raw::maple_shared_check(&mut *first, &mut form) }) {
            0 => Ok(Form { height: form.height, rows: form.rows, ranges: form.ranges }),
            _ => Err(CheckError::Broken),
        }
    }

    /// The image of the tree, written under the lock as soon as that is free: [`Tree::of_image`](crate::Tree::of_image) opens
    /// one with its map.
    ///
    /// ```
    /// use maple::{entries::of_value, Kind, Lock, Shared, Tree};
    /// let shared = Shared::new(Kind::Range, 100, 1)?;
    /// shared.writer(Lock::Waits)?.store(3..=5, of_value(1)).unwrap();
    /// assert_eq!(Tree::of_image(&shared.image()?, 100)?.get(4), of_value(1));
    /// # Ok::<(), maple::OpenError>(())
    /// ```
    pub fn image(&self) -> Result<Vec<u8>, OpenError> {
        let (mut first, mut out, mut used) = (self.first(), Vec::new(), 0);
        loop {
            // SAFETY: the user is open, and the pointers are of objects that nobody else uses now.
            let status =
                until_done(|| unsafe { raw::maple_shared_image(&mut *first, out.as_mut_ptr(), out.len(), &mut used) });
            match status {
                0 => {
                    out.truncate(used);
                    return Ok(out);
                }
                ERANGE => out.resize(used, 0),
                _ => return Err(OpenError::NoMemory),
            }
        }
    }

    /// Another shared tree with its map, copied under the lock as soon as that is free. It has this many nodes (`rows`),
    /// no fewer than this tree has in use, for this many readers and writers at a time (`users`). So a tree continues in
    /// more nodes.
    ///
    /// ```
    /// use maple::{entries::of_value, Kind, Lock, OpenError, Shared};
    /// let shared = Shared::new(Kind::Range, 4, 1)?;
    /// let mut writer = shared.writer(Lock::Waits)?;
    /// let stored = (0..100).take_while(|n| writer.store(10 * n..10 * n + 5, of_value(*n)).is_ok()).count();
    /// let more = shared.copy(100, 1)?;
    /// assert!(more.writer(Lock::Waits)?.store(1000..1005, of_value(7)).is_ok());
    /// assert_eq!(more.check().unwrap().ranges, stored as u64 + 1);
    /// assert_eq!(more.copy(3, 1).err(), Some(OpenError::Rows));
    /// # Ok::<(), OpenError>(())
    /// ```
    pub fn copy(&self, rows: u64, users: u32) -> Result<Shared, OpenError> {
        let mut first = self.first();
        Shared::opened_by(users, |user, users, calls| {
            // SAFETY: the first user is open and the other closed, and nobody else uses them now.
            until_done(|| unsafe { raw::maple_shared_copy(&mut *first, user, rows, users, calls) })
        })
    }

    /// The epoch of the oldest iterator: how many writes had ended, at least, when the oldest iterator over a reader's
    /// ranges began that still keeps its leaf. Where there is none, it is the number of all writes. No such iterator can
    /// give what a write of this number or a lower one removed.
    ///
    /// ```
    /// use maple::{entries::of_value, Kind, Lock, Shared};
    /// let shared = Shared::new(Kind::Range, 100, 2)?;
    /// let (mut writer, mut reader) = (shared.writer(Lock::Waits)?, shared.reader()?);
    /// (0..9).for_each(|n| assert!(writer.store(10 * n..10 * n + 5, of_value(n)).is_ok()));
    /// let mut steps = reader.iter();
    /// assert_eq!(steps.next().map(|range| range.first), Some(0));
    /// assert_eq!(writer.erase(0).map(|range| range.is_some()), Ok(true));
    /// assert_eq!(shared.oldest(), 9);
    /// drop(steps);
    /// assert_eq!(shared.oldest(), 10);
    /// # Ok::<(), maple::OpenError>(())
    /// ```
    pub fn oldest(&self) -> u64 {
        let (mut first, mut calls) = (self.first(), 0);
        // SAFETY: the user is open, and the pointers are of two objects that nobody else uses now.
        until_done(|| unsafe { raw::maple_oldest(&mut *first, &mut calls) });
        calls
    }
}

impl Drop for Shared {
    fn drop(&mut self) {
        let first = self.first.get_mut().unwrap_or_else(PoisonError::into_inner);
        // SAFETY: the user is open, and not used after.
        unsafe { raw::maple_shared_close(first) }
    }
}

impl fmt::Debug for Shared {
    fn fmt(&self, f: &mut fmt::Formatter<'_>) -> fmt::Result {
        f.debug_struct("Shared").finish_non_exhaustive()
    }
}

/// A thread's handle to read a shared tree, without the lock. What it reads is of no older version than what it read before.
///
/// It may go to another thread; one at a time uses it:
///
/// ```
/// fn may_go<T: Send>() {}
/// may_go::<(maple::Shared, maple::Reader, maple::Writer)>();
/// ```
pub struct Reader {
    user: RawUser,
    window: RangeInclusive<u64>,
}

impl Reader {
    /// A read, repeated while it gives up because the leaf of its place was replaced.
    fn ask(&mut self, mut read: impl FnMut(&mut RawUser, &mut RawRead) -> u32) -> Option<Range> {
        let mut told = RawRead::default();
        until_done(|| read(&mut self.user, &mut told));
        self.window = told.lo..=told.hi;
        told.found.shown()
    }

    /// The version interval of the last read: its answer was that of the tree at one of these versions.
    ///
    /// ```
    /// use maple::{Kind, Shared};
    /// let mut reader = Shared::new(Kind::Range, 100, 1)?.reader()?;
    /// assert_eq!(reader.load(5), None);
    /// assert_eq!(reader.window(), 0..=0);
    /// # Ok::<(), maple::OpenError>(())
    /// ```
    pub fn window(&self) -> RangeInclusive<u64> {
        self.window.clone()
    }

    /// The range that holds an index.
    ///
    /// ```
    /// use maple::{Kind, Lock, Shared};
    /// use std::num::NonZeroU64;
    /// let shared = Shared::new(Kind::Range, 100, 2)?;
    /// let (mut writer, mut reader) = (shared.writer(Lock::Waits)?, shared.reader()?);
    /// writer.store(10..=19, NonZeroU64::new(4)).unwrap();
    /// assert!(reader.learn(writer.number()));
    /// assert_eq!(reader.load(12).unwrap().indexes(), 10..=19);
    /// assert_eq!(reader.window(), 1..=1);
    /// # Ok::<(), maple::OpenError>(())
    /// ```
    pub fn load(&mut self, index: u64) -> Option<Range> {
        // SAFETY: the user is open, and the pointers are of two objects that nobody else uses now.
        self.ask(|user, read| unsafe { raw::maple_shared_load(user, index, read) })
    }

    /// The entry at an index, of the range that [`load`](Reader::load) returns, without its ends.
    ///
    /// ```
    /// use maple::{entries::of_value, Kind, Lock, Shared};
    /// let mut writer = Shared::new(Kind::Range, 100, 1)?.writer(Lock::Waits)?;
    /// writer.store(3..12, of_value(1)).unwrap();
    /// assert_eq!((writer.reader().get(3), writer.reader().get(12)), (of_value(1), None));
    /// # Ok::<(), maple::OpenError>(())
    /// ```
    pub fn get(&mut self, index: u64) -> Option<NonZeroU64> {
        let mut told = RawWindow::default();
        // SAFETY: as of `load`.
        let entry = unsafe { raw::maple_shared_entry(&mut self.user, index, &mut told) };
        self.window = told.lo..=told.hi;
        NonZeroU64::new(entry)
    }

    /// The entries at these indexes, as many as there are places for, by one read: [`window`](Reader::window) is that of all. The other
    /// places keep what they had. No entry is of an earlier version than the one before it.
    ///
    /// ```
    /// use maple::{entries::of_value, Kind, Lock, Shared};
    /// let shared = Shared::new(Kind::Range, 100, 2)?;
    /// let (mut writer, mut reader) = (shared.writer(Lock::Waits)?, shared.reader()?);
    /// writer.store(10..=19, of_value(4)).unwrap();
    /// let mut entries = [None; 3];
    /// reader.get_many(&[12, 20], &mut entries);
    /// assert_eq!(entries, [of_value(4), None, None]);
    /// # Ok::<(), maple::OpenError>(())
    /// ```
    pub fn get_many(&mut self, indexes: &[u64], entries: &mut [Option<NonZeroU64>]) {
        let mut told = RawWindow::default();
        let places = entries.as_mut_ptr().cast::<u64>();
        // SAFETY: the user is open, nobody else uses it now, and the slices have these lengths. An `Option<NonZeroU64>` is a `u64`, and
        // `None` is 0.
        unsafe {
            raw::maple_shared_load_many(
                &mut self.user,
                indexes.as_ptr(),
                indexes.len(),
                places,
                entries.len(),
                &mut told,
            )
        };
        self.window = told.lo..=told.hi;
    }

    /// Whether the tree had no range.
    ///
    /// ```
    /// use maple::{entries::of_value, Kind, Lock, Shared};
    /// let mut writer = Shared::new(Kind::Range, 100, 1)?.writer(Lock::Waits)?;
    /// assert!(writer.reader().is_empty());
    /// writer.store(3..12, of_value(1)).unwrap();
    /// assert!(!writer.reader().is_empty());
    /// # Ok::<(), maple::OpenError>(())
    /// ```
    pub fn is_empty(&mut self) -> bool {
        self.first_in(..).is_none()
    }

    /// The first range that has an index in the window.
    ///
    /// ```
    /// use maple::{entries::of_value, Kind, Lock, Shared};
    /// let shared = Shared::new(Kind::Range, 100, 1)?;
    /// let mut writer = shared.writer(Lock::Waits)?;
    /// for first in [0, 10, 20] {
    ///     writer.store(first..first + 5, of_value(first)).unwrap();
    /// }
    /// let reader = writer.reader();
    /// assert_eq!(reader.first_in(2..).unwrap().first, 0);
    /// assert_eq!(reader.next_in(2..).unwrap().first, 10);
    /// assert_eq!(reader.last_in(..=22).unwrap().first, 20);
    /// assert_eq!(reader.prev_in(..=22).unwrap().first, 10);
    /// assert_eq!((reader.get(24), reader.get(25)), (of_value(20), None));
    /// assert!(!reader.is_empty());
    /// # Ok::<(), maple::OpenError>(())
    /// ```
    pub fn first_in(&mut self, window: impl RangeBounds<u64>) -> Option<Range> {
        let (first, last) = ends(window);
        // SAFETY: as of `load`.
        self.ask(|user, read| unsafe { raw::maple_shared_find(user, first, last, read) })
    }

    /// The last range that has an index in the window. Where the leaf of its place is replaced meanwhile it reads again, and no
    /// bound on how often is known. The same holds for `next_in` and `prev_in`.
    ///
    /// ```
    /// use maple::{entries::of_value, Kind, Lock, Shared};
    /// let mut writer = Shared::new(Kind::Range, 100, 1)?.writer(Lock::Waits)?;
    /// writer.store(0..5, of_value(1)).unwrap();
    /// writer.store(10..15, of_value(2)).unwrap();
    /// assert_eq!(writer.reader().last_in(..12).unwrap().indexes(), 10..=14);
    /// # Ok::<(), maple::OpenError>(())
    /// ```
    pub fn last_in(&mut self, window: impl RangeBounds<u64>) -> Option<Range> {
        let (first, last) = ends(window);
        // SAFETY: as of `load`.
        self.ask(|user, read| unsafe { raw::maple_shared_rfind(user, last, first, read) })
    }

    /// The first range that begins in the window, after its first index.
    ///
    /// ```
    /// use maple::{entries::of_value, Kind, Lock, Shared};
    /// let mut writer = Shared::new(Kind::Range, 100, 1)?.writer(Lock::Waits)?;
    /// writer.store(0..5, of_value(1)).unwrap();
    /// writer.store(10..15, of_value(2)).unwrap();
    /// assert_eq!(writer.reader().next_in(2..).unwrap().indexes(), 10..=14);
    /// # Ok::<(), maple::OpenError>(())
    /// ```
    pub fn next_in(&mut self, window: impl RangeBounds<u64>) -> Option<Range> {
        let (first, last) = ends(window);
        // SAFETY: as of `load`.
        self.ask(|user, read| unsafe { raw::maple_shared_next(user, first, last, read) })
    }

    /// The last range that ends in the window, before its last index.
    ///
    /// ```
    /// use maple::{entries::of_value, Kind, Lock, Shared};
    /// let mut writer = Shared::new(Kind::Range, 100, 1)?.writer(Lock::Waits)?;
    /// writer.store(0..5, of_value(1)).unwrap();
    /// writer.store(10..15, of_value(2)).unwrap();
    /// assert_eq!(writer.reader().prev_in(..=12).unwrap().indexes(), 0..=4);
    /// # Ok::<(), maple::OpenError>(())
    /// ```
    pub fn prev_in(&mut self, window: impl RangeBounds<u64>) -> Option<Range> {
        let (first, last) = ends(window);
        // SAFETY: as of `load`.
        self.ask(|user, read| unsafe { raw::maple_shared_prev(user, last, first, read) })
    }

    /// The ranges that have an index in the window, in rising order, and from the back in falling order. Each is a read of its
    /// own. A step in rising order keeps its leaf. Until the iterator is at its end or gone, writes cannot reuse the nodes that
    /// they replace.
    ///
    /// ```
    /// use maple::{Kind, Lock, Shared};
    /// use std::num::NonZeroU64;
    /// let shared = Shared::new(Kind::Range, 100, 1)?;
    /// let mut writer = shared.writer(Lock::Waits)?;
    /// for first in [0, 10, 20] {
    ///     writer.store(first..=first + 4, NonZeroU64::new(4 * first + 4)).unwrap();
    /// }
    /// let entries: Vec<u64> = writer.reader().range(3..=12).map(|range| range.entry.get()).collect();
    /// assert_eq!(entries, [4, 44]);
    /// assert_eq!(writer.reader().range(0..=99).next_back().unwrap().first, 20);
    /// # Ok::<(), maple::OpenError>(())
    /// ```
    pub fn range(&mut self, window: impl RangeBounds<u64>) -> Steps<'_> {
        Steps { reader: self, walk: Walk::over(window) }
    }

    /// All ranges, in rising order: [`range`](Reader::range) of the window `..`.
    ///
    /// ```
    /// use maple::{entries::of_value, Kind, Lock, Shared};
    /// let mut writer = Shared::new(Kind::Range, 100, 1)?.writer(Lock::Waits)?;
    /// writer.store(0..5, of_value(1)).unwrap();
    /// writer.store(10..15, of_value(2)).unwrap();
    /// let firsts: Vec<u64> = writer.reader().iter().map(|range| range.first).collect();
    /// assert_eq!(firsts, [0, 10]);
    /// # Ok::<(), maple::OpenError>(())
    /// ```
    pub fn iter(&mut self) -> Steps<'_> {
        self.range(..)
    }

    /// Whether it has now seen at least that many writes: what it reads is then of no older version. Takes no lock. The number
    /// is that of another thread's write, or the end of the window of its read, handed over. False: a write that had begun has
    /// not ended yet.
    ///
    /// ```
    /// use maple::{Kind, Lock, Shared};
    /// let shared = Shared::new(Kind::Range, 100, 2)?;
    /// let (mut writer, mut reader) = (shared.writer(Lock::Waits)?, shared.reader()?);
    /// writer.clear().unwrap();
    /// assert!(reader.learn(writer.number()));
    /// assert!(!reader.learn(2));
    /// # Ok::<(), maple::OpenError>(())
    /// ```
    pub fn learn(&mut self, calls: u64) -> bool {
        // SAFETY: the user is open, and nobody else uses it now.
        unsafe { raw::maple_learn(&mut self.user, calls) == 0 }
    }

    /// Its place in the tree, from 1: by it a shortage names who holds nodes ([`Shortage::by`]).
    ///
    /// ```
    /// use maple::{Kind, Shared};
    /// let shared = Shared::new(Kind::Range, 100, 2)?;
    /// let (mut one, mut other) = (shared.reader()?, shared.reader()?);
    /// assert_ne!(one.place(), other.place());
    /// # Ok::<(), maple::OpenError>(())
    /// ```
    pub fn place(&mut self) -> u64 {
        let mut place = 0;
        // SAFETY: the user is open, and the pointers are of two objects that nobody else uses now.
        unsafe { raw::maple_place(&mut self.user, &mut place) };
        place
    }

    /// Sees the whole history, under the lock as soon as it is free, and returns its length. Readers and writers that get the
    /// same number have seen the same history.
    ///
    /// ```
    /// use maple::{Kind, Shared};
    /// assert_eq!(Shared::new(Kind::Range, 100, 1)?.reader()?.sync(), 0);
    /// # Ok::<(), maple::OpenError>(())
    /// ```
    pub fn sync(&mut self) -> u64 {
        let mut calls = 0;
        // SAFETY: the user is open, and the pointers are of two objects that nobody else uses now.
        until_done(|| unsafe { raw::maple_sync(&mut self.user, &mut calls) });
        calls
    }
}

impl Drop for Reader {
    /// Its place is then free for another, unless there is no memory to note that.
    fn drop(&mut self) {
        // SAFETY: the user is open, and not used after it is closed.
        until_done(|| unsafe { raw::maple_leave(&mut self.user) });
        // SAFETY: as above; and a closed user stays closed.
        unsafe { raw::maple_shared_close(&mut self.user) }
    }
}

impl fmt::Debug for Reader {
    fn fmt(&self, f: &mut fmt::Formatter<'_>) -> fmt::Result {
        f.debug_struct("Reader").field("window", &self.window).finish_non_exhaustive()
    }
}

impl<'a> IntoIterator for &'a mut Reader {
    type Item = Range;
    type IntoIter = Steps<'a>;

    fn into_iter(self) -> Steps<'a> {
        self.iter()
    }
}

/// The ranges of a window of a shared tree that were not yet given, as [`Reader::range`] gives them.
///
/// ```
/// use maple::{Kind, Shared};
/// let mut reader = Shared::new(Kind::Range, 100, 1)?.reader()?;
/// let mut steps = reader.iter();
/// assert_eq!(steps.next(), None);
/// assert_eq!(steps.window(), 0..=0);
/// # Ok::<(), maple::OpenError>(())
/// ```
pub struct Steps<'a> {
    reader: &'a mut Reader,
    walk: Walk,
}

impl Steps<'_> {
    /// As [`Reader::window`], of the last step.
    ///
    /// ```
    /// use maple::{Kind, Shared};
    /// let mut reader = Shared::new(Kind::Range, 100, 1)?.reader()?;
    /// let mut steps = reader.iter();
    /// assert_eq!(steps.next(), None);
    /// assert_eq!(steps.window(), 0..=0);
    /// # Ok::<(), maple::OpenError>(())
    /// ```
    pub fn window(&self) -> RangeInclusive<u64> {
        self.reader.window()
    }
}

impl Iterator for Steps<'_> {
    type Item = Range;

    fn next(&mut self) -> Option<Range> {
        let reader = &mut self.reader;
        // SAFETY: the user is open, and the pointers are of three objects that nobody else uses now.
        self.walk.next(|walk, end| reader.ask(|user, read| unsafe { raw::maple_shared_step_to(user, walk, end, read) }))
    }
}

impl DoubleEndedIterator for Steps<'_> {
    fn next_back(&mut self) -> Option<Range> {
        let reader = &mut self.reader;
        self.walk.next_back(|first, last| reader.last_in(first..=last))
    }
}

impl FusedIterator for Steps<'_> {}

impl Drop for Steps<'_> {
    fn drop(&mut self) {
        // SAFETY: the user is open, and nobody else uses it now.
        unsafe { raw::maple_pause(&mut self.reader.user) };
    }
}

impl fmt::Debug for Steps<'_> {
    fn fmt(&self, f: &mut fmt::Formatter<'_>) -> fmt::Result {
        f.debug_struct("Steps").field("left", &self.walk.left()).finish_non_exhaustive()
    }
}

/// What a write does where another thread has the tree's lock.
///
/// ```
/// use maple::{Kind, Lock, Shared};
/// let mut writer = Shared::new(Kind::Range, 100, 1)?.writer(Lock::Tries)?;
/// writer.set_lock(Lock::Waits);
/// # Ok::<(), maple::OpenError>(())
/// ```
#[derive(Clone, Copy, Debug, PartialEq, Eq)]
pub enum Lock {
    /// It rests and tries again: it spins shortly, then yields, and at last sleeps, up to a millisecond at a time. The lock is
    /// not fair, and no bound on the wait is known.
    Waits,
    /// It returns [`Error::Locked`], and nothing was changed.
    Tries,
}

/// A thread's handle to write to a shared tree, and by its [`reader`](Writer::reader) to read it. Its writes return what those
/// of a [`Tree`](crate::Tree) do; `number` is the number of the last one in the history.
///
/// ```
/// use maple::{Error, Kind, Lock, Shared};
/// use std::num::NonZeroU64;
///
/// let shared = Shared::new(Kind::Alloc, 1000, 2)?;
/// let entry = NonZeroU64::new(8).unwrap();
/// let mut waits = shared.writer(Lock::Waits)?;
/// let mut tries = shared.writer(Lock::Tries)?;
/// assert_eq!(waits.alloc(20, 0..=99, entry), Ok(0));
/// let start = loop {
///     match tries.alloc(1, 0..=99, entry) {
///         Err(Error::Locked) => continue, // or something else meanwhile
///         answer => break answer,
///     }
/// };
/// assert_eq!(start, Ok(20));
/// assert_eq!((waits.number(), tries.number()), (1, 2));
/// assert_eq!(tries.reader().load(25), None);
/// # Ok::<(), maple::OpenError>(())
/// ```
pub struct Writer {
    reader: Reader,
    lock: Lock,
    number: u64,
    shortage: Option<Shortage>,
}

impl Writer {
    /// Makes a call once, or until it finds the lock free.
    pub(crate) fn once(&mut self, mut call: impl FnMut(&mut RawUser) -> u32) -> u32 {
        let mut once = || call(&mut self.reader.user);
        match self.lock {
            Lock::Waits => until_done(once),
            Lock::Tries => once(),
        }
    }

    /// Notes what its last call came to.
    pub(crate) fn made(&mut self, told: &RawDone) {
        self.number = self.number.max(told.call);
        let RawDone { need, free, live, held, by, epoch, .. } = *told;
        self.shortage = (need > 0).then_some(Shortage { need, free, live, held, by, epoch });
    }

    fn call(&mut self, mut call: impl FnMut(&mut RawUser, &mut RawDone) -> u32) -> (u32, RawDone) {
        let mut told = RawDone::default();
        let status = self.once(|user| call(user, &mut told));
        self.made(&told);
        (status, told)
    }

    fn word(&mut self, call: impl FnMut(&mut RawUser, &mut RawDone) -> u32) -> Result<u64, Error> {
        let (status, told) = self.call(call);
        done(status).map(|()| told.word)
    }

    /// The number of its last write in the tree's history, refused or not; 0 before the first. A write that found the lock
    /// taken has no number.
    ///
    /// ```
    /// use maple::{entries::of_value, Kind, Lock, Shared};
    /// let mut writer = Shared::new(Kind::Range, 100, 1)?.writer(Lock::Waits)?;
    /// assert_eq!(writer.number(), 0);
    /// writer.store(3..12, of_value(1)).unwrap();
    /// assert_eq!(writer.number(), 1);
    /// # Ok::<(), maple::OpenError>(())
    /// ```
    pub fn number(&self) -> u64 {
        self.number
    }

    /// Why its last write was refused with [`Error::NoRows`], where it was.
    ///
    /// ```
    /// use maple::{entries::of_value, Error, Kind, Lock, Shared};
    /// let mut writer = Shared::new(Kind::Range, 4, 1)?.writer(Lock::Waits)?;
    /// let full = (0..).map(|n| writer.store(10 * n..10 * n + 5, of_value(n))).find_map(Result::err);
    /// assert_eq!(full, Some(Error::NoRows));
    /// let shortage = writer.shortage().unwrap();
    /// assert!(shortage.free < shortage.need && shortage.held == 0);
    /// # Ok::<(), maple::OpenError>(())
    /// ```
    pub fn shortage(&self) -> Option<Shortage> {
        self.shortage
    }

    /// Its reader, which has seen its writes.
    ///
    /// ```
    /// use maple::{entries::of_value, Kind, Lock, Shared};
    /// let mut writer = Shared::new(Kind::Range, 100, 1)?.writer(Lock::Waits)?;
    /// writer.store(3..12, of_value(1)).unwrap();
    /// assert_eq!(writer.reader().get(5), of_value(1));
    /// # Ok::<(), maple::OpenError>(())
    /// ```
    pub fn reader(&mut self) -> &mut Reader {
        &mut self.reader
    }

    /// What its writes do from now on where another thread has the lock.
    ///
    /// ```
    /// use maple::{entries::of_value, Kind, Lock, Range, Shared};
    /// let mut writer = Shared::new(Kind::Alloc, 100, 1)?.writer(Lock::Tries)?;
    /// writer.set_lock(Lock::Waits);
    /// let entry = of_value(1).unwrap();
    /// assert_eq!(writer.store(0..10, Some(entry)), Ok(None));
    /// assert_eq!(writer.insert(20..30, entry), Ok(()));
    /// assert_eq!(writer.erase(5), Ok(Some(Range { first: 0, last: 9, entry })));
    /// assert_eq!(writer.alloc(8, 12..100, entry), Ok(12));
    /// assert_eq!(writer.alloc_highest(8, ..100, entry), Ok(92));
    /// assert_eq!((writer.gap(8, 12..100), writer.gap_highest(8, 12..100)), (Ok(30), Ok(84)));
    /// assert_eq!(writer.clear(), Ok(()));
    /// assert_eq!(writer.number(), 8);
    /// # Ok::<(), maple::OpenError>(())
    /// ```
    pub fn set_lock(&mut self, lock: Lock) {
        self.lock = lock;
    }

    /// Stores an entry over a range, or makes a gap there, and gives the entry of the first range that it met.
    ///
    /// ```
    /// use maple::{entries::of_value, Kind, Lock, Shared};
    /// let mut writer = Shared::new(Kind::Range, 100, 1)?.writer(Lock::Waits)?;
    /// assert_eq!(writer.store(0..100, of_value(1)), Ok(None));
    /// assert_eq!(writer.store(40..50, None), Ok(of_value(1)));
    /// # Ok::<(), maple::OpenError>(())
    /// ```
    pub fn store(&mut self, at: impl RangeBounds<u64>, entry: Option<NonZeroU64>) -> Result<Option<NonZeroU64>, Error> {
        let ((first, last), entry) = (ends(at), entry.map_or(0, NonZeroU64::get));
        // SAFETY: the user is open, and the pointers are of two objects that nobody else uses now.
        self.word(|user, done| unsafe { raw::maple_try_store(user, first, last, entry, done) }).map(NonZeroU64::new)
    }

    /// As [`store`](Writer::store), and gives the first `room` of the ranges that it met, in rising order, whole as they were before
    /// it, and how many they all were. No write of another thread comes between.
    ///
    /// ```
    /// use maple::{entries::of_value, Kind, Lock, Shared};
    /// let mut writer = Shared::new(Kind::Range, 100, 1)?.writer(Lock::Waits)?;
    /// for first in [0, 10, 20] {
    ///     writer.store(first..first + 5, of_value(first)).unwrap();
    /// }
    /// let (met, count) = writer.store_over(3..30, None, 2).unwrap();
    /// assert_eq!(met.iter().map(|range| range.indexes()).collect::<Vec<_>>(), [0..=4, 10..=14]);
    /// assert_eq!((count, writer.number()), (3, 4));
    /// # Ok::<(), maple::OpenError>(())
    /// ```
    pub fn store_over(
        &mut self,
        at: impl RangeBounds<u64>,
        entry: Option<NonZeroU64>,
        room: usize,
    ) -> Result<(Vec<Range>, u64), Error> {
        let ((first, last), entry) = (ends(at), entry.map_or(0, NonZeroU64::get));
        let (mut met, mut count) = (vec![RawRange::default(); room], 0);
        let at = met.as_mut_ptr();
        // SAFETY: as of `store`; and there are so many places.
        self.word(|user, done| unsafe {
            raw::maple_try_store_over(user, first, last, entry, at, room, &mut count, done)
        })?;
        Ok((met.into_iter().filter_map(RawRange::shown).collect(), count))
    }

    /// Stores an entry over a range where no range holds any of its indexes.
    ///
    /// ```
    /// use maple::{entries::of_value, Error, Kind, Lock, Shared};
    /// let mut writer = Shared::new(Kind::Range, 100, 1)?.writer(Lock::Waits)?;
    /// let entry = of_value(1).unwrap();
    /// assert_eq!(writer.insert(0..10, entry), Ok(()));
    /// assert_eq!(writer.insert(9..12, entry), Err(Error::Exists));
    /// # Ok::<(), maple::OpenError>(())
    /// ```
    pub fn insert(&mut self, at: impl RangeBounds<u64>, entry: NonZeroU64) -> Result<(), Error> {
        let ((first, last), entry) = (ends(at), entry.get());
        // SAFETY: as of `store`.
        self.word(|user, done| unsafe { raw::maple_try_insert(user, first, last, entry, done) }).map(|_| ())
    }

    /// Removes the whole range that holds an index, and gives it; none where no range does.
    ///
    /// ```
    /// use maple::{entries::of_value, Kind, Lock, Shared};
    /// let mut writer = Shared::new(Kind::Range, 100, 1)?.writer(Lock::Waits)?;
    /// writer.store(3..12, of_value(1)).unwrap();
    /// assert_eq!(writer.erase(5).unwrap().unwrap().indexes(), 3..=11);
    /// assert_eq!(writer.erase(5), Ok(None));
    /// # Ok::<(), maple::OpenError>(())
    /// ```
    pub fn erase(&mut self, index: u64) -> Result<Option<Range>, Error> {
        // SAFETY: as of `store`.
        let (status, told) = self.call(|user, done| unsafe { raw::maple_try_erase(user, index, done) });
        match status {
            ENOENT => Ok(None),
            status => done(status).map(|()| told.was.shown()),
        }
    }

    /// Stores an entry over `size` indexes at the lowest start at which they lie in one gap of the window, and gives the start.
    ///
    /// ```
    /// use maple::{entries::of_value, Kind, Lock, Shared};
    /// let mut writer = Shared::new(Kind::Alloc, 100, 1)?.writer(Lock::Waits)?;
    /// let entry = of_value(1).unwrap();
    /// assert_eq!(writer.alloc(8, 1..100, entry), Ok(1));
    /// assert_eq!(writer.alloc(8, 1..100, entry), Ok(9));
    /// # Ok::<(), maple::OpenError>(())
    /// ```
    pub fn alloc(&mut self, size: u64, window: impl RangeBounds<u64>, entry: NonZeroU64) -> Result<u64, Error> {
        let ((min, max), entry) = (ends(window), entry.get());
        // SAFETY: as of `store`.
        self.word(|user, done| unsafe { raw::maple_try_alloc(user, size, min, max, entry, done) })
    }

    /// As [`alloc`](Writer::alloc), at the highest start.
    ///
    /// ```
    /// use maple::{entries::of_value, Kind, Lock, Shared};
    /// let mut writer = Shared::new(Kind::Alloc, 100, 1)?.writer(Lock::Waits)?;
    /// assert_eq!(writer.alloc_highest(8, 1..100, of_value(1).unwrap()), Ok(92));
    /// # Ok::<(), maple::OpenError>(())
    /// ```
    pub fn alloc_highest(&mut self, size: u64, window: impl RangeBounds<u64>, entry: NonZeroU64) -> Result<u64, Error> {
        let ((min, max), entry) = (ends(window), entry.get());
        // SAFETY: as of `store`.
        self.word(|user, done| unsafe { raw::maple_try_ralloc(user, size, min, max, entry, done) })
    }

    /// Stores as [`store`](Writer::store), and keeps the reserve of [`Tree::store_kept`](crate::Tree::store_kept): a call that would
    /// break it is not made. It has no number, and is refused with [`Error::NoRows`] without a [`shortage`](Writer::shortage). A
    /// tree whose ranges came by the calls `.._kept` alone refuses no erase, in any order, nor any other call that adds no range,
    /// while no reader holds nodes.
    ///
    /// ```
    /// use maple::{entries::of_value, Error, Kind, Lock, Shared};
    /// let mut writer = Shared::new(Kind::Range, 20, 1)?.writer(Lock::Waits)?;
    /// let mut ranges = 0;
    /// while writer.store_kept(10 * ranges..10 * ranges + 5, of_value(ranges)).is_ok() {
    ///     ranges += 1;
    /// }
    /// assert_eq!((writer.number(), writer.shortage()), (ranges, None));
    /// assert_eq!(writer.insert_kept(7..8, of_value(1).unwrap()), Err(Error::NoRows));
    /// assert!((0..ranges).rev().all(|n| matches!(writer.erase(10 * n), Ok(Some(_)))));
    /// # Ok::<(), maple::OpenError>(())
    /// ```
    pub fn store_kept(
        &mut self,
        at: impl RangeBounds<u64>,
        entry: Option<NonZeroU64>,
    ) -> Result<Option<NonZeroU64>, Error> {
        let ((first, last), entry) = (ends(at), entry.map_or(0, NonZeroU64::get));
        // SAFETY: as of `store`.
        self.word(|user, done| unsafe { raw::maple_try_store_kept(user, first, last, entry, done) })
            .map(NonZeroU64::new)
    }

    /// As [`insert`](Writer::insert), and keeps the reserve of [`store_kept`](Writer::store_kept) for a range more.
    ///
    /// ```
    /// use maple::{entries::of_value, Kind, Lock, Shared};
    /// let mut writer = Shared::new(Kind::Range, 100, 1)?.writer(Lock::Waits)?;
    /// assert_eq!(writer.insert_kept(0..10, of_value(1).unwrap()), Ok(()));
    /// # Ok::<(), maple::OpenError>(())
    /// ```
    pub fn insert_kept(&mut self, at: impl RangeBounds<u64>, entry: NonZeroU64) -> Result<(), Error> {
        let ((first, last), entry) = (ends(at), entry.get());
        // SAFETY: as of `store`.
        self.word(|user, done| unsafe { raw::maple_try_insert_kept(user, first, last, entry, done) }).map(|_| ())
    }

    /// As [`alloc`](Writer::alloc), and keeps the reserve of [`store_kept`](Writer::store_kept) for a range more.
    ///
    /// ```
    /// use maple::{entries::of_value, Error, Kind, Lock, Shared};
    /// let mut writer = Shared::new(Kind::Alloc, 20, 1)?.writer(Lock::Waits)?;
    /// let entry = of_value(1).unwrap();
    /// let starts: Vec<u64> = std::iter::from_fn(|| writer.alloc_kept(1, 0..1000, entry).ok()).collect();
    /// assert_eq!(writer.alloc_highest_kept(1, 0..1000, entry), Err(Error::NoRows));
    /// assert!(starts.iter().all(|start| matches!(writer.erase(*start), Ok(Some(_)))));
    /// # Ok::<(), maple::OpenError>(())
    /// ```
    pub fn alloc_kept(&mut self, size: u64, window: impl RangeBounds<u64>, entry: NonZeroU64) -> Result<u64, Error> {
        let ((min, max), entry) = (ends(window), entry.get());
        // SAFETY: as of `store`.
        self.word(|user, done| unsafe { raw::maple_try_alloc_kept(user, size, min, max, entry, done) })
    }

    /// As [`alloc_kept`](Writer::alloc_kept), at the highest start.
    ///
    /// ```
    /// use maple::{entries::of_value, Kind, Lock, Shared};
    /// let mut writer = Shared::new(Kind::Alloc, 100, 1)?.writer(Lock::Waits)?;
    /// assert_eq!(writer.alloc_highest_kept(8, 1..100, of_value(1).unwrap()), Ok(92));
    /// # Ok::<(), maple::OpenError>(())
    /// ```
    pub fn alloc_highest_kept(
        &mut self,
        size: u64,
        window: impl RangeBounds<u64>,
        entry: NonZeroU64,
    ) -> Result<u64, Error> {
        let ((min, max), entry) = (ends(window), entry.get());
        // SAFETY: as of `store`.
        self.word(|user, done| unsafe { raw::maple_try_ralloc_kept(user, size, min, max, entry, done) })
    }

    /// The lowest start at which `size` indexes lie in one gap of the window.
    ///
    /// ```
    /// use maple::{Kind, Lock, Shared};
    /// let mut writer = Shared::new(Kind::Alloc, 100, 1)?.writer(Lock::Waits)?;
    /// assert_eq!(writer.gap(8, 1..100), Ok(1));
    /// # Ok::<(), maple::OpenError>(())
    /// ```
    pub fn gap(&mut self, size: u64, window: impl RangeBounds<u64>) -> Result<u64, Error> {
        let (min, max) = ends(window);
        // SAFETY: as of `store`.
        self.word(|user, done| unsafe { raw::maple_try_gap(user, size, min, max, done) })
    }

    /// The highest start at which `size` indexes lie in one gap of the window.
    ///
    /// ```
    /// use maple::{Kind, Lock, Shared};
    /// let mut writer = Shared::new(Kind::Alloc, 100, 1)?.writer(Lock::Waits)?;
    /// assert_eq!(writer.gap_highest(8, 1..100), Ok(92));
    /// # Ok::<(), maple::OpenError>(())
    /// ```
    pub fn gap_highest(&mut self, size: u64, window: impl RangeBounds<u64>) -> Result<u64, Error> {
        let (min, max) = ends(window);
        // SAFETY: as of `store`.
        self.word(|user, done| unsafe { raw::maple_try_rgap(user, size, min, max, done) })
    }

    /// Removes every range.
    ///
    /// ```
    /// use maple::{entries::of_value, Kind, Lock, Shared};
    /// let mut writer = Shared::new(Kind::Range, 100, 1)?.writer(Lock::Waits)?;
    /// writer.store(3..12, of_value(1)).unwrap();
    /// assert_eq!(writer.clear(), Ok(()));
    /// assert!(writer.reader().is_empty());
    /// # Ok::<(), maple::OpenError>(())
    /// ```
    pub fn clear(&mut self) -> Result<(), Error> {
        // SAFETY: as of `store`.
        self.word(|user, done| unsafe { raw::maple_try_clear(user, done) }).map(|_| ())
    }
}

impl fmt::Debug for Writer {
    fn fmt(&self, f: &mut fmt::Formatter<'_>) -> fmt::Result {
        f.debug_struct("Writer").field("lock", &self.lock).field("number", &self.number).finish_non_exhaustive()
    }
}
