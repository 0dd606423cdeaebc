//! Several writes under one lock.

use crate::errors::{done, ENOENT};
use crate::raw::{self, RawCall};
use crate::shared::Writer;
use crate::windows::ends;
use crate::{Error, Range};
use std::fmt;
use std::num::NonZeroU64;
use std::ops::RangeBounds;

/// A write that [`Writer::batch`] is to make, and its answer. Its constructors are the writes of a [`Writer`].
///
/// ```
/// use maple::{entries::of_value, Call, Error};
/// let call = Call::store(0..10, of_value(1));
/// assert_eq!((call.number(), call.word()), (0, Ok(0)));
/// ```
#[derive(Clone, Copy)]
#[repr(transparent)]
pub struct Call(RawCall);

impl Call {
    fn over(verb: u32, at: impl RangeBounds<u64>, size: u64, entry: u64) -> Call {
        let (first, last) = ends(at);
        Call(RawCall { verb, first, last, entry, size, ..RawCall::default() })
    }

    /// As [`Writer::store`]; its word is the entry of the first range that it met, or 0.
    ///
    /// ```
    /// use maple::{entries::of_value, Call, Kind, Lock, Shared};
    /// let mut writer = Shared::new(Kind::Range, 100, 1)?.writer(Lock::Waits)?;
    /// let mut calls = [Call::store(0..10, of_value(1)), Call::store(5..8, None)];
    /// writer.batch(&mut calls).unwrap();
    /// assert_eq!(calls.map(|call| call.word()), [Ok(0), Ok(3)]); // 3 represents 1
    /// # Ok::<(), maple::OpenError>(())
    /// ```
    pub fn store(at: impl RangeBounds<u64>, entry: Option<NonZeroU64>) -> Call {
        Call::over(1, at, 0, entry.map_or(0, NonZeroU64::get))
    }

    /// As [`Writer::insert`].
    ///
    /// ```
    /// use maple::{entries::of_value, Call, Error, Kind, Lock, Shared};
    /// let mut writer = Shared::new(Kind::Range, 100, 1)?.writer(Lock::Waits)?;
    /// let entry = of_value(1).unwrap();
    /// let mut calls = [Call::insert(0..10, entry), Call::insert(9..12, entry)];
    /// writer.batch(&mut calls).unwrap();
    /// assert_eq!(calls.map(|call| call.word()), [Ok(0), Err(Error::Exists)]);
    /// # Ok::<(), maple::OpenError>(())
    /// ```
    pub fn insert(at: impl RangeBounds<u64>, entry: NonZeroU64) -> Call {
        Call::over(3, at, 0, entry.get())
    }

    /// As [`Writer::erase`]; [`erased`](Call::erased) gives the range.
    ///
    /// ```
    /// use maple::{entries::of_value, Call, Kind, Lock, Shared};
    /// let mut writer = Shared::new(Kind::Range, 100, 1)?.writer(Lock::Waits)?;
    /// let mut calls = [Call::store(3..12, of_value(1)), Call::erase(5)];
    /// writer.batch(&mut calls).unwrap();
    /// assert_eq!(calls[1].erased().unwrap().indexes(), 3..=11);
    /// # Ok::<(), maple::OpenError>(())
    /// ```
    pub fn erase(index: u64) -> Call {
        Call::over(4, index..=index, 0, 0)
    }

    /// As [`Writer::alloc`]; its word is the start.
    ///
    /// ```
    /// use maple::{entries::of_value, Call, Kind, Lock, Shared};
    /// let mut writer = Shared::new(Kind::Alloc, 100, 1)?.writer(Lock::Waits)?;
    /// let mut calls = [Call::alloc(8, 1..100, of_value(1).unwrap())];
    /// writer.batch(&mut calls).unwrap();
    /// assert_eq!(calls[0].word(), Ok(1));
    /// # Ok::<(), maple::OpenError>(())
    /// ```
    pub fn alloc(size: u64, window: impl RangeBounds<u64>, entry: NonZeroU64) -> Call {
        Call::over(5, window, size, entry.get())
    }

    /// As [`Writer::alloc_highest`]; its word is the start.
    ///
    /// ```
    /// use maple::{entries::of_value, Call, Kind, Lock, Shared};
    /// let mut writer = Shared::new(Kind::Alloc, 100, 1)?.writer(Lock::Waits)?;
    /// let mut calls = [Call::alloc_highest(8, 1..100, of_value(1).unwrap())];
    /// writer.batch(&mut calls).unwrap();
    /// assert_eq!(calls[0].word(), Ok(92));
    /// # Ok::<(), maple::OpenError>(())
    /// ```
    pub fn alloc_highest(size: u64, window: impl RangeBounds<u64>, entry: NonZeroU64) -> Call {
        Call::over(6, window, size, entry.get())
    }

    /// As [`Writer::gap`]; its word is the start.
    ///
    /// ```
    /// use maple::{Call, Kind, Lock, Shared};
    /// let mut writer = Shared::new(Kind::Alloc, 100, 1)?.writer(Lock::Waits)?;
    /// let mut calls = [Call::gap(8, 1..100)];
    /// writer.batch(&mut calls).unwrap();
    /// assert_eq!(calls[0].word(), Ok(1));
    /// # Ok::<(), maple::OpenError>(())
    /// ```
    pub fn gap(size: u64, window: impl RangeBounds<u64>) -> Call {
        Call::over(7, window, size, 0)
    }

    /// As [`Writer::gap_highest`]; its word is the start.
    ///
    /// ```
    /// use maple::{Call, Kind, Lock, Shared};
    /// let mut writer = Shared::new(Kind::Alloc, 100, 1)?.writer(Lock::Waits)?;
    /// let mut calls = [Call::gap_highest(8, 1..100)];
    /// writer.batch(&mut calls).unwrap();
    /// assert_eq!(calls[0].word(), Ok(92));
    /// # Ok::<(), maple::OpenError>(())
    /// ```
    pub fn gap_highest(size: u64, window: impl RangeBounds<u64>) -> Call {
        Call::over(8, window, size, 0)
    }

    /// As [`Writer::clear`].
    ///
    /// ```
    /// use maple::{entries::of_value, Call, Kind, Lock, Shared};
    /// let mut writer = Shared::new(Kind::Range, 100, 1)?.writer(Lock::Waits)?;
    /// writer.batch(&mut [Call::store(3..12, of_value(1)), Call::clear()]).unwrap();
    /// assert!(writer.reader().is_empty());
    /// # Ok::<(), maple::OpenError>(())
    /// ```
    pub fn clear() -> Call {
        Call::over(9, 0..=0, 0, 0)
    }

    /// Its number in the tree's history, refused or not; 0 before it is made.
    ///
    /// ```
    /// use maple::{Call, Kind, Lock, Shared};
    /// let mut writer = Shared::new(Kind::Range, 100, 1)?.writer(Lock::Waits)?;
    /// let mut calls = [Call::clear(), Call::clear()];
    /// writer.batch(&mut calls).unwrap();
    /// assert_eq!(calls.map(|call| call.number()), [1, 2]);
    /// # Ok::<(), maple::OpenError>(())
    /// ```
    pub fn number(&self) -> u64 {
        self.0.done.call
    }

    /// The one word of its answer, as its constructor says, and 0 for any other; or why it was refused. An erase that met no range is
    /// not refused.
    ///
    /// ```
    /// use maple::{Call, Error, Kind, Lock, Shared};
    /// let mut writer = Shared::new(Kind::Alloc, 100, 1)?.writer(Lock::Waits)?;
    /// let mut calls = [Call::gap(8, 1..100), Call::gap(8, 1..5)];
    /// writer.batch(&mut calls).unwrap();
    /// assert_eq!(calls.map(|call| call.word()), [Ok(1), Err(Error::Invalid)]);
    /// # Ok::<(), maple::OpenError>(())
    /// ```
    pub fn word(&self) -> Result<u64, Error> {
        match self.0.status {
            ENOENT => Ok(0),
            status => done(status).map(|()| self.0.done.word),
        }
    }

    /// The range that an erase removed.
    ///
    /// ```
    /// use maple::{entries::of_value, Call, Kind, Lock, Shared};
    /// let mut writer = Shared::new(Kind::Range, 100, 1)?.writer(Lock::Waits)?;
    /// let mut calls = [Call::erase(5), Call::store(3..12, of_value(1)), Call::erase(5)];
    /// writer.batch(&mut calls).unwrap();
    /// assert_eq!(calls.map(|call| call.erased().is_some()), [false, false, true]);
    /// # Ok::<(), maple::OpenError>(())
    /// ```
    pub fn erased(&self) -> Option<Range> {
        self.0.done.was.shown()
    }
}

impl fmt::Debug for Call {
    fn fmt(&self, f: &mut fmt::Formatter<'_>) -> fmt::Result {
        f.debug_struct("Call").field("number", &self.number()).field("word", &self.word()).finish_non_exhaustive()
    }
}

impl Writer {
    /// Makes these writes one after another under one lock: no write of another thread comes between. Each then has its answer. Those
    /// after a write that is refused are made too. A reader takes no lock, and may see the tree between two of them.
    ///
    /// ```
    /// use maple::{entries::of_value, Call, Error, Kind, Lock, Shared};
    /// let mut writer = Shared::new(Kind::Range, 100, 1)?.writer(Lock::Waits)?;
    /// writer.store(10..20, of_value(1)).unwrap();
    /// // moves a range
    /// let mut calls = [Call::erase(15), Call::insert(30..40, of_value(1).unwrap()), Call::store(5..2, None)];
    /// writer.batch(&mut calls).unwrap();
    /// assert_eq!(calls[0].erased().unwrap().indexes(), 10..=19);
    /// assert_eq!(calls.map(|call| call.word()), [Ok(0), Ok(0), Err(Error::Invalid)]);
    /// assert_eq!(calls.map(|call| call.number()), [2, 3, 4]);
    /// assert_eq!(writer.number(), 4);
    /// # Ok::<(), maple::OpenError>(())
    /// ```
    ///
    /// # Errors
    ///
    /// `Locked` as of the other writes, and `Worn` if the tree may not have that many writes more: then none was made.
    pub fn batch(&mut self, calls: &mut [Call]) -> Result<(), Error> {
        let (at, count) = (calls.as_mut_ptr().cast::<RawCall>(), calls.len());
        // SAFETY: the user is open; the calls are as many, each is one `RawCall`, and nobody else uses them now.
        let status = self.once(|user| unsafe { raw::maple_try_batch(user, at, count) });
        done(status)?;
        if let Some(last) = calls.last() {
            self.made(&last.0.done);
        }
        Ok(())
    }
}
