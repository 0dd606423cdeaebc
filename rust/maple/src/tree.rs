//! Trees of one thread.

use crate::errors::{done, opened, ENOENT, ERANGE};
use crate::raw::{self, RawForm, RawRange, RawStats, RawTree};
use crate::windows::{ends, Batches};
use crate::{CheckError, Error, Form, Kind, OpenError, Range, Shared, Stats, MOST_ROWS};
use std::cell::RefCell;
use std::fmt;
use std::iter::FusedIterator;
use std::num::NonZeroU64;
use std::ops::RangeBounds;

/// A map from ranges, in nodes whose memory is taken once: no call takes any. It may go to another thread, and one at a time
/// uses it.
///
/// ```
/// fn may_go<T: Send>() {}
/// may_go::<maple::Tree>();
/// ```
///
/// ```compile_fail
/// fn may_be_shared<T: Sync>() {}
/// may_be_shared::<maple::Tree>();
/// ```
///
/// Windows and ranges of indexes are `3..12`, `3..=11`, `..=9`, `3..` or `..`. An open end is 2^64 - 1, for every kind of reads;
/// for a store that is above the greatest index of a tree with indexes of 32 bits. A window without an index has no range, and a
/// store over one is [`Error::Invalid`].
///
/// It has no `len`: the tree counts its ranges only for the calls that keep its reserve, and returns no number. `iter().count()`
/// walks them, and [`check`](Tree::check) counts them and tests every word.
///
/// `collect`, `extend` and `clone` cannot return an error: they panic where a call would be refused or memory runs out. The number
/// of nodes grows with what is collected, up to 65,504.
///
/// ```
/// use maple::{entries, Range, Tree};
/// let ranges = |n| Range { first: 10 * n, last: 10 * n + 4, entry: entries::of_value(n).unwrap() };
/// let mut tree: Tree = (0..1000).map(ranges).collect();
/// tree.extend((1000..2000).map(ranges));
/// let copy = tree.clone();
/// tree.clear().unwrap();
/// assert!(tree.is_empty() && copy.into_iter().eq((0..2000).map(ranges)));
/// ```
pub struct Tree {
    raw: RefCell<RawTree>,
    rows: u64,
}

impl Tree {
    /// Makes a tree by what opens a closed handle.
    fn opened_by(rows: u64, open: impl FnOnce(&mut RawTree) -> u32) -> Result<Tree, OpenError> {
        let mut raw = RawTree::CLOSED;
        opened(open(&mut raw))?;
        Ok(Tree { raw: RefCell::new(raw), rows })
    }

    /// An empty tree with a fixed number of nodes, at most 65,504.
    ///
    /// ```
    /// use maple::{Kind, OpenError, Tree};
    /// assert!(Tree::new(Kind::Range, 65504).is_ok());
    /// assert_eq!(Tree::new(Kind::Range, 65505).err(), Some(OpenError::Rows));
    /// ```
    pub fn new(kind: Kind, rows: u64) -> Result<Tree, OpenError> {
        // SAFETY: the handle is closed.
        Tree::opened_by(rows, |raw| unsafe { raw::maple_open(raw, kind as u32, rows) })
    }

    /// Bulk load: a tree with this many nodes, built at once with exactly these ranges, each of which is above the one before it.
    ///
    /// ```
    /// use maple::{Kind, OpenError, Range, Tree};
    /// use std::num::NonZeroU64;
    /// let entry = NonZeroU64::new(8).unwrap();
    /// let ranges: Vec<Range> = (0..1000).map(|n| Range { first: 10 * n, last: 10 * n + 6, entry }).collect();
    /// let tree = Tree::build(Kind::Range, 1000, &ranges)?;
    /// assert!(tree.iter().eq(ranges.iter().copied()));
    /// assert_eq!(Tree::build(Kind::Range, 1000, &[ranges[1], ranges[0]]).err(), Some(OpenError::Range(1)));
    /// # Ok::<(), OpenError>(())
    /// ```
    pub fn build(kind: Kind, rows: u64, ranges: &[Range]) -> Result<Tree, OpenError> {
        let (from, count, mut at) = (ranges.as_ptr(), ranges.len(), 0);
        let mut wrong = false;
        let built = Tree::opened_by(rows, |raw| {
            // SAFETY: the handle is closed, and nobody changes the slice now.
            let status = unsafe { raw::maple_build(raw, kind as u32, rows, from, count, &mut at) };
            wrong = status == crate::errors::EINVAL;
            status
        });
        if wrong {
            return Err(OpenError::Range(at as usize));
        }
        built
    }

    /// A tree with this many nodes, with the map and the kind of an image.
    ///
    /// ```
    /// use maple::{OpenError, Tree};
    /// assert_eq!(Tree::of_image(b"mtimage", 200).err(), Some(OpenError::NoImage));
    /// ```
    pub fn of_image(bytes: &[u8], rows: u64) -> Result<Tree, OpenError> {
        // SAFETY: the handle is closed, and nobody changes the slice now.
        Tree::opened_by(rows, |raw| unsafe { raw::maple_open_image(raw, bytes.as_ptr(), bytes.len(), rows) })
    }

    /// The image of the tree, a binary dump: its kind, and its nodes in use, in the order of a walk from the root.
    ///
    /// ```
    /// use maple::{Kind, OpenError, Tree};
    /// use std::num::NonZeroU64;
    /// let mut tree = Tree::new(Kind::Range, 100)?;
    /// tree.store(3..=5, NonZeroU64::new(1)).unwrap();
    /// let image = tree.image()?;
    /// assert!(Tree::of_image(&image, 200)?.iter().eq(tree.iter()));
    /// # Ok::<(), OpenError>(())
    /// ```
    pub fn image(&self) -> Result<Vec<u8>, OpenError> {
        let (mut out, mut used) = (Vec::new(), 0);
        let mut raw = self.raw.borrow_mut();
        loop {
            // SAFETY: the tree is open, and the pointers are of objects that nobody else uses now.
            match unsafe { raw::maple_image(&mut *raw, out.as_mut_ptr(), out.len(), &mut used) } {
                0 => {
                    out.truncate(used);
                    return Ok(out);
                }
                ERANGE => out.resize(used, 0),
                _ => return Err(OpenError::NoMemory),
            }
        }
    }

    /// A tree of the same ranges, with this many nodes: no fewer than this one has in use.
    ///
    /// ```
    /// use maple::{Kind, OpenError, Tree};
    /// use std::num::NonZeroU64;
    /// let mut tree = Tree::new(Kind::Range, 100)?;
    /// tree.store(3..=5, NonZeroU64::new(1)).unwrap();
    /// let copy = tree.copy(50)?;
    /// tree.clear().unwrap();
    /// assert_eq!((copy.iter().count(), tree.iter().count()), (1, 0));
    /// # Ok::<(), OpenError>(())
    /// ```
    pub fn copy(&self, rows: u64) -> Result<Tree, OpenError> {
        // SAFETY: the tree is open and the copy closed.
        Tree::opened_by(rows, |copy| unsafe { raw::maple_copy(&mut *self.raw.borrow_mut(), copy, rows) })
    }

    /// Continues with this many nodes, by a copy: with more where a write found too few, or with fewer.
    ///
    /// ```
    /// use maple::{Error, Kind, Tree};
    /// use std::num::NonZeroU64;
    /// let mut tree = Tree::new(Kind::Range, 4)?;
    /// for first in (0..5000).step_by(10) {
    ///     while tree.store(first..first + 5, NonZeroU64::new(8)) == Err(Error::NoRows) {
    ///         tree.resize(2 * tree.rows())?;
    ///     }
    /// }
    /// assert_eq!(tree.iter().count(), 500);
    /// # Ok::<(), maple::OpenError>(())
    /// ```
    pub fn resize(&mut self, rows: u64) -> Result<(), OpenError> {
        *self = self.copy(rows)?;
        Ok(())
    }

    /// How many nodes it has, as given when it was made.
    ///
    /// ```
    /// assert_eq!(maple::Tree::new(maple::Kind::Range, 100)?.rows(), 100);
    /// # Ok::<(), maple::OpenError>(())
    /// ```
    pub fn rows(&self) -> u64 {
        self.rows
    }

    /// Makes a write, and where it finds too few nodes makes it again with twice as many.
    pub(crate) fn growing<T>(&mut self, mut call: impl FnMut(&mut Tree) -> Result<T, Error>) -> Result<T, Error> {
        loop {
            match call(self) {
                Err(Error::NoRows) if self.rows < MOST_ROWS => {
                    let rows = (2 * self.rows).clamp(16, MOST_ROWS);
                    self.resize(rows).map_err(|_| Error::NoRows)?;
                }
                answer => return answer,
            }
        }
    }

    /// Tests each word of the tree. Every call keeps them well-formed.
    ///
    /// ```
    /// use maple::{Kind, Tree};
    /// use std::num::NonZeroU64;
    /// let mut tree = Tree::new(Kind::Range, 100).unwrap();
    /// tree.store(3..=5, NonZeroU64::new(1)).unwrap();
    /// let form = tree.check().unwrap();
    /// assert_eq!((form.height, form.rows, form.ranges), (1, 1, 1));
    /// ```
    pub fn check(&self) -> Result<Form, CheckError> {
        let mut form = RawForm::default();
        // SAFETY: the tree is open, and the pointers are of two objects that nobody else uses now.
        match unsafe { raw::maple_check(&mut *self.raw.borrow_mut(), &mut form) } {
            0 => Ok(Form { height: form.height, rows: form.rows, ranges: form.ranges }),
            _ => Err(CheckError::Broken),
        }
    }

    /// How the tree uses its nodes.
    ///
    /// ```
    /// use maple::{Kind, Tree};
    /// use std::num::NonZeroU64;
    /// let mut tree = Tree::new(Kind::Range, 100).unwrap();
    /// tree.store(3..=5, NonZeroU64::new(1)).unwrap();
    /// let stats = tree.stats();
    /// assert_eq!((stats.rows, stats.free, stats.live, stats.calls), (100, 99, 1, 1));
    /// ```
    pub fn stats(&self) -> Stats {
        let mut told = RawStats::default();
        // SAFETY: the tree is open, and the pointers are of two objects that nobody else uses now.
        unsafe { raw::maple_stats(&mut *self.raw.borrow_mut(), &mut told) };
        let RawStats { rows, free, live, held, height, calls } = told;
        Stats { rows, free, live, held, height, calls }
    }

    /// A shared tree with its map. `rows` is its number of nodes, as for [`Shared::new`](crate::Shared::new) and no fewer than this
    /// one has in use; `users` is how many readers and writers it may have at a time.
    ///
    /// ```
    /// use maple::{Kind, OpenError, Tree};
    /// use std::num::NonZeroU64;
    /// let mut tree = Tree::new(Kind::Range, 100)?;
    /// tree.store(3..=5, NonZeroU64::new(1)).unwrap();
    /// let shared = tree.share(100, 2)?;
    /// assert_eq!(shared.reader()?.load(4).unwrap().indexes(), 3..=5);
    /// assert_eq!(tree.share(3, 2).err(), Some(OpenError::Rows));
    /// # Ok::<(), OpenError>(())
    /// ```
    pub fn share(&self, rows: u64, users: u32) -> Result<Shared, OpenError> {
        Shared::opened_by(users, |user, users, calls| {
            // SAFETY: the tree is open and the user closed.
            unsafe { raw::maple_shared_of_tree(&mut *self.raw.borrow_mut(), user, rows, users, calls) }
        })
    }

    /// A call that returns a word.
    fn word(&mut self, call: impl FnOnce(&mut RawTree, &mut u64) -> u32) -> Result<u64, Error> {
        let mut word = 0;
        done(call(self.raw.get_mut(), &mut word))?;
        Ok(word)
    }

    /// Stores an entry over a range, or makes a gap there, and gives the entry of the first range that it met.
    ///
    /// ```
    /// use maple::{Kind, Tree};
    /// use std::num::NonZeroU64;
    /// let mut tree = Tree::new(Kind::Range, 100).unwrap();
    /// tree.store(0..100, NonZeroU64::new(1))?;
    /// assert_eq!(tree.store(40..=49, None)?, NonZeroU64::new(1));
    /// assert_eq!(tree.load(45), None);
    /// # Ok::<(), maple::Error>(())
    /// ```
    pub fn store(&mut self, at: impl RangeBounds<u64>, entry: Option<NonZeroU64>) -> Result<Option<NonZeroU64>, Error> {
        let ((first, last), entry) = (ends(at), entry.map_or(0, NonZeroU64::get));
        // SAFETY: the tree is open, and the pointers are of two objects that nobody else uses now.
        let old = self.word(|tree, old| unsafe { raw::maple_store(tree, first, last, entry, old) })?;
        Ok(NonZeroU64::new(old))
    }

    /// As [`store`](Tree::store), and gives all ranges that it met, in rising order, whole as they were before it.
    ///
    /// ```
    /// use maple::{entries::of_value, Kind, Tree};
    /// let mut tree = Tree::new(Kind::Range, 100).unwrap();
    /// for first in [0, 10, 20] {
    ///     tree.store(first..first + 5, of_value(first))?;
    /// }
    /// let met = tree.store_over(3..12, None)?;
    /// assert_eq!(met.iter().map(|range| range.indexes()).collect::<Vec<_>>(), [0..=4, 10..=14]);
    /// assert_eq!((tree.get(2), tree.get(3), tree.get(12)), (of_value(0), None, of_value(10)));
    /// # Ok::<(), maple::Error>(())
    /// ```
    pub fn store_over(&mut self, at: impl RangeBounds<u64>, entry: Option<NonZeroU64>) -> Result<Vec<Range>, Error> {
        let ((first, last), entry) = (ends(at), entry.map_or(0, NonZeroU64::get));
        let mut met = vec![RawRange::default(); self.range(first..=last).count()];
        let (at, room, mut count) = (met.as_mut_ptr(), met.len(), 0);
        // SAFETY: as of `store`; and `met` has that many places.
        self.word(|tree, old| unsafe { raw::maple_store_over(tree, first, last, entry, at, room, &mut count, old) })?;
        Ok(met.into_iter().filter_map(RawRange::shown).collect())
    }

    /// Stores an entry over a range where no range holds any of its indexes.
    ///
    /// ```
    /// use maple::{entries::of_value, Error, Kind, Tree};
    /// let mut tree = Tree::new(Kind::Range, 100).unwrap();
    /// assert_eq!(tree.insert(0..10, of_value(1).unwrap()), Ok(()));
    /// assert_eq!(tree.insert(9..12, of_value(2).unwrap()), Err(Error::Exists));
    /// ```
    pub fn insert(&mut self, at: impl RangeBounds<u64>, entry: NonZeroU64) -> Result<(), Error> {
        let (first, last) = ends(at);
        // SAFETY: as of `store`.
        done(unsafe { raw::maple_insert(self.raw.get_mut(), first, last, entry.get()) })
    }

    /// Removes the whole range that holds an index, and gives it; none where no range does.
    ///
    /// ```
    /// use maple::{entries::of_value, Kind, Tree};
    /// let mut tree = Tree::new(Kind::Range, 100).unwrap();
    /// tree.store(3..12, of_value(1))?;
    /// assert_eq!(tree.erase(5)?.unwrap().indexes(), 3..=11);
    /// assert_eq!(tree.erase(5)?, None);
    /// # Ok::<(), maple::Error>(())
    /// ```
    pub fn erase(&mut self, index: u64) -> Result<Option<Range>, Error> {
        let mut was = RawRange::default();
        // SAFETY: as of `store`.
        match unsafe { raw::maple_erase(self.raw.get_mut(), index, &mut was) } {
            ENOENT => Ok(None),
            status => done(status).map(|()| was.shown()),
        }
    }

    /// Stores an entry over `size` indexes at the lowest start at which they lie in one gap of the window, and gives the start.
    ///
    /// ```
    /// use maple::{entries::of_value, Error, Kind, Tree};
    /// let mut tree = Tree::new(Kind::Alloc, 100).unwrap();
    /// let entry = of_value(1).unwrap();
    /// assert_eq!(tree.alloc(8, 1..100, entry), Ok(1));
    /// assert_eq!(tree.alloc(8, 1..100, entry), Ok(9));
    /// assert_eq!(tree.alloc_highest(8, 1..100, entry), Ok(92));
    /// assert_eq!(tree.gap(8, 1..100), Ok(17));
    /// assert_eq!(tree.gap_highest(8, 1..100), Ok(84));
    /// assert_eq!(tree.gap(80, 1..100), Err(Error::NoRoom));
    /// ```
    pub fn alloc(&mut self, size: u64, window: impl RangeBounds<u64>, entry: NonZeroU64) -> Result<u64, Error> {
        let ((min, max), entry) = (ends(window), entry.get());
        // SAFETY: as of `store`.
        self.word(|tree, start| unsafe { raw::maple_alloc(tree, size, min, max, entry, start) })
    }

    /// As [`alloc`](Tree::alloc), at the highest start. There is an example of both, and of the two that follow.
    ///
    /// ```
    /// use maple::{entries::of_value, Kind, Tree};
    /// let mut tree = Tree::new(Kind::Alloc, 100).unwrap();
    /// assert_eq!(tree.alloc_highest(8, 1..100, of_value(1).unwrap()), Ok(92));
    /// ```
    pub fn alloc_highest(&mut self, size: u64, window: impl RangeBounds<u64>, entry: NonZeroU64) -> Result<u64, Error> {
        let ((min, max), entry) = (ends(window), entry.get());
        // SAFETY: as of `store`.
        self.word(|tree, start| unsafe { raw::maple_ralloc(tree, size, min, max, entry, start) })
    }

    /// As [`store`](Tree::store), and keeps the reserve by which the tree can always be emptied: it is refused, and no write is
    /// made, where it adds ranges and the nodes are fewer than [`rows_for`](crate::rows_for) gives for those that there are then.
    /// A tree whose ranges came by the calls `.._kept` alone refuses no erase for lack of nodes, in any order, nor any other
    /// write that adds no range. It is full at two ranges a node.
    ///
    /// ```
    /// use maple::{entries::of_value, Error, Kind, Tree};
    /// let mut tree = Tree::new(Kind::Range, 20).unwrap();
    /// let mut ranges = 0;
    /// while tree.store_kept(10 * ranges..10 * ranges + 5, of_value(ranges)).is_ok() {
    ///     ranges += 1;
    /// }
    /// assert_eq!(tree.insert_kept(7..8, of_value(1).unwrap()), Err(Error::NoRows));
    /// assert!((0..ranges).rev().all(|n| tree.store_kept(10 * n..10 * n + 5, of_value(n + 1)).is_ok()));
    /// assert!((0..ranges).rev().all(|n| tree.erase(10 * n).is_ok()));
    /// ```
    pub fn store_kept(
        &mut self,
        at: impl RangeBounds<u64>,
        entry: Option<NonZeroU64>,
    ) -> Result<Option<NonZeroU64>, Error> {
        let ((first, last), entry) = (ends(at), entry.map_or(0, NonZeroU64::get));
        // SAFETY: as of `store`.
        let old = self.word(|tree, old| unsafe { raw::maple_store_kept(tree, first, last, entry, old) })?;
        Ok(NonZeroU64::new(old))
    }

    /// As [`insert`](Tree::insert), and keeps the reserve of [`store_kept`](Tree::store_kept) for a range more.
    ///
    /// ```
    /// use maple::{entries::of_value, Kind, Tree};
    /// let mut tree = Tree::new(Kind::Range, 100).unwrap();
    /// assert_eq!(tree.insert_kept(0..10, of_value(1).unwrap()), Ok(()));
    /// ```
    pub fn insert_kept(&mut self, at: impl RangeBounds<u64>, entry: NonZeroU64) -> Result<(), Error> {
        let (first, last) = ends(at);
        // SAFETY: as of `store`.
        done(unsafe { raw::maple_insert_kept(self.raw.get_mut(), first, last, entry.get()) })
    }

    /// As [`alloc`](Tree::alloc), and keeps the reserve of [`store_kept`](Tree::store_kept) for a range more.
    ///
    /// ```
    /// use maple::{entries::of_value, Error, Kind, Tree};
    /// let mut tree = Tree::new(Kind::Alloc, 20).unwrap();
    /// let entry = of_value(1).unwrap();
    /// let starts: Vec<u64> = std::iter::from_fn(|| tree.alloc_kept(1, 0..1000, entry).ok()).collect();
    /// assert_eq!(tree.alloc_highest_kept(1, 0..1000, entry), Err(Error::NoRows));
    /// assert!(starts.into_iter().all(|start| tree.erase(start).is_ok()));
    /// ```
    pub fn alloc_kept(&mut self, size: u64, window: impl RangeBounds<u64>, entry: NonZeroU64) -> Result<u64, Error> {
        let ((min, max), entry) = (ends(window), entry.get());
        // SAFETY: as of `store`.
        self.word(|tree, start| unsafe { raw::maple_alloc_kept(tree, size, min, max, entry, start) })
    }

    /// As [`alloc_kept`](Tree::alloc_kept), at the highest start.
    ///
    /// ```
    /// use maple::{entries::of_value, Kind, Tree};
    /// let mut tree = Tree::new(Kind::Alloc, 100).unwrap();
    /// assert_eq!(tree.alloc_highest_kept(8, 1..100, of_value(1).unwrap()), Ok(92));
    /// ```
    pub fn alloc_highest_kept(
        &mut self,
        size: u64,
        window: impl RangeBounds<u64>,
        entry: NonZeroU64,
    ) -> Result<u64, Error> {
        let ((min, max), entry) = (ends(window), entry.get());
        // SAFETY: as of `store`.
        self.word(|tree, start| unsafe { raw::maple_ralloc_kept(tree, size, min, max, entry, start) })
    }

    /// The lowest start at which `size` indexes lie in one gap of the window.
    ///
    /// ```
    /// use maple::{Kind, Tree};
    /// let mut tree = Tree::new(Kind::Alloc, 100).unwrap();
    /// assert_eq!(tree.gap(8, 1..100), Ok(1));
    /// ```
    pub fn gap(&mut self, size: u64, window: impl RangeBounds<u64>) -> Result<u64, Error> {
        let (min, max) = ends(window);
        // SAFETY: as of `store`.
        self.word(|tree, start| unsafe { raw::maple_gap(tree, size, min, max, start) })
    }

    /// The highest start at which `size` indexes lie in one gap of the window.
    ///
    /// ```
    /// use maple::{Kind, Tree};
    /// let mut tree = Tree::new(Kind::Alloc, 100).unwrap();
    /// assert_eq!(tree.gap_highest(8, 1..100), Ok(92));
    /// ```
    pub fn gap_highest(&mut self, size: u64, window: impl RangeBounds<u64>) -> Result<u64, Error> {
        let (min, max) = ends(window);
        // SAFETY: as of `store`.
        self.word(|tree, start| unsafe { raw::maple_rgap(tree, size, min, max, start) })
    }

    /// Removes every range.
    ///
    /// ```
    /// use maple::{entries::of_value, Kind, Tree};
    /// let mut tree = Tree::new(Kind::Range, 100).unwrap();
    /// tree.store(3..12, of_value(1))?;
    /// tree.clear()?;
    /// assert!(tree.is_empty());
    /// # Ok::<(), maple::Error>(())
    /// ```
    pub fn clear(&mut self) -> Result<(), Error> {
        // SAFETY: as of `store`.
        done(unsafe { raw::maple_clear(self.raw.get_mut()) })
    }

    /// Makes the tree ready for one store.
    ///
    /// ```
    /// use maple::{entries::of_value, Error, Kind, Tree};
    /// let mut tree = Tree::new(Kind::Range, 100).unwrap();
    /// tree.preallocate()?;
    /// assert_eq!(tree.store_prealloc(3..12, of_value(1)), Ok(None));
    /// assert_eq!(Tree::new(Kind::Range, 0).unwrap().preallocate(), Err(Error::NoRows));
    /// # Ok::<(), maple::Error>(())
    /// ```
    pub fn preallocate(&mut self) -> Result<(), Error> {
        // SAFETY: as of `store`.
        done(unsafe { raw::maple_preallocate(self.raw.get_mut()) })
    }

    /// A store for which [`preallocate`](Tree::preallocate) made the tree ready: it has its nodes. `NoRows` where the tree was not
    /// ready.
    ///
    /// ```
    /// use maple::{entries::of_value, Error, Kind, Tree};
    /// let mut tree = Tree::new(Kind::Range, 0).unwrap();
    /// assert_eq!(tree.store_prealloc(3..12, of_value(1)), Err(Error::NoRows));
    /// ```
    pub fn store_prealloc(
        &mut self,
        at: impl RangeBounds<u64>,
        entry: Option<NonZeroU64>,
    ) -> Result<Option<NonZeroU64>, Error> {
        let ((first, last), entry) = (ends(at), entry.map_or(0, NonZeroU64::get));
        // SAFETY: as of `store`.
        let old = self.word(|tree, old| unsafe { raw::maple_store_prealloc(tree, first, last, entry, old) })?;
        Ok(NonZeroU64::new(old))
    }

    fn ask(&self, query: impl FnOnce(&mut RawTree, &mut RawRange) -> u32) -> Option<Range> {
        let mut found = RawRange::default();
        query(&mut self.raw.borrow_mut(), &mut found);
        found.shown()
    }

    /// The range that holds an index.
    ///
    /// ```
    /// use maple::{entries::of_value, Kind, Tree};
    /// let mut tree = Tree::new(Kind::Range, 100).unwrap();
    /// tree.store(3..12, of_value(1))?;
    /// assert_eq!(tree.load(5).unwrap().indexes(), 3..=11);
    /// assert_eq!(tree.get(5), of_value(1));
    /// assert_eq!(tree.get(12), None);
    /// # Ok::<(), maple::Error>(())
    /// ```
    pub fn load(&self, index: u64) -> Option<Range> {
        // SAFETY: the tree is open, and the pointers are of two objects that nobody else uses now.
        self.ask(|tree, found| unsafe { raw::maple_load(tree, index, found) })
    }

    /// The entry at an index, of the range that [`load`](Tree::load) returns, without its ends.
    ///
    /// ```
    /// use maple::{entries::of_value, Kind, Tree};
    /// let mut tree = Tree::new(Kind::Range, 100).unwrap();
    /// tree.store(3..12, of_value(1))?;
    /// assert_eq!((tree.get(3), tree.get(12)), (of_value(1), None));
    /// # Ok::<(), maple::Error>(())
    /// ```
    pub fn get(&self, index: u64) -> Option<NonZeroU64> {
        // SAFETY: the tree is open, and nobody else uses it now.
        NonZeroU64::new(unsafe { raw::maple_entry(&mut *self.raw.borrow_mut(), index) })
    }

    /// The entries at these indexes, as [`get`](Tree::get) gives each. They are put into the first places, one for each. If there are
    /// fewer places than indexes, the indexes after them are not read; the other places keep what they had.
    ///
    /// ```
    /// use maple::{entries::of_value, Kind, Tree};
    /// let mut tree = Tree::new(Kind::Range, 100).unwrap();
    /// tree.store(3..12, of_value(1))?;
    /// let mut entries = [None; 3];
    /// tree.load_many(&[2, 3, 11], &mut entries);
    /// assert_eq!(entries, [None, of_value(1), of_value(1)]);
    /// # Ok::<(), maple::Error>(())
    /// ```
    pub fn load_many(&self, indexes: &[u64], entries: &mut [Option<NonZeroU64>]) {
        let mut tree = self.raw.borrow_mut();
        let (count, places) = (indexes.len(), entries.len());
        // SAFETY: the tree is open, and the pointers are of three objects that nobody else uses now, with that many places. A place is a
        // number, and 0 represents `None`.
        unsafe { raw::maple_load_many(&mut *tree, indexes.as_ptr(), count, entries.as_mut_ptr().cast(), places) };
    }

    /// Whether it has no range.
    ///
    /// ```
    /// assert!(maple::Tree::new(maple::Kind::Range, 100).unwrap().is_empty());
    /// ```
    pub fn is_empty(&self) -> bool {
        self.first_in(..).is_none()
    }

    /// The first range that has an index in the window.
    ///
    /// ```
    /// use maple::{Kind, Tree};
    /// use std::num::NonZeroU64;
    /// let mut tree = Tree::new(Kind::Range, 100).unwrap();
    /// for first in [0, 10, 20] {
    ///     tree.store(first..first + 5, NonZeroU64::new(first + 1))?;
    /// }
    /// assert_eq!(tree.first_in(2..).unwrap().first, 0);
    /// assert_eq!(tree.next_in(2..).unwrap().first, 10);
    /// assert_eq!(tree.last_in(..=22).unwrap().first, 20);
    /// assert_eq!(tree.prev_in(..=22).unwrap().first, 10);
    /// # Ok::<(), maple::Error>(())
    /// ```
    pub fn first_in(&self, window: impl RangeBounds<u64>) -> Option<Range> {
        let (first, last) = ends(window);
        // SAFETY: as of `load`.
        self.ask(|tree, found| unsafe { raw::maple_find(tree, first, last, found) })
    }

    /// The last range that has an index in the window. [`first_in`](Tree::first_in) has an example of it and of its sisters.
    ///
    /// ```
    /// use maple::{entries::of_value, Kind, Tree};
    /// let mut tree = Tree::new(Kind::Range, 100).unwrap();
    /// tree.store(0..5, of_value(1))?;
    /// tree.store(10..15, of_value(2))?;
    /// assert_eq!(tree.last_in(..12).unwrap().indexes(), 10..=14);
    /// # Ok::<(), maple::Error>(())
    /// ```
    pub fn last_in(&self, window: impl RangeBounds<u64>) -> Option<Range> {
        let (first, last) = ends(window);
        // SAFETY: as of `load`.
        self.ask(|tree, found| unsafe { raw::maple_rfind(tree, last, first, found) })
    }

    /// The first range that begins in the window, after its first index.
    ///
    /// ```
    /// use maple::{entries::of_value, Kind, Tree};
    /// let mut tree = Tree::new(Kind::Range, 100).unwrap();
    /// tree.store(0..5, of_value(1))?;
    /// tree.store(10..15, of_value(2))?;
    /// assert_eq!(tree.next_in(2..).unwrap().indexes(), 10..=14);
    /// # Ok::<(), maple::Error>(())
    /// ```
    pub fn next_in(&self, window: impl RangeBounds<u64>) -> Option<Range> {
        let (first, last) = ends(window);
        // SAFETY: as of `load`.
        self.ask(|tree, found| unsafe { raw::maple_next(tree, first, last, found) })
    }

    /// The last range that ends in the window, before its last index.
    ///
    /// ```
    /// use maple::{entries::of_value, Kind, Tree};
    /// let mut tree = Tree::new(Kind::Range, 100).unwrap();
    /// tree.store(0..5, of_value(1))?;
    /// tree.store(10..15, of_value(2))?;
    /// assert_eq!(tree.prev_in(..=12).unwrap().indexes(), 0..=4);
    /// # Ok::<(), maple::Error>(())
    /// ```
    pub fn prev_in(&self, window: impl RangeBounds<u64>) -> Option<Range> {
        let (first, last) = ends(window);
        // SAFETY: as of `load`.
        self.ask(|tree, found| unsafe { raw::maple_prev(tree, last, first, found) })
    }

    /// The ranges that have an index in the window, in rising order, and from the back in falling order. In rising order the walk
    /// descends from the root once a leaf, in falling order at each step.
    ///
    /// ```
    /// use maple::{Kind, Tree};
    /// use std::num::NonZeroU64;
    /// let mut tree = Tree::new(Kind::Range, 100).unwrap();
    /// for first in [0, 10, 20] {
    ///     tree.store(first..=first + 4, NonZeroU64::new(4 * first + 4))?;
    /// }
    /// let entries: Vec<u64> = tree.range(3..13).map(|range| range.entry.get()).collect();
    /// assert_eq!(entries, [4, 44]);
    /// assert_eq!(tree.range(..=9).count(), 1);
    /// assert_eq!(tree.iter().next_back().unwrap().first, 20);
    /// # Ok::<(), maple::Error>(())
    /// ```
    ///
    /// The tree stays as it is meanwhile:
    ///
    /// ```compile_fail
    /// # use maple::{Kind, Tree};
    /// let mut tree = Tree::new(Kind::Range, 100).unwrap();
    /// for range in tree.iter() {
    ///     tree.erase(range.first).unwrap();
    /// }
    /// ```
    pub fn range(&self, window: impl RangeBounds<u64>) -> Ranges<'_> {
        Ranges { tree: self, walk: Batches::over(window) }
    }

    /// All ranges, in rising order: [`range`](Tree::range) of the window `..`.
    ///
    /// ```
    /// use maple::{entries::of_value, Kind, Tree};
    /// let mut tree = Tree::new(Kind::Range, 100).unwrap();
    /// tree.store(0..5, of_value(1))?;
    /// tree.store(10..15, of_value(2))?;
    /// assert!(tree.iter().map(|range| range.first).eq([0_u64, 10]));
    /// # Ok::<(), maple::Error>(())
    /// ```
    pub fn iter(&self) -> Ranges<'_> {
        self.range(..)
    }

    fn step(&self, walk: &mut Batches) -> Option<Range> {
        walk.next(|walk, ranges| {
            let (places, mut count) = (ranges.len(), 0);
            let mut tree = self.raw.borrow_mut();
            // SAFETY: the tree is open, the pointers are of four objects that nobody else uses now, and the ranges have that many places.
            unsafe { raw::maple_step_many(&mut *tree, walk, ranges.as_mut_ptr(), places, &mut count) };
            count
        })
    }

    fn step_back(&self, walk: &mut Batches) -> Option<Range> {
        walk.next_back(|first, last| self.last_in(first..=last))
    }
}

impl Drop for Tree {
    fn drop(&mut self) {
        // SAFETY: the tree is open, and not used after.
        unsafe { raw::maple_close(self.raw.get_mut()) }
    }
}

impl Clone for Tree {
    fn clone(&self) -> Tree {
        self.copy(self.rows).expect("a clone wants memory")
    }
}

impl Extend<Range> for Tree {
    fn extend<I: IntoIterator<Item = Range>>(&mut self, ranges: I) {
        for range in ranges {
            self.growing(|tree| tree.store(range.indexes(), Some(range.entry))).expect("a range cannot be stored");
        }
    }
}

impl FromIterator<Range> for Tree {
    fn from_iter<I: IntoIterator<Item = Range>>(ranges: I) -> Tree {
        let mut tree = Tree::new(Kind::Range, 16).expect("a tree wants memory");
        tree.extend(ranges);
        tree
    }
}

impl fmt::Debug for Tree {
    fn fmt(&self, f: &mut fmt::Formatter<'_>) -> fmt::Result {
        f.debug_list().entries(self).finish()
    }
}

impl<'a> IntoIterator for &'a Tree {
    type Item = Range;
    type IntoIter = Ranges<'a>;

    fn into_iter(self) -> Ranges<'a> {
        self.iter()
    }
}

impl IntoIterator for Tree {
    type Item = Range;
    type IntoIter = IntoIter;

    fn into_iter(self) -> IntoIter {
        IntoIter { tree: self, walk: Batches::over(..) }
    }
}

/// The ranges of a window of a tree that were not yet given, as [`Tree::range`] gives them.
///
/// ```
/// use maple::{Kind, Ranges, Tree};
/// let tree = Tree::new(Kind::Range, 100).unwrap();
/// let ranges: Ranges<'_> = tree.iter();
/// assert_eq!(ranges.count(), 0);
/// ```
#[derive(Clone)]
pub struct Ranges<'a> {
    tree: &'a Tree,
    walk: Batches,
}

impl Iterator for Ranges<'_> {
    type Item = Range;

    fn next(&mut self) -> Option<Range> {
        self.tree.step(&mut self.walk)
    }
}

impl DoubleEndedIterator for Ranges<'_> {
    fn next_back(&mut self) -> Option<Range> {
        self.tree.step_back(&mut self.walk)
    }
}

impl FusedIterator for Ranges<'_> {}

impl fmt::Debug for Ranges<'_> {
    fn fmt(&self, f: &mut fmt::Formatter<'_>) -> fmt::Result {
        f.debug_list().entries(self.clone()).finish()
    }
}

/// The ranges of a tree that `into_iter` took, in the order in which it gives them.
///
/// ```
/// use maple::{IntoIter, Kind, Tree};
/// let mut ranges: IntoIter = Tree::new(Kind::Range, 100).unwrap().into_iter();
/// assert_eq!(ranges.next(), None);
/// ```
pub struct IntoIter {
    tree: Tree,
    walk: Batches,
}

impl Iterator for IntoIter {
    type Item = Range;

    fn next(&mut self) -> Option<Range> {
        self.tree.step(&mut self.walk)
    }
}

impl DoubleEndedIterator for IntoIter {
    fn next_back(&mut self) -> Option<Range> {
        self.tree.step_back(&mut self.walk)
    }
}

impl FusedIterator for IntoIter {}

impl fmt::Debug for IntoIter {
    fn fmt(&self, f: &mut fmt::Formatter<'_>) -> fmt::Result {
        let left = Ranges { tree: &self.tree, walk: self.walk.clone() };
        f.debug_list().entries(left).finish()
    }
}
