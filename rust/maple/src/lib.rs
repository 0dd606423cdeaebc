//! Maps from ranges to entries on the proved maple tree, a concurrent B-tree: `include/maple.h`, `maple_shared.h` and
//! `maple_log.h` in safe Rust.
//!
//! A map has disjoint ranges of indexes, of 64 or of 32 bits, each with an entry that is not 0. [`Tree`] is a map that one
//! thread uses at a time. [`Shared`] is a map that threads share: its writes are linearizable, and its readers take no lock.
//! [`Map`] has values of a type in the place of entries, and [`entries`] makes entries of numbers and of pointers.
//!
//! A tree has a fixed number of nodes, called `rows`, of 256 bytes each, or 512 where indexes have 32 bits.
//!
//! ```
//! use maple::{Kind, Range, Tree};
//! use std::num::NonZeroU64;
//!
//! let mut tree = Tree::new(Kind::Alloc, 1000).unwrap();
//! let entry = NonZeroU64::new(8).unwrap();
//! assert_eq!(tree.store(10..20, Some(entry))?, None);
//! assert_eq!(tree.alloc(20, ..100, entry)?, 20);
//! assert_eq!(tree.load(25), Some(Range { first: 20, last: 39, entry }));
//! let firsts: Vec<u64> = tree.range(..100).map(|range| range.first).collect();
//! assert_eq!(firsts, [10, 20]);
//! # Ok::<(), maple::Error>(())
//! ```
//!
//! What a call does is what the contract in `crates/mt_c` says of the export that it makes. This crate itself is not proved:
//! it turns numbers into enums, and gives each call pointers of its own.
#![deny(missing_docs)]

mod batches;
pub mod entries;
mod errors;
mod logs;
mod map;
mod raw;
mod shared;
mod tree;
mod waits;
mod windows;

pub use batches::Call;
pub use errors::{CheckError, Error, LogError, OpenError};
pub use logs::{replay, verify};
pub use map::{Map, Refused, Values};
pub use shared::{Lock, Reader, Shared, Steps, Writer};
pub use tree::{IntoIter, Ranges, Tree};

use std::num::NonZeroU64;
use std::ops::RangeInclusive;

/// A tree has at most this many nodes.
pub const MOST_ROWS: u64 = 65_504;

/// What a tree is for.
///
/// ```
/// use maple::{entries::of_value, Error, Kind, Tree};
/// let mut narrow = Tree::new(Kind::Range32, 100).unwrap();
/// assert_eq!(narrow.store(1 << 32.., of_value(1)), Err(Error::Invalid));
/// assert_eq!(narrow.gap(1, 0..9), Err(Error::Invalid));
/// ```
#[derive(Clone, Copy, Debug, PartialEq, Eq)]
pub enum Kind {
    /// Each write says where its range goes.
    Range = 0,
    /// The tree also finds gaps for ranges.
    Alloc = 1,
    /// Each write says where its range goes, and indexes have 32 bits.
    Range32 = 2,
    /// The tree also finds gaps for ranges, and indexes have 32 bits.
    Alloc32 = 3,
}

/// The indexes from `first` to `last`, both included, and the entry that they hold.
///
/// ```
/// use maple::{entries::of_value, Range};
/// let range = Range { first: 3, last: 11, entry: of_value(1).unwrap() };
/// assert_eq!(range.last - range.first + 1, 9);
/// ```
#[derive(Clone, Copy, Debug, PartialEq, Eq, Hash)]
#[repr(C)]
pub struct Range {
    /// Its first index.
    pub first: u64,
    /// Its last index, no less than the first.
    pub last: u64,
    /// What each of its indexes holds.
    pub entry: NonZeroU64,
}

impl Range {
    /// Its indexes.
    ///
    /// ```
    /// use maple::{entries::of_value, Range};
    /// let range = Range { first: 3, last: 11, entry: of_value(1).unwrap() };
    /// assert!(range.indexes().contains(&11));
    /// ```
    pub fn indexes(&self) -> RangeInclusive<u64> {
        self.first..=self.last
    }
}

/// The capacity: how many nodes surely hold this many ranges. A tree with that many nodes refuses no write ([`Error::NoRows`]) that
/// finds at most this many ranges in it, where no read of another thread holds nodes. None where no tree has so many nodes. The
/// result is for trees at their worst: mostly a node has 4 to 10 ranges.
///
/// ```
/// assert_eq!(maple::rows_for(1000), Some(518));
/// assert_eq!(maple::rows_for(200_000), None);
/// ```
pub fn rows_for(ranges: u64) -> Option<u64> {
    // SAFETY: it has no pointers.
    Some(unsafe { raw::maple_rows_for(ranges) }).filter(|rows| *rows <= MOST_ROWS)
}

/// How a tree uses its nodes.
///
/// ```
/// let stats = maple::Tree::new(maple::Kind::Range, 100).unwrap().stats();
/// assert_eq!(stats.free + stats.live + stats.held, stats.rows);
/// ```
#[derive(Clone, Copy, Debug, PartialEq, Eq)]
pub struct Stats {
    /// How many nodes it has.
    pub rows: u64,
    /// Those that are free.
    pub free: u64,
    /// Those in use.
    pub live: u64,
    /// Those that were in use until a write replaced them; they are free again when the next write looks for nodes.
    pub held: u64,
    /// Its levels.
    pub height: u64,
    /// How many writes were made.
    pub calls: u64,
}

/// Why a write of a [`Writer`] was refused with [`Error::NoRows`]: too few nodes were free.
///
/// ```
/// let shortage = maple::Shortage { need: 4, free: 3, live: 97, held: 0, by: 0, epoch: 0 };
/// assert!(shortage.free < shortage.need && shortage.held == 0); // the tree is full
/// ```
#[derive(Clone, Copy, Debug, PartialEq, Eq)]
pub struct Shortage {
    /// How many nodes a write needs.
    pub need: u64,
    /// How many are free.
    pub free: u64,
    /// How many are in use.
    pub live: u64,
    /// How many are held, since a read of another reader or writer may still be in them. Where it is 0, the tree is full.
    pub held: u64,
    /// The place of the one whose read or iterator holds them ([`Reader::place`]); 0 where none are held.
    pub by: u64,
    /// How many writes had ended when that began.
    pub epoch: u64,
}

/// The form of a tree.
///
/// ```
/// let form = maple::Tree::new(maple::Kind::Range, 100).unwrap().check().unwrap();
/// assert_eq!(form.ranges, 0);
/// ```
#[derive(Clone, Copy, Debug, PartialEq, Eq)]
pub struct Form {
    /// Its levels.
    pub height: u64,
    /// Its nodes in use.
    pub rows: u64,
    /// Its ranges.
    pub ranges: u64,
}
