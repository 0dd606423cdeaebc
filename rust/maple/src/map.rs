//! Maps from ranges of indexes to values of a type.

use crate::windows::ends;
use crate::{entries, Error, Kind, OpenError, Range, Ranges, Tree};
use std::fmt;
use std::iter::FusedIterator;
use std::mem;
use std::ops::{RangeBounds, RangeInclusive};

/// A map of one thread from ranges of indexes to values. It is on a [`Tree`] whose entries are the numbers of the values, and
/// whose number of nodes grows. A value that is stored over a range is of the whole range. Where later stores and removals leave
/// pieces of that range, the pieces share the value, and it is dropped with the last one.
///
/// ```
/// use maple::Map;
/// let mut map = Map::new()?;
/// map.insert(0..100, String::from("all")).unwrap();
/// map.insert(40..50, String::from("some")).unwrap();
/// assert_eq!(map.get(45).unwrap(), "some");
/// map.get_mut(99).unwrap().push_str(" of it");
/// assert_eq!(map.get(0).unwrap(), "all of it");
/// let ranges: Vec<_> = map.iter().map(|(at, value)| (at, value.as_str())).collect();
/// assert_eq!(ranges, [(0..=39, "all of it"), (40..=49, "some"), (50..=99, "all of it")]);
/// # Ok::<(), maple::OpenError>(())
/// ```
///
/// Threads cannot share such a map: a reader without a lock could not say that it is done with a value. Threads share the
/// numbers of values ([`Shared`](crate::Shared), [`entries`]).
#[derive(Clone)]
pub struct Map<T> {
    tree: Tree,
    /// The values by number, each with how many ranges have it.
    values: Vec<Option<(T, u64)>>,
    /// The numbers that no value has.
    free: Vec<usize>,
    /// How many ranges there are.
    ranges: u64,
}

/// A value that was not stored, and why. Nothing was changed.
///
/// ```
/// use maple::{Error, Refused};
/// let refused = Refused { error: Error::NoRows, value: 'a' };
/// assert_eq!(refused.to_string(), "a value cannot be stored: too few rows are free");
/// ```
#[derive(Clone, Debug, PartialEq, Eq)]
pub struct Refused<T> {
    /// Why.
    pub error: Error,
    /// The value.
    pub value: T,
}

impl<T> fmt::Display for Refused<T> {
    fn fmt(&self, f: &mut fmt::Formatter<'_>) -> fmt::Result {
        write!(f, "a value cannot be stored: {}", self.error)
    }
}

impl<T: fmt::Debug> std::error::Error for Refused<T> {}

/// The number of the value that a range has.
fn number_of(range: Range) -> usize {
    entries::to_value(range.entry).expect("each entry is a number") as usize
}

impl<T> Map<T> {
    /// An empty map, of indexes of 64 bits.
    ///
    /// ```
    /// assert!(maple::Map::<String>::new()?.is_empty());
    /// # Ok::<(), maple::OpenError>(())
    /// ```
    pub fn new() -> Result<Map<T>, OpenError> {
        Ok(Map { tree: Tree::new(Kind::Range, 16)?, values: Vec::new(), free: Vec::new(), ranges: 0 })
    }

    /// How many ranges it has.
    ///
    /// ```
    /// let mut map = maple::Map::new()?;
    /// map.insert(0..100, 'a').unwrap();
    /// map.remove(40..50).unwrap();
    /// assert_eq!(map.len(), 2);
    /// # Ok::<(), maple::OpenError>(())
    /// ```
    pub fn len(&self) -> u64 {
        self.ranges
    }

    /// Whether it has none.
    ///
    /// ```
    /// let mut map = maple::Map::new()?;
    /// assert!(map.is_empty());
    /// map.insert(3..12, 'a').unwrap();
    /// assert!(!map.is_empty());
    /// # Ok::<(), maple::OpenError>(())
    /// ```
    pub fn is_empty(&self) -> bool {
        self.ranges == 0
    }

    fn value(&self, range: Range) -> &T {
        let slot = self.values[number_of(range)].as_ref();
        &slot.expect("a range has a value").0
    }

    /// The value at an index.
    ///
    /// ```
    /// let mut map = maple::Map::new()?;
    /// map.insert(3..12, 'a').unwrap();
    /// assert_eq!((map.get(3), map.get(12)), (Some(&'a'), None));
    /// # Ok::<(), maple::OpenError>(())
    /// ```
    pub fn get(&self, index: u64) -> Option<&T> {
        self.tree.load(index).map(|range| self.value(range))
    }

    /// The value at an index, to change it, of all ranges that have it.
    ///
    /// ```
    /// let mut map = maple::Map::new()?;
    /// map.insert(3..12, 'a').unwrap();
    /// *map.get_mut(5).unwrap() = 'b';
    /// assert_eq!(map.get(3), Some(&'b'));
    /// # Ok::<(), maple::OpenError>(())
    /// ```
    pub fn get_mut(&mut self, index: u64) -> Option<&mut T> {
        let number = number_of(self.tree.load(index)?);
        let slot = self.values[number].as_mut();
        Some(&mut slot.expect("a range has a value").0)
    }

    /// Stores over `first..=last`, and then counts again the ranges of each value that had one there. A range that reaches out of
    /// it on one side stays one, on both sides becomes two, and on neither goes.
    fn store(&mut self, (first, last): (u64, u64), number: Option<usize>) -> Result<Vec<T>, Error> {
        let entry = number.map(|number| entries::of_value(number as u64).expect("so many values are not in memory"));
        let met: Vec<Range> = if first > last { Vec::new() } else { self.tree.range(first..=last).collect() };
        self.tree.growing(|tree| tree.store(first..=last, entry))?;
        let mut gone = Vec::new();
        for range in met {
            let number = number_of(range);
            let slot = &mut self.values[number];
            let ranges = &mut slot.as_mut().expect("a range has a value").1;
            let left = u64::from(range.first < first) + u64::from(range.last > last);
            *ranges = *ranges + left - 1;
            self.ranges = self.ranges + left - 1;
            if *ranges == 0 {
                gone.extend(mem::take(slot).map(|(value, _)| value));
                self.free.push(number);
            }
        }
        Ok(gone)
    }

    /// Stores a value over a range, in the place of what is there.
    ///
    /// ```
    /// use maple::{Error, Map, Refused};
    /// let mut map = Map::new()?;
    /// map.insert(..=9, "low").unwrap();
    /// assert_eq!(map.insert(5..5, "none"), Err(Refused { error: Error::Invalid, value: "none" }));
    /// # Ok::<(), maple::OpenError>(())
    /// ```
    pub fn insert(&mut self, at: impl RangeBounds<u64>, value: T) -> Result<(), Refused<T>> {
        let number = self.free.pop().unwrap_or_else(|| {
            self.values.push(None);
            self.values.len() - 1
        });
        match self.store(ends(at), Some(number)) {
            Ok(gone) => {
                self.values[number] = Some((value, 1));
                self.ranges += 1;
                drop(gone);
                Ok(())
            }
            Err(error) => {
                self.free.push(number);
                Err(Refused { error, value })
            }
        }
    }

    /// Leaves no value at any index of a range.
    ///
    /// ```
    /// let mut map = maple::Map::new()?;
    /// map.insert(3..12, 'a').unwrap();
    /// map.remove(5..7).unwrap();
    /// assert_eq!(map.iter().map(|(at, _)| at).collect::<Vec<_>>(), [3..=4, 7..=11]);
    /// # Ok::<(), maple::OpenError>(())
    /// ```
    pub fn remove(&mut self, at: impl RangeBounds<u64>) -> Result<(), Error> {
        self.store(ends(at), None).map(drop)
    }

    /// The ranges that have an index in a window, with their values, in rising order, and from the back in falling order.
    ///
    /// ```
    /// let mut map = maple::Map::new()?;
    /// map.extend([(0..=9, 'a'), (10..=19, 'b')]);
    /// assert_eq!(map.range(5..).map(|(_, value)| *value).collect::<String>(), "ab");
    /// assert_eq!(map.range(..).next_back(), Some((10..=19, &'b')));
    /// # Ok::<(), maple::OpenError>(())
    /// ```
    pub fn range(&self, window: impl RangeBounds<u64>) -> Values<'_, T> {
        Values { map: self, ranges: self.tree.range(window) }
    }

    /// All ranges with their values, in rising order.
    ///
    /// ```
    /// let map: maple::Map<char> = [(3..=11, 'a'), (20..=29, 'b')].into_iter().collect();
    /// assert_eq!(map.iter().map(|(_, value)| *value).collect::<String>(), "ab");
    /// ```
    pub fn iter(&self) -> Values<'_, T> {
        self.range(..)
    }
}

impl<T> Extend<(RangeInclusive<u64>, T)> for Map<T> {
    /// Inserts each. It panics where one is refused.
    fn extend<I: IntoIterator<Item = (RangeInclusive<u64>, T)>>(&mut self, values: I) {
        for (at, value) in values {
            if let Err(refused) = self.insert(at, value) {
                panic!("{refused}");
            }
        }
    }
}

impl<T> FromIterator<(RangeInclusive<u64>, T)> for Map<T> {
    /// A map of these, each inserted. It panics where one is refused.
    fn from_iter<I: IntoIterator<Item = (RangeInclusive<u64>, T)>>(values: I) -> Map<T> {
        let mut map = Map::new().expect("a map wants memory");
        map.extend(values);
        map
    }
}

impl<T: fmt::Debug> fmt::Debug for Map<T> {
    fn fmt(&self, f: &mut fmt::Formatter<'_>) -> fmt::Result {
        f.debug_map().entries(self).finish()
    }
}

impl<'a, T> IntoIterator for &'a Map<T> {
    type Item = (RangeInclusive<u64>, &'a T);
    type IntoIter = Values<'a, T>;

    fn into_iter(self) -> Values<'a, T> {
        self.iter()
    }
}

/// The ranges of a window of a map that were not yet given, as [`Map::range`] gives them.
///
/// ```
/// let map: maple::Map<char> = [(3..=11, 'a')].into_iter().collect();
/// let mut values: maple::Values<'_, char> = map.iter();
/// assert_eq!(values.next(), Some((3..=11, &'a')));
/// ```
#[derive(Clone, Debug)]
pub struct Values<'a, T> {
    map: &'a Map<T>,
    ranges: Ranges<'a>,
}

impl<'a, T> Values<'a, T> {
    fn shown(&self, range: Range) -> (RangeInclusive<u64>, &'a T) {
        (range.indexes(), self.map.value(range))
    }
}

impl<'a, T> Iterator for Values<'a, T> {
    type Item = (RangeInclusive<u64>, &'a T);

    fn next(&mut self) -> Option<Self::Item> {
        let range = self.ranges.next()?;
        Some(self.shown(range))
    }
}

impl<T> DoubleEndedIterator for Values<'_, T> {
    fn next_back(&mut self) -> Option<Self::Item> {
        let range = self.ranges.next_back()?;
        Some(self.shown(range))
    }
}

impl<T> FusedIterator for Values<'_, T> {}
