//! Ranges of indexes in Rust's forms, and walks over a window from either end.

use crate::raw::{RawRange, RawWalk};
use crate::Range;
use std::ops::{Bound, RangeBounds};

/// The first and the last index of a window; a first above the last where it has none. An end that is open is the greatest number.
pub(crate) fn ends(window: impl RangeBounds<u64>) -> (u64, u64) {
    let first = match window.start_bound() {
        Bound::Included(&first) => Some(first),
        Bound::Excluded(&before) => before.checked_add(1),
        Bound::Unbounded => Some(0),
    };
    let last = match window.end_bound() {
        Bound::Included(&last) => Some(last),
        Bound::Excluded(&behind) => behind.checked_sub(1),
        Bound::Unbounded => Some(u64::MAX),
    };
    first.zip(last).unwrap_or((1, 0))
}

/// The ranges of a window that were not yet given: those that have an index from where the walk continues to `end`.
#[derive(Clone)]
pub(crate) struct Walk {
    walk: RawWalk,
    end: u64,
    is_done: bool,
}

impl Walk {
    pub(crate) fn over(window: impl RangeBounds<u64>) -> Walk {
        let (next, end) = ends(window);
        Walk { walk: RawWalk { next, ended: 0 }, end, is_done: next > end }
    }

    /// The window that is left.
    pub(crate) fn left(&self) -> (u64, u64) {
        (self.walk.next, self.end)
    }

    /// The first range that is left, by a step of the walk that looks no further than the window's end.
    pub(crate) fn next(&mut self, step_to: impl FnOnce(&mut RawWalk, u64) -> Option<Range>) -> Option<Range> {
        if self.is_done {
            return None;
        }
        let range = step_to(&mut self.walk, self.end);
        self.is_done = self.walk.ended != 0;
        range
    }

    /// The last range that is left, which is found as the last of a window.
    pub(crate) fn next_back(&mut self, last_in: impl FnOnce(u64, u64) -> Option<Range>) -> Option<Range> {
        if self.is_done {
            return None;
        }
        let range = last_in(self.walk.next, self.end);
        match range {
            Some(range) if range.first > self.walk.next => self.end = range.first - 1,
            _ => self.is_done = true,
        }
        range
    }
}

/// At most this many ranges are fetched in one call.
const MOST: usize = 16;

/// A walk whose next ranges are fetched some at a time: one at first, and twice as many each time.
#[derive(Clone)]
pub(crate) struct Batches {
    walk: Walk,
    ranges: [RawRange; MOST],
    /// Which of them were fetched and not yet given.
    given: usize,
    fetched: usize,
    room: usize,
}

impl Batches {
    pub(crate) fn over(window: impl RangeBounds<u64>) -> Batches {
        Batches { walk: Walk::over(window), ranges: [RawRange::default(); MOST], given: 0, fetched: 0, room: 1 }
    }

    /// Fetches the ranges that come next. Those that begin after the window are none of it.
    fn fetch(&mut self, step_many: impl FnOnce(&mut RawWalk, &mut [RawRange]) -> usize) {
        let found = step_many(&mut self.walk.walk, &mut self.ranges[..self.room]);
        let end = self.walk.end;
        let is_inside = |range: &RawRange| range.shown().is_some_and(|range| range.first <= end);
        self.given = 0;
        self.fetched = self.ranges[..found].partition_point(is_inside);
        self.walk.is_done = self.fetched < self.room || self.walk.walk.ended != 0 || self.walk.walk.next > end;
        self.room = MOST.min(2 * self.room);
    }

    /// The first range that is left.
    pub(crate) fn next(&mut self, step_many: impl FnOnce(&mut RawWalk, &mut [RawRange]) -> usize) -> Option<Range> {
        if self.given == self.fetched && !self.walk.is_done {
            self.fetch(step_many);
        }
        if self.given == self.fetched {
            return None;
        }
        self.given += 1;
        self.ranges[self.given - 1].shown()
    }

    /// The last range that is left: the last of the window's rest, and then of those that were fetched.
    pub(crate) fn next_back(&mut self, last_in: impl FnOnce(u64, u64) -> Option<Range>) -> Option<Range> {
        let behind = self.walk.next_back(last_in);
        if behind.is_some() || self.given == self.fetched {
            return behind;
        }
        self.fetched -= 1;
        self.ranges[self.fetched].shown()
    }
}
