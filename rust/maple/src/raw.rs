//! The calls of the headers in include/.

use crate::Range;
use std::ffi::c_void;
use std::num::NonZeroU64;

/// `struct maple_tree`. Zeroed it is closed.
#[repr(C)]
pub struct RawTree {
    at: *mut c_void,
    open: u64,
}

// SAFETY: nothing that the handle leads to is a thread's own: that what it keeps is `Send` is proved (`Kept` in crates/mt_c).
unsafe impl Send for RawTree {}

impl RawTree {
    pub const CLOSED: RawTree = RawTree { at: std::ptr::null_mut(), open: 0 };
}

/// `struct maple_user`. Zeroed it is closed.
#[repr(C, align(128))]
pub struct RawUser {
    at: *mut c_void,
    open: u64,
}

// SAFETY: as of a `RawTree` (`KeptUser` in crates/mt_c).
unsafe impl Send for RawUser {}

impl RawUser {
    pub const CLOSED: RawUser = RawUser { at: std::ptr::null_mut(), open: 0 };
}

/// `struct maple_range`, or three zeros.
#[repr(C)]
#[derive(Clone, Copy, Default)]
pub struct RawRange {
    first: u64,
    last: u64,
    entry: u64,
}

impl RawRange {
    /// The range, or none where these are three zeros.
    pub fn shown(self) -> Option<Range> {
        let entry = NonZeroU64::new(self.entry)?;
        Some(Range { first: self.first, last: self.last, entry })
    }
}

/// `struct maple_walk`.
#[repr(C)]
#[derive(Clone, Copy, Default, Debug)]
pub struct RawWalk {
    pub next: u64,
    pub ended: u64,
}

/// `struct maple_form`.
#[repr(C)]
#[derive(Default)]
pub struct RawForm {
    pub height: u64,
    pub rows: u64,
    pub ranges: u64,
}

/// `struct maple_stats`.
#[repr(C)]
#[derive(Default)]
pub struct RawStats {
    pub rows: u64,
    pub free: u64,
    pub live: u64,
    pub held: u64,
    pub height: u64,
    pub calls: u64,
}

/// `struct maple_read`.
#[repr(C)]
#[derive(Clone, Copy, Default)]
pub struct RawRead {
    pub lo: u64,
    pub hi: u64,
    pub found: RawRange,
}

/// `struct maple_done`.
#[repr(C)]
#[derive(Clone, Copy, Default)]
pub struct RawDone {
    pub call: u64,
    pub word: u64,
    pub was: RawRange,
    pub need: u64,
    pub free: u64,
    pub live: u64,
    pub held: u64,
    pub by: u64,
    pub epoch: u64,
}

/// `struct maple_window`.
#[repr(C)]
#[derive(Clone, Copy, Default)]
pub struct RawWindow {
    pub lo: u64,
    pub hi: u64,
}

/// `struct maple_call`.
#[repr(C)]
#[derive(Clone, Copy, Default)]
pub struct RawCall {
    pub verb: u32,
    pub status: u32,
    pub first: u64,
    pub last: u64,
    pub entry: u64,
    pub size: u64,
    pub done: RawDone,
}

type Tree = *mut RawTree;
type User = *mut RawUser;
type Bytes = *const u8;

extern "C" {
    pub fn maple_open(tree: Tree, kind: u32, rows: u64) -> u32;
    pub fn maple_open_image(tree: Tree, bytes: Bytes, length: usize, rows: u64) -> u32;
    pub fn maple_build(tree: Tree, kind: u32, rows: u64, ranges: *const Range, count: usize, at: *mut u64) -> u32;
    pub fn maple_copy(tree: Tree, copy: Tree, rows: u64) -> u32;
    pub fn maple_close(tree: Tree);

    pub fn maple_store(tree: Tree, first: u64, last: u64, entry: u64, old: *mut u64) -> u32;
    pub fn maple_store_over(
        tree: Tree,
        first: u64,
        last: u64,
        entry: u64,
        met: *mut RawRange,
        room: usize,
        count: *mut u64,
        old: *mut u64,
    ) -> u32;
    pub fn maple_insert(tree: Tree, first: u64, last: u64, entry: u64) -> u32;
    pub fn maple_erase(tree: Tree, index: u64, was: *mut RawRange) -> u32;
    pub fn maple_alloc(tree: Tree, size: u64, min: u64, max: u64, entry: u64, start: *mut u64) -> u32;
    pub fn maple_ralloc(tree: Tree, size: u64, min: u64, max: u64, entry: u64, start: *mut u64) -> u32;
    pub fn maple_store_kept(tree: Tree, first: u64, last: u64, entry: u64, old: *mut u64) -> u32;
    pub fn maple_insert_kept(tree: Tree, first: u64, last: u64, entry: u64) -> u32;
    pub fn maple_alloc_kept(tree: Tree, size: u64, min: u64, max: u64, entry: u64, start: *mut u64) -> u32;
    pub fn maple_ralloc_kept(tree: Tree, size: u64, min: u64, max: u64, entry: u64, start: *mut u64) -> u32;
    pub fn maple_gap(tree: Tree, size: u64, min: u64, max: u64, start: *mut u64) -> u32;
    pub fn maple_rgap(tree: Tree, size: u64, min: u64, max: u64, start: *mut u64) -> u32;
    pub fn maple_clear(tree: Tree) -> u32;
    pub fn maple_preallocate(tree: Tree) -> u32;
    pub fn maple_store_prealloc(tree: Tree, first: u64, last: u64, entry: u64, old: *mut u64) -> u32;

    pub fn maple_entry(tree: Tree, index: u64) -> u64;
    pub fn maple_load_many(tree: Tree, indexes: *const u64, count: usize, entries: *mut u64, places: usize) -> u32;
    pub fn maple_load(tree: Tree, index: u64, range: *mut RawRange) -> u32;
    pub fn maple_find(tree: Tree, index: u64, max: u64, range: *mut RawRange) -> u32;
    pub fn maple_next(tree: Tree, index: u64, max: u64, range: *mut RawRange) -> u32;
    pub fn maple_prev(tree: Tree, index: u64, min: u64, range: *mut RawRange) -> u32;
    pub fn maple_rfind(tree: Tree, index: u64, min: u64, range: *mut RawRange) -> u32;
    pub fn maple_step_many(
        tree: Tree,
        walk: *mut RawWalk,
        ranges: *mut RawRange,
        places: usize,
        count: *mut usize,
    ) -> u32;
    pub fn maple_stats(tree: Tree, stats: *mut RawStats) -> u32;
    pub fn maple_rows_for(ranges: u64) -> u64;
    pub fn maple_check(tree: Tree, form: *mut RawForm) -> u32;
    pub fn maple_image(tree: Tree, out: *mut u8, room: usize, used: *mut usize) -> u32;

    pub fn maple_replay(log: Bytes, length: usize, rows: u64, out: *mut u8, room: usize, used: *mut usize) -> u32;
    pub fn maple_verify(
        log: Bytes,
        length: usize,
        text: Bytes,
        text_length: usize,
        rows: u64,
        calls: *mut u64,
        reads: *mut u64,
    ) -> u32;

    pub fn maple_shared_open(user: User, kind: u32, rows: u64, users: u32, calls: u64) -> u32;
    pub fn maple_shared_of_tree(tree: Tree, user: User, rows: u64, users: u32, calls: u64) -> u32;
    pub fn maple_shared_copy(user: User, copy: User, rows: u64, users: u32, calls: u64) -> u32;
    pub fn maple_share(user: User, other: User) -> u32;
    pub fn maple_leave(user: User) -> u32;
    pub fn maple_shared_close(user: User);
    pub fn maple_shared_load(user: User, index: u64, read: *mut RawRead) -> u32;
    pub fn maple_shared_entry(user: User, index: u64, window: *mut RawWindow) -> u64;
    pub fn maple_shared_load_many(
        user: User,
        indexes: *const u64,
        count: usize,
        entries: *mut u64,
        places: usize,
        window: *mut RawWindow,
    ) -> u32;
    pub fn maple_shared_find(user: User, index: u64, max: u64, read: *mut RawRead) -> u32;
    pub fn maple_shared_next(user: User, index: u64, max: u64, read: *mut RawRead) -> u32;
    pub fn maple_shared_prev(user: User, index: u64, min: u64, read: *mut RawRead) -> u32;
    pub fn maple_shared_rfind(user: User, index: u64, min: u64, read: *mut RawRead) -> u32;
    pub fn maple_shared_step_to(user: User, walk: *mut RawWalk, max: u64, read: *mut RawRead) -> u32;
    pub fn maple_pause(user: User) -> u32;
    pub fn maple_try_store(user: User, first: u64, last: u64, entry: u64, done: *mut RawDone) -> u32;
    pub fn maple_try_store_over(
        user: User,
        first: u64,
        last: u64,
        entry: u64,
        met: *mut RawRange,
        room: usize,
        count: *mut u64,
        done: *mut RawDone,
    ) -> u32;
    pub fn maple_try_insert(user: User, first: u64, last: u64, entry: u64, done: *mut RawDone) -> u32;
    pub fn maple_try_erase(user: User, index: u64, done: *mut RawDone) -> u32;
    pub fn maple_try_alloc(user: User, size: u64, min: u64, max: u64, entry: u64, done: *mut RawDone) -> u32;
    pub fn maple_try_ralloc(user: User, size: u64, min: u64, max: u64, entry: u64, done: *mut RawDone) -> u32;
    pub fn maple_try_store_kept(user: User, first: u64, last: u64, entry: u64, done: *mut RawDone) -> u32;
    pub fn maple_try_insert_kept(user: User, first: u64, last: u64, entry: u64, done: *mut RawDone) -> u32;
    pub fn maple_try_alloc_kept(user: User, size: u64, min: u64, max: u64, entry: u64, done: *mut RawDone) -> u32;
    pub fn maple_try_ralloc_kept(user: User, size: u64, min: u64, max: u64, entry: u64, done: *mut RawDone) -> u32;
    pub fn maple_try_gap(user: User, size: u64, min: u64, max: u64, done: *mut RawDone) -> u32;
    pub fn maple_try_rgap(user: User, size: u64, min: u64, max: u64, done: *mut RawDone) -> u32;
    pub fn maple_try_clear(user: User, done: *mut RawDone) -> u32;
    pub fn maple_try_batch(user: User, calls: *mut RawCall, count: usize) -> u32;
    pub fn maple_learn(user: User, calls: u64) -> u32;
    pub fn maple_place(user: User, place: *mut u64) -> u32;
    pub fn maple_sync(user: User, calls: *mut u64) -> u32;
    pub fn maple_settle(user: User, calls: *mut u64, places: *mut u64) -> u32;
    pub fn maple_oldest(user: User, calls: *mut u64) -> u32;
    pub fn maple_shared_check(user: User, form: *mut RawForm) -> u32;
    pub fn maple_shared_stats(user: User, stats: *mut RawStats) -> u32;
    pub fn maple_shared_image(user: User, out: *mut u8, room: usize, used: *mut usize) -> u32;
}
