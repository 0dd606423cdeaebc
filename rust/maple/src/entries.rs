//! Entries that represent numbers and pointers: they are neither 0 nor reserved, so no call refuses them.
//!
//! ```
//! use maple::{entries, Kind, Tree};
//! let mut tree = Tree::new(Kind::Range, 100).unwrap();
//! tree.store(3..12, entries::of_value(0))?;
//! assert_eq!(tree.get(5).and_then(entries::to_value), Some(0));
//! # Ok::<(), maple::Error>(())
//! ```

use std::num::NonZeroU64;
use std::ptr::NonNull;

/// The entry that represents a number below 2^63, an odd one; none for a greater number.
///
/// ```
/// use maple::entries::of_value;
/// assert_eq!(of_value(3).unwrap().get(), 7);
/// assert_eq!(of_value(1 << 63), None);
/// ```
pub const fn of_value(number: u64) -> Option<NonZeroU64> {
    if number >> 63 == 0 {
        NonZeroU64::new(number << 1 | 1)
    } else {
        None
    }
}

/// The number that an entry represents; none where the entry is even, as that of a pointer is.
///
/// ```
/// use maple::entries::{of_value, to_value};
/// assert_eq!(to_value(of_value(3).unwrap()), Some(3));
/// ```
pub const fn to_value(entry: NonZeroU64) -> Option<u64> {
    if entry.get() & 1 == 1 {
        Some(entry.get() >> 1)
    } else {
        None
    }
}

/// The entry that represents a pointer: its address. None where the address is no multiple of 4.
///
/// ```
/// use maple::entries::{of_pointer, to_pointer};
/// use std::ptr::NonNull;
/// let it = NonNull::from(&5_u32);
/// assert_eq!(to_pointer(of_pointer(it).unwrap()), Some(it));
/// ```
pub fn of_pointer<T>(pointer: NonNull<T>) -> Option<NonZeroU64> {
    let address = pointer.as_ptr() as usize as u64;
    NonZeroU64::new(address).filter(|address| address.get() % 4 == 0)
}

/// The pointer that an entry represents; none where the entry is no multiple of 4, as that of a number is. Only the code that stored
/// it knows whether it may be read.
///
/// ```
/// use maple::entries::{of_value, to_pointer};
/// assert_eq!(to_pointer::<u32>(of_value(3).unwrap()), None);
/// ```
pub fn to_pointer<T>(entry: NonZeroU64) -> Option<NonNull<T>> {
    if entry.get() % 4 == 0 {
        NonNull::new(entry.get() as usize as *mut T)
    } else {
        None
    }
}
