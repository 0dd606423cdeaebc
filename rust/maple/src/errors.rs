//! Why something was not done.

use std::error;
use std::fmt::{Display, Formatter, Result};

pub(crate) const ENOENT: u32 = 2;
pub(crate) const E2BIG: u32 = 7;
pub(crate) const EAGAIN: u32 = 11;
pub(crate) const ENOMEM: u32 = 12;
pub(crate) const EBUSY: u32 = 16;
pub(crate) const EEXIST: u32 = 17;
pub(crate) const EINVAL: u32 = 22;
pub(crate) const EDOM: u32 = 33;
pub(crate) const ERANGE: u32 = 34;
pub(crate) const EBADMSG: u32 = 74;
pub(crate) const EUSERS: u32 = 87;

/// Why a call was not done. Nothing was changed.
///
/// ```
/// assert_eq!(maple::Error::NoRoom.to_string(), "no hole has room");
/// ```
#[derive(Clone, Copy, Debug, PartialEq, Eq)]
pub enum Error {
    /// The call means nothing: a range that ends before it begins or above the greatest index, a reserved entry (below
    /// 4096 and 2 above a multiple of 4), a search in a tree that is not for allocation, or for more indexes than its
    /// window has.
    Invalid,
    /// Too few of the tree's nodes are free.
    NoRows,
    /// A range holds some index already.
    Exists,
    /// No gap of the window is large enough.
    NoRoom,
    /// The tree had all its writes, 2^62 - 1.
    Worn,
    /// Another thread had the lock of the shared tree, and the write was to try once.
    Locked,
}

impl Display for Error {
    fn fmt(&self, f: &mut Formatter<'_>) -> Result {
        f.write_str(match self {
            Error::Invalid => "the call means nothing",
            Error::NoRows => "too few rows are free",
            Error::Exists => "some index is held already",
            Error::NoRoom => "no hole has room",
            Error::Worn => "the tree had all its calls",
            Error::Locked => "another thread had the lock",
        })
    }
}

impl error::Error for Error {}

/// What the status of a call says.
pub(crate) fn done(status: u32) -> std::result::Result<(), Error> {
    match status {
        0 => Ok(()),
        ENOMEM => Err(Error::NoRows),
        EBUSY => Err(Error::NoRoom),
        EEXIST => Err(Error::Exists),
        EINVAL => Err(Error::Invalid),
        EAGAIN => Err(Error::Locked),
        _ => Err(Error::Worn),
    }
}

/// Why no tree was made, or no reader or writer of one.
///
/// ```
/// assert_eq!(maple::OpenError::NoImage.to_string(), "the bytes are no image");
/// ```
#[derive(Clone, Copy, Debug, PartialEq, Eq)]
pub enum OpenError {
    /// There are more nodes than a tree may have, or fewer than this one needs.
    Rows,
    /// A shared tree has at most 61 readers and writers at a time.
    Users,
    /// There is no memory.
    NoMemory,
    /// The bytes are no image.
    NoImage,
    /// The range of this number, from 0, is invalid for the tree's kind, or not above the one before it.
    Range(usize),
    /// The shared tree already has as many readers and writers as it was made for.
    NoPlace,
}

impl Display for OpenError {
    fn fmt(&self, f: &mut Formatter<'_>) -> Result {
        match self {
            OpenError::Rows => f.write_str("a tree has no such number of rows"),
            OpenError::Users => f.write_str("a shared tree has 61 readers and writers at the most"),
            OpenError::NoMemory => f.write_str("there is no memory"),
            OpenError::NoImage => f.write_str("the bytes are no image"),
            OpenError::Range(number) => write!(f, "range {number} is none, or does not stand above the one before it"),
            OpenError::NoPlace => f.write_str("the shared tree has all its readers and writers"),
        }
    }
}

impl error::Error for OpenError {}

/// What the status of an opening call says.
pub(crate) fn opened(status: u32) -> std::result::Result<(), OpenError> {
    match status {
        0 => Ok(()),
        EDOM => Err(OpenError::Rows),
        EBADMSG => Err(OpenError::NoImage),
        EUSERS => Err(OpenError::NoPlace),
        _ => Err(OpenError::NoMemory),
    }
}

/// The words of a tree are not well-formed: something else wrote over them, since every call keeps them so.
///
/// ```
/// assert_eq!(maple::CheckError::Broken.to_string(), "something wrote over the tree's words");
/// ```
#[derive(Clone, Copy, Debug, PartialEq, Eq)]
pub enum CheckError {
    /// They are not.
    Broken,
}

impl Display for CheckError {
    fn fmt(&self, f: &mut Formatter<'_>) -> Result {
        f.write_str("something wrote over the tree's words")
    }
}

impl error::Error for CheckError {}

/// Why a log was not played, or a transcript not verified.
///
/// ```
/// assert_eq!(maple::LogError::BadLog.to_string(), "the bytes are no log");
/// ```
#[derive(Clone, Copy, Debug, PartialEq, Eq)]
pub enum LogError {
    /// The bytes are no log.
    BadLog,
    /// Trees have 4 to 65,504 nodes.
    BadRows,
    /// A log has less than 2^32 bytes.
    TooLong,
    /// The text is of no run of the log.
    Refused,
    /// There is no memory.
    NoMemory,
}

impl Display for LogError {
    fn fmt(&self, f: &mut Formatter<'_>) -> Result {
        f.write_str(match self {
            LogError::BadLog => "the bytes are no log",
            LogError::BadRows => "trees have 4 to 65504 rows",
            LogError::TooLong => "the log is too long",
            LogError::Refused => "the text is of no run of the log",
            LogError::NoMemory => "there is no memory",
        })
    }
}

impl error::Error for LogError {}
