//! Plays logs and verifies transcripts.

use crate::errors::{E2BIG, EBADMSG, EDOM, EINVAL, ERANGE};
use crate::{raw, LogError};

fn failed(status: u32) -> LogError {
    match status {
        EINVAL => LogError::BadLog,
        EDOM => LogError::BadRows,
        E2BIG => LogError::TooLong,
        EBADMSG => LogError::Refused,
        _ => LogError::NoMemory,
    }
}

/// Plays a log on one thread over trees of this many nodes, and gives the text of the transcript.
///
/// ```
/// let log = b"mtlog 1\ntree a range\nstore a 0 99 1\nload a 45\n";
/// let text = maple::replay(log, 100)?;
/// assert_eq!(text, b"3 1 ok\n4 1 1 entry 1\ntree a range 1\n0 99 1\n");
/// assert_eq!(maple::verify(log, &text, 100)?, (1, 1));
/// assert_eq!(maple::replay(b"mtlog 7\n", 100), Err(maple::LogError::BadLog));
/// # Ok::<(), maple::LogError>(())
/// ```
pub fn replay(log: &[u8], rows: u64) -> Result<Vec<u8>, LogError> {
    let mut out = vec![0; 4096];
    loop {
        let mut used = 0;
        // SAFETY: the slices are of two objects that nobody else changes now.
        match unsafe { raw::maple_replay(log.as_ptr(), log.len(), rows, out.as_mut_ptr(), out.len(), &mut used) } {
            0 => {
                out.truncate(used);
                return Ok(out);
            }
            ERANGE => out.resize(used, 0),
            status => return Err(failed(status)),
        }
    }
}

/// How many writes and how many reads a transcript of a run of a log reports; `Refused` exactly where the text is of no run.
///
/// ```
/// let log = b"mtlog 1\ntree a range\n";
/// assert_eq!(maple::verify(log, b"tree a range 0\n", 100), Ok((0, 0)));
/// assert_eq!(maple::verify(log, b"tree a range 1\n", 100), Err(maple::LogError::Refused));
/// ```
pub fn verify(log: &[u8], text: &[u8], rows: u64) -> Result<(u64, u64), LogError> {
    let (mut calls, mut reads) = (0, 0);
    let (log, log_length, text, text_length) = (log.as_ptr(), log.len(), text.as_ptr(), text.len());
    // SAFETY: nobody changes the slices now, and the counts are of two objects.
    match unsafe { raw::maple_verify(log, log_length, text, text_length, rows, &mut calls, &mut reads) } {
        0 => Ok((calls, reads)),
        status => Err(failed(status)),
    }
}
