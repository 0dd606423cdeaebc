//! Calls that wait, as those of `c/wait.c` do.

use crate::errors::EAGAIN;
use std::hint::spin_loop;
use std::thread;
use std::time::Duration;

/// Makes a call until it returns anything but `EAGAIN`, and gives that. Between two calls it rests, longer each time.
pub(crate) fn until_done(mut call: impl FnMut() -> u32) -> u32 {
    let mut turn = 0;
    loop {
        match call() {
            EAGAIN => rest(turn),
            status => return status,
        }
        turn += 1;
    }
}

fn rest(turn: u32) {
    match turn {
        0..=6 => (0..1 << turn).for_each(|_| spin_loop()),
        7..=22 => thread::yield_now(),
        _ => thread::sleep(Duration::from_micros(1 << (turn - 23).min(10))),
    }
}
