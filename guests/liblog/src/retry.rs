use core::cell::Cell;

use crate::calls::{now, sleep_until};
use crate::threads::{start, NoThread, Stack};

const STACK: usize = 4096;

/// A timer that acts again and again until it is stopped: it sends a request until the answer has come, say. It acts on
/// a thread of its own, which never ends, so a guest with a timer ends by [`crate::exit`].
pub struct Retry {
    act: fn(),
    period: i64,
    next: Cell<i64>,
    left: Cell<u32>,
    stack: Stack<STACK>,
}

// SAFETY: other threads run in calls only, so each cell is read and set in one go.
unsafe impl Sync for Retry {}

impl Retry {
    /// A timer that acts once in each period of the wall time.
    pub const fn new(act: fn(), period: i64) -> Self {
        Retry {
            act,
            period,
            next: Cell::new(0),
            left: Cell::new(0),
            stack: Stack::new(),
        }
    }

    /// Makes the thread of the timer, once.
    #[cfg_attr(liblog_lines, track_caller)]
    pub fn begin(&'static self) -> Result<(), NoThread> {
        self.next.set(now().wrapping_add(self.period));
        start(&self.stack, keep_time, self as *const Retry as i32).map(|_| ())
    }

    /// Has it act so many times, first when a period has passed from now on.
    #[cfg_attr(liblog_lines, track_caller)]
    pub fn set(&self, times: u32) {
        self.next.set(now().wrapping_add(self.period));
        self.left.set(times);
    }

    /// It acts no more until it is set again.
    pub fn stop(&self) {
        self.left.set(0);
    }
}

extern "C" fn keep_time(place: i32) {
    // SAFETY: `begin` gives the place of a timer that lasts for ever.
    let retry = unsafe { &*(place as usize as *const Retry) };
    loop {
        let now = sleep_until(retry.next.get());
        // The timer may have been set again meanwhile.
        if now < retry.next.get() {
            continue;
        }
        retry.next.set(now.wrapping_add(retry.period));
        if let Some(left) = retry.left.get().checked_sub(1) {
            retry.left.set(left);
            (retry.act)();
        }
    }
}
