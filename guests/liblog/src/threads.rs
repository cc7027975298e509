use core::cell::{Cell, UnsafeCell};

use crate::place::keep_place;
use crate::raw;
use crate::stack::keeping_stack;

const LEAST_STACK: usize = 256;

/// The stack of one thread. It has to be large enough for all that the thread calls: nothing checks that.
#[repr(align(16))]
pub struct Stack<const SIZE: usize> {
    is_taken: Cell<bool>,
    bytes: UnsafeCell<[u8; SIZE]>,
}

// SAFETY: another thread of the process runs in calls only, so the cell is read and set in one go; and only one thread
// gets the bytes.
unsafe impl<const SIZE: usize> Sync for Stack<SIZE> {}

impl<const SIZE: usize> Stack<SIZE> {
    #[allow(clippy::new_without_default)]
    pub const fn new() -> Self {
        assert!(SIZE >= LEAST_STACK, "a stack has at least 256 bytes");
        Stack {
            is_taken: Cell::new(false),
            bytes: UnsafeCell::new([0; SIZE]),
        }
    }
}

/// The process has made all its threads, or the stack is another one's.
#[derive(Clone, Copy, Debug, PartialEq, Eq)]
pub struct NoThread;

/// A thread that was started.
#[derive(Clone, Copy, Debug, PartialEq, Eq)]
pub struct Thread(u32);

/// Starts a thread on a stack, which is its own from then on.
#[cfg_attr(liblog_lines, track_caller)]
pub fn start<const SIZE: usize>(
    stack: &'static Stack<SIZE>,
    first: extern "C" fn(i32),
    argument: i32,
) -> Result<Thread, NoThread> {
    if stack.is_taken.replace(true) {
        return Err(NoThread);
    }
    keep_place();
    // SAFETY: the bytes last for ever, and no other thread has them.
    match unsafe { raw::thread_start(first, argument, stack.bytes.get().cast(), SIZE as u32) } {
        number if number >= 0 => Ok(Thread(number as u32)),
        _ => {
            stack.is_taken.set(false);
            Err(NoThread)
        }
    }
}

impl Thread {
    /// The number of the thread in its process.
    pub fn number(self) -> u32 {
        self.0
    }

    /// Waits for the end of the thread. A thread that waits for itself goes on at once.
    #[cfg_attr(liblog_lines, track_caller)]
    pub fn join(self) {
        // SAFETY: the call takes no memory.
        keeping_stack(|| unsafe { raw::join(self.0) });
    }
}

/// The number of the thread that calls.
#[cfg_attr(liblog_lines, track_caller)]
pub fn this_thread() -> u32 {
    // SAFETY: the call takes no memory.
    keeping_stack(|| unsafe { raw::thread() }) as u32
}

/// Lets other threads run.
#[cfg_attr(liblog_lines, track_caller)]
pub fn yield_now() {
    // SAFETY: the call takes no memory.
    keeping_stack(|| unsafe { raw::yield_now() })
}
