use core::cell::{Cell, UnsafeCell};
use core::marker::PhantomData;
use core::ops::{Deref, DerefMut};

use crate::raw;
use crate::stack::keeping_stack;

/// A value that threads and handlers share. One of them has it at a time.
pub struct Shared<T> {
    is_taken: Cell<bool>,
    value: UnsafeCell<T>,
}

// SAFETY: other threads run in calls only, so the cell is read and set in one go, and it lets one have the value.
unsafe impl<T: Send> Sync for Shared<T> {}

impl<T> Shared<T> {
    pub const fn new(value: T) -> Self {
        Shared {
            is_taken: Cell::new(false),
            value: UnsafeCell::new(value),
        }
    }

    /// What `act` makes of the value. It is None, and `act` was not called, if the value is being used: by this thread further out,
    /// or by another one that made a call within its own `act`. A guest in which that cannot be says `.unwrap()`, which traps if it
    /// is wrong; values that are kept over calls are better behind a `Mutex`.
    #[must_use = "it is None, and nothing was done, if the value is being used elsewhere"]
    pub fn with<R>(&self, act: impl FnOnce(&mut T) -> R) -> Option<R> {
        if self.is_taken.replace(true) {
            return None;
        }
        // SAFETY: nobody else has the value until the cell is set again.
        let result = act(unsafe { &mut *self.value.get() });
        self.is_taken.set(false);
        Some(result)
    }
}

/// A value behind a lock of the process. Locks of one number are one lock.
pub struct Mutex<T> {
    number: u32,
    value: UnsafeCell<T>,
}

// SAFETY: one thread has the lock at a time, and once.
unsafe impl<T: Send> Sync for Mutex<T> {}

impl<T> Mutex<T> {
    pub const fn new(number: u32, value: T) -> Self {
        Mutex {
            number,
            value: UnsafeCell::new(value),
        }
    }

    /// Waits until no other thread has the lock, and takes it; None where this thread has it already.
    #[cfg_attr(liblog_lines, track_caller)]
    pub fn lock(&self) -> Option<Guard<'_, T>> {
        // SAFETY: the call takes no memory.
        match keeping_stack(|| unsafe { raw::lock(self.number) }) {
            0 => Some(Guard {
                mutex: self,
                of_this_thread: PhantomData,
            }),
            _ => None,
        }
    }
}

/// The lock is given back when this goes.
pub struct Guard<'a, T> {
    mutex: &'a Mutex<T>,
    of_this_thread: PhantomData<*const ()>,
}

impl<T> Deref for Guard<'_, T> {
    type Target = T;

    fn deref(&self) -> &T {
        // SAFETY: this thread has the lock.
        unsafe { &*self.mutex.value.get() }
    }
}

impl<T> DerefMut for Guard<'_, T> {
    fn deref_mut(&mut self) -> &mut T {
        // SAFETY: this thread has the lock.
        unsafe { &mut *self.mutex.value.get() }
    }
}

impl<T> Drop for Guard<'_, T> {
    fn drop(&mut self) {
        // SAFETY: the call takes no memory.
        keeping_stack(|| unsafe { raw::unlock(self.mutex.number) });
    }
}
