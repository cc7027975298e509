#[cfg(liblog_lines)]
extern "C" {
    // From guests/threads.c.
    static mut liblog_last_call: *const u32;
}

/// With `guests/build --lines` the place of the caller is kept as that of the last call.
#[cfg(liblog_lines)]
#[track_caller]
pub(crate) fn keep_place() {
    let place: *const _ = core::panic::Location::caller();
    // SAFETY: the word is written here and in C alone, and no other thread runs meanwhile.
    unsafe { core::ptr::addr_of_mut!(liblog_last_call).write_volatile(place.cast()) }
}

#[cfg(not(liblog_lines))]
pub(crate) fn keep_place() {}
