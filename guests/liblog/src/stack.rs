use crate::place::keep_place;
use crate::raw;

/// Makes a call and puts the end of the stack back: another thread may run in the call and leave its own there.
#[cfg_attr(liblog_lines, track_caller)]
pub(crate) fn keeping_stack<T>(call: impl FnOnce() -> T) -> T {
    keep_place();
    // SAFETY: the end of the stack becomes what it was when this function was called.
    unsafe {
        let place = raw::liblog_stack();
        let answer = call();
        raw::liblog_set_stack(place);
        answer
    }
}
