//! What a guest in Rust calls: the functions of the module `liblog`, with safe wrappers, and a small runtime.
//! Each call is an event of the guest's log. `guests/build` makes the modules.
#![cfg_attr(not(feature = "std"), no_std)]
// cargo does not know liblog_lines, which guests/build sets.
#![allow(unknown_lints, unexpected_cfgs)]

mod calls;
mod decimal;
mod place;
/// The imports themselves.
pub mod raw;
#[cfg(feature = "std")]
mod output;
mod retry;
mod shared;
mod stack;
mod threads;

pub use calls::{
    exit, me, note, now, on_signal, print, random, recv, remove_handler, send, sleep_until,
    try_recv, Datagram, NoSignal, TooLong, MOST_BYTES,
};
pub use decimal::Decimal;
#[cfg(feature = "std")]
pub use output::{tell_panics, Output};
pub use retry::Retry;
pub use shared::{Guard, Mutex, Shared};
pub use threads::{start, this_thread, yield_now, NoThread, Stack, Thread};

/// A panic ends the process as `unreachable`, as std's own does too.
#[cfg(not(feature = "std"))]
#[panic_handler]
fn panic(_: &core::panic::PanicInfo) -> ! {
    core::arch::wasm32::unreachable()
}
