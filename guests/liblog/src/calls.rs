use crate::place::keep_place;
use crate::raw;
use crate::stack::keeping_stack;

/// How many bytes one call may name.
pub const MOST_BYTES: usize = 60_000;
const NO_HANDLER: u32 = u32::MAX;
const NO_DATAGRAM: i32 = -2;

/// A call named more than [`MOST_BYTES`].
#[derive(Clone, Copy, Debug, PartialEq, Eq)]
pub struct TooLong;

/// The number is no signal: those are 1 to 31.
#[derive(Clone, Copy, Debug, PartialEq, Eq)]
pub struct NoSignal;

/// A datagram that was taken.
#[derive(Clone, Copy, Debug, PartialEq, Eq)]
pub struct Datagram {
    /// How many of its bytes were written.
    pub length: usize,
    /// The process that sent it, where that is known.
    pub from: Option<u32>,
}

/// Ends the process.
#[cfg_attr(liblog_lines, track_caller)]
pub fn exit(code: i32) -> ! {
    keep_place();
    // SAFETY: the call takes no memory, and does not come back.
    unsafe { raw::exit(code) }
}

/// Notes a number in the log.
#[cfg_attr(liblog_lines, track_caller)]
pub fn note(value: i64) {
    // SAFETY: the call takes no memory.
    keeping_stack(|| unsafe { raw::note(value) })
}

/// Writes bytes.
#[cfg_attr(liblog_lines, track_caller)]
pub fn print(bytes: &[u8]) -> Result<(), TooLong> {
    // SAFETY: the bytes are read only.
    taken(keeping_stack(|| unsafe {
        raw::print(bytes.as_ptr(), bytes.len() as u32)
    }))
}

/// The wall time.
#[cfg_attr(liblog_lines, track_caller)]
pub fn now() -> i64 {
    // SAFETY: the call takes no memory.
    keeping_stack(|| unsafe { raw::now() })
}

/// Waits until the wall time is at least so late, and answers it.
#[cfg_attr(liblog_lines, track_caller)]
pub fn sleep_until(time: i64) -> i64 {
    // SAFETY: the call takes no memory.
    keeping_stack(|| unsafe { raw::sleep_until(time) })
}

/// Fills all the bytes at random.
#[cfg_attr(liblog_lines, track_caller)]
pub fn random(bytes: &mut [u8]) -> Result<(), TooLong> {
    // SAFETY: the bytes are the caller's to write.
    taken(keeping_stack(|| unsafe {
        raw::random(bytes.as_mut_ptr(), bytes.len() as u32)
    }))
}

/// The number of the process in its group.
#[cfg_attr(liblog_lines, track_caller)]
pub fn me() -> u32 {
    // SAFETY: the call takes no memory.
    keeping_stack(|| unsafe { raw::me() }) as u32
}

/// Sends a datagram to a process, which may come never, late, or several times.
#[cfg_attr(liblog_lines, track_caller)]
pub fn send(to: u32, bytes: &[u8]) -> Result<(), TooLong> {
    // SAFETY: the bytes are read only.
    taken(keeping_stack(|| unsafe {
        raw::send(to, bytes.as_ptr(), bytes.len() as u32)
    }))
}

/// Waits for a datagram and takes as much of it as there is room for.
#[cfg_attr(liblog_lines, track_caller)]
pub fn recv(room: &mut [u8]) -> Result<Datagram, TooLong> {
    let mut from = u32::MAX;
    // SAFETY: the bytes and `from` are the caller's to write.
    let answer =
        keeping_stack(|| unsafe { raw::recv(room.as_mut_ptr(), room.len() as u32, &mut from) });
    datagram(answer, from)
}

/// Takes the next datagram where one waits.
#[cfg_attr(liblog_lines, track_caller)]
pub fn try_recv(room: &mut [u8]) -> Result<Option<Datagram>, TooLong> {
    let mut from = u32::MAX;
    // SAFETY: the bytes and `from` are the caller's to write.
    let answer =
        keeping_stack(|| unsafe { raw::try_recv(room.as_mut_ptr(), room.len() as u32, &mut from) });
    match answer {
        NO_DATAGRAM => Ok(None),
        _ => datagram(answer, from).map(Some),
    }
}

/// Has a function called for a signal, in the midst of a thread, behind one of its calls.
#[cfg_attr(liblog_lines, track_caller)]
pub fn on_signal(signal: u32, handler: extern "C" fn(i32)) -> Result<(), NoSignal> {
    handle(signal, handler as usize as u32)
}

/// Takes the handler of a signal away.
#[cfg_attr(liblog_lines, track_caller)]
pub fn remove_handler(signal: u32) -> Result<(), NoSignal> {
    handle(signal, NO_HANDLER)
}

#[cfg_attr(liblog_lines, track_caller)]
fn handle(signal: u32, handler: u32) -> Result<(), NoSignal> {
    // SAFETY: the handler is a function of this type, or none.
    match keeping_stack(|| unsafe { raw::on_signal(signal, handler) }) {
        0 => Ok(()),
        _ => Err(NoSignal),
    }
}

fn taken(answer: i32) -> Result<(), TooLong> {
    if answer < 0 {
        Err(TooLong)
    } else {
        Ok(())
    }
}

fn datagram(answer: i32, from: u32) -> Result<Datagram, TooLong> {
    taken(answer)?;
    Ok(Datagram {
        length: answer as usize,
        from: Some(from).filter(|&from| from != u32::MAX),
    })
}
