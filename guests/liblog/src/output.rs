use std::io::{Result, Write};
use std::string::ToString;

use crate::calls::{print, MOST_BYTES};

/// Where std writes text to: `writeln!(Output, "{x}")` is one event, if the text has at most 60,000 bytes.
pub struct Output;

impl Write for Output {
    fn write(&mut self, bytes: &[u8]) -> Result<usize> {
        let count = bytes.len().min(MOST_BYTES);
        let _ = print(&bytes[..count]);
        Ok(count)
    }

    // The text is made whole first, since each write is an event.
    fn write_fmt(&mut self, text: std::fmt::Arguments<'_>) -> Result<()> {
        self.write_all(text.to_string().as_bytes())
    }

    fn flush(&mut self) -> Result<()> {
        Ok(())
    }
}

/// Has the message of a panic printed before it traps: std itself writes it to nowhere.
pub fn tell_panics() {
    std::panic::set_hook(Box::new(|panic| {
        let _ = writeln!(Output, "{panic}");
    }));
}
