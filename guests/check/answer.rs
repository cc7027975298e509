//! Answers each number with its double, for ever. A message is its round and a number, in 4 bytes each.
#![no_std]
#![no_main]

use liblog::{recv, send, Datagram, Shared};

static ANSWERED: Shared<u32> = Shared::new(0);

fn double(message: &mut [u8; 8]) {
    let number = i32::from_le_bytes([message[4], message[5], message[6], message[7]]);
    message[4..].copy_from_slice(&number.wrapping_mul(2).to_le_bytes());
    ANSWERED.with(|count| *count += 1).unwrap();
}

#[no_mangle]
pub extern "C" fn _start() {
    let mut message = [0; 8];
    loop {
        if let Ok(Datagram {
            length: 8,
            from: Some(from),
        }) = recv(&mut message)
        {
            double(&mut message);
            let _ = send(from, &message);
        }
    }
}
