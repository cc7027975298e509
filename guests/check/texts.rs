//! Prints numbers as texts, and bytes that are copied, moved and set.
#![no_std]
#![no_main]

use liblog::{exit, print, Decimal};

const NUMBERS: [i64; 6] = [0, 7, -1, 1_000_000_000_000, i64::MAX, i64::MIN];

fn print_all(bytes: &[u8]) {
    if print(bytes).is_err() {
        exit(1);
    }
}

#[no_mangle]
pub extern "C" fn _start() {
    NUMBERS
        .iter()
        .for_each(|&number| print_all(Decimal::new(number).as_bytes()));
    let mut text = *b"0123456789";
    print_all(&text);
    text.copy_within(..5, 2);
    print_all(&text);
    text.copy_within(1..6, 0);
    print_all(&text);
    text[1..4].fill(b'x');
    text[5..8].copy_from_slice(b"abc");
    print_all(&text);
    exit(if print(&[0; 60_001]).is_err() { 10 } else { 1 });
}
