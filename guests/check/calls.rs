//! Makes the calls that the other guests leave out, and notes what each answers.
#![no_std]
#![no_main]

use liblog::*;

static HEARD: Shared<i32> = Shared::new(0);

extern "C" fn hear(signal: i32) {
    HEARD.with(|heard| *heard = 10 * *heard + signal).unwrap();
}

fn note_datagram(datagram: Option<Datagram>) {
    match datagram {
        Some(datagram) => {
            note(datagram.length as i64);
            note(datagram.from.map_or(-1, |from| from as i64));
        }
        None => note(-2),
    }
}

#[no_mangle]
pub extern "C" fn _start() {
    let mut room = [0; 3];
    note(now());
    note(sleep_until(50));
    note(me() as i64);
    note(this_thread() as i64);
    note(random(&mut room).is_ok() as i64);
    note(i64::from_le_bytes([
        room[0], room[1], room[2], 0, 0, 0, 0, 0,
    ]));
    note(random(&mut [0; MOST_BYTES + 1]).is_err() as i64);
    note_datagram(try_recv(&mut room).unwrap_or(None));
    note_datagram(try_recv(&mut room).unwrap_or(None));
    note(on_signal(32, hear).is_err() as i64);
    note(on_signal(5, hear).is_ok() as i64);
    yield_now();
    note(remove_handler(5).is_ok() as i64);
    note(
        HEARD
            .with(|heard| HEARD.with(|_| ()).map_or(*heard, |_| -1))
            .unwrap_or(-2) as i64,
    );
}
