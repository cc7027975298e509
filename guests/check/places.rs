//! Variables of many types. It notes the values that some have at its end, each beside a path to it, so that check.sh can
//! read the value at the place of the path.
#![no_std]
#![no_main]

use core::cell::Cell;

use liblog::{me, note, Shared};

#[derive(Clone, Copy)]
enum Mood {
    Calm,
    Busy(u32),
    Away { since: i64 },
}

struct Peer {
    distance: i8,
    next: Option<&'static Peer>,
    name: &'static str,
    seen: Cell<i64>,
    ports: (u16, u16),
}

struct Server {
    count: u16,
    mood: Mood,
    last: Option<i32>,
    peer: &'static Peer,
    sums: [[i16; 3]; 2],
}

// SAFETY: there is one thread.
unsafe impl Sync for Peer {}

#[used]
static NEAR: Peer = Peer {
    distance: -1,
    next: None,
    name: "near",
    seen: Cell::new(5),
    ports: (80, 65_000),
};
#[used]
static FAR: Peer = Peer {
    distance: 100,
    next: Some(&NEAR),
    name: "far away",
    seen: Cell::new(-6),
    ports: (1, 2),
};
#[used]
static SERVER: Shared<Server> = Shared::new(Server {
    count: 1,
    mood: Mood::Calm,
    last: None,
    peer: &FAR,
    sums: [[0; 3]; 2],
});

fn fill(server: &mut Server, seed: i64) {
    server.count += 41;
    server.mood = if seed > 0 {
        Mood::Away { since: -seed }
    } else {
        Mood::Busy(7)
    };
    server.last = Some(-(seed as i32) * 1000);
    server.sums[1] = [seed as i16, -2, 300];
    NEAR.seen.set(seed << 33);
}

fn since(mood: Mood) -> i64 {
    match mood {
        Mood::Calm => 0,
        Mood::Busy(count) => count as i64,
        Mood::Away { since } => since,
    }
}

#[no_mangle]
pub extern "C" fn _start() {
    SERVER.with(|server| {
        fill(server, me() as i64 + 3);
        note(server.count as i64); // SERVER.value.count
        note(since(server.mood)); // SERVER.value.mood.Away.since
        note(server.last.unwrap_or(0) as i64); // SERVER.value.last.Some.0
        note(server.peer.distance as i64); // SERVER.value.peer->distance
        note(server.peer.next.map_or(0, |peer| peer.seen.get())); // SERVER.value.peer->next.Some.0->seen
        note(server.peer.ports.1 as i64); // SERVER.value.peer->ports.1
        note(server.sums[1][2] as i64); // SERVER.value.sums[1][2]
        note(server.peer.name.len() as i64); // FAR.name.length
        note(server.peer.name.as_bytes()[4] as i64); // FAR.name.data_ptr[4]
        note(NEAR.distance as i64); // places::NEAR.distance
        note(NEAR.ports.1 as i64); // NEAR.ports.1
    })
    .unwrap();
}
