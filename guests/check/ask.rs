//! As ask.c.
#![no_std]
#![no_main]

use liblog::{exit, note, print, recv, send, Datagram, Decimal, Retry, Shared};

const ANSWERER: u32 = 1;
const ROUNDS: u32 = 5;
const TRIES: u32 = 1000;

/// The round, and how many questions were asked.
#[used]
static STATE: Shared<(u32, i64)> = Shared::new((0, 0));
static RETRY: Retry = Retry::new(ask, 100);

fn ask() {
    let state = STATE.with(|state| {
        state.1 += 1;
        *state
    });
    if let Some((round, asked)) = state {
        let mut question = [0; 8];
        question[..4].copy_from_slice(&round.to_le_bytes());
        question[4..].copy_from_slice(&round.to_le_bytes());
        let _ = print(Decimal::new(asked).as_bytes());
        let _ = send(ANSWERER, &question);
    }
}

fn answer_of(round: u32) -> i32 {
    let mut answer = [0; 8];
    loop {
        let taken = recv(&mut answer);
        let [a, b, c, d, number @ ..] = answer;
        let is_right = u32::from_le_bytes([a, b, c, d]) == round;
        let from = Some(ANSWERER);
        if is_right && taken == Ok(Datagram { length: 8, from }) {
            return i32::from_le_bytes(number);
        }
    }
}

#[no_mangle]
pub extern "C" fn _start() {
    if RETRY.begin().is_err() || RETRY.begin().is_ok() {
        exit(1);
    }
    for round in 1..=ROUNDS {
        STATE.with(|state| state.0 = round).unwrap();
        ask();
        RETRY.set(TRIES);
        let answer = answer_of(round);
        RETRY.stop();
        note(answer as i64);
    }
    exit(0);
}
