//! Threads that each keep numbers on their stack through calls in which the others run. The sum of all is noted.
#![no_std]
#![no_main]

use liblog::{note, start, yield_now, Decimal, Mutex, Stack};

const NUMBERS: usize = 16;
const THREADS: usize = 3;
const STACK: usize = 2048;

static STACKS: [Stack<STACK>; THREADS] = [Stack::new(), Stack::new(), Stack::new()];
static SUM: Mutex<i64> = Mutex::new(1, 0);

/// The number again, from its text, which lies on the stack while other threads run.
#[inline(never)]
fn spelled(number: i64) -> i64 {
    let text = Decimal::new(number);
    yield_now();
    let digits = text.as_bytes().iter().filter(|&&byte| byte != b'-');
    let value = digits.fold(0, |value, digit| 10 * value + (digit - b'0') as i64);
    if text.as_bytes()[0] == b'-' {
        -value
    } else {
        value
    }
}

extern "C" fn work(thread: i32) {
    let mut numbers = [0; NUMBERS];
    for (i, number) in numbers.iter_mut().enumerate() {
        yield_now();
        *number = spelled((thread as i64 + 1) * (i * i) as i64 - 7);
    }
    if let Some(mut sum) = SUM.lock() {
        *sum += numbers.iter().sum::<i64>();
    }
}

#[no_mangle]
pub extern "C" fn _start() {
    let mut threads = [None; THREADS];
    for (i, stack) in STACKS.iter().enumerate() {
        threads[i] = start(stack, work, i as i32).ok();
    }
    work(THREADS as i32);
    threads.iter().flatten().for_each(|thread| thread.join());
    if let Some(sum) = SUM.lock() {
        note(*sum);
    }
}
