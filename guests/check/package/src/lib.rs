// A guest with std and a crate that it depends on: collections, text, floats, and a panic that is told.
use std::cell::RefCell;
use std::collections::HashMap;
use std::io::Write;
use std::rc::Rc;

use liblog::{tell_panics, Output, Shared};

#[used]
static SERVED: Shared<u32> = Shared::new(0);

#[no_mangle]
pub extern "C" fn _start() {
    tell_panics();
    let (counts, mean) = words::count("one Two one three two ONE");
    let shared = Rc::new(RefCell::new(HashMap::new()));
    for (word, count) in &counts {
        shared.borrow_mut().insert(word.clone(), count * 2);
        writeln!(Output, "{word} {count}").unwrap();
        SERVED.with(|served| *served += 1).unwrap();
    }
    writeln!(Output, "{:.3} {} {}", mean, shared.borrow()["one"], 2f64.sqrt()).unwrap();
    let nothing: Vec<u32> = Vec::new();
    writeln!(Output, "{}", nothing[counts.len()]).unwrap();
}
