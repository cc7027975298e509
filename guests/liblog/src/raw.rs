#[link(wasm_import_module = "liblog")]
extern "C" {
    pub fn exit(code: i32) -> !;
    pub fn note(value: i64);
    pub fn print(bytes: *const u8, count: u32) -> i32;
    pub fn now() -> i64;
    pub fn sleep_until(time: i64) -> i64;
    pub fn random(bytes: *mut u8, count: u32) -> i32;
    pub fn me() -> i32;
    pub fn send(to: u32, bytes: *const u8, count: u32) -> i32;
    pub fn recv(bytes: *mut u8, room: u32, from: *mut u32) -> i32;
    pub fn try_recv(bytes: *mut u8, room: u32, from: *mut u32) -> i32;
    #[link_name = "yield"]
    pub fn yield_now();
    pub fn join(thread: u32) -> i32;
    pub fn lock(lock: u32) -> i32;
    pub fn unlock(lock: u32) -> i32;
    pub fn on_signal(signal: u32, handler: u32) -> i32;
    pub fn thread() -> i32;
}

// From guests/threads.c and stack.c, since Rust cannot name the global that the stack ends at.
extern "C" {
    pub fn thread_start(start: extern "C" fn(i32), argument: i32, stack: *mut u8, size: u32)
        -> i32;
    pub fn liblog_stack() -> u32;
    pub fn liblog_set_stack(place: u32);
}
