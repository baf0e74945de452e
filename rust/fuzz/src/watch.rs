//! Says which call it was, where one touches a fence.
use std::cell::Cell;
use std::ffi::c_void;

extern "C" {
    fn signal(number: i32, handler: extern "C" fn(i32)) -> usize;
    fn write(file: i32, bytes: *const c_void, length: usize) -> isize;
    fn _exit(status: i32) -> !;
}

const SIGBUS: i32 = 7;
const SIGSEGV: i32 = 11;

/// The status of a process that touched a fence.
pub const TOUCHED: i32 = 3;

thread_local! {
    /// The seed and the number of the call that this thread makes.
    static CALL: Cell<Option<(u64, u64)>> = const { Cell::new(None) };
}

/// Has a touched fence end the process with [`TOUCHED`] and a line that names the call.
pub fn start() {
    // SAFETY: the handler keeps to what a handler may do.
    unsafe {
        signal(SIGSEGV, touched);
        signal(SIGBUS, touched);
    }
}

pub fn begin(seed: u64, number: u64) {
    CALL.with(|call| call.set(Some((seed, number))));
}

pub fn end() {
    CALL.with(|call| call.set(None));
}

/// A handler may neither allocate nor lock. It runs in the thread that touched the page.
extern "C" fn touched(_: i32) {
    match CALL.with(Cell::get) {
        None => say(b"a page was touched outside of any call\n"),
        Some((seed, number)) => {
            say(b"a call touched a fence: make it again with --seed ");
            say_number(seed);
            say(b" --from ");
            say_number(number);
            say(b" --calls 1\n");
        }
    }
    // SAFETY: it ends the process.
    unsafe { _exit(TOUCHED) }
}

fn say(bytes: &[u8]) {
    // SAFETY: the bytes are there.
    unsafe { write(2, bytes.as_ptr().cast(), bytes.len()) };
}

fn say_number(mut number: u64) {
    let mut digits = [b'0'; 20];
    let mut first = digits.len() - 1;
    loop {
        digits[first] = b'0' + (number % 10) as u8;
        number /= 10;
        if number == 0 {
            return say(&digits[first..]);
        }
        first -= 1;
    }
}
