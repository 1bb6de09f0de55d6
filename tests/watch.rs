//! Says which call it was when the product faults or does not come back.

use std::sync::atomic::{AtomicUsize, Ordering};
use std::sync::Mutex;

extern "C" {
    fn signal(number: i32, handler: usize) -> usize;
    fn write(file: i32, bytes: *const u8, count: usize) -> isize;
    fn _exit(code: i32) -> !;
    fn alarm(seconds: u32) -> u32;
}

const ILLEGAL: i32 = 4;
const ABORT: i32 = 6;
const BUS: i32 = 7;
const FAULT: i32 = 11;
const ALARM: i32 = 14;

/// No call takes this long.
const SECONDS: u32 = 30;

/// Where the call's name lies; put there before the call, since a handler may not allocate.
static AT: AtomicUsize = AtomicUsize::new(0);
static LENGTH: AtomicUsize = AtomicUsize::new(0);
static SEED: Mutex<u64> = Mutex::new(0);
static NOW: Mutex<String> = Mutex::new(String::new());

pub fn begin(seed: u64) {
    *SEED.lock().unwrap() = seed;
    for number in [ILLEGAL, ABORT, BUS, FAULT, ALARM] {
        unsafe { signal(number, fell as extern "C" fn(i32) as usize) };
    }
}

pub fn call(name: &str) {
    let mut now = NOW.lock().unwrap();
    *now = format!("seed {}, call {name}\n", *SEED.lock().unwrap());
    AT.store(now.as_ptr() as usize, Ordering::SeqCst);
    LENGTH.store(now.len(), Ordering::SeqCst);
    unsafe { alarm(SECONDS) };
}

/// Seed and call, with a line feed.
pub fn now() -> String {
    NOW.lock().unwrap().clone()
}

extern "C" fn fell(number: i32) {
    say(if number == ALARM { b"compare: no end of " } else { b"compare: a fault in " });
    unsafe {
        write(1, AT.load(Ordering::SeqCst) as *const u8, LENGTH.load(Ordering::SeqCst));
        _exit(1);
    }
}

fn say(words: &[u8]) {
    unsafe { write(1, words.as_ptr(), words.len()) };
}
