//! A library to preload: calls of the program that fail or are cut short, as the environment asks. FAULT_READS, FAULT_WRITES (of
//! standard output) and FAULT_SAID (of standard error) have a word for each call in turn: `-` as the system does it, `s` at most 7
//! bytes of it, or the number of an error. FAULT_STORE is the error of storing a file.

use std::env;
use std::ffi::{c_int, c_long};
use std::sync::atomic::{AtomicUsize, Ordering};

extern "C" {
    fn syscall(number: c_long, ...) -> c_long;
    fn __errno_location() -> *mut c_int;
}

const READ: c_long = 0;
const WRITE: c_long = 1;
const FSYNC: c_long = 74;
const STANDARD_OUTPUT: c_int = 1;
const STANDARD_ERROR: c_int = 2;

static READS: AtomicUsize = AtomicUsize::new(0);
static WRITES: AtomicUsize = AtomicUsize::new(0);
static SAID: AtomicUsize = AtomicUsize::new(0);

/// The word for the next call.
fn next(variable: &str, calls: &AtomicUsize) -> String {
    let call = calls.fetch_add(1, Ordering::Relaxed);
    let words = env::var(variable).unwrap_or_default();
    words.split(' ').nth(call).unwrap_or("-").into()
}

unsafe fn fail(error: &str) -> c_long {
    *__errno_location() = error.parse().expect("an error's number");
    -1
}

unsafe fn moved(word: &str, call: c_long, fd: c_int, bytes: *mut u8, count: usize) -> isize {
    let answer = match word {
        "-" | "" => syscall(call, fd, bytes, count),
        "s" => syscall(call, fd, bytes, count.min(7)),
        error => fail(error),
    };
    answer as isize
}

#[no_mangle]
pub unsafe extern "C" fn read(fd: c_int, bytes: *mut u8, count: usize) -> isize {
    moved(&next("FAULT_READS", &READS), READ, fd, bytes, count)
}

#[no_mangle]
pub unsafe extern "C" fn write(fd: c_int, bytes: *mut u8, count: usize) -> isize {
    let word = match fd {
        STANDARD_OUTPUT => next("FAULT_WRITES", &WRITES),
        STANDARD_ERROR => next("FAULT_SAID", &SAID),
        _ => "-".into(),
    };
    moved(&word, WRITE, fd, bytes, count)
}

#[no_mangle]
pub unsafe extern "C" fn fsync(fd: c_int) -> c_int {
    match env::var("FAULT_STORE") {
        Ok(error) => fail(&error) as c_int,
        _ => syscall(FSYNC, fd) as c_int,
    }
}
