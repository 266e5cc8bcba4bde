//! A `read`, a `write`, an `fsync` and a `rename` that fail by plan, loaded before the C library's by LD_PRELOAD.
//!
//! A plan is an environment variable: READ_INPUT for reads of standard input, READ_FILE for reads of any file that the program
//! opened, WRITE_OUTPUT for writes to standard output, WRITE_FILE for writes to any file that it opened, SYNC and RENAME. Its words
//! hold for the calls in order, the last one for all further calls: a number is the most bytes that a call moves (none in SYNC and
//! RENAME), `-N` fails it with error N, and `kill` ends the program before it. Without a plan the calls are the system's own.

use std::ffi::{c_char, c_int, c_long, c_void};
use std::sync::OnceLock;
use std::sync::atomic::{AtomicUsize, Ordering};

/// The system's numbers of these calls on x86-64 Linux.
const SYS_READ: c_long = 0;
const SYS_WRITE: c_long = 1;
const SYS_GETPID: c_long = 39;
const SYS_KILL: c_long = 62;
const SYS_FSYNC: c_long = 74;
const SYS_RENAME: c_long = 82;

/// The signal that no program can catch.
const SIGKILL: c_long = 9;

unsafe extern "C" {
    fn syscall(number: c_long, ...) -> c_long;
    fn __errno_location() -> *mut c_int;
}

#[derive(Clone, Copy)]
enum Word {
    Most(usize),
    Error(c_int),
    Kill,
}

impl Word {
    fn of(text: &str) -> Word {
        match text.strip_prefix('-') {
            None if text == "kill" => Word::Kill,
            None => Word::Most(text.parse().expect("a number")),
            Some(error) => Word::Error(error.parse().expect("an error's number")),
        }
    }
}

struct Plan {
    variable: &'static str,
    words: OnceLock<Vec<Word>>,
    calls: AtomicUsize,
}

impl Plan {
    const fn of(variable: &'static str) -> Plan {
        Plan { variable, words: OnceLock::new(), calls: AtomicUsize::new(0) }
    }

    /// What the next call of `size` bytes does.
    fn next(&self, size: usize) -> Word {
        let words = self.words.get_or_init(|| {
            let text = std::env::var(self.variable).unwrap_or_default();
            text.split_whitespace().map(Word::of).collect()
        });
        let call = self.calls.fetch_add(1, Ordering::Relaxed);
        match words.get(call).or(words.last()) {
            None => Word::Most(size),
            Some(&Word::Most(most)) => Word::Most(size.min(most)),
            Some(&word) => word,
        }
    }
}

static READ_INPUT: Plan = Plan::of("READ_INPUT");
static READ_FILE: Plan = Plan::of("READ_FILE");
static WRITE_OUTPUT: Plan = Plan::of("WRITE_OUTPUT");
static WRITE_FILE: Plan = Plan::of("WRITE_FILE");
static SYNC: Plan = Plan::of("SYNC");
static RENAME: Plan = Plan::of("RENAME");

fn planned(plan: Option<&Plan>, size: usize, call: impl FnOnce(usize) -> c_long) -> isize {
    match plan.map_or(Word::Most(size), |plan| plan.next(size)) {
        Word::Most(most) => call(most) as isize,
        Word::Error(error) => {
            unsafe { *__errno_location() = error };
            -1
        }
        Word::Kill => unsafe { syscall(SYS_KILL, syscall(SYS_GETPID), SIGKILL) as isize },
    }
}

/// # Safety
/// As the C library's.
#[unsafe(no_mangle)]
pub unsafe extern "C" fn read(fd: c_int, buffer: *mut c_void, size: usize) -> isize {
    let plan = match fd {
        0 => Some(&READ_INPUT),
        1 | 2 => None,
        _ => Some(&READ_FILE),
    };
    planned(plan, size, |most| unsafe { syscall(SYS_READ, fd, buffer, most) })
}

/// # Safety
/// As the C library's.
#[unsafe(no_mangle)]
pub unsafe extern "C" fn write(fd: c_int, buffer: *const c_void, size: usize) -> isize {
    let plan = match fd {
        1 => Some(&WRITE_OUTPUT),
        0 | 2 => None,
        _ => Some(&WRITE_FILE),
    };
    planned(plan, size, |most| unsafe { syscall(SYS_WRITE, fd, buffer, most) })
}

/// # Safety
/// As the C library's.
#[unsafe(no_mangle)]
pub unsafe extern "C" fn fsync(fd: c_int) -> c_int {
    planned(Some(&SYNC), 0, |_| unsafe { syscall(SYS_FSYNC, fd) }) as c_int
}

/// # Safety
/// As the C library's.
#[unsafe(no_mangle)]
pub unsafe extern "C" fn rename(from: *const c_char, to: *const c_char) -> c_int {
    planned(Some(&RENAME), 0, |_| unsafe { syscall(SYS_RENAME, from, to) }) as c_int
}
