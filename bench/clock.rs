//! Processor time, which other programs on the machine do not count in, and medians.
use std::hint::black_box;

/// A time of the C library: seconds and nanoseconds.
#[repr(C)]
struct Timespec {
    seconds: i64,
    nanoseconds: i64,
}

/// The processor time of this program, on Linux.
const PROCESS_TIME: i32 = 2;

unsafe extern "C" {
    fn clock_gettime(clock: i32, time: *mut Timespec) -> i32;
}

/// The processor time that this program took so far, in nanoseconds.
fn now() -> u128 {
    let mut time = Timespec { seconds: 0, nanoseconds: 0 };
    // SAFETY: the call writes one time to where it is lent one.
    if unsafe { clock_gettime(PROCESS_TIME, &mut time) } != 0 {
        eprintln!("there is no clock of the processor's time");
        std::process::exit(2);
    }
    time.seconds as u128 * 1_000_000_000 + time.nanoseconds as u128
}

/// What a call returns, and how many nanoseconds of processor time it took.
pub fn timed<T>(call: impl FnOnce() -> T) -> (T, u128) {
    let start = now();
    let returned = black_box(call());
    (returned, now() - start)
}

/// The middle one of an odd number of numbers, the lower middle one of an even number.
pub fn median(mut numbers: Vec<u128>) -> u128 {
    numbers.sort_unstable();
    numbers[(numbers.len() - 1) / 2]
}
