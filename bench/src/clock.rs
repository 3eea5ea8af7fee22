//! The processor time of this thread, on Linux: what other programs do meanwhile does not count.

use std::ffi::{c_int, c_long};
use std::time::Duration;

#[repr(C)]
struct Time {
    seconds: c_long,
    nanoseconds: c_long,
}

unsafe extern "C" {
    fn clock_gettime(clock: c_int, time: *mut Time) -> c_int;
}

const CLOCK_THREAD_CPUTIME_ID: c_int = 3;

pub fn now() -> Duration {
    let mut time = Time {
        seconds: 0,
        nanoseconds: 0,
    };
    // SAFETY: the function only writes the time, which has the form that it asks for.
    let failed = unsafe { clock_gettime(CLOCK_THREAD_CPUTIME_ID, &mut time) };
    assert_eq!(failed, 0, "the clock of this thread");
    Duration::new(time.seconds as u64, time.nanoseconds as u32)
}

/// The nanoseconds of one call: it is made again, twice as often each time, until so much time is over.
pub fn time(least: Duration, mut call: impl FnMut()) -> f64 {
    let start = now();
    let (mut calls, mut more) = (0u32, 1);
    loop {
        for _ in 0..more {
            call();
        }
        calls += more;
        more = calls;
        let spent = now() - start;
        if spent >= least {
            return spent.as_nanos() as f64 / calls as f64;
        }
    }
}

pub fn median(times: &[f64]) -> f64 {
    let mut times = times.to_vec();
    times.sort_by(f64::total_cmp);
    times[times.len() / 2]
}
