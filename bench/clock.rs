//! Processor time, and medians of it.

use std::hint::black_box;

#[repr(C)]
struct Time {
    seconds: i64,
    nanoseconds: i64,
}

extern "C" {
    fn clock_gettime(clock: i32, time: *mut Time) -> i32;
}

/// Processor time of this thread, in nanoseconds: what else the machine does hardly counts.
fn spent() -> f64 {
    let mut time = Time {
        seconds: 0,
        nanoseconds: 0,
    };
    assert_eq!(unsafe { clock_gettime(3, &mut time) }, 0);
    time.seconds as f64 * 1e9 + time.nanoseconds as f64
}

/// The time that an action takes, and what it gives.
pub fn timed<T>(action: impl FnOnce() -> T) -> (f64, T) {
    let begin = spent();
    let result = black_box(action());
    (spent() - begin, result)
}

pub fn median(mut times: Vec<f64>) -> f64 {
    times.sort_by(f64::total_cmp);
    times[times.len() / 2]
}
