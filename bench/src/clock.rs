//! A watch that other processes disturb little.

use std::time::Instant;

#[repr(C)]
struct Timespec {
    seconds: i64,
    nanoseconds: i64,
}

extern "C" {
    fn clock_gettime(clock: i32, time: *mut Timespec) -> i32;
}

/// Linux's number for the processor time of the calling thread.
const THREAD_TIME: i32 = 3;

fn processor_time() -> f64 {
    let mut time = Timespec {
        seconds: 0,
        nanoseconds: 0,
    };
    let code = unsafe { clock_gettime(THREAD_TIME, &mut time) };
    assert_eq!(code, 0, "no clock for the thread");
    time.seconds as f64 * 1e9 + time.nanoseconds as f64
}

/// Nanoseconds that the work takes: the lesser of wall time, which counts while another process has
/// the core, and the thread's processor time, whose clock takes long to read.
pub fn time<T>(work: impl FnOnce() -> T) -> (f64, T) {
    let processor_start = processor_time();
    let start = Instant::now();
    let result = work();
    let wall = start.elapsed().as_nanos() as f64;
    let processor = processor_time() - processor_start;
    (wall.min(processor), result)
}
