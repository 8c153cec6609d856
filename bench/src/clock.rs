// clock.rs: the processor time of this thread, so that what else the machine does is not measured.
// With the time of day a reader that takes longer than the system lets it run at once would look slower than it is.
use std::time::Duration;

/// Linux's number of the clock that counts the calling thread's processor time.
const THREAD_TIME: i32 = 3;

extern "C" {
    /// Of the system's C library, which every Rust program on Linux has; the words are seconds and nanoseconds.
    fn clock_gettime(clock: i32, time: *mut [i64; 2]) -> i32;
}

pub fn thread_time() -> Duration {
    let mut time = [0; 2];
    // SAFETY: the pointer is to two words of 64 bits, as the system has them on 64-bit Linux, and they outlive the call.
    let told = unsafe { clock_gettime(THREAD_TIME, &mut time) };
    assert_eq!(told, 0, "the system tells the time of a thread");
    Duration::new(time[0] as u64, time[1] as u32)
}
