//! The processor time of this thread, so that other work on the machine does not count.

#[cfg(target_os = "linux")]
mod system {
    /// `struct timespec` where `time_t` and `long` are as wide as a pointer.
    #[repr(C)]
    #[derive(Default)]
    struct Time {
        seconds: isize,
        nanoseconds: isize,
    }

    extern "C" {
        fn clock_gettime(clock: i32, time: *mut Time) -> i32;
    }

    const THREAD: i32 = 3;
    pub const NAME: &str = "processor time of the thread";

    pub fn now() -> f64 {
        let mut time = Time::default();
        // SAFETY: the pointer is to a `timespec` of our own, which the call fills.
        let status = unsafe { clock_gettime(THREAD, &mut time) };
        assert_eq!(status, 0, "this thread has a clock");
        time.seconds as f64 * 1e9 + time.nanoseconds as f64
    }
}

#[cfg(not(target_os = "linux"))]
mod system {
    use std::sync::OnceLock;
    use std::time::Instant;

    pub const NAME: &str = "time on the wall";

    pub fn now() -> f64 {
        static START: OnceLock<Instant> = OnceLock::new();
        START.get_or_init(Instant::now).elapsed().as_secs_f64() * 1e9
    }
}

pub use system::{now, NAME};

/// Nanoseconds of one call.
pub fn timed(call: impl FnOnce()) -> f64 {
    let start = now();
    call();
    now() - start
}
