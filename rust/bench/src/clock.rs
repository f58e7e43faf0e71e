//! The processor time of the thread, which other work on the machine does not add to.

/// `struct timespec` of x86-64 Linux, the only system that `libexchange.a` is for.
#[repr(C)]
struct Timespec {
    seconds: i64,
    nanoseconds: i64,
}

/// `CLOCK_THREAD_CPUTIME_ID`.
const THREAD_CPU_TIME: i32 = 3;

extern "C" {
    fn clock_gettime(clock: i32, time: *mut Timespec) -> i32;
}

/// The processor time that the thread has taken.
pub fn now() -> std::time::Duration {
    let mut time = Timespec { seconds: 0, nanoseconds: 0 };
    // SAFETY: the pointer is to a whole `struct timespec`, borrowed for the call alone.
    let status = unsafe { clock_gettime(THREAD_CPU_TIME, &mut time) };
    assert_eq!(status, 0, "the system has no such clock");
    std::time::Duration::new(time.seconds as u64, time.nanoseconds as u32)
}
