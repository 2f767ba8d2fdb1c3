//! The time that the processor worked for this thread.
#[repr(C)]
struct Timespec {
    seconds: i64,
    nanoseconds: i64,
}

unsafe extern "C" {
    /// The C library's; clock 3 is CLOCK_THREAD_CPUTIME_ID on Linux.
    fn clock_gettime(clock: i32, t: *mut Timespec) -> i32;
}

/// Seconds, whatever else runs.
pub fn clock() -> f64 {
    let mut t = Timespec {
        seconds: 0,
        nanoseconds: 0,
    };
    assert_eq!(unsafe { clock_gettime(3, &mut t) }, 0);
    t.seconds as f64 + 1e-9 * t.nanoseconds as f64
}

/// The load as a run begins, as a line of a page.
pub fn print_load() {
    let load = std::fs::read_to_string("/proc/loadavg").unwrap_or_default();
    println!(
        "- other work as the run began: a load of {} on {} processors\n",
        load.split(' ').next().unwrap_or("?"),
        std::thread::available_parallelism().map_or(0, |n| n.get())
    );
}
