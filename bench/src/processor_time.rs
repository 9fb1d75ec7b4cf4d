// Processor time, so that other load on the machine counts as little as may be.

use std::time::Duration;

// Linux's numbers for them.
const CLOCK_PROCESS_CPUTIME_ID: i32 = 2;
const RUSAGE_CHILDREN: i32 = -1;

#[repr(C)]
#[derive(Default)]
struct Timespec {
    seconds: i64,
    nanoseconds: i64,
}

#[repr(C)]
#[derive(Default)]
struct Timeval {
    seconds: i64,
    microseconds: i64,
}

// `struct rusage`: the times, and fourteen counts that are not looked at.
#[repr(C)]
#[derive(Default)]
struct Usage {
    user: Timeval,
    system: Timeval,
    counts: [i64; 14],
}

extern "C" {
    fn clock_gettime(clock: i32, time: *mut Timespec) -> i32;
    fn getrusage(who: i32, usage: *mut Usage) -> i32;
}

// What this process has had.
fn own() -> Duration {
    let mut time = Timespec::default();
    // SAFETY: the struct has Linux's layout on x86-64.
    let failed = unsafe { clock_gettime(CLOCK_PROCESS_CPUTIME_ID, &mut time) };
    assert_eq!(failed, 0);
    Duration::new(time.seconds as u64, time.nanoseconds as u32)
}

// What the processes that it started and waited for have had.
fn children() -> Duration {
    let mut usage = Usage::default();
    // SAFETY: the struct has Linux's layout on x86-64.
    let failed = unsafe { getrusage(RUSAGE_CHILDREN, &mut usage) };
    assert_eq!(failed, 0);
    let time = |t: Timeval| Duration::new(t.seconds as u64, t.microseconds as u32 * 1_000);
    time(usage.user) + time(usage.system)
}

// What the work comes to, and what this process spent on it.
pub fn of<T>(work: impl FnOnce() -> T) -> (T, Duration) {
    let begun = own();
    let result = work();
    (result, own() - begun)
}

// The same for work that is done by processes started in it and waited for.
pub fn of_children<T>(work: impl FnOnce() -> T) -> (T, Duration) {
    let begun = children();
    let result = work();
    (result, children() - begun)
}

// The least of several times.
#[derive(Clone, Copy)]
pub struct Least(Duration);

impl Least {
    pub fn new() -> Least {
        Least(Duration::MAX)
    }

    pub fn take(&mut self, time: Duration) {
        self.0 = self.0.min(time);
    }

    pub fn seconds(self) -> f64 {
        self.0.as_secs_f64()
    }
}
