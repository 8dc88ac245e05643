//! Best times of several runs, and their ratio. A time is the processor time
//! of this thread, so that other work on the machine counts little.

use std::mem;
use std::ptr;
use std::time::Duration;

/// The fewest runs; short ones are repeated until they have used some time.
const RUNS: usize = 30;
const LEAST_TIME: Duration = Duration::from_millis(20);

/// C's `struct timespec` and `CLOCK_THREAD_CPUTIME_ID` on 64-bit Linux.
#[repr(C)]
struct Timespec {
    seconds: i64,
    nanoseconds: i64,
}

const THREAD_TIME: i32 = 3;

extern "C" {
    fn clock_gettime(clock: i32, time: *mut Timespec) -> i32;
}

/// The processor time that this thread has used.
fn now() -> Duration {
    let mut time = Timespec {
        seconds: 0,
        nanoseconds: 0,
    };
    let status = unsafe { clock_gettime(THREAD_TIME, &mut time) };
    assert_eq!(status, 0);
    Duration::new(time.seconds as u64, time.nanoseconds as u32)
}

/// The value, through memory that the compiler must take as unknown. The
/// library's own came with a later release than Debian has.
pub fn black_box<T>(value: T) -> T {
    let read = unsafe { ptr::read_volatile(&value) };
    mem::forget(value);
    read
}

fn time(work: &mut impl FnMut()) -> Duration {
    let start = now();
    work();
    now() - start
}

/// One line: the proved function's time, another program's, and the ratio.
/// The runs alternate, and the best of each counts.
pub fn line(what: &str, other: &str, mut proved: impl FnMut(), mut beside: impl FnMut()) {
    let mut best = [Duration::MAX; 2];
    let start = now();
    let mut runs = 0;
    while runs < RUNS || now() - start < LEAST_TIME {
        best[0] = best[0].min(time(&mut proved));
        best[1] = best[1].min(time(&mut beside));
        runs += 1;
    }
    let [proved, beside] = best.map(|time| time.as_secs_f64() * 1e6);
    println!(
        "{what:<60} proved {proved:>9.1} us   {other:<24} {beside:>9.1} us   ratio {:>5.2}",
        proved / beside
    );
}
