//! The time of one run, taken as the least of several. A long run is interrupted by other programs, so of a long run the processor time
//! is taken; it is not exact enough for a short one.

use std::time::{Duration, Instant};

/// Runs for at least this long, and at least `FEWEST` times; what takes longer than `LONG` runs once.
const ENOUGH: Duration = Duration::from_millis(100);
const LONG: Duration = Duration::from_secs(1);
const FEWEST: usize = 5;
/// What takes longer than this may be interrupted.
const INTERRUPTED: Duration = Duration::from_millis(2);

/// How long `run` takes at least, on what `prepare` makes anew each time. Neither the preparation nor the disposal of what comes
/// back is timed.
pub fn fastest<P, R>(mut prepare: impl FnMut() -> P, mut run: impl FnMut(P) -> R) -> Duration {
    let (mut least, mut all, mut runs) = (Duration::MAX, Duration::ZERO, 0);
    while runs < FEWEST || all < ENOUGH {
        let prepared = prepare();
        let (busy, start) = (processor_time(), Instant::now());
        let result = run(prepared);
        let mut took = start.elapsed();
        if took > INTERRUPTED {
            took = took.min(processor_time() - busy);
        }
        drop(kept(result));
        least = least.min(took);
        all += took;
        runs += 1;
        if took > LONG {
            break;
        }
    }
    least
}

/// How long this thread has been at work (Linux on 64 bits).
fn processor_time() -> Duration {
    #[repr(C)]
    struct Time {
        seconds: i64,
        nanos: i64,
    }
    extern "C" {
        fn clock_gettime(clock: i32, time: *mut Time) -> i32;
    }
    const OF_THE_THREAD: i32 = 3;
    let mut time = Time { seconds: 0, nanos: 0 };
    // Safety: it writes the time there and nothing else.
    let failed = unsafe { clock_gettime(OF_THE_THREAD, &mut time) };
    assert_eq!(failed, 0);
    Duration::new(time.seconds as u64, time.nanos as u32)
}

/// The same value, of which the compiler must think that it is used.
fn kept<T>(value: T) -> T {
    // Safety: it is read once, and what it was read from is forgotten.
    unsafe {
        let read = std::ptr::read_volatile(&value);
        std::mem::forget(value);
        read
    }
}
