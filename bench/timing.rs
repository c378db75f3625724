//! Clocks, and the median of many rounds.

use std::arch::asm;
use std::time::Instant;

pub fn nanoseconds(work: impl FnOnce()) -> f64 {
    let start = Instant::now();
    work();
    start.elapsed().as_nanos() as f64
}

/// What processes that were waited for have used, as POSIX's getrusage tells it on 64-bit Linux.
pub fn processor_seconds_of_children() -> f64 {
    #[repr(C)]
    struct Usage {
        user: [i64; 2],
        system: [i64; 2],
        others: [i64; 14],
    }
    extern "C" {
        fn getrusage(who: i32, usage: *mut Usage) -> i32;
    }
    const CHILDREN: i32 = -1;
    let mut usage = Usage { user: [0; 2], system: [0; 2], others: [0; 14] };
    // It fills the struct, which has its layout, and keeps nothing of it.
    unsafe { getrusage(CHILDREN, &mut usage) };
    let seconds = |[whole, millionths]: [i64; 2]| whole as f64 + millionths as f64 / 1e6;
    let Usage { user, system, others: _ } = usage;
    seconds(user) + seconds(system)
}

/// A value of which the compiler knows nothing, and which it must take to be used: what is measured stays.
pub fn unknown<T>(value: T) -> T {
    // Nothing is done; the pointer that goes in may be read and written, for all that the compiler knows.
    unsafe { asm!("/* {0} */", in(reg) &value, options(nostack, preserves_flags)) };
    value
}

pub fn median(mut samples: Vec<f64>) -> f64 {
    samples.sort_by(f64::total_cmp);
    samples[samples.len() / 2]
}
