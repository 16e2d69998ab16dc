// The processor time of the processes that have ended, user and system, as Linux on 64 bits counts it.
// The wall clock would say more about what else the machine does.

use std::time::Duration;

#[repr(C)]
struct Time {
    seconds: i64,
    micros: i64,
}

/// The C library's struct rusage: two times, and fourteen numbers that are not used here.
#[repr(C)]
struct Usage {
    user: Time,
    system: Time,
    rest: [i64; 14],
}

const CHILDREN: i32 = -1;

extern "C" {
    fn getrusage(who: i32, usage: *mut Usage) -> i32;
}

pub fn time_of_children() -> Duration {
    let zero = || Time {
        seconds: 0,
        micros: 0,
    };
    let mut usage = Usage {
        user: zero(),
        system: zero(),
        rest: [0; 14],
    };
    // SAFETY: the struct has the layout that the call writes, and outlives it.
    let failed = unsafe { getrusage(CHILDREN, &mut usage) } != 0;
    assert!(!failed, "the system tells no times");
    let whole =
        |t: &Time| Duration::from_secs(t.seconds as u64) + Duration::from_micros(t.micros as u64);
    whole(&usage.user) + whole(&usage.system)
}
