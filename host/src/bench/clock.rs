//! Processor time, of this process and of the programs that it has run: other work on the machine isn't in it.

/// C's `struct timeval` and `struct rusage` on 64-bit Linux.
#[repr(C)]
#[derive(Clone, Copy, Default)]
struct Time {
    seconds: i64,
    microseconds: i64,
}

#[repr(C)]
#[derive(Default)]
struct Usage {
    user: Time,
    system: Time,
    rest: [i64; 14],
}

unsafe extern "C" {
    fn getrusage(who: i32, usage: *mut Usage) -> i32;
}

const THIS: i32 = 0;
const CHILDREN: i32 = -1;

fn used(who: i32) -> f64 {
    let mut usage = Usage::default();
    // The function fills the struct, which has C's layout.
    let failed = unsafe { getrusage(who, &mut usage) };
    assert_eq!(failed, 0, "getrusage");
    let seconds = |t: Time| t.seconds as f64 + 1e-6 * t.microseconds as f64;
    seconds(usage.user) + seconds(usage.system)
}

/// How many seconds of the processor a run takes.
pub fn seconds(run: &dyn Fn()) -> f64 {
    let now = || used(THIS) + used(CHILDREN);
    let start = now();
    run();
    now() - start
}
