// Time that this thread has had on a processor, so that others on the machine do not count.
#![allow(dead_code)] // each bench uses its part

extern "C" {
    fn clock_gettime(clock: i32, time: *mut [i64; 2]) -> i32;
}

const THREAD_CPU_TIME: i32 = 3; // on Linux

// In seconds.
pub fn on_cpu() -> f64 {
    let mut t = [0; 2];
    unsafe { clock_gettime(THREAD_CPU_TIME, &mut t) };
    t[0] as f64 + t[1] as f64 / 1e9
}

pub fn timed<R>(call: impl FnOnce() -> R) -> (f64, R) {
    let t = on_cpu();
    let r = call();
    (on_cpu() - t, r)
}

pub fn median(times: &mut [f64]) -> f64 {
    times.sort_by(f64::total_cmp);
    times[times.len() / 2]
}

// The library's entry (number 0), if there is one, and the plain one (number 1), so often each. Who goes first changes, since the second
// finds memory warm.
pub fn in_turn<E: Copy>(library: Option<E>, plain: E, reps: usize) -> Vec<(usize, E)> {
    let mut out = Vec::new();
    for k in 0..reps {
        let pair = [library.map(|e| (0, e)), Some((1, plain))];
        out.extend([pair[k % 2], pair[1 - k % 2]].iter().flatten());
    }
    out
}
