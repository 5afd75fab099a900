//! Executed instructions of this program so far.
//!
//! Under the emulator with the plugin `icount.c` the file in `BENCH_COUNT` holds them, which the plugin fills at each
//! read; on hardware the kernel's counter has them, where it may be read.

use std::sync::OnceLock;

extern "C" {
    fn open(path: *const u8, flags: i32, ...) -> i32;
    fn pread(file: i32, to: *mut u8, size: usize, at: i64) -> isize;
    fn read(file: i32, to: *mut u8, size: usize) -> isize;
    fn syscall(number: i64, ...) -> i64;
}

enum Counter {
    Plugin(i32),
    Kernel(i32),
    None,
}

/// The place at which the plugin answers a read.
const ASKED: i64 = 0x7ea0;

fn counter() -> &'static Counter {
    static COUNTER: OnceLock<Counter> = OnceLock::new();
    COUNTER.get_or_init(|| match std::env::var("BENCH_COUNT") {
        Ok(path) => {
            let file = unsafe { open(format!("{path}\0").as_ptr(), 0) };
            if file >= 0 { Counter::Plugin(file) } else { Counter::None }
        }
        Err(_) => kernel(),
    })
}

/// `perf_event_open` of the instructions in user mode.
fn kernel() -> Counter {
    const PERF_EVENT_OPEN: i64 = 298;
    const INSTRUCTIONS: u64 = 1;
    const USER_ONLY: u64 = 0b110_0000;
    let attributes: [u64; 8] = [64 << 32, INSTRUCTIONS, 0, 0, 0, USER_ONLY, 0, 0];
    let file = unsafe { syscall(PERF_EVENT_OPEN, attributes.as_ptr(), 0, -1i32, -1i32, 0u64) };
    if file >= 0 { Counter::Kernel(file as i32) } else { Counter::None }
}

/// The count so far, or none where it cannot be read.
#[inline(never)]
pub fn instructions() -> Option<u64> {
    let mut bytes = [0u8; 8];
    let got = unsafe {
        match counter() {
            Counter::Plugin(file) => pread(*file, bytes.as_mut_ptr(), 8, ASKED),
            Counter::Kernel(file) => read(*file, bytes.as_mut_ptr(), 8),
            Counter::None => 0,
        }
    };
    (got == 8).then(|| u64::from_le_bytes(bytes))
}

/// What two reads in a row cost.
pub fn overhead() -> u64 {
    (0..5)
        .filter_map(|_| Some(instructions()?.abs_diff(instructions()?)))
        .min()
        .unwrap_or(0)
}
