//! How much memory the processes of the runs took.

/// Programs have rows of fixed lengths; the emulator keeps what it has translated, so it may grow by so many KB.
pub const SLACK: usize = 8192;

/// `struct rusage` of Linux on machines of 64 bits: two times of two numbers, the largest process, and thirteen more.
#[repr(C)]
struct Usage([i64; 18]);

const OF_CHILDREN: i32 = -1;
const LARGEST: usize = 4;

extern "C" {
    fn getrusage(who: i32, usage: *mut Usage) -> i32;
}

/// The most memory, in KB, that any process of a run so far had at once.
pub fn largest() -> usize {
    let mut usage = Usage([0; 18]);
    // SAFETY: the struct is as long as the system's, and is written before it is read.
    let status = unsafe { getrusage(OF_CHILDREN, &mut usage) };
    assert_eq!(status, 0);
    usage.0[LARGEST] as usize
}
