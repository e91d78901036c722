//! Controls, for both sides alike, whether a fit gets its memory from the system. The numbers are those of glibc's `malloc.h`.

unsafe extern "C" {
    fn mallopt(parameter: i32, value: i32) -> i32;
    fn malloc_trim(pad: usize) -> i32;
}

const TRIM_THRESHOLD: i32 = -1;
const MMAP_THRESHOLD: i32 = -3;
const MMAP_MAX: i32 = -4;
/// The settings that a process starts with.
const STARTING: [(i32, i32); 3] = [
    (MMAP_MAX, 65_536),
    (MMAP_THRESHOLD, 128 * 1024),
    (TRIM_THRESHOLD, 128 * 1024),
];
/// No memory is returned to the system.
const KEEPING: [(i32, i32); 2] = [(MMAP_MAX, 0), (TRIM_THRESHOLD, i32::MAX)];

fn set(options: &[(i32, i32)]) {
    for (parameter, value) in options {
        let done = unsafe { mallopt(*parameter, *value) };
        assert_eq!(done, 1, "malloc does not accept this option");
    }
}

/// Returns all free memory to the system, so that the next fit gets fresh pages, as a first fit does.
pub fn fresh() {
    set(&STARTING);
    unsafe { malloc_trim(0) };
}

/// Keeps the memory that is freed from now on for what comes next.
pub fn kept() {
    set(&KEEPING);
}
