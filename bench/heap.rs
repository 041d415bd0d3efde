// The heap of a benchmark, the same for all that it measures.

unsafe extern "C" {
    fn mallopt(parameter: i32, value: i32) -> i32;
}

/// What glibc maps and gives back by itself depends on what was allocated before, also by the other version. Here all up to 32 MB comes
/// from one heap, which keeps what is freed.
pub fn keep_memory() {
    const TRIM_THRESHOLD: i32 = -1;
    const MMAP_THRESHOLD: i32 = -3;
    unsafe {
        mallopt(MMAP_THRESHOLD, 32 << 20);
        mallopt(TRIM_THRESHOLD, i32::MAX);
    }
}
