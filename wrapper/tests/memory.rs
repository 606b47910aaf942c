//! A log keeps the memory of its own bytes, and not that of the longest log.

/// How many stretches of memory this process has mapped.
#[cfg(target_os = "linux")]
fn mappings() -> usize {
    std::fs::read_to_string("/proc/self/maps").unwrap().lines().count()
}

#[test]
fn of_a_log() {
    let log = spiewomir::log(b"(base 16 16)").bytes;
    assert_eq!(log, b"(refused 9 12)\n");
    assert!(log.capacity() <= 64, "{} bytes", log.capacity());
}

#[cfg(target_os = "linux")]
#[test]
fn of_many_logs() {
    let before = mappings();
    let logs: Vec<_> = (0..2_000).map(|_| spiewomir::log(b"(base 16 16)")).collect();
    let after = mappings();
    assert!(after < before + 100, "{before} mappings, with {} logs {after}", logs.len());
}
