//! The crate's version, its constant and the library's number say the same.

#[test]
fn one_version() {
    let parts: Vec<u32> = env!("CARGO_PKG_VERSION")
        .split('.')
        .map(|part| part.parse().expect("three numbers"))
        .collect();
    assert_eq!(parts.len(), 3);
    assert_eq!(
        parts[0] * 10_000 + parts[1] * 100 + parts[2],
        spiewomir::VERSION
    );
    assert_eq!(spiewomir::version(), spiewomir::VERSION);
}
