//! Floats as a Rust program has them are those of binary32. What is told where they are not, bindings/c/environment.c shows.
use haul::{keeps_binary32, raw};

#[test]
fn floats_are_kept() {
    assert!(keeps_binary32());
    // The answer is worked out when the call runs: other numbers have another.
    assert_eq!(raw::keeps_binary32(1.0, 0.0), 0);
    assert_eq!(raw::keeps_binary32(0.5, f32::from_bits(1)), 0);
    assert_eq!(raw::keeps_binary32(f32::NAN, f32::NAN), 0);
}
