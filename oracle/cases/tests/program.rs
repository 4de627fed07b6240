//! A program under a time limit: what it writes, and what is said of one that hangs, fails or complains.
use std::time::Duration;

use cases::program::{TIME_LIMIT, run};

#[test]
fn what_it_writes() {
    let input: Vec<u8> = (0..100_000_u32).map(|at| at as u8).collect();
    assert_eq!(run("/bin/cat", &input, TIME_LIMIT), Ok(input.clone()));
    assert_eq!(run("/bin/echo -n two words", &input, TIME_LIMIT), Ok(b"two words".to_vec()));
}

#[test]
fn one_that_hangs() {
    let what = run("/bin/sleep 100", &[], Duration::from_millis(50));
    assert_eq!(what, Err("/bin/sleep 100: still running after 50ms".into()));
}

#[test]
fn one_that_fails_or_complains() {
    let told = |script: &str| run("/bin/sh", script.as_bytes(), TIME_LIMIT).unwrap_err();
    assert_eq!(told("exit 3"), "/bin/sh: exit status: 3, standard error: ");
    assert!(told("kill -SEGV $$").contains("signal: 11"));
    assert_eq!(told("echo no >&2"), "/bin/sh: standard error: no\n");
    assert!(run("/no/program", &[], TIME_LIMIT).unwrap_err().starts_with("/no/program: "));
}
