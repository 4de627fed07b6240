//! Interrupts. The tool is held at a named pipe that nobody reads: the sheet's part file is written by then.
mod common;
use std::fs;
use std::os::unix::process::ExitStatusExt;
use std::path::Path;
use std::process::{Child, Command, ExitStatus, Stdio};
use std::thread;
use std::time::{Duration, Instant};

use common::{cells, folder, grid};

const WORDS: &str = "distance --targets landings.asc --out out.asc --picture pipe";
const OLD: &str = "an older sheet";

fn stand(name: &str) -> common::Folder {
    let folder = folder(name);
    grid(&folder, "landings.asc", "1 0 0");
    fs::write(folder.join("out.asc"), OLD).unwrap();
    assert!(Command::new("mkfifo").arg(folder.join("pipe")).status().unwrap().success());
    folder
}

/// Signals as they are by default, whatever this test was started with: under `nohup` one is ignored.
const BY_DEFAULT: &str = "exec env --default-signal";

/// Starts a line of a shell that becomes the tool, and waits until its part file is there.
fn held(folder: &Path, before: &str) -> Child {
    let child = Command::new("sh")
        .args(["-c", &format!("{before} $SHEET {WORDS}")])
        .env("SHEET", env!("CARGO_BIN_EXE_sheet"))
        .current_dir(folder)
        .stdout(Stdio::null())
        .spawn()
        .unwrap();
    let start = Instant::now();
    while parts(folder).is_empty() {
        assert!(start.elapsed() < Duration::from_secs(20), "no part file came");
        thread::sleep(Duration::from_millis(5));
    }
    child
}

/// How the tool ended, which it does soon.
fn ended(child: &mut Child) -> ExitStatus {
    let start = Instant::now();
    loop {
        if let Some(status) = child.try_wait().unwrap() {
            return status;
        }
        if start.elapsed() > Duration::from_secs(20) {
            child.kill().unwrap();
            panic!("it does not end");
        }
        thread::sleep(Duration::from_millis(5));
    }
}

fn parts(folder: &Path) -> Vec<String> {
    let names = fs::read_dir(folder).unwrap().map(|entry| entry.unwrap().file_name().into_string().unwrap());
    names.filter(|name| name.ends_with(".part")).collect()
}

fn send(signal: &str, child: &Child) {
    let line = format!("kill -{signal} {}", child.id());
    assert!(Command::new("sh").args(["-c", &line]).status().unwrap().success());
}

/// No part file stays, nothing is replaced, and the tool dies of the signal.
#[test]
fn an_interrupt_leaves_nothing() {
    for (signal, number) in [("HUP", 1), ("INT", 2), ("TERM", 15)] {
        let folder = stand(&format!("interrupt-{signal}"));
        let mut child = held(&folder, BY_DEFAULT);
        send(signal, &child);
        let status = ended(&mut child);
        assert_eq!((status.signal(), status.code()), (Some(number), None), "{signal}");
        assert_eq!(parts(&folder), [""; 0], "{signal}");
        assert_eq!(fs::read_to_string(folder.join("out.asc")).unwrap(), OLD, "{signal}");
        assert_eq!(fs::read_dir(&folder).unwrap().count(), 3, "{signal}");
    }
}

/// A signal that is to be ignored, as under `nohup`, still is.
#[test]
fn an_ignored_signal_stays_ignored() {
    let folder = stand("interrupt-ignored");
    let mut child = held(&folder, "trap '' HUP; exec");
    send("HUP", &child);
    thread::sleep(Duration::from_millis(200));
    assert!(child.try_wait().unwrap().is_none(), "it died of what it was to ignore");
    assert!(fs::read(folder.join("pipe")).unwrap().starts_with(b"\x89PNG"));
    assert!(ended(&mut child).success());
    assert_eq!(cells(&folder, "out.asc"), "0 1 2");
    assert_eq!(parts(&folder), [""; 0]);
}

/// What a killed program left is in nobody's way, should its number come again.
#[test]
fn a_part_file_that_was_left() {
    let folder = stand("interrupt-killed");
    let mut child = held(&folder, "for number in '' -1 -2; do echo left >out.asc.$$$number.part; done; exec");
    assert!(fs::read(folder.join("pipe")).unwrap().starts_with(b"\x89PNG"));
    assert!(ended(&mut child).success());
    assert_eq!(cells(&folder, "out.asc"), "0 1 2");
    assert_eq!(parts(&folder).len(), 3);
}
