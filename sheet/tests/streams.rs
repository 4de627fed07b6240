//! What is no regular file is written to and stays; standard output has the sheet alone; a lost report is told of.
mod common;
use std::fs::{self, File};
use std::io::Read;
use std::os::unix::fs::{FileTypeExt, symlink};
use std::path::Path;
use std::process::{Command, Output, Stdio};
use std::thread;

use common::{failure, folder, grid, said, sheet};

const WORDS: &str = "distance --targets landings.asc";
const SHEET: &str = "ncols 3\nnrows 1\nxllcorner 0\nyllcorner 0\ncellsize 1\nNODATA_value -9999\n0.0 1 2\n";
const PNG: &[u8] = b"\x89PNG\r\n";

fn stand(name: &str) -> common::Folder {
    let folder = folder(name);
    grid(&folder, "landings.asc", "1 0 0");
    folder
}

/// A line of a shell, in which $SHEET is the tool.
fn shell(folder: &Path, line: &str) -> Output {
    Command::new("bash")
        .args(["-c", line])
        .env("SHEET", env!("CARGO_BIN_EXE_sheet"))
        .current_dir(folder)
        .stdin(Stdio::null())
        .output()
        .unwrap()
}

fn text(bytes: &[u8]) -> &str {
    str::from_utf8(bytes).unwrap()
}

fn count(folder: &Path) -> usize {
    fs::read_dir(folder).unwrap().count()
}

#[test]
fn standard_output_has_the_sheet_alone() {
    let folder = stand("streams-output");
    for out in ["-", "/dev/stdout", "/dev/fd/1", "/proc/self/fd/1"] {
        let output = sheet(&folder, &format!("{WORDS} --out {out} --picture out.png"));
        assert!(output.status.success());
        assert_eq!(text(&output.stdout), SHEET, "{out}");
        let report = text(&output.stderr);
        assert!(report.starts_with("search 1, distance: 3 takes in "), "{report}");
    }
    let output = sheet(&folder, &format!("{WORDS} --picture - --out out.asc"));
    assert_eq!(output.stdout, fs::read(folder.join("out.png")).unwrap());
    assert!(text(&output.stderr).ends_with("3 of 3 cells reached\n"));

    let output = sheet(&folder, &format!("case pack {WORDS} --out -"));
    assert_eq!(output.stdout[..4], [1, 3, 0, 1]);
    assert_eq!(text(&output.stderr), format!("standard output: {} bytes for distance\n", output.stdout.len()));
    assert_eq!(count(&folder), 3);
}

/// A file that standard output was sent to is written to through that, and the report overwrites none of it.
#[test]
fn standard_output_that_is_a_file() {
    let folder = stand("streams-file");
    for (out, more) in [("-", ""), ("/dev/stdout", ""), ("/dev/fd/3", "3>&1")] {
        let line = format!("{{ echo before; $SHEET {WORDS} --out {out} {more}; echo after; }} >all");
        let output = shell(&folder, &line);
        assert!(text(&output.stderr).starts_with("search 1, distance: "), "{out}: {output:?}");
        assert_eq!(fs::read_to_string(folder.join("all")).unwrap(), format!("before\n{SHEET}after\n"), "{out}");
    }
    let output = shell(&folder, &format!("{{ echo before >&3; $SHEET {WORDS} --out /dev/fd/3; }} 3>all"));
    assert!(text(&output.stdout).starts_with("search 1, distance: "), "{output:?}");
    assert_eq!(fs::read_to_string(folder.join("all")).unwrap(), format!("before\n{SHEET}"));
    assert_eq!(count(&folder), 2);
}

#[test]
fn devices_stay() {
    let folder = stand("streams-devices");
    said(&folder, &format!("{WORDS} --out /dev/null --picture /dev/null"));
    symlink("/dev/null", folder.join("link")).unwrap();
    said(&folder, &format!("{WORDS} --out link --picture /dev/null"));
    assert!(fs::metadata("/dev/null").unwrap().file_type().is_char_device());
    assert!(folder.join("link").is_symlink());

    fs::write(folder.join("out.asc"), "an older sheet").unwrap();
    let sentence = failure(&folder, &format!("{WORDS} --out out.asc --picture /dev/full"));
    assert_eq!(sentence, "/dev/full can't be written: No space left on device (os error 28)");
    assert_eq!(fs::read_to_string(folder.join("out.asc")).unwrap(), "an older sheet");
    assert_eq!(count(&folder), 3);
}

#[test]
fn named_pipes_stay() {
    let folder = stand("streams-pipes");
    let pipe = folder.join("pipe");
    assert!(Command::new("mkfifo").arg(&pipe).status().unwrap().success());
    symlink("pipe", folder.join("link")).unwrap();
    for out in ["pipe", "link"] {
        let reader = thread::spawn({
            let pipe = pipe.clone();
            move || fs::read_to_string(pipe).unwrap()
        });
        said(&folder, &format!("{WORDS} --out {out} --picture out.png"));
        assert_eq!(reader.join().unwrap(), SHEET);
        assert!(fs::symlink_metadata(&pipe).unwrap().file_type().is_fifo());
    }
    let output = shell(&folder, &format!("$SHEET {WORDS} --out >(cat >out.asc) --picture >(cat >out.png); wait"));
    assert!(output.status.success(), "{output:?}");
    assert_eq!(count(&folder), 5);
}

#[test]
fn one_stream_twice() {
    let folder = stand("streams-same");
    assert!(Command::new("mkfifo").arg(folder.join("pipe")).status().unwrap().success());
    symlink("pipe", folder.join("link")).unwrap();
    assert_eq!(failure(&folder, &format!("{WORDS} --out - --picture -")), "--out and --picture are both -");
    for (out, picture) in [("-", "/dev/stdout"), ("/dev/fd/1", "-"), ("pipe", "./pipe"), ("link", "pipe")] {
        let sentence = failure(&folder, &format!("{WORDS} --out {out} --picture {picture}"));
        assert_eq!(sentence, format!("--out {out} and --picture {picture} are the same file"));
    }
    for (line, complaint) in [
        ("--out - --picture - >/dev/null", "--out and --picture are both -"),
        ("--out - --picture x >x", "--out - and --picture x are the same file"),
        ("--out /dev/fd/3 --picture /dev/fd/4 3>x 4>&3", "--out /dev/fd/3 and --picture /dev/fd/4 are the same file"),
        ("--out - >>landings.asc", "standard output is the file of --targets, and is not written over"),
    ] {
        let output = shell(&folder, &format!("$SHEET {WORDS} {line}"));
        assert_eq!(text(&output.stderr), format!("sheet: {complaint}\n"));
        assert_eq!(output.status.code(), Some(1));
    }
    assert!(shell(&folder, &format!("$SHEET {WORDS} --out - --picture /dev/null >/dev/null")).status.success());
}

#[test]
fn a_report_that_cannot_be_printed() {
    let folder = stand("streams-report");
    let full = "No space left on device (os error 28)";
    let pipe = "Broken pipe (os error 32)";
    let closed = |words: &str| format!("{{ sleep 0.3; $SHEET {words}; echo $? >status; }} | true");
    for (line, sentence) in [
        (
            format!("$SHEET {WORDS} --out a >/dev/full"),
            format!("the report can't be printed: {full}; a is written all the same"),
        ),
        (
            format!("$SHEET {WORDS} --out a --picture b >/dev/full"),
            format!("the report can't be printed: {full}; a and b are written all the same"),
        ),
        (
            closed(&format!("{WORDS} --out a")),
            format!("the report can't be printed: {pipe}; a is written all the same"),
        ),
        (closed(&format!("{WORDS} --out -")), format!("standard output can't be written: {pipe}")),
        (format!("$SHEET {WORDS} --out - >/dev/full"), format!("standard output can't be written: {full}")),
        ("$SHEET --help >/dev/full".to_owned(), format!("the text can't be printed: {full}")),
    ] {
        let _ = fs::remove_file(folder.join("a"));
        let output = shell(&folder, &line);
        assert_eq!(text(&output.stderr), format!("sheet: {sentence}\n"), "{line}");
        let status = match fs::read_to_string(folder.join("status")) {
            Ok(status) => status.trim().to_owned(),
            Err(_) => output.status.code().unwrap().to_string(),
        };
        let _ = fs::remove_file(folder.join("status"));
        assert_eq!(status, "1", "{line}");
        assert_eq!(folder.join("a").exists(), line.contains("--out a"), "{line}");
    }
}

/// Who read enough is told nothing, but the status says that not all was printed. A complaint that nobody hears is no
/// panic either.
#[test]
fn texts_that_nobody_reads() {
    let folder = stand("streams-texts");
    said(&folder, &format!("case pack {WORDS} --out case.grid"));
    for words in ["--help", "distance --help", "case --help", "case print case.grid"] {
        let output = shell(&folder, &format!("{{ sleep 0.3; $SHEET {words}; echo $? >status; }} | true"));
        assert_eq!(text(&output.stderr), "", "{words}");
        assert_eq!(fs::read_to_string(folder.join("status")).unwrap(), "1\n", "{words}");
    }
    for line in ["$SHEET distanc 2>/dev/full".to_owned(), format!("$SHEET {WORDS} --out - 2>/dev/full")] {
        assert_eq!(shell(&folder, &line).status.code(), Some(1), "{line}");
    }
}

#[test]
fn a_picture_through_a_pipe() {
    let folder = stand("streams-picture");
    let mut child = Command::new(env!("CARGO_BIN_EXE_sheet"))
        .args(format!("{WORDS} --picture /dev/stdout").split_whitespace())
        .current_dir(&folder)
        .stdout(Stdio::piped())
        .stderr(File::create(folder.join("report")).unwrap())
        .spawn()
        .unwrap();
    let mut picture = Vec::new();
    child.stdout.take().unwrap().read_to_end(&mut picture).unwrap();
    assert!(child.wait().unwrap().success());
    assert!(picture.starts_with(PNG));
    assert!(fs::read_to_string(folder.join("report")).unwrap().starts_with("search 1, distance: "));
}
