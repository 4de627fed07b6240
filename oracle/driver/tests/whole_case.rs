//! Document 01's whole case, byte for byte, through the program, by either build.
use std::io::Write;
use std::process::{Command, Stdio};

const INPUT: &str = "01 03 00 02 00 00 02 04 00 02 00 02 00 03 08 00 00 00 20 41 00 00 00 00 04 04 00 01 00 00 00 05 04 00 \
                     00 01 01 00";
const OUTPUT: &str =
    "10 01 00 00 12 08 00 02 00 00 00 00 00 00 00 13 10 00 00 00 00 00 00 00 80 7F 00 00 80 7F 30 46 62 41";

fn bytes(hex: &str) -> Vec<u8> {
    hex.split_whitespace().map(|byte| u8::from_str_radix(byte, 16).expect("two hex digits")).collect()
}

fn program(words: &[&str], input: &[u8]) -> Vec<u8> {
    let mut program = Command::new(env!("CARGO_BIN_EXE_oracle"))
        .args(words)
        .stdin(Stdio::piped())
        .stdout(Stdio::piped())
        .spawn()
        .expect("the program starts");
    program.stdin.take().expect("a pipe").write_all(input).expect("the program reads all");
    let output = program.wait_with_output().expect("the program ends");
    assert!(output.status.success());
    output.stdout
}

#[test]
fn the_whole_case() {
    assert_eq!(include_bytes!("../../whole-case.grid")[..], bytes(INPUT), "the stored file is the document's");
    for words in [&[][..], &["--build", "unchanged"], &["--build", "counted"]] {
        assert_eq!(program(words, &bytes(INPUT)), bytes(OUTPUT), "{words:?}");
    }
}

#[test]
fn a_file_cut_anywhere_is_refusal_8() {
    let whole = bytes(INPUT);
    for len in 0..whole.len() {
        assert_eq!(program(&[], &whole[..len]), bytes("10 01 00 08"), "cut to {len} bytes");
    }
}
