//! The program: one line for a question on standard input.

mod common;

use common::{ask, hex, pair};
use std::io::Write;
use std::process::{Command, Stdio};

fn printed(question: &[u8]) -> String {
    let mut program = Command::new(env!("CARGO_BIN_EXE_reference-judge"))
        .stdin(Stdio::piped())
        .stdout(Stdio::piped())
        .spawn()
        .unwrap();
    program.stdin.take().unwrap().write_all(question).unwrap();
    let output = program.wait_with_output().unwrap();
    assert!(output.status.success());
    String::from_utf8(output.stdout).unwrap()
}

#[test]
fn lines() {
    let file = hex("01 00 00 08 06 01 00 05 00 01 01 00 00 02 01 00 00 00");
    assert_eq!(printed(&file), "same 2\n");
    assert_eq!(printed(&pair("05 00 01 01 00", "00", "")), "different 1\n");
    let restricting = ask(&[(1, "03 80 80 08 09 00 81")], "09 00 00", "09 00 00", "");
    assert_eq!(printed(&restricting), "same 1\n");
    assert_eq!(printed(&[]), "refused 3\n");
    assert_eq!(printed(&[0x01; 4096]), "refused 4\n");
    assert_eq!(printed(&[0x01; 4097]), "refused 4\n");
    assert_eq!(printed(&pair("00", "00", "00 00")), "refused 12\n");
}

/// The capacity is 256: a field of that size is settled, one more is not.
#[test]
fn capacity() {
    let row = |first: usize, second: usize| {
        let round = |length: usize, k: u8| (0, [vec![0x01; length], vec![0x09, k]].concat());
        common::raw(&[round(first, 0), round(second, 1)], &[0x09, 0x00], &[0x09, 0x01], &[])
    };
    assert_eq!(printed(&row(15, 17)), "same 255\n");
    assert_eq!(printed(&row(16, 17)), "unsettled 0\n");
    let start = |first: &[u8]| {
        let round = |length: usize, k: u8| (0, [vec![0x01; length], vec![0x09, k]].concat());
        let definitions = [round(15, 0), round(17, 1), round(15, 0)];
        common::raw(&definitions, first, &[0x09, 0x01], &[])
    };
    assert_eq!(printed(&start(&[0x09, 0x02])), "same 256\n");
    assert_eq!(printed(&start(&[0x01, 0x09, 0x02])), "unsettled 0\n");
}
