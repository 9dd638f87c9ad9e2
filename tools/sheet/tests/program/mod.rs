//! The program, run at the repository's root. Each test takes what it needs of this.
#![allow(dead_code)]

use std::io::{ErrorKind, Write};
use std::path::{Path, PathBuf};
use std::process::{Command, Output, Stdio};

pub fn root() -> PathBuf {
    Path::new(env!("CARGO_MANIFEST_DIR")).join("../..")
}

/// What the program answers to words.
pub fn sheet(words: &[&str]) -> Output {
    fed(words, b"")
}

/// What the program answers to words, with bytes on standard input.
pub fn fed(words: &[&str], input: &[u8]) -> Output {
    let mut program = Command::new(env!("CARGO_BIN_EXE_sheet"))
        .current_dir(root())
        .args(words)
        .stdin(Stdio::piped())
        .stdout(Stdio::piped())
        .stderr(Stdio::piped())
        .spawn()
        .unwrap();
    // where its words are wrong it ends without reading
    if let Err(fault) = program.stdin.take().unwrap().write_all(input) {
        assert_eq!(fault.kind(), ErrorKind::BrokenPipe);
    }
    program.wait_with_output().unwrap()
}

pub fn said(bytes: &[u8]) -> &str {
    std::str::from_utf8(bytes).unwrap()
}

/// Status and standard error.
pub fn ended(output: &Output) -> (Option<i32>, &str) {
    (output.status.code(), said(&output.stderr))
}

/// A folder of its own for a test's files.
pub fn folder(name: &str) -> PathBuf {
    let folder = PathBuf::from(env!("CARGO_TARGET_TMPDIR")).join(name);
    std::fs::create_dir_all(&folder).unwrap();
    folder
}
