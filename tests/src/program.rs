//! The listing program, as the gate and `./list` build it.

use std::io::Write;
use std::path::{Path, PathBuf};
use std::process::{Command, Stdio};

/// Where it is.
pub fn program() -> PathBuf {
    Path::new(env!("CARGO_MANIFEST_DIR")).join("../crates/listing/out/listing")
}

/// What the program prints for a file.
pub fn listed(file: &[u8]) -> String {
    let mut child = Command::new(program())
        .stdin(Stdio::piped())
        .stdout(Stdio::piped())
        .spawn()
        .expect("./list builds it");
    let mut input = child.stdin.take().unwrap();
    let file = file.to_vec();
    // what lies past 65,009 bytes is not read, so a write may fail there
    let writer = std::thread::spawn(move || drop(input.write_all(&file)));
    let output = child.wait_with_output().unwrap();
    writer.join().unwrap();
    assert!(output.status.success());
    String::from_utf8(output.stdout).unwrap()
}
