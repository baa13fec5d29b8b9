//! The examples, and the tools run as programs.

use std::io::Write;
use std::path::PathBuf;
use std::process::{Command, Stdio};

/// The examples that are accepted.
pub const NAMES: [&str; 21] = [
    "A", "B", "C", "D", "E", "F", "G", "H1", "H2", "I1", "I2", "J", "K", "corner", "cell", "opening", "behind", "late",
    "sides", "facing", "halves",
];

/// The path of a file in the repository.
pub fn path(file: &str) -> String {
    let root: PathBuf = [env!("CARGO_MANIFEST_DIR"), "..", file].iter().collect();
    root.to_str().unwrap().to_string()
}

/// The bytes of a file in examples/.
pub fn example(file: &str) -> Vec<u8> {
    std::fs::read(path(&format!("examples/{file}"))).unwrap()
}

/// What a program writes; what it says where it fails.
pub fn run(program: &str, arguments: &[&str], input: &[u8]) -> Result<Vec<u8>, String> {
    let mut command = Command::new(program);
    command.args(arguments).stdin(Stdio::piped());
    command.stdout(Stdio::piped()).stderr(Stdio::piped());
    let mut child = command.spawn().unwrap();
    // A program that says how it is used does not read its input.
    let _ = child.stdin.take().unwrap().write_all(input);
    let output = child.wait_with_output().unwrap();
    if output.status.success() {
        return Ok(output.stdout);
    }
    assert!(output.stdout.is_empty());
    Err(String::from_utf8(output.stderr).unwrap())
}
