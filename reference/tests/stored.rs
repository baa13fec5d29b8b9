//! The stored inputs and outputs of the proved programs are those that this implementation makes.

use std::fs::{self, File};
use std::path::PathBuf;
use std::process::{Command, Stdio};

fn stored(program: &str, file: &str) -> PathBuf {
    let root = PathBuf::from(env!("CARGO_MANIFEST_DIR")).join("..");
    root.join("crates").join(program).join(file)
}

fn vectors(mode: &str, input: Stdio) -> Vec<u8> {
    let run = Command::new(env!("CARGO_BIN_EXE_vectors")).arg(mode).stdin(input).output().unwrap();
    assert!(run.status.success(), "vectors {mode}");
    run.stdout
}

/// The program's stdin holds the framed questions, its stdout what `mode` prints of them.
fn compare(program: &str, mode: &str) {
    let frames = stored(program, "stdin");
    assert!(fs::read(&frames).unwrap() == vectors("frames", Stdio::null()), "{program}: stdin");
    let input = File::open(&frames).unwrap();
    let expected = fs::read(stored(program, "stdout")).unwrap();
    assert!(expected == vectors(mode, input.into()), "{program}: stdout");
}

#[test]
fn vectors_program() {
    compare("vectors", "expected");
}
