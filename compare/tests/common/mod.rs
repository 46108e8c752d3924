//! Running the programs, and the recorded sessions.
#![allow(dead_code, reason = "each test takes what it needs")]

pub mod judging;

use std::{
    fs,
    io::Write,
    path::PathBuf,
    process::{Command, Stdio},
};

pub const REPLAY: &str = env!("CARGO_BIN_EXE_rust_replay");
pub const GENERATE: &str = env!("CARGO_BIN_EXE_rust_generate");
pub const COUNT: &str = env!("CARGO_BIN_EXE_rust_count");
pub const SCALE: &str = env!("CARGO_BIN_EXE_rust_scale");
pub const JUDGE: &str = env!("CARGO_BIN_EXE_rust_judge");
pub const DAMAGE: &str = env!("CARGO_BIN_EXE_rust_damage");

pub struct Ran {
    pub good: bool,
    pub out: String,
    pub err: String,
}

pub fn run(program: &str, arguments: &[&str], input: &[u8]) -> Ran {
    let mut child = Command::new(program)
        .args(arguments)
        .stdin(Stdio::piped())
        .stdout(Stdio::piped())
        .stderr(Stdio::piped())
        .spawn()
        .expect("the program starts");
    let mut stdin = child.stdin.take().expect("its input is ours");
    let input = input.to_vec();
    // A program that ends early closes its input, which is no fault here.
    let writer = std::thread::spawn(move || drop(stdin.write_all(&input)));
    let output = child.wait_with_output().expect("the program ends");
    writer.join().expect("the input was written");
    Ran {
        good: output.status.success(),
        out: String::from_utf8(output.stdout).expect("plain text"),
        err: String::from_utf8(output.stderr).expect("plain text"),
    }
}

/// A failing end with one line on standard error; gives the line.
pub fn complaint(program: &str, arguments: &[&str], input: &[u8]) -> String {
    let ran = run(program, arguments, input);
    assert!(!ran.good, "{program} {arguments:?} ends well");
    assert_eq!(ran.err.lines().count(), 1, "{}", ran.err);
    assert!(ran.err.ends_with('\n'));
    ran.err.trim_end().to_string()
}

/// Lines written with spaces for tabs.
pub fn trace(text: &str) -> Vec<u8> {
    let lines = text.lines().map(str::trim).filter(|line| !line.is_empty());
    lines
        .map(|line| line.replace(' ', "\t") + "\n")
        .collect::<String>()
        .into_bytes()
}

pub fn sessions() -> PathBuf {
    PathBuf::from(env!("CARGO_MANIFEST_DIR")).join("../sessions")
}

pub fn recorded(name: &str) -> String {
    fs::read_to_string(sessions().join(name)).expect("a recorded session")
}

/// The names in sessions.txt.
pub fn generated_names() -> Vec<String> {
    let list = recorded("sessions.txt");
    let lines = list
        .lines()
        .filter(|line| !line.is_empty() && !line.starts_with('#'));
    lines
        .filter_map(|line| line.split_whitespace().next())
        .map(str::to_string)
        .collect()
}
