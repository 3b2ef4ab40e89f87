//! A module: how a program takes its words, answers `--help` and ends.
//!
//! `compare.rs`, `layout.rs`, `measure.rs`, `seek.rs`, `states.rs`, `stepping.rs`
//! and `timings.rs` include it.

#![forbid(unsafe_code)]

use std::process::ExitCode;

/// Why a program ends without success: its exit status, and what it says.
pub type Failure = (u8, String);

/// The arguments are not understood: what is wrong with them, in a line.
pub fn bad_usage(text: String) -> Failure {
    (2, format!("{text}; see --help"))
}

/// Runs a program on its words. With `-h` or `--help` among them it prints
/// its help and does nothing else.
pub fn main(name: &str, help: &str, run: impl FnOnce(&[&str]) -> Result<(), Failure>) -> ExitCode {
    let given: Vec<String> = std::env::args().skip(1).collect();
    let words: Vec<&str> = given.iter().map(String::as_str).collect();
    if words.iter().any(|word| ["-h", "--help"].contains(word)) {
        print!("{help}");
        return ExitCode::SUCCESS;
    }
    match run(&words) {
        Ok(()) => ExitCode::SUCCESS,
        Err((status, text)) => {
            eprintln!("{name}: {text}");
            ExitCode::from(status)
        }
    }
}
