//! A module: runs a program on a session.
//!
//! `compare.rs`, `timings.rs` and the lab's tests include it.

#![forbid(unsafe_code)]

use std::io::{ErrorKind, Result, Write};
use std::process::{ChildStdin, Command, Output, Stdio};
use std::thread;

/// The program's output on a session that is written to it piece by piece.
pub fn run(program: &str, pieces: &[&[u8]]) -> Result<Output> {
    let mut command = Command::new(program);
    command.stdin(Stdio::piped()).stdout(Stdio::piped()).stderr(Stdio::piped());
    let mut child = command.spawn()?;
    let input = child.stdin.take().expect("a pipe was asked for");
    // The program may write before it has read everything: a thread of its
    // own for the input, so that neither waits for the other for ever.
    thread::scope(|scope| {
        let writer = scope.spawn(|| feed(input, pieces));
        let output = child.wait_with_output()?;
        writer.join().expect("writing to a pipe doesn't panic")?;
        Ok(output)
    })
}

fn feed(mut input: ChildStdin, pieces: &[&[u8]]) -> Result<()> {
    for piece in pieces {
        match input.write_all(piece).and_then(|()| input.flush()) {
            // A fault ends the session: the rest need not be read.
            Err(error) if error.kind() == ErrorKind::BrokenPipe => return Ok(()),
            written => written?,
        }
        // Gives the program the time to see this piece alone.
        thread::yield_now();
    }
    Ok(())
}
