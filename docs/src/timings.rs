//! A program: times the bench program against the second, `reference.rs`.
//!
//! On long sessions, with `reference.rs` built alone. It sees that their lines
//! are the same. Built by `rustc --edition 2021 -O timings.rs`, from this folder or with
//! its path; `timings --help` says how it is run.

#![forbid(unsafe_code)]

#[path = "generate.rs"]
mod generate;
#[path = "process.rs"]
mod process;
#[path = "program.rs"]
mod program;

use generate::Session;
use program::Failure;
use std::process::ExitCode;
use std::time::{Duration, Instant};

const HELP: &str = "\
usage: timings BENCH REFERENCE
Times the bench program against the second program, docs/src/reference.rs.

  BENCH      the bench program: target/bin/bench, as `docs/src/build-proved bench` leaves it
  REFERENCE  the second program, built by `rustc --edition 2021 -O reference.rs`

Runs both programs on the same sessions, in turn, five times each, and prints
for each session the fastest time of each and the ratio BENCH / REFERENCE. The
times are those of the whole process, with its reading and writing.

Exit status: 0 measured; 1 the programs wrote different lines, or one failed;
2 bad arguments, or a program can't be run.
";

const RUNS: u32 = 5;
const MILLION: usize = 1_000_000;
const PORT: u16 = 0x006B;

// ---- Sessions ------------------------------------------------------------

fn write_all(session: &mut Session, bytes: impl IntoIterator<Item = u8>) {
    bytes.into_iter().for_each(|byte| session.write(PORT, byte));
}

/// Four bytes from 1000 to 2000 in slots with a bus time of 4 clocks, with
/// auto restart, enabled.
fn restarting(b_timing: &[u8], wr4: u8) -> Session {
    let mut session = Session::new(u32::MAX);
    write_all(&mut session, [0x7D, 0x00, 0x10, 0x04, 0x00, 0x54, 0x02, 0x50]);
    write_all(&mut session, b_timing.iter().copied());
    write_all(&mut session, [wr4, 0x00, 0x20, 0xA2, 0xCF, 0x87]);
    session
}

/// With prescaler 55: a slot takes 1,760 clocks.
fn burst() -> Session {
    restarting(&[0x22, 55], 0xCD)
}

fn continuous() -> Session {
    restarting(&[0x02], 0xAD)
}

/// Round the mask, in a wait, with all registers at work.
fn reads() -> Session {
    let mut session = burst();
    session.grant(1_760 + 10);
    (0..MILLION).for_each(|_| session.read(PORT));
    session
}

fn writes() -> Session {
    let mut session = Session::new(0);
    write_all(&mut session, generate::register_bytes(MILLION));
    session
}

fn many_clocks(mut session: Session) -> Session {
    session.grant(100_000_000);
    session
}

// ---- Measuring -----------------------------------------------------------

/// The lines that a program writes, and the time it takes.
fn timed(program: &str, session: &[u8]) -> Result<(Vec<u8>, Duration), Failure> {
    let start = Instant::now();
    let output = process::run(program, &[session]);
    let time = start.elapsed();
    let output = output.map_err(|error| (2, format!("running {program}: {error}")))?;
    if !output.status.success() || !output.stderr.is_empty() {
        let said = String::from_utf8_lossy(&output.stderr);
        return Err((1, format!("{program}: {}, standard error {said:?}", output.status)));
    }
    Ok((output.stdout, time))
}

/// The fastest run of each program. In turn, so that a busy machine slows
/// both.
fn fastest(programs: [&str; 2], session: &[u8]) -> Result<[Duration; 2], Failure> {
    let mut best = [Duration::MAX; 2];
    for _ in 0..RUNS {
        let (bench_lines, bench) = timed(programs[0], session)?;
        let (reference_lines, reference) = timed(programs[1], session)?;
        if bench_lines != reference_lines {
            return Err((1, "the programs wrote different lines".to_string()));
        }
        best = [best[0].min(bench), best[1].min(reference)];
    }
    Ok(best)
}

fn measure(programs: [&str; 2]) -> Result<(), Failure> {
    let sessions = [
        ("1,000,000 reads", reads()),
        ("1,000,000 writes", writes()),
        ("100,000,000 clocks, burst", many_clocks(burst())),
        ("100,000,000 clocks, continuous", many_clocks(continuous())),
    ];
    println!("{:32}{:>10}{:>12}{:>8}", "", "bench s", "reference s", "ratio");
    for (name, session) in sessions {
        let times = fastest(programs, &session.into_bytes());
        let [bench, reference] =
            times.map_err(|(status, text)| (status, format!("{name}: {text}")))?;
        let [bench, reference] = [bench.as_secs_f64(), reference.as_secs_f64()];
        println!("{name:32}{bench:10.3}{reference:12.3}{:8.2}", bench / reference);
    }
    Ok(())
}

fn main() -> ExitCode {
    program::main("timings", HELP, |words| match *words {
        [bench, reference] => measure([bench, reference]),
        _ => {
            let given = words.len();
            Err(program::bad_usage(format!("two arguments are needed, {given} given")))
        }
    })
}
