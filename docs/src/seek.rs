//! A program: times the search for the next register of the read mask, the
//! library's own against a loop over seven places.
//!
//! `crates/timing` has the loop, and one function over lists for both; the two
//! searches have one promise and are built alike.
//!
//! Built by `rustc --edition 2021 -O -L native=target/staticlib seek.rs`,
//! from this folder or with its path; `seek --help` says how it is run.
//! `run-seek` builds it and runs it.

#![deny(unsafe_code)]

#[path = "program.rs"]
mod program;

use program::{bad_usage, Failure};
use std::process::ExitCode;
use std::time::Instant;

const HELP: &str = "\
usage: seek [--rounds N]      times both, in N rounds, an even number (4)
       seek --check           compares their answers, and times nothing
Times the search for the next register of the read mask: the library's own
against a loop over seven places. Both are proved to give the same, and built
alike: one function searches with either at every pair of a list, a pair being a
mask and a position. Each of the 128 masks and 7 positions is searched a million
times, in three orders:

  in turn    all of them, one after the other, again and again
  repeated   one of them a million times, then the next
  shuffled   all of them in one of 256 orders, then in the next

In odd rounds the loop goes first, in even rounds the library. The registers
found are summed, and the sums must be those of the rule in plain Rust. Printed
are nanoseconds a search, the fastest round of each, and library / loop, with
the lowest and the highest of a round; last the three orders together. Aimed at
is a third; required is that library / loop is below 1 in each line.

Before, and alone with --check, the answers are compared: loop and library must
give the same for every mask and position from 0 to 255; and, for each of the 127
masks that are not empty and each of the 7 positions, the first register in the
mask from the position on, going round.

Exit status: 0 done; 1 a requirement is not met; 2 bad arguments.
";

// The only unsafe code here: the call into the library. A list is lent as where
// it lies and how long it is.
#[allow(unsafe_code)]
mod linked {
    mod timing {
        #[link(name = "timing", kind = "static")]
        extern "C" {
            pub fn timing_sum(pairs: *const u16, length: usize, looping: bool) -> u64;
        }
    }

    pub fn by_loop(pairs: &[u16]) -> u64 {
        unsafe { timing::timing_sum(pairs.as_ptr(), pairs.len(), true) }
    }

    pub fn by_library(pairs: &[u16]) -> u64 {
        unsafe { timing::timing_sum(pairs.as_ptr(), pairs.len(), false) }
    }
}

/// Searches at every pair of a list, and sums the registers found. A pair is a
/// mask, in the high byte, and a position.
type Search = fn(&[u16]) -> u64;

const MASKS: u16 = 128;
const POSITIONS: u16 = 7;

/// What valid devices can hold.
fn pairs() -> Vec<u16> {
    let of_mask = |mask| (0..POSITIONS).map(move |position| mask << 8 | position);
    (0..MASKS).flat_map(of_mask).collect()
}

/// The first register in the mask from the position on, going round, if the
/// mask has one.
fn first(pair: u16) -> Option<u16> {
    let (mask, position) = (pair >> 8, pair & 0xFF);
    (position..position + POSITIONS)
        .map(|register| register % POSITIONS)
        .find(|register| mask >> register & 1 == 1)
}

// ---- The orders ----------------------------------------------------------

const MILLION: usize = 1_000_000;
const SHUFFLES: usize = 256;
/// Of a pair in a list of nothing else.
const COPIES: usize = 1_000;

/// Lists that are gone over one after the other, each so many times in a row,
/// and from the first again, until each pair has come a million times.
struct Order {
    what: &'static str,
    lists: Vec<Vec<u16>>,
    in_a_row: usize,
    /// Counted once where it comes several times in a row.
    lists_in_all: usize,
}

fn orders() -> [Order; 3] {
    let repeated: Vec<_> = pairs().into_iter().map(|pair| vec![pair; COPIES]).collect();
    let each_once = repeated.len();
    [
        Order { what: "in turn", lists: vec![pairs()], in_a_row: 1, lists_in_all: MILLION },
        Order {
            what: "repeated",
            lists: repeated,
            in_a_row: MILLION / COPIES,
            lists_in_all: each_once,
        },
        Order { what: "shuffled", lists: shuffled(), in_a_row: 1, lists_in_all: MILLION },
    ]
}

fn shuffled() -> Vec<Vec<u16>> {
    // A generator by three shifts: the same orders in every run.
    let mut state = 0x9E37_79B9_7F4A_7C15_u64;
    let mut below = |n: usize| {
        state ^= state << 13;
        state ^= state >> 7;
        state ^= state << 17;
        (state % n as u64) as usize
    };
    let shuffle = |_| {
        let mut list = pairs();
        (1..list.len()).rev().for_each(|last| list.swap(last, below(last + 1)));
        list
    };
    (0..SHUFFLES).map(shuffle).collect()
}

/// The seconds of a million searches at each pair.
fn timed(order: &Order, search: Search) -> Result<f64, String> {
    let start = Instant::now();
    let mut sum = 0;
    for list in order.lists.iter().cycle().take(order.lists_in_all) {
        for _ in 0..order.in_a_row {
            sum += search(list);
        }
    }
    let time = start.elapsed().as_secs_f64();
    // An empty mask gives the position.
    let register = |pair| first(pair).unwrap_or(pair & 0xFF);
    let expected =
        pairs().into_iter().map(|pair| u64::from(register(pair))).sum::<u64>() * MILLION as u64;
    if sum != expected {
        return Err(format!("{}: the registers sum to {sum}, not {expected}", order.what));
    }
    Ok(time)
}

// ---- The rounds ----------------------------------------------------------

/// The seconds that loop and library take.
#[derive(Clone, Copy)]
struct Times {
    by_loop: f64,
    by_library: f64,
}

fn round(order: &Order, loop_first: bool) -> Result<Times, String> {
    let (by_loop, by_library);
    if loop_first {
        by_loop = timed(order, linked::by_loop)?;
        by_library = timed(order, linked::by_library)?;
    } else {
        by_library = timed(order, linked::by_library)?;
        by_loop = timed(order, linked::by_loop)?;
    }
    Ok(Times { by_loop, by_library })
}

fn measure(rounds: u32) -> Result<(), String> {
    check()?;
    let orders = orders();
    let mut taken: [Vec<Times>; 3] = Default::default();
    for number in 1..=rounds {
        for (order, times) in orders.iter().zip(&mut taken) {
            times.push(round(order, number % 2 == 1)?);
        }
    }
    let together = |number: usize| {
        let sum = |of: fn(&Times) -> f64| taken.iter().map(|times| of(&times[number])).sum();
        Times { by_loop: sum(|times| times.by_loop), by_library: sum(|times| times.by_library) }
    };
    let together: Vec<Times> = (0..rounds as usize).map(together).collect();
    println!(
        "{:<12}{:>8}{:>10}{:>18}{:>18}",
        "ns a search", "loop", "library", "library / loop", "in a round"
    );
    let mut slower = Vec::new();
    let rows = orders.iter().zip(&taken).map(|(order, times)| (order.what, times, 1.0));
    for (what, times, orders) in rows.chain([("together", &together, taken.len() as f64)]) {
        if print_row(what, times, orders) >= 1.0 {
            slower.push(what);
        }
    }
    if !slower.is_empty() {
        let slower = slower.join(", ");
        return Err(format!("{slower}: the library takes as long as the loop, or longer"));
    }
    Ok(())
}

/// The times are those of so many orders. Gives library / loop.
fn print_row(what: &str, times: &[Times], orders: f64) -> f64 {
    let lowest = |of: fn(&Times) -> f64| times.iter().map(of).fold(f64::INFINITY, f64::min);
    let highest = |of: fn(&Times) -> f64| times.iter().map(of).fold(0.0, f64::max);
    let in_a_round = |times: &Times| times.by_library / times.by_loop;
    let (by_loop, by_library) = (lowest(|times| times.by_loop), lowest(|times| times.by_library));
    let ratio = by_library / by_loop;
    let searches = orders * pairs().len() as f64 * MILLION as f64;
    let [loop_ns, library_ns] = [by_loop, by_library].map(|time| time * 1e9 / searches);
    let range = format!("{:.2} to {:.2}", lowest(in_a_round), highest(in_a_round));
    println!("{what:<12}{loop_ns:>8.2}{library_ns:>10.2}{ratio:>18.2}{range:>18}");
    ratio
}

// ---- The answers ---------------------------------------------------------

/// Says how many answers it compared.
fn check() -> Result<(), String> {
    let valid = pairs();
    let (mut same, mut found) = (0, 0);
    for pair in 0..=u16::MAX {
        let [by_loop, by_library] = [linked::by_loop(&[pair]), linked::by_library(&[pair])];
        let at = format!("mask {}, position {}", pair >> 8, pair & 0xFF);
        if by_loop != by_library {
            return Err(format!("{at}: loop {by_loop}, library {by_library}"));
        }
        same += 1;
        if !valid.contains(&pair) {
            continue;
        }
        if let Some(register) = first(pair) {
            if by_library != u64::from(register) {
                return Err(format!("{at}: {by_library}, and not {register}"));
            }
            found += 1;
        }
    }
    println!(
        "loop and library: the same at {same} masks and positions, the first in the mask at \
         {found}"
    );
    // 127 of the masks have a register in them.
    if (same, found) != (65_536, 127 * 7) {
        return Err("not every mask and position was compared".to_string());
    }
    Ok(())
}

// ---- The program ---------------------------------------------------------

fn run(words: &[&str]) -> Result<(), Failure> {
    let done = match *words {
        [] => measure(4),
        ["--rounds", word] => {
            let rounds = word.parse().ok().filter(|&rounds| rounds > 0 && rounds % 2 == 0);
            let bad = || bad_usage(format!("{word} is not an even number from 2 up"));
            measure(rounds.ok_or_else(bad)?)
        }
        ["--check"] => check(),
        _ => return Err(bad_usage(format!("these arguments are not understood: {words:?}"))),
    };
    done.map_err(|text| (1, text))
}

fn main() -> ExitCode {
    program::main("seek", HELP, run)
}
