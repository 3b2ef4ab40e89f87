//! A hundred million clocks go through `run` in seconds. The bound is generous:
//! it is to fail where clocks or slots are taken one by one that need not be.

use lab::asm::resolve;
use lab::run::{run, Detail, Telling};
use lab::source::Source;
use lab::text;
use std::time::{Duration, Instant};

const BOUND: Duration = Duration::from_secs(20);

fn within_bound(content: &str) {
    let start = Instant::now();
    let session = text::session(content, &|_| Err("no files here".to_string()));
    let session = resolve(&session.expect(content)).expect(content);
    let telling = Telling { detail: Detail::First, advice: true };
    let source = Source::of_text("session", content);
    run(&source, &session, telling, &mut std::io::sink()).expect("a sink takes all");
    let taken = start.elapsed();
    assert!(taken < BOUND, "{taken:?} for {content}");
}

fn program(ports: &str, mode: &str, restart: &str) -> String {
    format!(
        "otir $6B\n db $83, $7D\n dw $1000, $8000\n db {ports}, {mode}\n dw $2000\n \
         db {restart}, $CF, $87\n"
    )
}

#[test]
#[cfg_attr(debug_assertions, ignore = "the bound is for what is optimized")]
fn a_hundred_million_clocks_take_seconds() {
    const MUSIC: &str = "$54, 2, $68, $22, 55";
    within_bound("run 100000000\n");
    within_bound(&(program("$54, 2, $50, 2", "$AD", "$A2") + "run 100000000\n"));
    within_bound(&(program(MUSIC, "$CD", "$A2") + "run 100000000\n"));
    within_bound(&(program(MUSIC, "$CD", "$82") + "run until done\nrun 50000000\n"));
}

/// All that a grant can have, in the shortest slots.
#[test]
#[cfg_attr(debug_assertions, ignore = "the bound is for what is optimized")]
fn the_longest_grant_takes_seconds() {
    within_bound(&(program("$54, 2, $50, 2", "$AD", "$A2") + "run 4294967295\n"));
}
