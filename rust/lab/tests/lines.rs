//! The lab's lines are the bench's, byte for byte: on the stored sessions, and
//! on made ones, LAB_SESSIONS of them (3000), of the seed LAB_SEED (1).

#[path = "../../../docs/src/generate.rs"]
mod generate;
#[path = "../../../docs/src/process.rs"]
mod process;

use lab::bytes::binary_session;
use lab::input;
use lab::record::Session;
use lab::run::{run, Detail, Telling};
use lab::source::Source;
use std::fs;
use std::path::{Path, PathBuf};

fn root() -> PathBuf {
    Path::new(env!("CARGO_MANIFEST_DIR")).join("../..")
}

fn setting(name: &str, otherwise: u64) -> u64 {
    std::env::var(name).map_or(otherwise, |value| value.parse().expect(name))
}

fn told(session: &Session, detail: Detail) -> String {
    let mut out = Vec::new();
    let telling = Telling { detail, advice: true };
    run(&Source::default(), session, telling, &mut out).expect("a vector takes all");
    String::from_utf8(out).expect("it is text")
}

/// The lab's lines alone.
fn lines(session: &Session) -> String {
    told(session, Detail::Lines)
}

/// The lines that stand beside the words: behind the number of their record.
fn lines_beside_words(session: &Session) -> String {
    let text = told(session, Detail::First);
    let report = text.split("\n\n").next().expect("there is a first part");
    let rows = report.lines().filter(|row| !row.starts_with("         "));
    let line = |row: &str| row[7..].split("  ").next().expect("a row has a line").to_string();
    rows.map(|row| line(row) + "\n").collect()
}

#[test]
fn stored_sessions_give_their_lines() {
    let folder = root().join("docs/sessions");
    let mut sessions = 0;
    for entry in fs::read_dir(folder).expect("docs/sessions") {
        let path = entry.expect("an entry").path();
        if path.extension().map_or(true, |extension| extension != "hex") {
            continue;
        }
        let name = path.to_str().expect("a name in UTF-8");
        let (_, session) = input::read(name, None).expect(name);
        let stored = fs::read_to_string(path.with_extension("lines")).expect(name);
        assert_eq!(lines(&session), stored, "{name}");
        assert_eq!(lines_beside_words(&session), stored, "{name}");
        sessions += 1;
    }
    assert!(sessions >= 32, "{sessions} stored sessions");
}

#[test]
fn made_sessions_give_the_benchs_lines() {
    let bench = root().join("target/bin/bench");
    assert!(bench.is_file(), "no {}: build it by 'docs/src/build-proved bench'", bench.display());
    let bench = bench.to_str().expect("a path in UTF-8");
    let (seed, sessions) = (setting("LAB_SEED", 1), setting("LAB_SESSIONS", 3_000));
    let mut warnings = 0;
    for number in 0..sessions {
        let bytes = generate::session(&mut generate::Rng::numbered(seed, number));
        let output = process::run(bench, &[&bytes]).expect("the bench runs");
        let expected = String::from_utf8(output.stdout).expect("lines are text");
        let session = binary_session(&bytes);
        assert!(lines(&session) == expected, "seed {seed}, session {number}: other lines");
        assert!(
            lines_beside_words(&session) == expected,
            "seed {seed}, session {number}: other lines beside the words"
        );
        warnings += expected.lines().filter(|line| *line == "W 0 !").count() as u64;
    }
    assert!(warnings >= sessions, "too little tried: {warnings} warnings in {sessions} sessions");
}
