//! Text, hex and binary: what one form says, the others say too, and nothing
//! that is read makes a reader panic.

#[path = "../../../docs/src/generate.rs"]
mod generate;

use generate::Rng;
use lab::asm::{assemble, resolve};
use lab::bytes::{binary_session, to_bytes};
use lab::input::{self, form_of, Form};
use lab::record::Session;
use lab::run::{run, Detail, Telling};
use lab::{show, text};

fn no_files(_: &str) -> Result<Vec<u8>, String> {
    Err("no files in this test".to_string())
}

fn shown(session: &Session) -> String {
    let mut out = Vec::new();
    show::text(session, &mut out).expect("a vector takes all");
    String::from_utf8(out).expect("text is text")
}

fn read(content: &str) -> Session {
    text::session(content, &no_files).unwrap_or_else(|error| panic!("{error:?} in {content}"))
}

#[test]
fn bytes_to_text_to_bytes() {
    for number in 0..600 {
        let bytes = generate::session(&mut Rng::numbered(3, number));
        let mut session = binary_session(&bytes);
        // What stands before a fault has a text.
        session.fault = None;
        let bytes = to_bytes(session.records());
        let content = shown(&session);
        if session.items.is_empty() {
            continue;
        }
        assert_eq!(form_of("session", content.as_bytes()), Form::Text);
        let again = assemble(&read(&content)).expect("nothing to resolve");
        assert!(again == bytes, "session {number} is another one after {content}");
    }
}

const TABLES: &str = "\
; Every form of the language.
DMA_LOAD equ $cf ; %11001111
ENABLE = 0x87
PORT equ $6B
mem sprite: \"AB\", 'C', 1 + 2 * 3, (4 | 8) << 1
pixels: db %1111_0000, ~0 & $FF, -1, 'z' - 1
        dw pixels, $ - sprite, sprite + 256
sprite equ $1000
mem $FFFE: 1, 2, 3
otir PORT
code    db $83, %01111101
source  dw sprite
        defw length
        db %01010100, 2, %01010000, 2, $AD
dest:   dw $2000
        defb $82, DMA_LOAD, ENABLE
length equ $ - code
IN PORT
expect refused 3
run 3
Run Until Done
in PORT, 7
expect byte $1B, 16, 0, $10, $10, $10, $20
expect memory $2000: \"ABC\", 7, 24
expect counts 64, 0, 0
out $FF0B, $C3
expect refused 0
expect warning none
out PORT, $E1
Expect Warning Mode
out PORT, $06
expect warning operation
out PORT, $44, 3
in PORT
expect warning timing
expect floor 0
out PORT, $50, $22, 1, $C1
Expect Floor 4 + 2 + 1
";

#[test]
fn text_to_bytes_to_text_to_bytes() {
    let session = resolve(&read(TABLES)).expect("a block that ends");
    let content = shown(&session);
    let again = read(&content);
    let steps = |session: &Session| -> Vec<_> {
        session.items.iter().map(|item| item.step.clone()).collect()
    };
    assert_eq!(steps(&again), steps(&session));
    let bytes = assemble(&session).expect("it is resolved");
    assert_eq!(assemble(&again).expect("it is resolved"), bytes);
    let from_bytes = shown(&binary_session(&bytes));
    assert_eq!(assemble(&read(&from_bytes)).expect("it is resolved"), bytes);
}

#[test]
fn the_checks_of_that_text_hold() {
    let session = resolve(&read(TABLES)).expect("a block that ends");
    let mut out = Vec::new();
    let source = lab::source::Source::of_text("tables", TABLES);
    let telling = Telling { detail: Detail::First, advice: true };
    let outcome = run(&source, &session, telling, &mut out);
    let report = String::from_utf8_lossy(&out);
    assert_eq!(outcome.expect("a vector takes all").failed_checks, 0, "{report}");
}

// ---- Damaged input -------------------------------------------------------

/// 100,000 inputs: random bytes, and sessions of each form with some damage.
#[test]
fn no_reader_panics() {
    let stored = include_str!("../../../docs/sessions/P4.hex");
    let binary = assemble(&read(TABLES)).expect("a block that ends");
    let mut refused = 0;
    for number in 0..100_000 {
        let mut rng = Rng::numbered(11, number);
        let (form, mut content) = match rng.below(6) {
            0 => {
                let length = rng.below(200);
                (rng.pick(&[Form::Text, Form::Hex, Form::Binary]), rng.bytes(length))
            }
            1 => (Form::Hex, stored.as_bytes().to_vec()),
            2 => (Form::Binary, binary.clone()),
            _ => (Form::Text, TABLES.as_bytes().to_vec()),
        };
        for _ in 0..rng.between(1, 4) {
            damage(&mut rng, &mut content);
        }
        let guessed = form_of("session", &content);
        for form in [form, guessed] {
            match input::session("session", form, &content, &no_files) {
                Ok((source, session)) => {
                    let faults = session.fault.iter();
                    faults.for_each(|fault| drop(source.message(fault.place, "a fault")));
                    refused += u32::from(session.fault.is_some());
                }
                Err(message) => {
                    assert!(message.starts_with("session:"), "{message}");
                    refused += 1;
                }
            }
        }
    }
    assert!(refused > 50_000, "hardly anything was damaged: {refused}");
}

/// Pieces that a reader of text looks for.
const PIECES: [&str; 24] = [
    "$",
    "%",
    "0x",
    "(",
    ")",
    "((((((((((((((((",
    "-",
    "~",
    "<<",
    ">>",
    "9999999999",
    "\"",
    "'",
    ";",
    ":",
    "=",
    "equ",
    "db",
    "dw",
    "expect",
    "\u{e9}",
    "\n",
    "*",
    "4294967295*4294967295*4294967295",
];

fn damage(rng: &mut Rng, content: &mut Vec<u8>) {
    let at = rng.below(content.len() as u32 + 1) as usize;
    let end = (at + rng.below(12) as usize).min(content.len());
    match rng.below(6) {
        0 => content.truncate(at),
        1 => drop(content.drain(at..end)),
        2 => content.insert(at, rng.byte()),
        3 if at < content.len() => content[at] = rng.byte(),
        4 => {
            let copy = content[at..end].to_vec();
            let to = rng.below(content.len() as u32 + 1) as usize;
            content.splice(to..to, copy);
        }
        _ => drop(content.splice(at..at, rng.pick(&PIECES).bytes())),
    }
}
