//! Each piece of advice is given in its case, and not in the near miss.

#[path = "../../../docs/src/generate.rs"]
mod generate;

use lab::advice::{Advice, Advisor, Topic};
use lab::asm::resolve;
use lab::bytes::binary_session;
use lab::record::{Record, Session, Step};
use lab::text;
use lab::trace::Trace;

/// Where advice was given; none stands for the end.
type Given = (Option<usize>, Advice);

fn advice_on(session: &Session) -> Vec<Given> {
    let (mut trace, mut advisor) = (Trace::default(), Advisor::default());
    let mut given = Vec::new();
    let mut number = 0;
    for (at, item) in session.items.iter().enumerate() {
        if let Step::Record(record) = &item.step {
            number += 1;
            let answer = trace.step(record, &mut |event| advisor.event(&event));
            let found = advisor.record(record, &answer, &session.items[at + 1..]);
            given.extend(found.into_iter().map(|advice| (Some(number), advice)));
        }
    }
    given.extend(advisor.end(&trace).into_iter().map(|advice| (None, advice)));
    given
}

fn advice(content: &str) -> Vec<Given> {
    let session = text::session(content, &|_| Err("no files here".to_string()));
    let session = session.unwrap_or_else(|error| panic!("{error:?} in {content}"));
    advice_on(&resolve(&session).unwrap_or_else(|error| panic!("{error:?} in {content}")))
}

/// The only advice on a session: where, what about, and its reason.
fn only(content: &str) -> (Option<usize>, Topic, String) {
    match &advice(content)[..] {
        [(record, advice)] => (*record, advice.topic, advice.reason.clone()),
        other => panic!("{other:?} on {content}"),
    }
}

fn topics(content: &str) -> Vec<Topic> {
    advice(content).iter().map(|(_, advice)| advice.topic).collect()
}

fn no_advice(content: &str) {
    assert_eq!(topics(content), [], "{content}");
}

/// Four bytes from 1000 to 2000 in 16 clocks: 16 records.
const COPY: &str = "\
otir $6B
 db $83, $7D
 dw $1000, 4
 db $54, 2, $50, 2, $AD
 dw $2000
 db $82, $CF, $87
";

/// The copy with another piece, up to its Enable.
fn copy_with(piece: &str, other: &str) -> String {
    assert!(COPY.contains(piece), "{piece}");
    COPY.replace(piece, other)
}

/// The copy as music: each byte takes 32 clocks, and the rest of them is the
/// processor's.
fn burst() -> String {
    copy_with("$50, 2, $AD", "$50, $22, 1, $CD")
}

#[test]
fn a_right_program_needs_no_advice() {
    no_advice(&format!("{COPY} run until done\nin $6B, 7\n"));
    no_advice(&format!("{} run until done\nin $6B, 7\n", burst()));
    no_advice("run 10\nin $6B\n");
}

#[test]
fn enable_on_a_finished_block() {
    let again = |bytes: &str| format!("{COPY} run until done\nout $6B, {bytes}\n");
    let (record, topic, reason) = only(&again("$87"));
    assert_eq!((record, topic), (Some(18), Topic::FinishedBlock));
    assert_eq!(reason, "the block is finished, 4 of 4: nothing moves");
    // By WR3 too.
    assert_eq!(only(&again("$C0")).1, Topic::FinishedBlock);
    no_advice(&(again("$CF, $87") + "run until done\n"));
    no_advice(&(again("$D3, $87") + "run until done\n"));
    // A device that runs is enabled already.
    no_advice(&(burst() + "run 10\nout $6B, $87\nrun until done\n"));
}

#[test]
fn enable_on_a_block_without_bytes() {
    let (record, topic, reason) = only(&copy_with("$1000, 4", "$1000, 0"));
    assert_eq!((record, topic), (Some(16), Topic::FinishedBlock));
    assert!(reason.contains("its length is 0"), "{reason}");
}

#[test]
fn addresses_not_loaded() {
    let forgotten = copy_with("$CF, ", "") + "run until done\n";
    let (record, topic, reason) = only(&forgotten);
    assert_eq!((record, topic), (Some(15), Topic::NotLoaded));
    let expected = "A is to start at 1000 and is at 0000, B is to start at 2000 and is at 0000: \
                    the addresses were written and not loaded";
    assert_eq!(reason, expected);
    // Continue keeps the pointers.
    let next = format!("{COPY} run until done\nout $6B, $0D, $00, $D3, $87\nrun until done\n");
    let (_, topic, reason) = only(&next);
    assert!(reason.starts_with("A is to start at 1000 and is at 1004: "), "{reason}");
    assert_eq!(topic, Topic::NotLoaded);
    // At power-on the pointers are where these addresses are.
    no_advice(&forgotten.replace("$1000", "0").replace("$2000", "0"));
    // An auto restart loads them: the address is written in a wait.
    let player = burst().replace("$82", "$A2") + "run 10\nout $6B, $0D, $80\nrun 128\n";
    no_advice(&(player + "out $6B, $83, $87\nrun 10\nout $6B, $83\n"));
}

#[test]
fn a_finished_block_asks_for_load_if_addresses_were_written() {
    let given = advice(&format!("{COPY} run until done\nout $6B, $1D, $00, $30, $87\n"));
    let remedies: Vec<&str> = given.iter().map(|(_, advice)| advice.remedy).collect();
    assert_eq!(given[0].1.topic, Topic::FinishedBlock);
    assert!(remedies[0].starts_with("Write CF (Load) before 87"), "{remedies:?}");
}

#[test]
fn a_command_taken_as_a_parameter() {
    // BB forgotten before the mask 7D, which is WR0 with four parameters.
    let given = advice(&copy_with("$CF, $87", "$7D, $CF, $87"));
    let found: Vec<_> = given.iter().map(|(record, advice)| (*record, advice.topic)).collect();
    let taken = Topic::CommandAsParameter;
    let expected = [(Some(16), taken), (Some(17), taken), (None, Topic::ParameterMissing)];
    assert_eq!(found, expected);
    let expected = "CF was taken as the A address low and not as Load, since 7D in record 15 \
                    asked for it";
    assert_eq!(given[0].1.reason, expected);
    // The mask forgotten behind BB.
    let mask = copy_with("$CF, $87", "$BB, $CF, $CF, $87") + "run until done\n";
    let (record, topic, reason) = only(&mask);
    assert_eq!((record, topic), (Some(16), Topic::CommandAsParameter));
    assert!(reason.starts_with("CF was taken as the read mask and not as Load"), "{reason}");
    // A timing byte that asks for the prescaler.
    let (_, topic, reason) =
        only(&copy_with("$50, 2, $AD", "$50, $22, $87, $AD").replace(", $87\n", "\n"));
    assert_eq!(topic, Topic::CommandAsParameter);
    assert!(reason.ends_with("since 22 in record 10 asked for it"), "{reason}");
    // Carried out at another port it is not.
    let elsewhere = copy_with("$CF, $87", "$7D, $CF, $87, 0, 0\nout $6C, $CF, $87");
    assert_eq!(topics(&elsewhere), [Topic::CommandAsParameter; 2]);
    // A program that begins with one, as an earlier one left a parameter out.
    let begun = "out $6B, $AD, $00\nrun 1\nout $6B, $83\n";
    assert_eq!(only(begun).1, Topic::CommandAsParameter);
}

#[test]
fn a_number_may_hold_the_byte_of_a_command() {
    let done = "run until done\n";
    no_advice(&(copy_with("$1000", "$87CF") + done));
    no_advice(&(copy_with("$1000", "$8300") + done));
    no_advice(&(copy_with("$2000", "$C3D3") + done));
    no_advice(&(copy_with("$CF, $87", "$BB, $7F, $CF, $87") + done));
    // Reset several times, for a device in which anything may be pending.
    no_advice(&format!("out $6B, $AD\nrun 1\nout $6B, $C3, $C3, $C3\n{COPY}{done}"));
}

#[test]
fn the_direction_turned_by_a_mask() {
    let turned = |byte: &str| copy_with("$CF, $87", byte) + "run until done\n";
    let (record, topic, reason) = only(&turned("$01, $CF, $87"));
    assert_eq!((record, topic), (Some(15), Topic::DirectionTurned));
    assert_eq!(reason, "01 is WR0 here and turns the direction that record 2 set: B to A");
    no_advice(&turned("$BB, $01, $CF, $87"));
    no_advice(&turned("$05, $CF, $87"));
    // The way back, behind the way there.
    no_advice(&format!("{COPY} run until done\nout $6B, $01, $CF, $87\nrun until done\n"));
}

#[test]
fn the_bus_is_held() {
    let (record, topic, reason) = only(&format!("{COPY} run 3\nin $6B\nout $6B, $83\nrun 13\n"));
    assert_eq!((record, topic), (Some(18), Topic::BusHeld));
    assert!(reason.ends_with("13 more clocks would free it"), "{reason}");
    // Once for each grant, and the second time without the remedy.
    let given = advice(&format!("{COPY} run 3\nin $6B\nrun 5\nin $6B\nrun 8\n"));
    let clocks: Vec<bool> =
        given.iter().map(|(_, advice)| advice.reason.contains("13 more")).collect();
    assert_eq!(clocks, [true, false]);
    assert!(given[1].1.reason.contains("8 more clocks"), "{}", given[1].1.reason);
    assert_eq!((given[0].1.earlier, given[1].1.earlier), (None, Some(18)));
    // The block's end frees it, and so does a wait.
    no_advice(&format!("{COPY} run 16\nin $6B\n"));
    no_advice(&(burst() + "run 4\nin $6B\nrun until done\n"));
    assert!(only(&(burst() + "in $6B\nrun until done\n")).2.contains("4 more clocks"));
    // The next slot takes it again.
    let given = advice(&(burst() + "in $6B\nrun 33\nin $6B\nrun until done\n"));
    assert!(given[1].1.reason.contains("3 more clocks"), "{}", given[1].1.reason);
    // Another refusal.
    no_advice(&format!("{COPY} in $6C\nrun until done\n"));
}

/// On any session: so many clocks free the bus, and one less doesn't.
#[test]
fn the_clocks_that_free_the_bus_are_the_fewest() {
    let mut tried = 0;
    for number in 0..300 {
        let session = binary_session(&generate::session(&mut generate::Rng::numbered(5, number)));
        let given = advice_on(&session);
        let mut trace = Trace::brief();
        for (record, at) in session.records().zip(1..) {
            let held = given
                .iter()
                .find(|(record, advice)| *record == Some(at) && advice.topic == Topic::BusHeld);
            let clocks = held.and_then(|(_, advice)| {
                let (_, clocks) = advice.reason.split_once("lost: ")?;
                clocks.split_once(" more")?.0.replace(',', "").parse::<u32>().ok()
            });
            if let Some(clocks) = clocks {
                for (passed, number) in [(clocks - 1, 3), (clocks, 0)] {
                    let mut later = trace.clone();
                    later.step(&Record::Grant { clocks: passed }, &mut |_| ());
                    assert_eq!(later.device().read(0x6B).number, number, "session {number}");
                }
                tried += 1;
            }
            trace.step(record, &mut |_| ());
        }
    }
    assert!(tried > 100, "only {tried} refusals tried");
}

#[test]
fn continuous_with_a_prescaler() {
    let waits = copy_with("$50, 2", "$50, $22, 1") + "run until done\n";
    let (record, topic, reason) = only(&waits);
    assert_eq!((record, topic), (Some(17), Topic::ProcessorWaits));
    assert!(reason.ends_with("the processor stands still for 128 clocks"), "{reason}");
    no_advice(&(burst() + "run until done\n"));
    no_advice(&(copy_with("$50, 2", "$50, $22, 0") + "run until done\n"));
}

#[test]
fn a_restart_without_a_wait() {
    let restart = |program: &str| topics(&program.replace("$82", "$A2"));
    assert_eq!(restart(COPY), [Topic::NeverReturns, Topic::StillRuns]);
    // With a prescaler the processor stands still for good.
    let waits = copy_with("$50, 2", "$50, $22, 1");
    assert_eq!(restart(&waits), [Topic::NeverReturns, Topic::StillRuns]);
    // Burst without a prescaler has no wait.
    let burst_only = copy_with("$AD", "$CD");
    assert_eq!(restart(&burst_only), [Topic::NeverReturns, Topic::StillRuns]);
    no_advice(&(burst_only + "run until done\n"));
    assert_eq!(restart(&(burst() + "run 10\nout $6B, $83\n")), []);
    // Then nothing frees the bus.
    let held = advice(&(COPY.replace("$82", "$A2") + "run 20\nin $6B\n"));
    assert!(held[1].1.reason.contains("no clock will free it"), "{held:?}");
}

/// A looping player, stopped in a wait: 19 records.
fn stopped_player() -> String {
    burst().replace("$82", "$A2") + "run 10\nout $6B, $83\n"
}

#[test]
fn settings_left_over() {
    let next = |bytes: &str| topics(&(stopped_player() + bytes + "\nrun 10\nout $6B, $83\n"));
    // The ports anew, and neither prescaler nor WR5.
    let given = next("out $6B, $14, $10, $CF, $87");
    assert_eq!(given, [Topic::PrescalerLeft, Topic::RestartLeft]);
    assert_eq!(next("out $6B, $14, $10, $82, $CF, $87"), [Topic::PrescalerLeft]);
    assert_eq!(next("out $6B, $14, $50, $22, 2, $CF, $87"), [Topic::RestartLeft]);
    let given = advice(&(stopped_player() + "out $6B, $10, $CF, $87\nrun 10\nout $6B, $83\n"));
    assert!(given[0].1.reason.starts_with("prescaler 1 is left over from record 11"));
    assert!(given[1].1.reason.starts_with("auto restart is left over from record 15"));
    // The same transfer once more, or another sample of it.
    assert_eq!(next("out $6B, $CF, $87"), []);
    assert_eq!(next("out $6B, $1D, $00, $30, $CF, $87"), []);
    // All of it is written, or nothing is left.
    assert_eq!(next("out $6B, $14, $50, $22, 2, $A2, $CF, $87"), []);
    let reset = stopped_player() + "out $6B, $C3, $14, $10, $CF, $87\nrun until done\n";
    no_advice(&reset);
}

#[test]
fn one_byte_more_by_port_0b() {
    let zilog = copy_with("otir $6B", "otir $0B") + "run until done\n";
    let (record, topic, reason) = only(&zilog);
    assert_eq!((record, topic), (Some(16), Topic::OneByteMore));
    assert!(reason.ends_with("4 written, 5 to move"), "{reason}");
    no_advice(&(zilog.replace("$CF, $87", "$CF\nout $6B, $87")));
    // Not again at an Enable that finds it running.
    let player = burst().replace("otir $6B", "otir $0B");
    let given = topics(&(player + "run 10\nout $0B, $87\nrun until done\n"));
    assert_eq!(given, [Topic::OneByteMore]);
}

#[test]
fn an_overlap_repeats_bytes() {
    let to = |address: &str| copy_with("$2000", address) + "run until done\n";
    let (record, topic, reason) = only(&to("$1001"));
    assert_eq!((record, topic), (Some(17), Topic::Overlap));
    assert!(reason.starts_with("clock 8: the block reads memory 1001"), "{reason}");
    assert_eq!(only(&to("$1003")).1, Topic::Overlap);
    // Side by side; below; the other way round; from one byte; onto itself.
    no_advice(&to("$1004"));
    no_advice(&to("$0FFF"));
    let down = to("$1004").replace("$1000", "$1003").replace("$54, 2, $50, 2", "$44, 2, $40, 2");
    no_advice(&down);
    no_advice(&to("$1001").replace("$54, 2", "$64, 2"));
    no_advice(&to("$1000"));
    // A next block may read what an earlier one wrote.
    no_advice(&(to("$1004") + "out $6B, $D3, $87\nrun until done\n"));
    let player = burst().replace("$82", "$A2").replace("$2000", "$0FFF");
    no_advice(&(player + "run 300\nout $6B, $83\n"));
    // I/O has addresses of its own.
    no_advice(&to("$1001").replace("$50, 2", "$58, 2"));
    no_advice(&to("$1001").replace("$54, 2", "$5C, 2"));
    // Not down where it should be.
    assert_eq!(only(&down.replace("$1004", "$1002")).1, Topic::Overlap);
}

#[test]
fn a_block_that_wraps() {
    let from = |address: &str| copy_with("$1000", address) + "run until done\n";
    let (record, topic, reason) = only(&from("$FFFE"));
    assert_eq!((record, topic), (Some(17), Topic::Wrap));
    let expected = "clock 12: the block wraps at FFFF, after 2 bytes: memory 0000 -> memory 2002";
    assert_eq!(reason, expected);
    let down = from("2").replace("$54, 2", "$44, 2");
    assert_eq!(only(&down).1, Topic::Wrap);
    assert_eq!(only(&copy_with("$2000", "$FFFD")).1, Topic::StillRuns);
    assert_eq!(only(&(copy_with("$2000", "$FFFD") + "run until done\n")).1, Topic::Wrap);
    // It ends at the last address, and the next block begins at the first.
    no_advice(&(from("$FFFC") + "out $6B, $D3, $87\nrun until done\n"));
}

#[test]
fn discouraged_values() {
    let program = |piece: &str, other: &str| copy_with(piece, other) + "run until done\n";
    let cases = [
        ("$7D", "$7E", 2, "7E is WR0 with 10 in bits 1-0 (search on the Z80 DMA)"),
        ("$7D", "$7F", 2, "7F is WR0 with 11 in bits 1-0 (search and transfer on the Z80 DMA)"),
        ("$54, 2", "$54, 3", 8, "03 is A timing with 11 in bits 1-0"),
        ("$50, 2", "$50, 3", 10, "03 is B timing with 11 in bits 1-0"),
        ("$AD", "$8D", 11, "8D is WR4 with 00 in bits 6-5 (byte mode on the Z80 DMA)"),
        ("$AD", "$ED", 11, "ED is WR4 with 11 in bits 6-5"),
    ];
    for (piece, other, at, expected) in cases {
        let (record, topic, reason) = only(&program(piece, other));
        assert_eq!((record, topic), (Some(at), Topic::Discouraged), "{other}");
        let expected = format!("{expected}, which programs should not use: ");
        assert!(reason.starts_with(&expected), "{reason}");
    }
    let acts = |piece: &str, other: &str| {
        let (_, _, reason) = only(&program(piece, other));
        reason.rsplit(": ").next().map(String::from)
    };
    assert_eq!(acts("$7D", "$7F").as_deref(), Some("it transfers, as 01 does"));
    assert_eq!(acts("$50, 2", "$50, 3").as_deref(), Some("B takes 4 clocks, as by 00"));
    assert_eq!(acts("$AD", "$ED").as_deref(), Some("it is continuous, as 01 is"));
    // The values to use; 11 in a number, and at another port.
    no_advice(&program("$54, 2, $50, 2", "$54, 0, $50, 1"));
    no_advice(&program("$1000, 4", "$0303, $0303"));
    no_advice(&program("$AD", "$CD"));
    no_advice(&format!("out $6C, $7F, $8D\n{COPY} run until done\n"));
    // A command as a timing byte, and one that is written again.
    let (record, topic, reason) = only(&program("$CF, $87", "$44, $83, $CF, $87"));
    assert_eq!((record, topic), (Some(16), Topic::Discouraged));
    assert!(reason.starts_with("83 is A timing with 11 in bits 1-0"), "{reason}");
    no_advice(&format!("out $6B, $44\nrun 1\nout $6B, $C3, $C3\n{COPY} run until done\n"));
}

/// Each warning is advised on at its first record, and nowhere else.
#[test]
fn discouraged_values_are_named_once() {
    let all = COPY.replace("$7D", "$7F").replace("$54, 2, $50, 2, $AD", "$54, 3, $50, 3, $8D");
    let given = advice(&(all.clone() + "run until done\n" + &all + "run until done\n"));
    let found: Vec<_> = given.iter().map(|(record, advice)| (*record, advice.topic)).collect();
    assert_eq!(found, [2, 8, 11].map(|record| (Some(record), Topic::Discouraged)));
}

/// A byte that was hardly meant as what it is.
#[test]
fn other_advice_goes_before_that_on_discouraged_values() {
    // A byte of the length left out, so that the timing 02 is WR0.
    let (record, topic, _) = only(&(copy_with("$1000, 4", "$1000\n db 4") + "run until done\n"));
    assert_eq!((record, topic), (Some(7), Topic::DirectionTurned));
    // Load taken as a timing byte.
    let (_, topic, _) = only(&copy_with("$CF, $87", "$44, $CF"));
    assert_eq!(topic, Topic::CommandAsParameter);
    // The mask 7F without BB is told at once, and what it takes behind it.
    let taken = Topic::CommandAsParameter;
    let given = topics(&copy_with("$CF, $87", "$7F, $CF, $87, 0, 0"));
    assert_eq!(given, [Topic::Discouraged, taken, taken]);
}

#[test]
fn a_parameter_is_missing_at_the_end() {
    let (record, topic, reason) = only("out $6B, $AD, $00\n");
    assert_eq!((record, topic), (None, Topic::ParameterMissing));
    assert!(reason.contains("B address high pending, which AD in record 1 asked for"), "{reason}");
    no_advice("out $6B, $AD, $00, $20\n");
}

#[test]
fn the_dma_runs_at_the_end() {
    let (record, topic, reason) = only(&format!("{COPY} run 5\n"));
    assert_eq!((record, topic), (None, Topic::StillRuns));
    assert!(reason.ends_with("1 of 4 moved: 11 more clocks end the block"), "{reason}");
    no_advice(&format!("{COPY} run 16\n"));
    let player = burst().replace("$82", "$A2") + "run 10\n";
    assert!(only(&player).2.ends_with("with auto restart no block is the last"));
    no_advice(&(player + "out $6B, $83\n"));
}
