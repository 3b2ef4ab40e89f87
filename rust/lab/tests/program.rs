//! The program `lab`: its exit statuses and messages.

use std::io::Write;
use std::process::{Command, Output, Stdio};

fn lab(arguments: &[&str], input: &str) -> Output {
    let mut command = Command::new(env!("CARGO_BIN_EXE_lab"));
    command.args(arguments).stdin(Stdio::piped()).stdout(Stdio::piped()).stderr(Stdio::piped());
    let mut child = command.spawn().expect("lab runs");
    let mut to = child.stdin.take().expect("a pipe was asked for");
    // A program that doesn't read its input has ended already.
    let _ = to.write_all(input.as_bytes());
    drop(to);
    child.wait_with_output().expect("lab ends")
}

fn status(output: &Output) -> i32 {
    output.status.code().expect("lab is not killed")
}

fn errors(output: &Output) -> String {
    String::from_utf8_lossy(&output.stderr).to_string()
}

fn said(output: &Output) -> String {
    String::from_utf8_lossy(&output.stdout).to_string()
}

#[test]
fn checks_decide_the_status() {
    let good = lab(&["run", "-"], "run 10\nexpect counts 0 0 10\n");
    assert_eq!(status(&good), 0);
    let bad = lab(&["run", "-"], "run 10\nexpect counts 0 0 11\n");
    assert_eq!(status(&bad), 1);
    let shown =
        "FAILED -:2:1: expected counts 0 0 11, found 0 0 10\n 2 | expect counts 0 0 11\n   | ^\n";
    assert!(said(&bad).contains(shown), "{}", said(&bad));
    let lines = lab(&["run", "--lines", "-"], "run 10\nexpect counts 0 0 11\n");
    assert_eq!((status(&lines), said(&lines).as_str()), (1, "G 0\nB 0 0 10\n"));
}

/// The last write's, whatever comes behind it; a refused one has none.
#[test]
fn checks_of_warnings() {
    let good = "out $6B, $E1\nrun 1\nexpect warning mode\nout $6C, $E1\nexpect warning none\n";
    let lines = lab(&["run", "--lines", "-"], good);
    assert_eq!((status(&lines), said(&lines).as_str()), (0, "W 0 !\nG 0\nW 2\nB 0 0 1\n"));
    let bad = lab(&["run", "-"], "out $6B, $E1\nexpect warning timing\n");
    assert_eq!(status(&bad), 1);
    assert!(said(&bad).contains("FAILED -:2:1: expected warning timing, found mode\n"));
    let refused = lab(&["run", "-"], "out $6C, $E1\nexpect warning mode\n");
    let shown = "FAILED -:2:1: expected warning mode, found none: the write was refused, ";
    assert!(said(&refused).contains(shown), "{}", said(&refused));
}

/// The device's at that point, enabled or not.
#[test]
fn checks_of_floors() {
    let setup = "otir $6B\ndb $65\ndw 2\ndb $54, 2, $50, $22, 1, $C1, $CF\n";
    let good = format!("expect floor 0\n{setup}expect floor 5\nout $6B, $87\nexpect floor 2+2+1\n");
    let lines = lab(&["run", "--lines", "-"], &good);
    let accepted = "W 0\n".repeat(11) + "B 0 0 0\n";
    assert_eq!((status(&lines), said(&lines)), (0, accepted));
    let told = lab(&["run", "--no-advice", "-"], &good);
    let row = "\n                 CPU floor 5: of any 5 clocks in a row without a port access";
    assert_eq!((status(&told), said(&told).matches(row).count()), (0, 1), "{}", said(&told));
    assert!(said(&told).ends_with("\nChecks: 3 held, 0 failed.\n"), "{}", said(&told));
    let bad = lab(&["run", "-"], &format!("{setup}out $6B, $87\nexpect floor 6\n"));
    assert_eq!(status(&bad), 1);
    let shown = "FAILED -:6:1: expected floor 6, found 5\n 6 | expect floor 6\n   | ^\n";
    assert!(said(&bad).contains(shown), "{}", said(&bad));
    let none = lab(&["run", "-"], "expect floor 5\n");
    assert_eq!(status(&none), 1);
    assert!(said(&none).contains("FAILED -:1:1: expected floor 5, found 0\n"), "{}", said(&none));
}

#[test]
fn discouraged_values_are_counted_at_the_end() {
    let one = said(&lab(&["run", "--no-advice", "-"], "out $6B, $A1, $E1, $A1\n"));
    assert!(one.contains("\n    2  W 0 !     WR4: continuous; mode 11 is discouraged: "), "{one}");
    assert!(one.ends_with("\nDiscouraged values, at record 2.\n"), "{one}");
    let many = said(&lab(&["run", "--no-advice", "-"], &"out $6B, $E1\n".repeat(18)));
    assert!(many.ends_with(", 15, 16 and 2 more.\n"), "{many}");
    let none = said(&lab(&["run", "-"], "out $6B, $A1\n"));
    assert!(!none.contains("iscouraged"), "{none}");
}

#[test]
fn a_wrong_text_is_shown_and_nothing_runs() {
    let wrong = lab(&["run", "-"], "run 10\n\tout $6B, 300\n");
    assert_eq!((status(&wrong), said(&wrong).as_str()), (2, ""));
    let message = "lab: -:2:11: expected a byte from -128 to 255, found 300\n \
                   2 | \tout $6B, 300\n   | \t         ^\n";
    assert_eq!(errors(&wrong), message);
}

#[test]
fn until_done_says_why_nothing_would_end() {
    let disabled = lab(&["run", "-"], "run until done\n");
    assert_eq!(status(&disabled), 2);
    assert!(errors(&disabled).contains("-:1:1: expected a running block: the DMA is disabled"));
    let again = "otir $6B\ndb $83, $7D, 0, $10, 4, 0, $AD, 0, $20, $A2, $CF, $87\nrun until done\n";
    let restarts = lab(&["run", "-"], again);
    assert_eq!(status(&restarts), 2);
    assert!(errors(&restarts).contains("-:3:1: expected a block that ends: with auto restart"));
}

/// Without advice everything else is told as before, and the status is the
/// same.
#[test]
fn advice_can_be_left_out() {
    let session = "out $6B, $87\nrun 10\nout $6B, $AD\nexpect counts 0 0 10\n";
    let (with, without) = (lab(&["run", "-"], session), lab(&["run", "--no-advice", "-"], session));
    assert_eq!((status(&with), status(&without)), (0, 0));
    assert!(said(&with).contains("  advice: the block has no bytes"), "{}", said(&with));
    assert!(said(&with).contains("\nadvice: the session ends with B address low"));
    assert!(said(&with).contains("\nAdvice above, at record 1.\n"), "{}", said(&with));
    let mut rest = said(&with);
    for advice in ["                 advice: ", "advice: ", "Advice above"] {
        let start = rest.find(&format!("\n{advice}")).expect(advice) + 1;
        // It ends with the only full stop at the end of a line.
        let end = start + rest[start..].find(".\n").expect(advice) + 2;
        rest.replace_range(start..end, "");
    }
    assert_eq!(rest, said(&without));
}

#[test]
fn a_fault_is_bad_input() {
    let fault = lab(&["run", "--lines", "-"], "01 0005 03 0000000A 00");
    assert_eq!((status(&fault), said(&fault).as_str()), (2, "G 0\nS 21\n"));
    let fault = lab(&["asm", "-", "-o", "-"], "02");
    assert_eq!((status(&fault), said(&fault).as_str()), (2, ""));
    assert!(errors(&fault).contains("-:1:1: fault 20: the version"), "{}", errors(&fault));
}

#[test]
fn help_and_wrong_arguments() {
    let helps: [&[&str]; 5] =
        [&["--help"], &["run", "--help"], &["asm", "-h"], &["text", "--help"], &["timeline", "-h"]];
    for arguments in helps {
        let help = lab(arguments, "");
        assert_eq!(status(&help), 0);
        assert!(said(&help).starts_with("usage: lab "));
        // Every statement of the language is indented, the first one too.
        let language = "\n\nThe text language:\n  out PORT, BYTE, ..       write bytes";
        assert_eq!(said(&help).contains(language), arguments.len() > 1, "{arguments:?}");
    }
    let wrong: [&[&str]; 10] = [
        &[],
        &["walk"],
        &["run"],
        &["run", "a", "b"],
        &["run", "--as", "tape", "-"],
        &["run", "-o", "x"],
        &["asm", "-"],
        &["run", "/nowhere/at/all"],
        &["timeline", "--all", "-"],
        &["timeline", "-", "-o", "/nowhere/at/all.svg"],
    ];
    for arguments in wrong {
        let output = lab(arguments, "");
        assert_eq!((status(&output), said(&output).as_str()), (2, ""), "{arguments:?}");
        assert!(errors(&output).starts_with("lab: "), "{arguments:?}");
    }
}

#[test]
fn asm_and_text_are_each_others_way_back() {
    let binary = lab(&["asm", "-", "-o", "-"], "in $6B\nrun 10\n");
    assert_eq!(binary.stdout, b"\x01\x00\x03\x02\x00\x6B\x00\x05\x03\x00\x00\x00\x0A");
    let text = lab(&["text", "-"], "01 0003 02 006B 0005 03 0000000A");
    let again = lab(&["asm", "-", "-o", "-"], &said(&text));
    assert_eq!(again.stdout, binary.stdout, "{}", said(&text));
}

#[test]
fn a_timeline_is_text_or_a_picture() {
    let text = lab(&["timeline", "-"], "run 10\n");
    assert_eq!(status(&text), 0);
    assert!(said(&text).contains("\n    0  ..........\n"), "{}", said(&text));
    let picture = lab(&["timeline", "-", "-o", "-"], "run 10\n");
    assert_eq!(status(&picture), 0);
    assert!(said(&picture).starts_with("<svg ") && said(&picture).ends_with("</svg>\n"));
    // What stands before a fault is shown.
    let fault = lab(&["timeline", "-"], "01 0005 03 0000000A 00");
    assert_eq!(status(&fault), 2);
    assert!(said(&fault).contains("\n   10  fault 21: "), "{}", said(&fault));
    assert!(errors(&fault).contains("-:1:21: fault 21: "), "{}", errors(&fault));
    let wrong = lab(&["timeline", "-", "-o", "-"], "run until done\n");
    assert_eq!((status(&wrong), said(&wrong).as_str()), (2, ""));
}
