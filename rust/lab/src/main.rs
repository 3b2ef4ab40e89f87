//! The program `lab`: its commands, their help, and its exit status.

#![forbid(unsafe_code)]

use lab::input::{self, Form};
use lab::record::Session;
use lab::run::{Detail, Telling};
use lab::source::{Error, Source};
use lab::timeline::{self, Timeline};
use lab::{asm, run, show, text, words};
use std::io::{self, BufWriter, ErrorKind, Write};
use std::path::Path;
use std::process::ExitCode;

const HELP: &str = "\
usage: lab COMMAND FILE ..
Write a program for the zxnDMA as text and see what it does, on the proved library.
  lab run FILE           run a session: the bench's lines, and what they mean
  lab asm FILE -o OUT    make the bench's binary session of it
  lab text FILE          write it as text, with what each line does
  lab timeline FILE      show who had the bus; with -o OUT.svg as a picture
  lab COMMAND --help     more about a command, and the text language
FILE is a session as text, as commented hex or in binary; - is standard input.
Exit status: 0; 1 if a check of the session failed; 2 if the arguments or the
session can't be taken.";

const RUN_HELP: &str = "\
usage: lab run [--all | --lines] [--no-advice] [--as FORM] FILE
Runs a session. For each record it writes the record's number, the bench's own
line and what it means; for a grant the moves with their clock, the first 16; at
the end the clocks, the memory and latches that the DMA wrote, and what is left.
Clocks are those of 28 MHz, at which a session runs: it has no word for the speed.
A write of a value that programs should not use has ! in its line, and the words
say what to use; it changes no exit status.
Below an Enable that leaves one, and below a write in a wait that changes it, is
the CPU floor: of any so many clocks in a row without a port access the processor
has one at least.
Where something looks like a mistake there is advice: the reason, and what to do.
  --all        every move and every byte
  --lines      the bench's lines and nothing else
  --no-advice  leaves out the advice
  --as FORM    the form of FILE: text, hex or binary, where the content misleads
A check that fails is shown with what was found, and the exit status is 1. After
a fault of the session, or if FILE can't be taken, it is 2.
";

const ASM_HELP: &str = "\
usage: lab asm [--as FORM] FILE -o OUT
Writes a session as the bench takes it, in binary, to OUT; - is standard output.
'run until done' becomes a grant of so many clocks, and checks are left out.
  --as FORM  the form of FILE: text, hex or binary, where the content misleads
";

const TEXT_HELP: &str = "\
usage: lab text [--as FORM] FILE [-o OUT]
Writes a session as text, with what each line does as a comment. 'lab asm' makes
the same binary session of it.
  --as FORM  the form of FILE: text, hex or binary, where the content misleads
";

const TIMELINE_HELP: &str = "\
usage: lab timeline [--as FORM] FILE [-o OUT.svg]
Shows who had the bus in a session: in the terminal, one slot a row and a sign a
clock; with -o as a picture, time along, in SVG that needs no other file. - is
standard output. Each port access has the number of its record, as 'lab run' has.
  --as FORM  the form of FILE: text, hex or binary, where the content misleads
Waits of more than 64 clocks, slots that are alike and whatever comes again in the
same order are folded, with their length. Of a session that is still too long the
start and the end are shown. However long it is, the picture has less than 64 kB.
After a fault of the session, or if FILE can't be taken, the exit status is 2.
";

/// What ends the program early: a message for standard error, or none.
enum End {
    Message(String),
    /// Nobody reads what is written.
    Closed,
}

impl From<String> for End {
    fn from(message: String) -> End {
        End::Message(message)
    }
}

impl From<io::Error> for End {
    fn from(error: io::Error) -> End {
        match error.kind() {
            ErrorKind::BrokenPipe => End::Closed,
            _ => End::Message(format!("cannot write: {error}")),
        }
    }
}

const CHECK_FAILED: u8 = 1;
const BAD_INPUT: u8 = 2;

fn main() -> ExitCode {
    let arguments: Result<Vec<String>, _> =
        std::env::args_os().skip(1).map(std::ffi::OsString::into_string).collect();
    let status = match arguments {
        Ok(arguments) => command(&arguments),
        Err(argument) => Err(End::Message(format!("not UTF-8: {}", argument.to_string_lossy()))),
    };
    match status {
        Ok(status) => ExitCode::from(status),
        Err(End::Closed) => ExitCode::SUCCESS,
        Err(End::Message(message)) => {
            // Should standard error be closed, there is nothing left to say.
            let _ = writeln!(io::stderr(), "lab: {message}");
            ExitCode::from(BAD_INPUT)
        }
    }
}

/// The arguments of a command.
#[derive(Default)]
struct Arguments {
    file: Option<String>,
    out: Option<String>,
    form: Option<Form>,
    detail: Option<Detail>,
    no_advice: bool,
    help: bool,
}

impl Arguments {
    fn read(command: &str, words: &[String]) -> Result<Arguments, String> {
        let mut arguments = Arguments::default();
        let mut words = words.iter();
        let usage = |message: String| format!("{message}; 'lab {command} --help' says more");
        while let Some(word) = words.next() {
            let mut value = |name: &str| {
                let missing = || usage(format!("expected {name} behind {word}"));
                words.next().cloned().ok_or_else(missing)
            };
            match (command, word.as_str()) {
                (_, "-h" | "--help") => arguments.help = true,
                (_, "--as") => {
                    arguments.form = Some(match value("text, hex or binary")?.as_str() {
                        "text" => Form::Text,
                        "hex" => Form::Hex,
                        "binary" => Form::Binary,
                        other => {
                            return Err(usage(format!(
                                "--as {other}: expected text, hex or binary"
                            )))
                        }
                    });
                }
                ("asm" | "text" | "timeline", "-o") => arguments.out = Some(value("a file")?),
                ("run", "--all") => arguments.detail = Some(Detail::All),
                ("run", "--lines") => arguments.detail = Some(Detail::Lines),
                ("run", "--no-advice") => arguments.no_advice = true,
                (_, word) if word.starts_with('-') && word != input::STANDARD_INPUT => {
                    return Err(usage(format!("unknown switch {word}")));
                }
                _ if arguments.file.is_some() => {
                    return Err(usage(format!("expected one file, found {word} as well")));
                }
                _ => arguments.file = Some(word.clone()),
            }
        }
        if arguments.file.is_none() && !arguments.help {
            return Err(usage("expected a file".to_string()));
        }
        Ok(arguments)
    }

    fn session(&self) -> Result<(Source, Session), String> {
        input::read(self.file.as_deref().unwrap_or(input::STANDARD_INPUT), self.form)
    }
}

/// What comes of a session, or a message that points into its source.
fn located<T>(source: &Source, result: Result<T, Error>) -> Result<T, String> {
    result.map_err(|error| source.message(error.place, &error.message))
}

/// A command: it answers the exit status.
type Run = fn(&Arguments) -> Result<u8, End>;

/// The exit status.
fn command(words: &[String]) -> Result<u8, End> {
    let name = words.first().map_or("", String::as_str);
    let (command, help): (Run, &str) = match name {
        "run" => (run_command, RUN_HELP),
        "asm" => (asm_command, ASM_HELP),
        "text" => (text_command, TEXT_HELP),
        "timeline" => (timeline_command, TIMELINE_HELP),
        "-h" | "--help" | "help" => {
            writeln!(io::stdout(), "{HELP}")?;
            return Ok(0);
        }
        "" => return Err(End::Message("expected a command; 'lab --help' names them".to_string())),
        other => {
            let expected = "expected run, asm, text or timeline";
            return Err(End::Message(format!("{expected}, found {other}; 'lab --help' says more")));
        }
    };
    let arguments = Arguments::read(name, &words[1..])?;
    if arguments.help {
        writeln!(io::stdout(), "{help}\n{}", text::LANGUAGE)?;
        return Ok(0);
    }
    command(&arguments)
}

fn run_command(arguments: &Arguments) -> Result<u8, End> {
    let (source, session) = arguments.session()?;
    let session = located(&source, asm::resolve(&session))?;
    let detail = arguments.detail.unwrap_or(Detail::First);
    let telling = Telling { detail, advice: !arguments.no_advice };
    let mut out = BufWriter::new(io::stdout().lock());
    let outcome = run::run(&source, &session, telling, &mut out)?;
    out.flush()?;
    Ok(match outcome {
        _ if outcome.fault => BAD_INPUT,
        _ if outcome.failed_checks > 0 => CHECK_FAILED,
        _ => 0,
    })
}

/// A session with a fault has no text and no whole binary.
fn without_fault(source: &Source, session: &Session) -> Result<(), String> {
    match &session.fault {
        None => Ok(()),
        Some(fault) => {
            let message = format!("fault {}: {}", fault.number, words::fault(fault.number));
            Err(source.message(fault.place, &message))
        }
    }
}

fn asm_command(arguments: &Arguments) -> Result<u8, End> {
    let out = arguments
        .out
        .as_deref()
        .ok_or_else(|| "expected -o and a file; 'lab asm --help' says more".to_string())?;
    let (source, session) = arguments.session()?;
    without_fault(&source, &session)?;
    input::write(out, &located(&source, asm::assemble(&session))?)?;
    Ok(0)
}

fn text_command(arguments: &Arguments) -> Result<u8, End> {
    let (source, session) = arguments.session()?;
    let session = located(&source, asm::resolve(&session))?;
    let mut content = Vec::new();
    show::text(&session, &mut content)?;
    input::write(arguments.out.as_deref().unwrap_or(input::STANDARD_INPUT), &content)?;
    without_fault(&source, &session)?;
    Ok(0)
}

fn timeline_command(arguments: &Arguments) -> Result<u8, End> {
    let (source, session) = arguments.session()?;
    let session = located(&source, asm::resolve(&session))?;
    let timeline = Timeline::of(&session);
    match &arguments.out {
        Some(out) => {
            let name = arguments.file.as_deref().map(Path::new).and_then(Path::file_name);
            let name = name.map_or(String::new(), |name| name.to_string_lossy().into_owned());
            input::write(out, timeline::svg(&timeline, &name).as_bytes())?;
        }
        None => {
            let mut out = BufWriter::new(io::stdout().lock());
            timeline::text(&timeline, &mut out)?;
            out.flush()?;
        }
    }
    without_fault(&source, &session)?;
    Ok(0)
}
