//! `lab timeline`: its text and its picture, and that both tell what the trace
//! tells, however long a session is.

#[path = "../../../docs/src/generate.rs"]
mod generate;

use generate::Rng;
use lab::asm::resolve;
use lab::bytes::binary_session;
use lab::input::{self, Form};
use lab::record::{Item, Record, Session, Step};
use lab::source::Place;
use lab::timeline::{self, Call, Entry, Timeline, MOST_ENTRIES};
use lab::trace::{Event, Kind, Trace};
use std::fs;
use std::path::{Path, PathBuf};

/// What `lab timeline --help` promises of a picture.
const MOST_BYTES: usize = 64 * 1024;
/// More clocks than this are not looked at singly.
const MOST_CLOCKS: u64 = 60_000;

fn root() -> PathBuf {
    Path::new(env!("CARGO_MANIFEST_DIR")).join("../..")
}

fn no_files(_: &str) -> Result<Vec<u8>, String> {
    Err("no files in this test".to_string())
}

fn from_text(content: &str) -> Session {
    let read = input::session("session", Form::Text, content.as_bytes(), &no_files);
    let (_, session) = read.unwrap_or_else(|message| panic!("{message}"));
    resolve(&session).expect("blocks that end")
}

fn from_records(records: Vec<Record>) -> Session {
    let item = |record| Item { place: Place::Byte(0), step: Step::Record(record) };
    Session { items: records.into_iter().map(item).collect(), fault: None }
}

fn shown(session: &Session) -> String {
    let mut out = Vec::new();
    timeline::text(&Timeline::of(session), &mut out).expect("a vector takes all");
    String::from_utf8(out).expect("text is text")
}

fn picture(session: &Session) -> String {
    timeline::svg(&Timeline::of(session), "session")
}

// ---- Text ----------------------------------------------------------------

const LEGEND: &str = "\
Who had the bus, one slot a row, a sign a clock; in front the clocks passed.
# bus   * bus, and a byte moves   = held   . CPU
| records: port accesses and memory   ! refusals among them

";

fn is_shown(name: &str, expected: &str) {
    let path = root().join("docs/sessions").join(name).with_extension("hex");
    let (_, session) = input::read(path.to_str().expect("UTF-8"), None).expect(name);
    assert_eq!(shown(&session), format!("{LEGEND}{expected}"), "{name}");
}

#[test]
fn stored_sessions_are_shown() {
    is_shown(
        "P1",
        "    0  | 1 memory, 2 to 17 writes
    0  ###*
    4  ###*
    8  ###*
   12  ###*  block ends, disabled
   16  | 19 to 26 reads, 27 write, 28 to 29 reads

Clocks: 16 bus, 0 held, 0 CPU
Moved: 4 bytes; 1 block end, 0 restarts; 0 refused
",
    );
    is_shown(
        "P3",
        "    0  | 1 memory, 2 to 17 writes
    0  ###
    3  ! 19 to 20 refused with 3

Clocks: 3 bus, 0 held, 0 CPU
Moved: 0 bytes; 0 block ends, 0 restarts; 2 refused
",
    );
    is_shown(
        "P4",
        "    0  | 1 memory, 2 to 18 writes
    0  ###*............................
   32  ###*............................
   64  ###*............................  block ends, disabled
   96  | 20 to 26 reads, 27 write, 28 read

Clocks: 12 bus, 0 held, 84 CPU
Moved: 3 bytes; 1 block end, 0 restarts; 0 refused
",
    );
    is_shown(
        "P4long",
        "    0  | 1 memory, 2 to 18 writes
    0  ###*[1,756 CPU]
1,760  ###*[1,756 CPU]
3,520  ###*[1,756 CPU]  block ends, disabled
5,280  | 20 to 26 reads, 27 write, 28 read

Clocks: 12 bus, 0 held, 5,268 CPU
Moved: 3 bytes; 1 block end, 0 restarts; 0 refused
",
    );
    is_shown(
        "P5",
        "    0  | 1 memory, 2 to 18 writes
    0  ###*============================
   32  ###*============================
   64  ###*============================  block ends, disabled
   96  | 20 to 26 reads, 27 write, 28 read

Clocks: 12 bus, 84 held, 0 CPU
Moved: 3 bytes; 1 block end, 0 restarts; 0 refused
",
    );
    is_shown(
        "P12",
        "    0  ! 1 memory, 2 to 3 refused with 2, 4 to 19 writes
    0  ! 20 to 22 refused with 2, 23 to 24 refused with 3
    0  ###*
    4  ###*
    8  ###*
   12  ###*  block ends, disabled
   16  ! 26 to 27 refused with 2, 28 to 34 reads, 35 write, 36 read

Clocks: 16 bus, 0 held, 0 CPU
Moved: 4 bytes; 1 block end, 0 restarts; 9 refused
",
    );
    is_shown(
        "fault21_bare",
        "    0  ..........
   10  fault 21: a record is cut short, in its length or behind it

Clocks: 0 bus, 0 held, 10 CPU
Moved: 0 bytes; 0 block ends, 0 restarts; 0 refused
",
    );
}

/// What follows an access keeps to the columns of its slot.
#[test]
fn accesses_cut_rows() {
    let session = from_text(
        "otir $6B
         db $83, $7D, 0, $10, 2, 0, $54, 2, $50, $22, 1, $CD, 0, $20, $82, $CF, $87
         run 10
         in $6B
         run 12
         in $6C
         run 11
         in $6B
         run 100
         mem 0: 1
         run 4
         run 3000",
    );
    let expected = "    0  | 1 to 17 writes
    0  ###*......
   10  | 19 read
   10            ............
   22  ! 21 refused with 2
   22                        ..........
   32  #
   33  ! 23 refused with 3
   33   ##*............................  block ends, disabled
   64  [69 CPU]
  133  | 25 memory
  133  [3,004 CPU]

Clocks: 8 bus, 0 held, 3,129 CPU
Moved: 2 bytes; 1 block end, 0 restarts; 2 refused
";
    assert_eq!(shown(&session), format!("{LEGEND}{expected}"));
}

/// The stored picture is what the example gives, so that a change of it is
/// seen; `lab timeline tests/timeline.txt -o tests/timeline.svg` makes it.
#[test]
fn the_example_gives_its_picture() {
    let folder = Path::new(env!("CARGO_MANIFEST_DIR")).join("tests");
    let content = fs::read_to_string(folder.join("timeline.txt")).expect("timeline.txt");
    let stored = fs::read_to_string(folder.join("timeline.svg")).expect("timeline.svg");
    let made = timeline::svg(&Timeline::of(&from_text(&content)), "timeline.txt");
    assert!(made == stored, "another picture than rust/lab/tests/timeline.svg");
}

// ---- What the trace tells ------------------------------------------------

/// A session's clocks one by one.
#[derive(Default)]
struct Clocks {
    kinds: Vec<Kind>,
    moves: Vec<bool>,
    refused: u64,
}

fn clocks_of(session: &Session) -> Clocks {
    let mut clocks = Clocks::default();
    let mut trace = Trace::default();
    for record in session.records() {
        trace.step(record, &mut |event| match event {
            Event::Record { reply, .. } => clocks.refused += u64::from(reply.number != 0),
            Event::Span(span) => {
                clocks.kinds.extend((0..span.clocks).map(|_| span.kind));
                clocks.moves.resize(clocks.kinds.len(), false);
            }
            Event::Move(moved) => clocks.moves[moved.clock as usize - 1] = true,
            _ => {}
        });
    }
    clocks
}

/// Each entry begins where the one before it ends and tells of the clocks
/// there; together they tell of all.
fn tells_all(session: &Session, entries: &[Entry]) {
    let clocks = clocks_of(session);
    let count = |kind: Kind, from: usize, to: usize| -> u64 {
        clocks.kinds[from..to].iter().filter(|found| **found == kind).count() as u64
    };
    let (mut at, mut refused) = (0, 0);
    for entry in entries {
        match entry {
            Entry::Run(run) => {
                assert_eq!(run.clock, at as u64);
                for _ in 0..run.count {
                    let piece = run.piece;
                    let wait = at + piece.bus as usize;
                    let end = wait + piece.wait as usize;
                    assert!(clocks.kinds[at..wait].iter().all(|kind| *kind == Kind::Bus));
                    assert!(clocks.kinds[wait..end].iter().all(|kind| *kind == piece.waiting));
                    let moves = (at..end).filter(|clock| clocks.moves[*clock]);
                    assert!(moves.eq((piece.moves).then(|| wait - 1)));
                    at = end;
                }
            }
            Entry::Access(access) => {
                assert_eq!(access.clock, at as u64);
                let calls = access.calls.iter().filter(|c| matches!(c.call, Call::Refused(_)));
                let named: u64 = calls.map(|c| (c.last - c.first + 1) as u64).sum();
                assert!(named == access.refused || access.more > 0);
                refused += access.refused;
            }
            Entry::Again { clock, start, period, times, tally, .. } => {
                assert_eq!(*clock, at as u64);
                let (start, period) = (*start as usize, *period as usize);
                for _ in 0..*times {
                    let (first, again) = (start..start + period, at..at + period);
                    assert!(clocks.kinds[first.clone()] == clocks.kinds[again.clone()]);
                    assert!(clocks.moves[first] == clocks.moves[again]);
                    at += period;
                }
                assert_eq!(at as u64 - clock, tally.bus + tally.held + tally.cpu);
                refused += tally.refused;
            }
            Entry::Left { clock, tally } => {
                assert_eq!(*clock, at as u64);
                let end = at + (tally.bus + tally.held + tally.cpu) as usize;
                assert_eq!(tally.bus, count(Kind::Bus, at, end));
                assert_eq!(tally.held, count(Kind::Held, at, end));
                let moves = clocks.moves[at..end].iter().filter(|moved| **moved).count();
                assert_eq!(tally.moves, moves as u64);
                at = end;
                refused += tally.refused;
            }
        }
    }
    assert_eq!((at, refused), (clocks.kinds.len(), clocks.refused));
}

fn total_clocks(session: &Session) -> u64 {
    let clocks = session.records().map(|record| match record {
        Record::Grant { clocks } => u64::from(*clocks),
        _ => 0,
    });
    clocks.sum()
}

#[test]
fn entries_tell_of_every_clock() {
    let (mut tried, mut again, mut left) = (0, 0, 0);
    for number in 0..1_500 {
        let session = binary_session(&generate::session(&mut Rng::numbered(21, number)));
        if total_clocks(&session) > MOST_CLOCKS {
            continue;
        }
        let made = Timeline::of(&session);
        assert!(made.entries.len() <= MOST_ENTRIES);
        tells_all(&session, &made.entries);
        tried += 1;
        again += made.entries.iter().filter(|e| matches!(e, Entry::Again { .. })).count();
        left += made.entries.iter().filter(|e| matches!(e, Entry::Left { .. })).count();
    }
    for session in [polled(300), irregular(400)] {
        let made = Timeline::of(&session);
        tells_all(&session, &made.entries);
        again += made.entries.iter().filter(|e| matches!(e, Entry::Again { .. })).count();
        left += made.entries.iter().filter(|e| matches!(e, Entry::Left { .. })).count();
    }
    assert!(tried > 500 && again > 10 && left > 1, "too little tried: {tried}, {again}, {left}");
}

// ---- Long sessions -------------------------------------------------------

/// The writes that start a transfer of so many bytes; with its prescaler, WR4
/// and WR5.
fn start(length: u16, prescaler: u8, wr4: u8, wr5: u8) -> Vec<Record> {
    let [low, high] = length.to_le_bytes();
    let bytes = [0x83, 0x7D, 0, 0x10, low, high, 0x54, 2, 0x50, 0x22, prescaler, wr4, 0, 0x20, wr5];
    let write = |byte| Record::Write { port: 0x6B, byte };
    bytes.into_iter().chain([0xCF, 0x87]).map(write).collect()
}

const CONTINUOUS: u8 = 0xAD;
const BURST: u8 = 0xCD;
const RESTARTS: u8 = 0xA2;

fn grant(clocks: u32) -> Record {
    Record::Grant { clocks }
}

/// A program that asks for the status again and again.
fn polled(times: usize) -> Session {
    let mut records = start(9, 1, BURST, RESTARTS);
    for _ in 0..times {
        records.extend([grant(20), Record::Read { port: 0x6B }, grant(12)]);
    }
    from_records(records)
}

/// One in which nothing comes again: most of it has no room.
fn irregular(times: u32) -> Session {
    let mut rng = Rng::new(5);
    let mut records = start(9, 2, BURST, RESTARTS);
    for _ in 0..times {
        records.push(grant(rng.between(1, 200)));
        for _ in 0..rng.between(1, 3) {
            records.push(Record::Read { port: rng.pick(&[0x6B, 0x6C]) });
        }
    }
    from_records(records)
}

#[test]
fn what_comes_again_is_folded() {
    let entries = Timeline::of(&polled(300)).entries;
    assert!(entries.len() < 40, "{} entries", entries.len());
    let mut records = start(100, 0, CONTINUOUS, RESTARTS);
    records.push(grant(400_000));
    let entries = Timeline::of(&from_records(records)).entries;
    // Writes, the first block, those like it, and the last one.
    assert_eq!(entries.len(), 4, "{entries:?}");
    assert!(matches!(entries[2], Entry::Again { times: 998, start: 0, period: 400, .. }));
}

/// Every session's picture is small.
#[test]
fn pictures_are_bounded() {
    let mut sessions = vec![polled(20_000), irregular(20_000)];
    for (prescaler, wr4, clocks) in [
        // A million moves and more; 100,000,000 clocks.
        (0, CONTINUOUS, 5_000_000),
        (55, BURST, 100_000_000),
        (255, CONTINUOUS, 100_000_000),
    ] {
        let mut records = start(0xFFFF, prescaler, wr4, RESTARTS);
        records.push(grant(clocks));
        sessions.push(from_records(records));
    }
    // As many slots for each access as are drawn, to scale, and none of it
    // comes again.
    for (prescaler, wr4) in [(2, BURST), (2, CONTINUOUS), (1, BURST), (0, CONTINUOUS)] {
        for blocks in 1..=8 {
            let mut records = start(4, prescaler, wr4, RESTARTS);
            let slot = if prescaler == 0 { 4 } else { 32 * u32::from(prescaler) };
            for more in 0..200 {
                records.push(grant(4 * slot * blocks + 1 + more));
                records.extend([0x6B, 0x6C, 0x6B, 0x6C].map(|port| Record::Read { port }));
            }
            sessions.push(from_records(records));
        }
    }
    // Records at one clock that never did the same twice.
    let ports = [0x6B, 0x6C].iter().cycle().take(100_000);
    sessions.push(from_records(ports.map(|port| Record::Read { port: *port }).collect()));
    let mut largest = 0;
    for session in &sessions {
        let picture = picture(session);
        is_well_formed(&picture);
        largest = largest.max(picture.len());
        assert!(shown(session).lines().count() < 300);
    }
    assert!(largest < MOST_BYTES, "{largest} bytes");
}

// ---- Pictures ------------------------------------------------------------

/// A small reader of XML: elements are closed in their order, attributes are
/// quoted and come once, text has no bare signs; and what the picture promises
/// of itself: no script, no link, no number with a fraction.
fn is_well_formed(picture: &str) {
    let mut open: Vec<&str> = Vec::new();
    let mut rest = picture;
    let mut elements = 0;
    while let Some(start) = rest.find('<') {
        is_text(&rest[..start]);
        let end = start + rest[start..].find('>').expect("a tag ends");
        let tag = &rest[start + 1..end];
        rest = &rest[end + 1..];
        if let Some(name) = tag.strip_prefix('/') {
            assert_eq!(open.pop(), Some(name));
            continue;
        }
        assert!(elements == 0 || !open.is_empty(), "more than one root");
        elements += 1;
        let (content, closed) = match tag.strip_suffix('/') {
            Some(content) => (content, true),
            None => (tag, false),
        };
        let (name, attributes) = content.split_once(' ').unwrap_or((content, ""));
        const NAMES: [&str; 10] =
            ["svg", "title", "desc", "defs", "pattern", "rect", "path", "circle", "g", "text"];
        assert!(NAMES.contains(&name), "{name}");
        are_attributes(attributes);
        if !closed {
            open.push(name);
        }
    }
    assert!(open.is_empty() && elements > 10, "{open:?} left open");
    assert_eq!(rest, "\n");
    assert!(picture.starts_with("<svg xmlns=\"http://www.w3.org/2000/svg\""));
    assert!(picture.contains("<title id=\"title\">") && picture.contains("<desc id=\"desc\">"));
    assert_eq!(picture.matches("://").count(), 1, "a link besides the name space");
}

fn is_text(text: &str) {
    assert!(!text.contains('>'), "{text}");
    assert!(!text.contains(|c: char| c.is_control() && c != '\n'), "{text:?}");
    for (at, _) in text.match_indices('&') {
        const NAMED: [&str; 4] = ["&amp;", "&lt;", "&gt;", "&quot;"];
        assert!(NAMED.iter().any(|name| text[at..].starts_with(name)), "{text}");
    }
}

fn are_attributes(attributes: &str) {
    let mut names: Vec<&str> = Vec::new();
    let mut rest = attributes.trim_end();
    while !rest.is_empty() {
        let (name, behind) = rest.split_once("=\"").expect("an attribute has a value");
        let (value, behind) = behind.split_once('"').expect("a value ends");
        assert!(!names.contains(&name), "{name} twice in {attributes}");
        assert!(name.chars().all(|c| c.is_ascii_alphabetic() || c == '-'), "{name}");
        assert!(!value.contains('<'), "{value}");
        assert!(!name.starts_with("on") && !name.ends_with("href"), "{name}");
        assert!(name == "xmlns" || !value.contains('.'), "{value} is not whole");
        is_text(value);
        names.push(name);
        rest = behind.trim_start();
    }
}

#[test]
fn pictures_are_well_formed() {
    for entry in fs::read_dir(root().join("docs/sessions")).expect("docs/sessions") {
        let path = entry.expect("an entry").path();
        if path.extension().map_or(false, |extension| extension == "hex") {
            let name = path.to_str().expect("UTF-8");
            let (_, session) = input::read(name, None).expect(name);
            is_well_formed(&picture(&session));
        }
    }
    let nothing = picture(&Session::default());
    is_well_formed(&nothing);
    assert!(nothing.contains("no clock passed"));
}

#[test]
fn a_name_is_escaped() {
    let timeline = Timeline::of(&polled(3));
    let name = "a<b>&\"c\"\u{7}\u{FFFE}]]>";
    let picture = timeline::svg(&timeline, name);
    is_well_formed(&picture);
    let title = "Who had the bus: a&lt;b&gt;&amp;&quot;c&quot;??]]&gt;";
    assert!(picture.contains(&format!("<title id=\"title\">{title}</title>")));
    is_well_formed(&timeline::svg(&timeline, &"&".repeat(5_000)));
}

/// Sessions with some damage, as far as they can be read.
#[test]
fn no_timeline_panics() {
    let mut shown = 0;
    for number in 0..4_000 {
        let mut rng = Rng::numbered(23, number);
        let mut bytes = generate::session(&mut rng);
        for _ in 0..rng.between(1, 6) {
            let at = rng.below(bytes.len() as u32 + 1) as usize;
            match rng.below(3) {
                0 => bytes.truncate(at),
                1 if at < bytes.len() => bytes[at] = rng.byte(),
                _ => bytes.insert(at, rng.byte()),
            }
        }
        let session = binary_session(&bytes);
        if total_clocks(&session) > MOST_CLOCKS {
            continue;
        }
        let timeline = Timeline::of(&session);
        let picture = timeline::svg(&timeline, "damaged");
        is_well_formed(&picture);
        assert!(picture.len() < MOST_BYTES);
        timeline::text(&timeline, &mut Vec::new()).expect("a vector takes all");
        shown += 1;
    }
    assert!(shown > 1_000, "hardly anything was shown: {shown}");
}
