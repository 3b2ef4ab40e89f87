//! Sessions as bytes: the bench's binary format and the commented hex of it,
//! read with the place of each record, and written.

use crate::record::{Fault, Item, Record, Session, Step, MEMORY_RECORD};
use crate::source::{Error, Place};

const VERSION: u8 = 1;

/// The bytes of commented hex, with the place of each: pairs of hex digits,
/// blanks anywhere, comments from `#` to the end of the line.
pub fn from_hex(text: &str) -> Result<(Vec<u8>, Vec<Place>), Error> {
    let (mut bytes, mut places) = (Vec::new(), Vec::new());
    let mut high: Option<(u8, Place)> = None;
    for (line, content) in (1..).zip(text.lines()) {
        for (column, character) in (1..).zip(content.chars()) {
            let place = Place::At { line, column };
            if character == '#' {
                break;
            }
            if character.is_whitespace() {
                continue;
            }
            let digit = character.to_digit(16).ok_or_else(|| {
                let expected = "expected a hex digit, a blank or a comment by '#'";
                Error::new(place, format!("{expected}, found '{character}'"))
            })? as u8;
            high = match high {
                None => Some((digit, place)),
                Some((first, start)) => {
                    bytes.push(first << 4 | digit);
                    places.push(start);
                    None
                }
            };
        }
    }
    match high {
        None => Ok((bytes, places)),
        Some((_, place)) => Err(Error::new(place, "expected a second hex digit: bytes have two")),
    }
}

/// The session in commented hex.
pub fn hex_session(text: &str) -> Result<Session, Error> {
    let (bytes, places) = from_hex(text)?;
    // What is missing at the end is missing behind the last line.
    let end = Place::At { line: text.lines().count().max(1) as u32, column: 1 };
    Ok(session(&bytes, |byte| places.get(byte).copied().unwrap_or(end)))
}

/// The session in binary.
pub fn binary_session(bytes: &[u8]) -> Session {
    session(bytes, |byte| Place::Byte(byte as u64))
}

/// Its records up to the first fault.
fn session(bytes: &[u8], place: impl Fn(usize) -> Place) -> Session {
    let mut session = Session::default();
    let mut fault = |number, byte| session.fault = Some(Fault { number, place: place(byte) });
    if bytes.first() != Some(&VERSION) {
        fault(20, 0);
        return session;
    }
    let mut at = 1;
    let mut items = Vec::new();
    while at < bytes.len() {
        match record(&bytes[at..]) {
            Ok((record, length)) => {
                items.push(Item { place: place(at), step: Step::Record(record) });
                at += length;
            }
            Err(number) => {
                fault(number, at);
                break;
            }
        }
    }
    session.items = items;
    session
}

/// The record that these bytes, one at least, begin with, and how many bytes
/// it takes; or the fault's number.
fn record(bytes: &[u8]) -> Result<(Record, usize), u8> {
    const CUT_SHORT: u8 = 21;
    const WRONG: u8 = 22;
    let length = match bytes {
        [high, low, ..] => usize::from(u16::from_be_bytes([*high, *low])),
        _ => return Err(CUT_SHORT),
    };
    let content = bytes.get(2..2 + length).ok_or(CUT_SHORT)?;
    let record = match *content {
        [1, high, low, byte] => Record::Write { port: u16::from_be_bytes([high, low]), byte },
        [2, high, low] => Record::Read { port: u16::from_be_bytes([high, low]) },
        [3, a, b, c, d] => Record::Grant { clocks: u32::from_be_bytes([a, b, c, d]) },
        [4, high, low, ref data @ ..] if (1..=MEMORY_RECORD).contains(&data.len()) => {
            Record::Memory { address: u16::from_be_bytes([high, low]), bytes: data.to_vec() }
        }
        _ => return Err(WRONG),
    };
    Ok((record, 2 + length))
}

/// The binary session with these records.
pub fn to_bytes<'a>(records: impl Iterator<Item = &'a Record>) -> Vec<u8> {
    let mut bytes = vec![VERSION];
    for record in records {
        let content = match record {
            Record::Write { port, byte } => [&[1][..], &port.to_be_bytes(), &[*byte]].concat(),
            Record::Read { port } => [&[2][..], &port.to_be_bytes()].concat(),
            Record::Grant { clocks } => [&[3][..], &clocks.to_be_bytes()].concat(),
            Record::Memory { address, bytes } => [&[4][..], &address.to_be_bytes(), bytes].concat(),
        };
        bytes.extend((content.len() as u16).to_be_bytes());
        bytes.extend(content);
    }
    bytes
}

#[cfg(test)]
mod tests {
    use super::*;

    #[test]
    fn the_sample_is_read_with_its_places() {
        let session =
            hex_session("# sample\n01\n0005 03 0000000A # grant\n0003 02 006B\n").unwrap();
        let places: Vec<Place> = session.items.iter().map(|item| item.place).collect();
        let at = |line| Place::At { line, column: 1 };
        assert_eq!(places, [at(3), at(4)]);
        let records = [Record::Grant { clocks: 10 }, Record::Read { port: 0x6B }];
        assert!(session.records().eq(&records));
        assert_eq!(session.fault, None);
    }

    #[test]
    fn what_is_not_hex_is_named() {
        let error = hex_session("01\n00 0G").unwrap_err();
        assert_eq!(error.place, Place::At { line: 2, column: 5 });
        assert!(error.message.ends_with("found 'G'"), "{}", error.message);
        let error = hex_session("01 0 # odd").unwrap_err();
        assert_eq!(error.place, Place::At { line: 1, column: 4 });
    }

    #[test]
    fn faults_come_in_their_order() {
        let fault = |bytes: &[u8]| binary_session(bytes).fault.map(|fault| fault.number);
        assert_eq!(fault(&[]), Some(20));
        assert_eq!(fault(&[2, 0, 0]), Some(20));
        assert_eq!(fault(&[1]), None);
        assert_eq!(fault(&[1, 0]), Some(21));
        assert_eq!(fault(&[1, 0, 0]), Some(22));
        assert_eq!(fault(&[1, 0, 9, 7]), Some(21));
        assert_eq!(fault(&[1, 0, 1, 7]), Some(22));
        assert_eq!(fault(&[1, 0, 3, 4, 0x10, 0]), Some(22));
    }
}
