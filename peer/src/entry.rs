//! The entries of a log.

use crate::bytes::{Bytes, Reader};
use crate::council::Members;
use crate::store::{Asked, Refusal, Request, SHELVES};
use std::fmt;

/// A request, or the close of a council with the members of the next.
#[derive(Clone, Copy, Debug, PartialEq, Eq)]
pub enum Entry {
    Request(Request),
    Close(Members),
}

const REQUEST: u8 = 1;
const CLOSE: u8 = 2;

const PUT: u8 = 1;
const TAKE: u8 = 2;
const LOOK: u8 = 3;

impl Bytes for Entry {
    fn read(reader: &mut Reader) -> Result<Self, Refusal> {
        match reader.u8()? {
            REQUEST => read_request(reader).map(Entry::Request),
            CLOSE => Members::read(reader).map(Entry::Close),
            _ => Err(Refusal::Malformed),
        }
    }

    fn write(&self, out: &mut Vec<u8>) {
        match self {
            Entry::Request(request) => {
                out.push(REQUEST);
                write_request(request, out);
            }
            Entry::Close(members) => {
                out.push(CLOSE);
                members.write(out);
            }
        }
    }
}

fn read_request(reader: &mut Reader) -> Result<Request, Refusal> {
    let (client, number) = (reader.u8()?, reader.u32()?);
    let (asked, key) = (reader.u8()?, reader.u16()?);
    reader.require(usize::from(key) < SHELVES);
    let asked = match asked {
        PUT => Asked::Put(reader.u32()?),
        TAKE => Asked::Take(reader.u32()?),
        LOOK => Asked::Look,
        _ => return Err(Refusal::Malformed),
    };
    Ok(Request {
        client,
        number,
        key,
        asked,
    })
}

fn write_request(request: &Request, out: &mut Vec<u8>) {
    let (asked, amount) = match request.asked {
        Asked::Put(value) => (PUT, Some(value)),
        Asked::Take(amount) => (TAKE, Some(amount)),
        Asked::Look => (LOOK, None),
    };
    out.push(request.client);
    out.extend(request.number.to_be_bytes());
    out.push(asked);
    out.extend(request.key.to_be_bytes());
    out.extend(amount.into_iter().flat_map(u32::to_be_bytes));
}

impl fmt::Display for Entry {
    fn fmt(&self, f: &mut fmt::Formatter<'_>) -> fmt::Result {
        match self {
            Entry::Request(request) => request.fmt(f),
            Entry::Close(members) => write!(f, "close {members}"),
        }
    }
}

#[cfg(test)]
mod tests {
    use super::*;
    use crate::hex;

    fn read(word: &str) -> Result<Entry, Refusal> {
        Entry::from_bytes(&hex::read(word.as_bytes()).expect("hex"))
    }

    #[test]
    fn the_examples_of_the_document() {
        let examples = [
            ("01010000010201000700000005", "1 258 put 7 5"),
            ("01ff000000010203ffffffffff", "255 1 take 1023 4294967295"),
            ("010000000003030014", "0 3 look 20"),
            ("0203010203", "close 1,2,3"),
        ];
        for (word, text) in examples {
            let entry = read(word).expect(text);
            assert_eq!(entry.to_string(), text);
            assert_eq!(hex::write(&entry.to_bytes()), word.as_bytes());
        }
        let put = Request {
            client: 1,
            number: 258,
            key: 7,
            asked: Asked::Put(5),
        };
        assert_eq!(read(examples[0].0), Ok(Entry::Request(put)));
        for word in ["0200", "02020101", "02020201", "020110"] {
            assert_eq!(read(word), Err(Refusal::OutOfRange), "{word}");
        }
        let too_many = format!("0211{}", "00".repeat(17));
        assert_eq!(read(&too_many), Err(Refusal::Malformed));
    }

    #[test]
    fn form_and_range() {
        let malformed = [
            "",
            "00",
            "030001",
            "010000000003000014",
            "010000000003040014",
            "01000000000303001400000000",
            "0101000001020100070000000500",
            "01010000010202ffff000005",
            "02020101ff",
        ];
        for word in malformed {
            let bytes = hex::read(word.as_bytes()).unwrap_or_default();
            assert_eq!(Entry::from_bytes(&bytes), Err(Refusal::Malformed), "{word}");
        }
        assert!(read("0100000000030303ff").is_ok());
        for word in ["010000000003030400", "01000000000301ffff00000000"] {
            assert_eq!(read(word), Err(Refusal::OutOfRange), "{word}");
        }
    }
}
