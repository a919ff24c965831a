//! The messages between stations.

use crate::bytes::{Bytes, Reader, within, write_list};
use crate::council::{Members, Station};
use crate::entry::Entry;
use crate::page::Page;
use crate::store::Refusal;
use std::fmt;

/// How many entries a log has at most.
pub const LOG: usize = 4096;

#[derive(Clone, Debug, PartialEq, Eq)]
pub enum Message {
    Ask(Ask),
    Promise(Promise),
    Part(Part),
    Took(Took),
    Begin(Box<Begin>),
}

const ASK: u8 = 3;
const PROMISE: u8 = 4;
const PART: u8 = 5;
const TOOK: u8 = 6;
const BEGIN: u8 = 7;

#[derive(Clone, Debug, PartialEq, Eq)]
pub struct Ask {
    pub term: u16,
    pub ballot: u32,
}

#[derive(Clone, Debug, PartialEq, Eq)]
pub struct Promise {
    pub term: u16,
    pub ballot: u32,
    pub from: Station,
    /// The ballot of the log.
    pub had: u32,
    pub log: Vec<Entry>,
}

#[derive(Clone, Debug, PartialEq, Eq)]
pub struct Part {
    pub term: u16,
    pub ballot: u32,
    /// Where in the log the first entry stands.
    pub place: u16,
    pub entries: Vec<Entry>,
}

#[derive(Clone, Debug, PartialEq, Eq)]
pub struct Took {
    pub term: u16,
    pub ballot: u32,
    pub from: Station,
    /// How many entries were taken.
    pub count: u16,
}

#[derive(Clone, Debug, PartialEq, Eq)]
pub struct Begin {
    pub term: u16,
    pub members: Members,
    pub page: Page,
}

/// A byte for the kind, and then the fields.
impl Bytes for Message {
    fn read(reader: &mut Reader) -> Result<Self, Refusal> {
        match reader.u8()? {
            ASK => Ask::read(reader).map(Message::Ask),
            PROMISE => Promise::read(reader).map(Message::Promise),
            PART => Part::read(reader).map(Message::Part),
            TOOK => Took::read(reader).map(Message::Took),
            BEGIN => Begin::read(reader).map(Box::new).map(Message::Begin),
            _ => Err(Refusal::Malformed),
        }
    }

    fn write(&self, out: &mut Vec<u8>) {
        match self {
            Message::Ask(ask) => write_kind(ASK, ask, out),
            Message::Promise(promise) => write_kind(PROMISE, promise, out),
            Message::Part(part) => write_kind(PART, part, out),
            Message::Took(took) => write_kind(TOOK, took, out),
            Message::Begin(begin) => write_kind(BEGIN, &**begin, out),
        }
    }
}

fn write_kind(kind: u8, fields: &impl Bytes, out: &mut Vec<u8>) {
    out.push(kind);
    fields.write(out);
}

/// The message as text: a first line, and under it the entries or rows that it carries.
impl fmt::Display for Message {
    fn fmt(&self, f: &mut fmt::Formatter<'_>) -> fmt::Result {
        match self {
            Message::Ask(ask) => ask.fmt(f),
            Message::Promise(promise) => promise.fmt(f),
            Message::Part(part) => part.fmt(f),
            Message::Took(took) => took.fmt(f),
            Message::Begin(begin) => begin.fmt(f),
        }
    }
}

impl Bytes for Ask {
    fn read(reader: &mut Reader) -> Result<Self, Refusal> {
        Ok(Ask {
            term: reader.u16()?,
            ballot: ballot(reader)?,
        })
    }

    fn write(&self, out: &mut Vec<u8>) {
        out.extend(self.term.to_be_bytes());
        out.extend(self.ballot.to_be_bytes());
    }
}

impl fmt::Display for Ask {
    fn fmt(&self, f: &mut fmt::Formatter<'_>) -> fmt::Result {
        let Ask { term, ballot } = self;
        writeln!(f, "ask term {term} ballot {ballot}")
    }
}

impl Bytes for Promise {
    fn read(reader: &mut Reader) -> Result<Self, Refusal> {
        Ok(Promise {
            term: reader.u16()?,
            ballot: reader.u32()?,
            from: Station::read(reader)?,
            had: reader.u32()?,
            log: reader.list(LOG)?,
        })
    }

    fn write(&self, out: &mut Vec<u8>) {
        out.extend(self.term.to_be_bytes());
        out.extend(self.ballot.to_be_bytes());
        self.from.write(out);
        out.extend(self.had.to_be_bytes());
        write_list(&self.log, out);
    }
}

impl fmt::Display for Promise {
    fn fmt(&self, f: &mut fmt::Formatter<'_>) -> fmt::Result {
        let (term, ballot, from) = (self.term, self.ballot, self.from);
        let (had, count) = (self.had, self.log.len());
        write!(f, "promise term {term} ballot {ballot} from {from} ")?;
        writeln!(f, "had {had} entries {count}")?;
        lines(&self.log, f)
    }
}

impl Bytes for Part {
    fn read(reader: &mut Reader) -> Result<Self, Refusal> {
        let (term, ballot, place) = (reader.u16()?, ballot(reader)?, place(reader)?);
        let entries = reader.list(LOG - usize::from(place))?;
        Ok(Part {
            term,
            ballot,
            place,
            entries,
        })
    }

    fn write(&self, out: &mut Vec<u8>) {
        out.extend(self.term.to_be_bytes());
        out.extend(self.ballot.to_be_bytes());
        out.extend(self.place.to_be_bytes());
        write_list(&self.entries, out);
    }
}

impl fmt::Display for Part {
    fn fmt(&self, f: &mut fmt::Formatter<'_>) -> fmt::Result {
        let (term, ballot) = (self.term, self.ballot);
        let (place, count) = (self.place, self.entries.len());
        writeln!(
            f,
            "part term {term} ballot {ballot} place {place} entries {count}"
        )?;
        lines(&self.entries, f)
    }
}

impl Bytes for Took {
    fn read(reader: &mut Reader) -> Result<Self, Refusal> {
        Ok(Took {
            term: reader.u16()?,
            ballot: ballot(reader)?,
            from: Station::read(reader)?,
            count: place(reader)?,
        })
    }

    fn write(&self, out: &mut Vec<u8>) {
        out.extend(self.term.to_be_bytes());
        out.extend(self.ballot.to_be_bytes());
        self.from.write(out);
        out.extend(self.count.to_be_bytes());
    }
}

impl fmt::Display for Took {
    fn fmt(&self, f: &mut fmt::Formatter<'_>) -> fmt::Result {
        let (term, ballot, from, count) = (self.term, self.ballot, self.from, self.count);
        writeln!(
            f,
            "took term {term} ballot {ballot} from {from} entries {count}"
        )
    }
}

impl Bytes for Begin {
    fn read(reader: &mut Reader) -> Result<Self, Refusal> {
        Ok(Begin {
            term: reader.u16()?,
            members: Members::read(reader)?,
            page: Page::read(reader)?,
        })
    }

    fn write(&self, out: &mut Vec<u8>) {
        out.extend(self.term.to_be_bytes());
        self.members.write(out);
        self.page.write(out);
    }
}

impl fmt::Display for Begin {
    fn fmt(&self, f: &mut fmt::Formatter<'_>) -> fmt::Result {
        let (term, members, before) = (self.term, self.members, self.page.before);
        writeln!(f, "begin term {term} members {members} before {before}")?;
        self.page.store.fmt(f)
    }
}

/// A ballot that may not be 0.
fn ballot(reader: &mut Reader) -> Result<u32, Refusal> {
    let ballot = reader.u32()?;
    reader.require(ballot > 0);
    Ok(ballot)
}

/// A place in a log or at its end.
fn place(reader: &mut Reader) -> Result<u16, Refusal> {
    let place = reader.u16()?;
    within(place.into(), LOG).map(|()| place)
}

fn lines(entries: &[Entry], f: &mut fmt::Formatter<'_>) -> fmt::Result {
    let mut entries = entries.iter();
    entries.try_for_each(|entry| writeln!(f, "entry {entry}"))
}

#[cfg(test)]
mod tests {
    use super::*;
    use crate::generate::messages::good;
    use crate::hex;
    use crate::random::Random;

    /// What is read from these digits, among which there may be spaces.
    fn read(digits: &str) -> Result<Message, Refusal> {
        let word = digits.replace(' ', "");
        Message::from_bytes(&hex::read(word.as_bytes()).expect("hex"))
    }

    #[test]
    fn the_examples_of_the_document() {
        let entry = "0203010203";
        let page = "00000003 0001 0007 00000005 0001 01 00000002 0000000c";
        let examples = [
            ("03 0001 00000010".into(), "ask term 1 ballot 16\n"),
            (
                format!("04 0001 00000011 02 00000010 0001 {entry}"),
                "promise term 1 ballot 17 from 2 had 16 entries 1\nentry close 1,2,3\n",
            ),
            (
                format!("05 0001 00000010 0003 0001 {entry}"),
                "part term 1 ballot 16 place 3 entries 1\nentry close 1,2,3\n",
            ),
            (
                "06 0001 00000010 01 0004".into(),
                "took term 1 ballot 16 from 1 entries 4\n",
            ),
            (
                format!("07 0001 03 01 02 03 {page}"),
                "begin term 1 members 1,2,3 before 3\nshelf 7 5\nclient 1 last 2 word 12\n",
            ),
        ];
        for (digits, text) in examples {
            let message = read(&digits).expect(text);
            assert_eq!(message.to_string(), text);
            let word = hex::write(&message.to_bytes());
            assert_eq!(word, digits.replace(' ', "").into_bytes());
        }
    }

    #[test]
    fn the_refusals_of_the_document() {
        assert_eq!(read("03 0001 00000000"), Err(Refusal::OutOfRange));
        let malformed = [
            "03 0001 000000",
            "03 0001 00000010 00",
            "06 0001 00000000 01 1001",
        ];
        for digits in malformed {
            assert_eq!(read(digits), Err(Refusal::Malformed), "{digits}");
        }
    }

    #[test]
    fn a_log_ends_at_its_limit() {
        let close = "020100";
        let closes = |count: usize| format!("{count:04x}{}", close.repeat(count));
        let promise = |count| read(&format!("04 0001 00000000 0f 00000000 {}", closes(count)));
        let part = |place, count| read(&format!("05 0001 00000001 {place:04x} {}", closes(count)));
        let took = |count| read(&format!("06 0001 00000001 0f {count:04x}"));
        assert!(promise(4096).is_ok() && took(4096).is_ok());
        assert!(
            [(0, 4096), (4095, 1), (4096, 0)]
                .iter()
                .all(|at| part(at.0, at.1).is_ok())
        );
        assert_eq!(promise(4097), Err(Refusal::Malformed));
        assert_eq!(took(4097), Err(Refusal::Malformed));
        for (place, count) in [(0, 4097), (4095, 2), (4096, 1), (4097, 0), (65535, 1)] {
            assert_eq!(
                part(place, count),
                Err(Refusal::Malformed),
                "{place} {count}"
            );
        }
    }

    #[test]
    fn what_is_out_of_range() {
        let words = [
            "04 0001 00000000 10 00000000 0000",
            "04 0001 00000001 ff 00000001 0001 0200",
            "05 0001 00000000 0000 0000",
            "05 0001 00000001 0000 0001 010100000001030400",
            "06 0001 00000000 01 0000",
            "06 0001 00000001 10 0000",
            "07 0001 00 00000000 0000 0000",
            "07 0001 01 10 00000000 0000 0000",
            "07 0001 01 00 00000000 0001 0400 00000001 0000",
        ];
        for digits in words {
            assert_eq!(read(digits), Err(Refusal::OutOfRange), "{digits}");
            let longer = format!("{digits} 00");
            assert_eq!(read(&longer), Err(Refusal::Malformed), "{longer}");
        }
    }

    #[test]
    fn what_is_written_is_read_back() {
        let random = &mut Random::new(7, 0);
        for _ in 0..2000 {
            let bytes = good(random);
            let message = Message::from_bytes(&bytes).expect("a good message");
            assert_eq!(message.to_bytes(), bytes);
            assert_eq!(Message::from_bytes(&message.to_bytes()), Ok(message));
        }
    }

    #[test]
    fn every_cut_and_every_longer_message_is_malformed() {
        let random = &mut Random::new(7, 1);
        let short = std::iter::repeat_with(|| good(random)).filter(|bytes| bytes.len() < 500);
        for bytes in short.take(300) {
            for end in 0..bytes.len() {
                let cut = Message::from_bytes(&bytes[..end]);
                assert_eq!(cut, Err(Refusal::Malformed));
            }
            for byte in 0..=255 {
                let longer = [&bytes[..], &[byte]].concat();
                assert_eq!(Message::from_bytes(&longer), Err(Refusal::Malformed));
            }
        }
    }
}
