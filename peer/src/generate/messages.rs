//! Lines that read a message: good ones, and ones with faults of every sort.

use super::{AMOUNTS, CLIENTS, KEYS, KEYS_ABOVE, Word, part, spaced, spoil};
use crate::hex;
use crate::random::Random;

const TERMS: &[u32] = &[0, 1, 2, 255, 256, 65535];
const BALLOTS: &[u32] = &[1, 15, 16, 17, 255, 256, 65536, 2147483648, 4294967295];
const NO_KINDS: &[u32] = &[0, 1, 2, 8, 9, 15, 19, 35, 67, 131, 135, 254, 255];
const NO_STATIONS: &[u32] = &[16, 17, 31, 32, 127, 128, 254, 255];
const ODD_DIGITS: &[u8] = b"/:@G`g/:@G`g xXoz[-+.,_#\t\r\0\x80\xff";
const ODD_LINES: &[u8] = b"read\n read \nread -\n  read   -  \nread --\nread - -\nread read\n\
    read #\nread # -\n#read -\n # read -\nread show\nread 1 1 look 7\nRead 03000100000010\n\
    READ 03000100000010\nreads 03000100000010\nrea 03000100000010\nread03000100000010\n\
    read\t03000100000010\nread 03000100000010\r\nread 03000100000010\t\n\
    read 03000100000010\0\nread 03000100000010 #\nread 0x03000100000010\n\
    read 03 0001 00000010\nread 03 00 01 00 00 00 10\nread 03000100000010 03000100000010\n\
    03000100000010\n read 03000100000010\n   read   0300010000001A   \nread 3000100000010\n\
    read +03000100000010\nread \"03000100000010\"\nread 0300010000001\nread 0300010000001G\n\
    read 03000100000010-\nread -03000100000010\nshow 03000100000010\ndo 03000100000010";
/// The limits of lists.
const LOG: usize = 4096;
const MEMBERS: usize = 16;
const SHELVES: usize = 1024;
const CLIENT_ROWS: usize = 256;

/// The bytes of a good message.
pub fn good(random: &mut Random) -> Vec<u8> {
    let faults = Faults::default();
    Builder::new(random, faults).message()
}

/// Bytes that may have faults of form and range.
pub fn hostile(random: &mut Random) -> Vec<u8> {
    let faults = Faults::any(random);
    let mut bytes = match random.below(10) {
        0..=5 => return Builder::new(random, faults).message(),
        6 => Builder::new(random, faults).message(),
        7 => return noise(random),
        _ => good(random),
    };
    for _ in 0..=random.below(5) / 3 {
        damage(random, &mut bytes);
    }
    bytes
}

/// A line that reads a message. Every third message is good, and every fifth line odd.
pub fn line(random: &mut Random) -> Vec<u8> {
    if random.chance(5) {
        return part(random, ODD_LINES, b'\n');
    }
    let bytes = match random.below(3) {
        0 => good(random),
        _ => hostile(random),
    };
    let mut word = hex::write(&bytes);
    recase(random, &mut word);
    if random.chance(80) {
        return [b"read ", &word[..]].concat();
    }
    if random.chance(50) {
        spoil_digits(random, &mut word);
    }
    let mut words = vec![b"read".to_vec(), word];
    if random.chance(50) {
        spoil(random, &mut words);
    }
    spaced(random, &words, 50)
}

/// Random bytes behind a kind, or the kind alone.
fn noise(random: &mut Random) -> Vec<u8> {
    let few = random.chance(50);
    let kind = 3 + random.below(5) as u8;
    let length = random.below(40);
    let byte = |_| match few {
        true => random.below(4) as u8,
        false => random.byte(),
    };
    [kind].into_iter().chain((0..length).map(byte)).collect()
}

/// Does one bad thing to the bytes of a message, near its front or anywhere.
fn damage(random: &mut Random, bytes: &mut Vec<u8>) {
    if bytes.is_empty() {
        return;
    }
    let near = *random.pick(&[24, usize::MAX]);
    let at = random.below(bytes.len().min(near));
    match random.below(10) {
        0..=2 => bytes.truncate(at),
        3 => bytes.extend((0..=random.below(4)).map(|_| random.byte())),
        4 => bytes.push(*random.pick(&[0, 0, 0, 1, 2, 255])),
        5 => bytes[at] ^= 1 << random.below(8),
        6 => bytes[at] = *random.pick(&[0, 1, 2, 3, 4, 15, 16, 17, 127, 128, 255]),
        7 => bytes[0] = random.below(10) as u8,
        8 => drop(bytes.remove(at)),
        _ => bytes.insert(at, random.byte()),
    }
}

fn recase(random: &mut Random, word: &mut Word) {
    match random.below(4) {
        0 | 1 => {}
        2 => word.make_ascii_uppercase(),
        _ => {
            for digit in word.iter_mut().filter(|_| random.chance(50)) {
                digit.make_ascii_uppercase();
            }
        }
    }
}

/// Does one bad thing to the digits, of which there is at least one.
fn spoil_digits(random: &mut Random, word: &mut Word) {
    let at = random.below(word.len());
    match random.below(9) {
        0 if word.len() > 1 => drop(word.pop()),
        1 if word.len() > 1 => drop(word.remove(at)),
        2 => word.insert(at, *random.pick(b"0123456789abcdefABCDEF")),
        3 => word[at] = *random.pick(ODD_DIGITS),
        4 => word.insert(at, *random.pick(ODD_DIGITS)),
        5 => drop(word.splice(at..at, [b'0', *random.pick(ODD_DIGITS)])),
        6 => drop(word.splice(0..0, *random.pick(&[*b"0x", *b"00", *b"--", *b"-0"]))),
        7 => word.extend(random.pick(&[" -", " 00", "-", "h", " read", " #"]).bytes()),
        _ => *word = part(random, b"- -- 0 00 -00", b' '),
    }
}

/// How long a list is: mostly short, now and then at its limit or one below.
fn size(random: &mut Random, limit: usize) -> usize {
    let size = match random.below(200) {
        0..=39 => 0,
        40..=99 => 1,
        100..=179 => 2 + random.below(4),
        180..=194 => 6 + random.below(35),
        195..=197 => 100 + random.below(400),
        _ => limit - random.below(2),
    };
    size.min(limit)
}

/// So many rising numbers below the bound: the first, the last, or any.
fn rising(random: &mut Random, count: usize, bound: usize) -> Vec<u32> {
    let mut needed = count;
    let way = random.below(6);
    let taken = |at: &usize| {
        let take = match way {
            0 => *at < count,
            1 => *at >= bound - count,
            _ => random.below(bound - at) < needed,
        };
        needed -= usize::from(take);
        take
    };
    (0..bound).filter(taken).map(|at| at as u32).collect()
}

/// One field in so many has a fault of the form, or of the range, if any has.
#[derive(Default)]
struct Faults {
    form: Option<usize>,
    range: Option<usize>,
}

impl Faults {
    fn any(random: &mut Random) -> Self {
        let which = random.below(5);
        let mut one_in = || Some(*random.pick(&[2, 2, 4, 8, 20, 200]));
        Faults {
            form: if which < 3 { None } else { one_in() },
            range: if which == 3 { None } else { one_in() },
        }
    }
}

#[derive(Clone, Copy)]
enum Sort {
    Form,
    Range,
}

/// Builds a message field by field, and puts a fault where one strikes.
struct Builder<'a> {
    random: &'a mut Random,
    faults: Faults,
    bytes: Vec<u8>,
}

impl<'a> Builder<'a> {
    fn new(random: &'a mut Random, faults: Faults) -> Self {
        Builder {
            random,
            faults,
            bytes: Vec::new(),
        }
    }

    fn message(mut self) -> Vec<u8> {
        let kind = 3 + self.random.below(5) as u32;
        let term = *self.random.pick(TERMS);
        self.field(1, kind, Sort::Form, NO_KINDS);
        self.free(2, term);
        match kind {
            3 => self.ballot(),
            4 => self.promise(),
            5 => self.part(),
            6 => self.took(),
            _ => {
                self.members();
                self.page();
            }
        }
        self.bytes
    }

    /// Whether a fault strikes; mostly it is the last of its sort, so that it tells alone.
    fn strikes(&mut self, sort: Sort) -> bool {
        let one_in = match sort {
            Sort::Form => &mut self.faults.form,
            Sort::Range => &mut self.faults.range,
        };
        let strikes = one_in.is_some_and(|one_in| self.random.below(one_in) == 0);
        if strikes && self.random.chance(70) {
            *one_in = None;
        }
        strikes
    }

    /// A number of so many bytes, which can't be wrong.
    fn free(&mut self, width: usize, value: u32) {
        self.bytes.extend(&value.to_be_bytes()[4 - width..]);
    }

    /// A number of so many bytes, or one of those that are wrong.
    fn field(&mut self, width: usize, value: u32, sort: Sort, wrong: &[u32]) {
        let strikes = self.strikes(sort);
        let value = if strikes {
            *self.random.pick(wrong)
        } else {
            value
        };
        self.free(width, value);
    }

    /// How many values follow, or another number.
    fn count(&mut self, width: usize, count: usize, limit: usize) {
        let (count, limit) = (count as u32, limit as u32);
        let below = count.saturating_sub(1);
        let wrong = [0, below, count + 1, limit, limit + 1, u32::MAX];
        self.field(width, count, Sort::Form, &wrong);
    }

    fn any(&mut self) {
        let value = self.amount();
        self.free(4, value);
    }

    /// A number that may not be 0.
    fn above_0(&mut self) {
        let value = self.amount().max(1);
        self.field(4, value, Sort::Range, &[0]);
    }

    fn amount(&mut self) -> u32 {
        match self.random.chance(50) {
            true => *self.random.pick(AMOUNTS),
            false => self.random.below(300) as u32,
        }
    }

    fn ballot(&mut self) {
        let ballot = *self.random.pick(BALLOTS);
        self.field(4, ballot, Sort::Range, &[0]);
    }

    fn from(&mut self) {
        let from = self.random.below(16) as u32;
        self.field(1, from, Sort::Range, NO_STATIONS);
    }

    fn promise(&mut self) {
        self.any();
        self.from();
        self.any();
        let mut count = size(self.random, LOG);
        // A log above its limit is long, so it is rare, and nothing else is wrong with it.
        if self.strikes(Sort::Form) && self.random.chance(10) {
            count = LOG + 1 + self.random.below(2);
            self.faults = Faults::default();
        }
        self.entries(count);
    }

    fn part(&mut self) {
        self.ballot();
        let count = size(self.random, LOG);
        let room = LOG - count;
        let place = match self.random.below(5) {
            0 => room,
            1 => room.saturating_sub(1),
            2 => self.random.below(room + 1),
            _ => self.random.below(10).min(room),
        };
        let above = [room + 1, room + 1, room + 2, LOG + 1, 65536 - count, 65535];
        let above = above.map(|place| place as u32);
        self.field(2, place as u32, Sort::Form, &above);
        self.entries(count);
    }

    fn took(&mut self) {
        self.ballot();
        self.from();
        let any = self.random.below(LOG + 1) as u32;
        let count = *self.random.pick(&[0, 1, 4, 255, 256, 4095, 4096, any]);
        self.field(2, count, Sort::Form, &[4097, 4098, 4352, 8192, 65535]);
    }

    fn entries(&mut self, count: usize) {
        self.count(2, count, LOG);
        (0..count).for_each(|_| self.entry());
    }

    fn entry(&mut self) {
        if self.random.chance(25) {
            self.field(1, 2, Sort::Form, &[0, 1, 3, 18, 255]);
            return self.members();
        }
        let client = *self.random.pick(CLIENTS);
        let asked = 1 + self.random.below(3) as u32;
        let key = *self.random.pick(KEYS);
        self.field(1, 1, Sort::Form, &[0, 2, 3, 17, 255]);
        self.free(1, client.into());
        self.any();
        self.field(1, asked, Sort::Form, &[0, 0, 1, 2, 3, 4, 4, 255]);
        self.field(2, key.into(), Sort::Range, &KEYS_ABOVE.map(u32::from));
        if asked < 3 {
            self.any();
        }
    }

    fn members(&mut self) {
        let any = 1 + self.random.below(MEMBERS);
        let count = *self.random.pick(&[1, 1, 2, 3, 3, 4, 5, MEMBERS, any]);
        let list = self.list(count, MEMBERS, NO_STATIONS);
        self.count(1, list.len(), MEMBERS);
        for member in list {
            self.field(1, member, Sort::Range, &[0, 1, 14, 15, 16, 17, 255]);
        }
    }

    fn page(&mut self) {
        self.any();
        let count = size(self.random, SHELVES);
        let keys = self.list(count, SHELVES, &[1024, 1025, 2047, 65535]);
        self.count(2, keys.len(), SHELVES);
        for key in keys {
            self.field(2, key, Sort::Range, &[0, 1, 1023, 1024, 1025, 65535]);
            self.above_0();
        }
        let count = size(self.random, CLIENT_ROWS);
        let clients = self.list(count, CLIENT_ROWS, &[0, 254, 255]);
        self.count(2, clients.len(), CLIENT_ROWS);
        for client in clients {
            self.field(1, client, Sort::Range, &[0, 1, 254, 255]);
            self.above_0();
            self.any();
        }
    }

    /// Rising numbers below the limit, or a list that isn't right.
    fn list(&mut self, count: usize, limit: usize, beyond: &[u32]) -> Vec<u32> {
        if self.strikes(Sort::Form) {
            return (0..=limit as u32).collect();
        }
        let mut list = rising(self.random, count, limit);
        if !self.strikes(Sort::Range) {
            return list;
        }
        let (one, other) = (self.random.below(count), self.random.below(count));
        match self.random.below(5) {
            0 => list.clear(),
            1 => list.push(*self.random.pick(beyond)),
            _ if list.is_empty() => {}
            2 => list.insert(one, list[one]),
            3 => list.swap(one, other),
            _ => list.reverse(),
        }
        list
    }
}

#[cfg(test)]
mod tests {
    use super::*;
    use crate::bytes::Bytes;
    use crate::message::Message;
    use crate::store::Refusal;

    #[test]
    fn good_messages_reach_the_limits() {
        let random = &mut Random::new(1, 0);
        let read = |bytes: Vec<u8>| Message::from_bytes(&bytes).expect("a good message");
        let texts: Vec<_> = (0..5000).map(|_| read(good(random)).to_string()).collect();
        for text in ["ask ", "promise ", "part ", "took ", "begin "] {
            let count = texts.iter().filter(|one| one.starts_with(text)).count();
            assert!(count > 800, "{text}: {count}");
        }
        let all = texts.concat();
        for part in [
            "entries 0\n",
            "entries 4096\n",
            "place 4096 ",
            "close 0,1,2,3,4,5,6,7,8,9,",
        ] {
            assert!(all.contains(part), "{part}");
        }
        let longest = |part| texts.iter().map(|text| text.matches(part).count()).max();
        assert_eq!(longest("shelf "), Some(1024));
        assert_eq!(longest("client "), Some(256));
        assert_eq!(longest("entry "), Some(4096));
    }

    #[test]
    fn hostile_messages_are_of_all_sorts() {
        let random = &mut Random::new(1, 0);
        let mut counts = [0; 3];
        for _ in 0..3000 {
            match Message::from_bytes(&hostile(random)) {
                Ok(_) => counts[0] += 1,
                Err(Refusal::Malformed) => counts[1] += 1,
                Err(_) => counts[2] += 1,
            }
        }
        assert!(counts.iter().all(|count| *count > 500), "{counts:?}");
    }
}
