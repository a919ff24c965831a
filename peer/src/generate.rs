//! Seeded scripts: good ones, hostile ones, and good ones that were damaged.

pub mod messages;

use crate::random::Random;

type Word = Vec<u8>;

const CLIENTS: &[u8] = &[0, 1, 2, 9, 10, 99, 100, 127, 128, 254, 255];
const KEYS: &[u16] = &[0, 1, 7, 9, 10, 99, 100, 255, 256, 999, 1000, 1022, 1023];
const KEYS_ABOVE: [u16; 7] = [1024, 1025, 2047, 2048, 32768, 65534, 65535];
const AMOUNTS: &[u32] = &[
    0, 1, 2, 9, 10, 255, 256, 1023, 1024, 65535, 65536, 999999999, 1000000000, 2147483647,
    2147483648, 4294967294, 4294967295,
];
/// Numbers at and just above the widths that a field, or a careless reader of it, may have.
const BOUNDS: &[u8] = b"0 00 1 255 256 257 1022 1023 1024 1025 65535 65536 65537 2147483648 \
    4294967294 4294967295 4294967296 4294967297 4294967300 9999999999 18446744073709551615 \
    18446744073709551616 18446744073709551617 999999999999999999999999999999 \
    340282366920938463463374607431768211456 340282366920938463463374607431768211457";
const STRAYS: &[u8] = b"do show put take look read Put TAKE lookS loo putt give word # ## - + -1 \
    +1 -0 1.0 1e1 0x1 1,000 1_0 / : \t \r \0 \xff \xd9\xa1 \xef\xbc\x91 0 1 7 00 ff";
const ODD_BYTES: &[u8] = b"\t\r\0\xff\x0b\x0c\x80\xa0\x7f#-+.,_/:aZ\"\\";
const ODD_LINES: &[u8] =
    b"\n\x20\n        \n\t\n\r\n\0\n\xff\n \t \n#\n##\n# show\n#show\n #\n # show\n\
    \x20 # do 1 1 look 7\n\t# x\nshow #\nshow # x\nshow#\nsh#ow\ndo # 1 1 look 7\n# \0\xff\t\r\n\
    show show\nShow\nSHOW\nshows\nsho\ns how\n show\nshow    \n   show  \nshow\r\nshow\t\n\
    \tshow\nshow\0\n\0show\nshow 0\nshow 1 1 look 7\ndo\n do \ndo do\ndo show\ndodo\nlook 7\n\
    1 1 look 7\n\xef\xbb\xbfshow\n\xc2\xa0show\n\xff\xfe";
const ALPHABET: &[u8] = b"do show read put take look 0123456789 abcdefABCDEF  \n\n\n#\t\r-";

/// The script with this index; each follows from the seed and its index alone.
pub fn script(seed: u64, index: u64) -> Vec<u8> {
    let random = &mut Random::new(seed, index);
    match random.below(100) {
        0 => Vec::new(),
        1..=6 => noise(random, 400),
        7..=38 => written(random, 0),
        39..=70 => written(random, 50),
        71..=76 => {
            let mut script = written(random, 20);
            script.pop();
            script
        }
        77..=83 => {
            let mut script = written(random, 5);
            script.truncate(random.below(script.len() + 1));
            script
        }
        _ => mutated(random),
    }
}

/// One of the parts between the separators.
fn part(random: &mut Random, list: &[u8], separator: u8) -> Vec<u8> {
    let parts: Vec<_> = list.split(|byte| *byte == separator).collect();
    random.pick(&parts).to_vec()
}

/// Random bytes, or random ones of those that scripts are made of.
fn noise(random: &mut Random, most: usize) -> Vec<u8> {
    let (any, length) = (random.chance(50), random.below(most));
    let byte = |_| match any {
        true => random.byte(),
        false => *random.pick(ALPHABET),
    };
    (0..length).map(byte).collect()
}

/// A script of which about so many lines in a hundred are hostile.
fn written(random: &mut Random, hostile: usize) -> Vec<u8> {
    let long = random.chance(2);
    let length = if long {
        500 + random.below(2500)
    } else {
        random.below(60)
    };
    let reads = reads(random, long);
    let mut author = Author::new(random, long);
    for _ in 0..length {
        let line = if author.random.chance(reads) {
            messages::line(author.random)
        } else if author.random.chance(hostile) {
            author.hostile_line()
        } else {
            author.good_line()
        };
        author.lines.push(line);
    }
    if author.random.chance(90) {
        author.lines.push(b"show".to_vec());
    }
    let mut script = author.lines.join(&b'\n');
    script.push(b'\n');
    script
}

/// Whether scripts have lines that read a message: not before the proved program reads them.
const MESSAGES: bool = false;

/// How many lines in a hundred read a message; in most scripts there are none.
fn reads(random: &mut Random, long: bool) -> usize {
    match MESSAGES && random.chance(35) {
        false => 0,
        true if long => 3,
        true => 10 + random.below(80),
    }
}

/// A good script with a few bytes or lines changed.
fn mutated(random: &mut Random) -> Vec<u8> {
    let mut script = written(random, 0);
    for _ in 0..=random.below(8) {
        let at = random.below(script.len());
        match random.below(7) {
            _ if script.is_empty() => {}
            0 => script[at] ^= 1 << random.below(8),
            1 => script[at] = *random.pick(ALPHABET),
            2 => drop(script.remove(at)),
            3 => script.insert(at, random.byte()),
            4 => script.insert(at, *random.pick(ALPHABET)),
            5 => drop(script.drain(at..script.len().min(at + 1 + random.below(12)))),
            _ => {
                let mut lines: Vec<&[u8]> = script.split(|byte| *byte == b'\n').collect();
                let (one, other) = (random.below(lines.len()), random.below(lines.len()));
                lines.swap(one, other);
                script = lines.join(&b'\n');
            }
        }
    }
    script
}

/// A request with its words as they stand in a good line.
struct Draft {
    client: usize,
    number: u32,
    key: u16,
    words: Vec<Word>,
}

struct Author<'a> {
    random: &'a mut Random,
    clients: Vec<u8>,
    keys: Vec<u16>,
    /// For each client, the last number that was probably done.
    lasts: [u32; 256],
    lines: Vec<Vec<u8>>,
}

impl<'a> Author<'a> {
    fn new(random: &'a mut Random, wide: bool) -> Self {
        let (clients, keys) = if wide {
            ((0..=255).collect(), (0..1024).collect())
        } else {
            let some = 1 + random.below(4);
            let clients = (0..some).map(|_| *random.pick(CLIENTS)).collect();
            let some = 1 + random.below(4);
            let keys = (0..some).map(|_| *random.pick(KEYS)).collect();
            (clients, keys)
        };
        Author {
            random,
            clients,
            keys,
            lasts: [0; 256],
            lines: Vec::new(),
        }
    }

    fn good_line(&mut self) -> Vec<u8> {
        match self.random.below(100) {
            0 | 1 => b"show".to_vec(),
            2..=9 if self.lines.len() < 100 => b"show".to_vec(),
            10..=17 if !self.lines.is_empty() => self.random.pick(&self.lines).clone(),
            18 => Vec::new(),
            19 => [&b"# "[..], &self.draft().words.join(&b' ')].concat(),
            _ => {
                let draft = self.draft();
                self.expect(&draft);
                draft.words.join(&b' ')
            }
        }
    }

    fn hostile_line(&mut self) -> Vec<u8> {
        match self.random.below(20) {
            0..=2 => part(self.random, ODD_LINES, b'\n'),
            3 if self.random.chance(5) => long_line(self.random),
            3 => noise(self.random, 30),
            4 => {
                let count = self.random.below(9);
                let soup: Vec<_> = (0..count)
                    .map(|_| part(self.random, STRAYS, b' '))
                    .collect();
                soup.join(&b' ')
            }
            5..=8 => self.harmless_line(),
            9 | 10 => self.marked_line(),
            kind => {
                let mut words = self.draft().words;
                for _ in 0..=self.random.below(kind) / 8 {
                    spoil(self.random, &mut words);
                }
                spaced(self.random, &words, 10)
            }
        }
    }

    /// A good request in an unusual shape: zeros in front, and more spaces than needed.
    fn harmless_line(&mut self) -> Vec<u8> {
        let mut draft = self.draft();
        self.expect(&draft);
        for word in &mut draft.words {
            if word[0].is_ascii_digit() && self.random.chance(40) {
                pad(self.random, word);
            }
        }
        spaced(self.random, &draft.words, 80)
    }

    /// A good request with a `#` or another odd byte somewhere in its line.
    fn marked_line(&mut self) -> Vec<u8> {
        let mut line = self.draft().words.join(&b' ');
        let spaces: Vec<_> = (0..line.len()).filter(|at| line[*at] == b' ').collect();
        let odd = *self.random.pick(ODD_BYTES);
        match self.random.below(7) {
            0 => line.insert(0, b'#'),
            1 => drop(line.splice(0..0, *b" #")),
            2 => line.extend(b" # x"),
            3 => line.push(odd),
            4 => line.insert(0, odd),
            5 => line[*self.random.pick(&spaces)] = odd,
            _ => line.insert(*self.random.pick(&spaces), odd),
        }
        line
    }

    fn draft(&mut self) -> Draft {
        let client = usize::from(*self.random.pick(&self.clients));
        let number = self.number(self.lasts[client]);
        let key = match self.random.below(40) {
            0 => *self.random.pick(&KEYS_ABOVE),
            1 => *self.random.pick(KEYS),
            _ => *self.random.pick(&self.keys),
        };
        let verb = *self.random.pick(&["put", "put", "take", "take", "look"]);
        let mut line = format!("do {client} {number} {verb} {key}");
        if verb != "look" {
            line += &format!(" {}", self.amount());
        }
        let words = line.split(' ').map(Into::into).collect();
        Draft {
            client,
            number,
            key,
            words,
        }
    }

    /// Mostly the number that follows the last.
    fn number(&mut self, last: u32) -> u32 {
        match self.random.below(100) {
            0..=4 => last,
            5..=8 => last + 2,
            9 => 0,
            10 => *self.random.pick(AMOUNTS),
            11 => last.saturating_sub(1),
            _ => last + 1,
        }
    }

    fn amount(&mut self) -> u32 {
        match self.random.below(10) {
            0..=3 => *self.random.pick(AMOUNTS),
            4 => (self.random.draw() >> 32) as u32,
            _ => self.random.below(20) as u32,
        }
    }

    fn expect(&mut self, draft: &Draft) {
        if draft.number == self.lasts[draft.client] + 1 && draft.key < 1024 {
            self.lasts[draft.client] = draft.number;
        }
    }
}

/// A line longer than any buffer is likely to be.
fn long_line(random: &mut Random) -> Vec<u8> {
    let mut line = vec![*random.pick(b"  #x09\0"); 70_000];
    line.extend(part(random, ODD_LINES, b'\n'));
    line
}

/// Does one bad thing to the words of a request.
fn spoil(random: &mut Random, words: &mut Vec<Word>) {
    if words.is_empty() {
        return;
    }
    let any = random.below(words.len());
    match random.below(15) {
        0 => drop(words.remove(any)),
        1 => words.truncate(any),
        2 => words.insert(any, words[any].clone()),
        3 => words.insert(any, part(random, STRAYS, b' ')),
        4 => words.push(part(random, STRAYS, b' ')),
        5 => words[any] = part(random, STRAYS, b' '),
        6 => {
            let at = random.below(words[any].len() + 1);
            words[any].insert(at, *random.pick(ODD_BYTES));
        }
        7 => {
            let end = words.len().min(any + 2);
            let glued = words[any..end].concat();
            words.splice(any..end, [glued]);
        }
        8 => {
            let other = random.below(words.len());
            words.swap(any, other);
        }
        9 => {
            let name = position(random, words, false);
            let whole = words[name].len();
            let upper = *random.pick(&[1, whole]);
            words[name][..upper].make_ascii_uppercase();
        }
        _ => {
            let numeral = position(random, words, true);
            spoil_number(random, &mut words[numeral]);
        }
    }
}

fn spoil_number(random: &mut Random, word: &mut Word) {
    match random.below(5) {
        0 | 1 => *word = part(random, BOUNDS, b' '),
        2 => *word = (0..30).map(|_| b'0' + random.below(10) as u8).collect(),
        3 => word.insert(0, *random.pick(b"+-")),
        _ => wrap(random, word),
    }
    if random.chance(20) {
        pad(random, word);
    }
}

/// The place of a word that begins with a digit, or of one that doesn't, if there is one.
fn position(random: &mut Random, words: &[Word], digit: bool) -> usize {
    let begins = |word: &Word| word.first().is_some_and(u8::is_ascii_digit);
    let places: Vec<_> = (0..words.len())
        .filter(|at| begins(&words[*at]) == digit)
        .collect();
    if places.is_empty() {
        random.below(words.len())
    } else {
        *random.pick(&places)
    }
}

/// Adds to a number what a field, or a careless reader of it, would lose.
fn wrap(random: &mut Random, word: &mut Word) {
    let lost = 1_u128 << *random.pick(&[8, 10, 16, 31, 32, 63, 64, 96]);
    let text = str::from_utf8(word).unwrap_or_default();
    if let Ok(number) = text.parse::<u64>() {
        *word = (u128::from(number) + lost).to_string().into_bytes();
    }
}

/// Puts zeros in front.
fn pad(random: &mut Random, word: &mut Word) {
    let zeros = match random.below(200) {
        0 => 70_000,
        1..=10 => random.below(500),
        _ => 1 + random.below(12),
    };
    word.splice(0..0, std::iter::repeat_n(b'0', zeros));
}

/// Words with spaces between, before and behind them, of which so many in a hundred are runs.
fn spaced(random: &mut Random, words: &[Word], runs: usize) -> Vec<u8> {
    let mut line = Vec::new();
    for at in 0..=words.len() {
        let least = usize::from(at > 0 && at < words.len());
        let more = if random.chance(runs) {
            random.below(6)
        } else {
            0
        };
        line.resize(line.len() + least + more, b' ');
        line.extend(words.get(at).into_iter().flatten());
    }
    line
}

#[cfg(test)]
mod tests {
    use super::*;
    use crate::script::{rehearse, rehearse_with_messages};

    #[test]
    fn scripts_follow_from_seed_and_index() {
        assert!((0..50).all(|index| script(1, index) == script(1, index)));
        assert!((0..50).any(|index| script(1, index) != script(2, index)));
        assert!((0..50).any(|index| script(1, index) != script(1, index + 1)));
    }

    #[test]
    fn all_answers_and_shapes_occur() {
        let scripts: Vec<_> = (0..500).map(|index| script(1, index)).collect();
        assert!(scripts.iter().any(Vec::is_empty));
        assert!(
            scripts
                .iter()
                .any(|s| s.last().is_some_and(|byte| *byte != b'\n'))
        );
        let answers: Vec<u8> = scripts.iter().flat_map(|s| rehearse(s)).collect();
        let answers = String::from_utf8(answers).expect("answers are ASCII");
        for part in ["word 0", "refused 1", "refused 2", "refused 13", "show"] {
            let count = answers.lines().filter(|line| line.ends_with(part)).count();
            assert!(count > 100, "{part}: {count}");
        }
        for part in ["shelf 0 ", "shelf 1023 ", "client 0 ", "client 255 "] {
            assert!(answers.lines().any(|line| line.starts_with(part)), "{part}");
        }
    }

    #[test]
    fn all_messages_occur() {
        let mut random = Random::new(1, 0);
        let lines: Vec<_> = (0..3000).map(|_| messages::line(&mut random)).collect();
        let answers = rehearse_with_messages(&lines.join(&b'\n'));
        let answers = String::from_utf8(answers).expect("answers are ASCII");
        for part in [
            " ask ",
            " promise ",
            " part ",
            " took ",
            " begin ",
            "refused 1",
            "refused 2",
        ] {
            let count = answers.lines().filter(|line| line.contains(part)).count();
            assert!(count > 100, "{part}: {count}");
        }
    }
}
