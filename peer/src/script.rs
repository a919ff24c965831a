//! Playing a script.

use crate::bytes::Bytes;
use crate::hex;
use crate::message::Message;
use crate::store::{Asked, Refusal, Request, Store};

enum Command {
    Do(Request),
    Show,
    Read(Message),
}

/// Plays the script on an empty store and gives all its answers.
pub fn rehearse(script: &[u8]) -> Vec<u8> {
    play(script, false)
}

/// The same where `read HEX` is a command too; the proved program has no such command yet.
pub fn rehearse_with_messages(script: &[u8]) -> Vec<u8> {
    play(script, true)
}

fn play(script: &[u8], reads: bool) -> Vec<u8> {
    let mut store = Store::default();
    let mut answers = String::new();
    for (line, number) in script.split(|byte| *byte == b'\n').zip(1_u64..) {
        let words = words(line);
        if line.starts_with(b"#") || words.is_empty() {
            continue;
        }
        let answer = match command(&words, reads) {
            Ok(Command::Show) => Ok(format!("show\n{store}")),
            Ok(Command::Do(request)) => {
                store.perform(&request).map(|word| format!("word {word}\n"))
            }
            Ok(Command::Read(message)) => Ok(message.to_string()),
            Err(refusal) => Err(refusal),
        };
        let answer = answer.unwrap_or_else(|refusal| format!("refused {}\n", refusal as u8));
        answers += &format!("{number} {answer}");
    }
    answers.into_bytes()
}

fn words(line: &[u8]) -> Vec<&[u8]> {
    line.split(|byte| *byte == b' ')
        .filter(|word| !word.is_empty())
        .collect()
}

fn command(words: &[&[u8]], reads: bool) -> Result<Command, Refusal> {
    match words {
        [b"show"] => Ok(Command::Show),
        [b"read", word] if reads => {
            let bytes = hex::read(word)?;
            Message::from_bytes(&bytes).map(Command::Read)
        }
        [b"do", client, number, verb, key, rest @ ..] => Ok(Command::Do(Request {
            client: field(client)?,
            number: field(number)?,
            key: field(key)?,
            asked: asked(verb, rest)?,
        })),
        _ => Err(Refusal::Malformed),
    }
}

fn asked(verb: &[u8], rest: &[&[u8]]) -> Result<Asked, Refusal> {
    match (verb, rest) {
        (b"put", [value]) => field(value).map(Asked::Put),
        (b"take", [amount]) => field(amount).map(Asked::Take),
        (b"look", []) => Ok(Asked::Look),
        _ => Err(Refusal::Malformed),
    }
}

/// The number that a word stands for, in a field as wide as `T`.
fn field<T: TryFrom<u32>>(word: &[u8]) -> Result<T, Refusal> {
    word.iter()
        .try_fold(0_u32, |value, byte| {
            let digit = byte.checked_sub(b'0').filter(|digit| *digit < 10)?;
            value.checked_mul(10)?.checked_add(digit.into())
        })
        .and_then(|value| T::try_from(value).ok())
        .ok_or(Refusal::Malformed)
}

#[cfg(test)]
mod tests {
    use super::*;

    fn played(script: impl AsRef<[u8]>) -> String {
        String::from_utf8(rehearse(script.as_ref())).expect("answers are ASCII")
    }

    fn played_with_messages(script: impl AsRef<[u8]>) -> String {
        String::from_utf8(rehearse_with_messages(script.as_ref())).expect("answers are ASCII")
    }

    #[test]
    fn a_rehearsal_reads_no_messages() {
        assert_eq!(played("read 03000100000010\nread -\n"), refused_1(1..=2));
    }

    #[test]
    fn the_example_of_the_document() {
        let script = "do 1 1 put 7 5\ndo 1 1 put 7 5\ndo 2 1 take 7 9\nshow\n";
        let answers = "1 word 0\n2 refused 13\n3 word 5\n4 show\n\
                       client 1 last 1 word 0\nclient 2 last 1 word 5\n";
        assert_eq!(played(script), answers);
        assert_eq!(played(script.trim_end()), answers);
    }

    #[test]
    fn the_messages_of_the_document() {
        let script = "read 0300010000001\nread 03000100000010\n\
                      read 050001000000100003000201010000010201000700000005020301020 3\n\
                      read 0500010000001000030002010100000102010007000000050203010203\n\
                      read 07000103010203000000030001000700000005000101000000020000000c\n\
                      read 06000100000000010004\n";
        let answers = "1 refused 1\n2 ask term 1 ballot 16\n3 refused 1\n\
                       4 part term 1 ballot 16 place 3 entries 2\n\
                       entry 1 258 put 7 5\nentry close 1,2,3\n\
                       5 begin term 1 members 1,2,3 before 3\n\
                       shelf 7 5\nclient 1 last 2 word 12\n6 refused 2\n";
        assert_eq!(played_with_messages(script), answers);
    }

    #[test]
    fn reading_leaves_the_store_alone() {
        let begin = "07000103010203000000030001000700000005000101000000020000000c";
        let script = format!("do 1 1 put 9 4\nread {begin}\n  read   {begin}  \nshow\n");
        let read = "begin term 1 members 1,2,3 before 3\nshelf 7 5\nclient 1 last 2 word 12\n";
        let shown = "shelf 9 4\nclient 1 last 1 word 0\n";
        assert_eq!(
            played_with_messages(script),
            format!("1 word 0\n2 {read}3 {read}4 show\n{shown}")
        );
    }

    #[test]
    fn lines_that_read_nothing() {
        let script = "read\nread -\nread --\nread 03000100000010 -\nRead 03000100000010\n\
                      read03000100000010\nread 0x03000100000010\nread 0300010000001\n\
                      read 03000100000010\r\nread #\nreads 03000100000010\n";
        assert_eq!(played_with_messages(script), refused_1(1..=11));
    }

    #[test]
    fn shelves_stand_before_clients_and_both_rise() {
        let script = "do 9 1 put 1023 1\ndo 9 2 put 0 2\ndo 0 1 look 1023\nshow\n";
        let shown = "shelf 0 2\nshelf 1023 1\nclient 0 last 1 word 1\nclient 9 last 2 word 0\n";
        assert_eq!(
            played(script),
            format!("1 word 0\n2 word 0\n3 word 1\n4 show\n{shown}")
        );
    }

    #[test]
    fn lines_are_passed_over_but_counted() {
        assert_eq!(played(""), "");
        assert_eq!(played("\n\n  \n# show\n#\n#do\n"), "");
        assert_eq!(played("\n   \n#\nshow"), "4 show\n");
        assert_eq!(played(" # show\n\t\n\r\n\0"), refused_1(1..=4));
    }

    #[test]
    fn spaces_separate_and_nothing_else_does() {
        assert_eq!(played("   do  1 1   look 7  \n show "), {
            "1 word 0\n2 show\nclient 1 last 1 word 0\n"
        });
        let others = b"do\t1 1 look 7\nshow\r\nshow\0\nshow\xff\nshow #\n";
        assert_eq!(played(others), refused_1(1..=5));
    }

    #[test]
    fn malformed_lines() {
        let script = "do\ndo 1\ndo 1 1\ndo 1 1 look\ndo 1 1 look 7 5\ndo 1 1 put 7\n\
                      do 1 1 put 7 5 5\ndo 1 1 take 7\ndo 1 1 give 7 5\ndo 1 1 Put 7 5\n\
                      DO 1 1 look 7\n1 1 look 7\nShow\nshow 1\nshows\ndo 1 1 look -7\n\
                      do +1 1 look 7\ndo 1 1 look 0x7\ndo 1 1 look seven\n";
        assert_eq!(played(script), refused_1(1..=19));
    }

    #[test]
    fn fields_have_their_widths() {
        let zeros = "0".repeat(5000);
        assert_eq!(
            played(format!("do {zeros}255 {zeros}1 put {zeros}1023 4294967295")),
            "1 word 0\n"
        );
        let script = "do 256 1 look 7\ndo 1 4294967296 look 7\ndo 1 1 look 65536\n\
                      do 1 1 put 7 4294967296\ndo 1 1 put 1024 4294967296\n\
                      do 1 1 look 18446744073709551623\n";
        assert_eq!(played(script), refused_1(1..=6));
        let script = "do 1 1 look 1024\ndo 1 0 look 65535\ndo 1 4294967295 look 1023\n";
        assert_eq!(played(script), "1 refused 2\n2 refused 2\n3 refused 13\n");
    }

    fn refused_1(lines: std::ops::RangeInclusive<u64>) -> String {
        lines.map(|line| format!("{line} refused 1\n")).collect()
    }
}
