//! Bytes as text: two digits for each, or `-` for none.

use crate::store::Refusal;

const DIGITS: &[u8; 16] = b"0123456789abcdef";

/// The bytes that a word stands for.
pub fn read(word: &[u8]) -> Result<Vec<u8>, Refusal> {
    match word.as_chunks() {
        _ if word == b"-" => Ok(Vec::new()),
        ([], _) | (_, [_, ..]) => Err(Refusal::Malformed),
        (pairs, []) => pairs
            .iter()
            .map(|[high, low]| Some(digit(*high)? << 4 | digit(*low)?))
            .collect::<Option<_>>()
            .ok_or(Refusal::Malformed),
    }
}

/// The word for these bytes, in lower case.
pub fn write(bytes: &[u8]) -> Vec<u8> {
    if bytes.is_empty() {
        return b"-".to_vec();
    }
    bytes
        .iter()
        .flat_map(|byte| [byte >> 4, byte & 15])
        .map(|digit| DIGITS[usize::from(digit)])
        .collect()
}

fn digit(byte: u8) -> Option<u8> {
    match byte {
        b'0'..=b'9' => Some(byte - b'0'),
        b'a'..=b'f' => Some(byte - b'a' + 10),
        b'A'..=b'F' => Some(byte - b'A' + 10),
        _ => None,
    }
}

#[cfg(test)]
mod tests {
    use super::*;

    #[test]
    fn every_byte_has_a_word_in_both_cases() {
        let bytes: Vec<u8> = (0..=255).collect();
        let word = write(&bytes);
        assert!(word.starts_with(b"000102030405060708090a0b") && word.ends_with(b"feff"));
        assert_eq!(read(&word).as_ref(), Ok(&bytes));
        assert_eq!(read(&word.to_ascii_uppercase()), Ok(bytes));
        assert_eq!(read(b"aFFa"), Ok(vec![0xaf, 0xfa]));
        assert_eq!(write(&[]), b"-");
        assert_eq!(read(b"-"), Ok(vec![]));
    }

    #[test]
    fn nothing_else_is_a_word_for_bytes() {
        let digits = b"0123456789abcdefABCDEF";
        for byte in (0..=255_u8).filter(|byte| !digits.contains(byte)) {
            for word in [[byte, b'0'], [b'0', byte]] {
                assert_eq!(read(&word), Err(Refusal::Malformed), "{byte}");
            }
        }
        for word in [&b""[..], b"0", b"000", b"--", b"-00", b"00-", b"0x00"] {
            assert_eq!(read(word), Err(Refusal::Malformed));
        }
    }
}
