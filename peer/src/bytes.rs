//! Reading and writing bytes: the form of the whole is judged before any range.

use crate::store::Refusal;

/// What has one form in bytes.
pub trait Bytes: Sized {
    /// Takes a value off the front of the reader. A fault of form ends the reading; a fault of
    /// range is noted in the reader, and then the value counts for nothing.
    fn read(reader: &mut Reader) -> Result<Self, Refusal>;

    /// Appends the value's bytes. A value in range is read back from them.
    fn write(&self, out: &mut Vec<u8>);

    /// The value that these bytes are, all of them.
    fn from_bytes(bytes: &[u8]) -> Result<Self, Refusal> {
        let mut reader = Reader::new(bytes);
        let value = Self::read(&mut reader)?;
        reader.end().map(|()| value)
    }

    fn to_bytes(&self) -> Vec<u8> {
        let mut out = Vec::new();
        self.write(&mut out);
        out
    }
}

/// The bytes that are still to be read, and whether all that was read is in range.
pub struct Reader<'a> {
    rest: &'a [u8],
    in_range: bool,
}

impl<'a> Reader<'a> {
    pub fn new(bytes: &'a [u8]) -> Self {
        Reader {
            rest: bytes,
            in_range: true,
        }
    }

    pub fn u8(&mut self) -> Result<u8, Refusal> {
        self.array().map(u8::from_be_bytes)
    }

    pub fn u16(&mut self) -> Result<u16, Refusal> {
        self.array().map(u16::from_be_bytes)
    }

    pub fn u32(&mut self) -> Result<u32, Refusal> {
        self.array().map(u32::from_be_bytes)
    }

    /// The next bytes, so many of them.
    pub fn take(&mut self, length: usize) -> Result<&'a [u8], Refusal> {
        let split = self.rest.split_at_checked(length);
        let (taken, rest) = split.ok_or(Refusal::Malformed)?;
        self.rest = rest;
        Ok(taken)
    }

    /// A list: how many (2 bytes, at most `most`), and then that many values.
    pub fn list<T: Bytes>(&mut self, most: usize) -> Result<Vec<T>, Refusal> {
        let count = usize::from(self.u16()?);
        within(count, most)?;
        (0..count).map(|_| T::read(self)).collect()
    }

    /// Notes a fault of range unless the condition holds.
    pub fn require(&mut self, condition: bool) {
        self.in_range &= condition;
    }

    /// Judges what was read, which has to be all.
    pub fn end(self) -> Result<(), Refusal> {
        match self {
            Reader { rest: [_, ..], .. } => Err(Refusal::Malformed),
            Reader { in_range, .. } => in_range.then_some(()).ok_or(Refusal::OutOfRange),
        }
    }

    fn array<const N: usize>(&mut self) -> Result<[u8; N], Refusal> {
        let split = self.rest.split_first_chunk();
        let (taken, rest) = split.ok_or(Refusal::Malformed)?;
        self.rest = rest;
        Ok(*taken)
    }
}

/// A count above its limit is a fault of form.
pub fn within(count: usize, most: usize) -> Result<(), Refusal> {
    (count <= most).then_some(()).ok_or(Refusal::Malformed)
}

/// Appends how many values there are (2 bytes), and then the values.
pub fn write_list<T: Bytes>(values: &[T], out: &mut Vec<u8>) {
    let count = u16::try_from(values.len()).expect("a list stays within its limit");
    out.extend(count.to_be_bytes());
    values.iter().for_each(|value| value.write(out));
}

#[cfg(test)]
mod tests {
    use super::*;

    #[test]
    fn numbers_stand_high_byte_first() {
        let mut reader = Reader::new(&[1, 2, 3, 4, 5, 6, 7]);
        assert_eq!(reader.u8(), Ok(1));
        assert_eq!(reader.u16(), Ok(0x0203));
        assert_eq!(reader.u32(), Ok(0x0405_0607));
        assert_eq!(reader.u8(), Err(Refusal::Malformed));
        assert_eq!(reader.end(), Ok(()));
    }

    #[test]
    fn form_is_judged_before_range() {
        let judged = |bytes| {
            let mut reader = Reader::new(bytes);
            reader.require(false);
            reader.require(true);
            reader.u16().and_then(|_| reader.end())
        };
        assert_eq!(judged(&[0]), Err(Refusal::Malformed));
        assert_eq!(judged(&[0, 0]), Err(Refusal::OutOfRange));
        assert_eq!(judged(&[0, 0, 0]), Err(Refusal::Malformed));
    }
}
