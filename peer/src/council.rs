//! Stations, and the sets of them that are a council.

use crate::bytes::{Bytes, Reader, within};
use crate::store::Refusal;
use std::fmt;

pub const STATIONS: usize = 16;

/// A station, with its number from 0 to 15.
#[derive(Clone, Copy, Debug, PartialEq, Eq, PartialOrd, Ord)]
pub struct Station(u8);

impl Station {
    pub fn new(number: u8) -> Option<Self> {
        (usize::from(number) < STATIONS).then_some(Station(number))
    }

    pub fn number(self) -> u8 {
        self.0
    }
}

impl Bytes for Station {
    fn read(reader: &mut Reader) -> Result<Self, Refusal> {
        let number = reader.u8()?;
        reader.require(Station::new(number).is_some());
        Ok(Station(number))
    }

    fn write(&self, out: &mut Vec<u8>) {
        out.push(self.0);
    }
}

impl fmt::Display for Station {
    fn fmt(&self, f: &mut fmt::Formatter<'_>) -> fmt::Result {
        self.0.fmt(f)
    }
}

/// The members of a council, at least one. Bit 0 is station 0.
#[derive(Clone, Copy, Debug, PartialEq, Eq)]
pub struct Members(u16);

impl Members {
    /// The set of these stations, unless there are none.
    pub fn new(stations: impl IntoIterator<Item = Station>) -> Option<Self> {
        let set = stations.into_iter().fold(0, |set, one| set | 1 << one.0);
        (set != 0).then_some(Members(set))
    }

    /// The set as 16 bits.
    pub fn bits(self) -> u16 {
        self.0
    }

    /// The members, rising.
    pub fn iter(self) -> impl Iterator<Item = Station> {
        let is_member = move |one: &Station| self.0 >> one.0 & 1 == 1;
        (0..STATIONS as u8).map(Station).filter(is_member)
    }

    /// The members in a list of numbers, which has to rise.
    fn listed(numbers: &[u8]) -> Option<Self> {
        if !numbers.is_sorted_by(|one, next| one < next) {
            return None;
        }
        let stations: Option<Vec<_>> = numbers.iter().copied().map(Station::new).collect();
        Members::new(stations?)
    }
}

/// How many (1 byte), and then each member.
impl Bytes for Members {
    fn read(reader: &mut Reader) -> Result<Self, Refusal> {
        let count = usize::from(reader.u8()?);
        within(count, STATIONS)?;
        let members = Members::listed(reader.take(count)?);
        reader.require(members.is_some());
        Ok(members.unwrap_or(Members(0)))
    }

    fn write(&self, out: &mut Vec<u8>) {
        out.push(self.0.count_ones() as u8);
        out.extend(self.iter().map(Station::number));
    }
}

/// The members with commas between.
impl fmt::Display for Members {
    fn fmt(&self, f: &mut fmt::Formatter<'_>) -> fmt::Result {
        for (at, member) in self.iter().enumerate() {
            let comma = if at > 0 { "," } else { "" };
            write!(f, "{comma}{member}")?;
        }
        Ok(())
    }
}

#[cfg(test)]
mod tests {
    use super::*;

    #[test]
    fn every_set_but_the_empty_one_is_a_council() {
        for set in 1..=u16::MAX {
            let bytes = Members(set).to_bytes();
            assert_eq!(Members::from_bytes(&bytes), Ok(Members(set)));
        }
        let three = Members::from_bytes(&[3, 1, 2, 3]).expect("three members");
        assert_eq!((three.bits(), three.to_string()), (14, "1,2,3".to_string()));
        assert_eq!(Members::new([]), None);
    }

    #[test]
    fn other_lists_are_refused() {
        for list in [&[0][..], &[2, 1, 1], &[2, 2, 1], &[1, 16], &[2, 0, 255]] {
            assert_eq!(Members::from_bytes(list), Err(Refusal::OutOfRange));
        }
        let too_many: Vec<u8> = [17].into_iter().chain(0..17).collect();
        for list in [&[][..], &[1], &[1, 0, 1], &[0, 0], &too_many] {
            assert_eq!(Members::from_bytes(list), Err(Refusal::Malformed));
        }
    }
}
