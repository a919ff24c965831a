//! The store: shelves, and for each client its last request and that one's word.

use std::fmt;

pub const SHELVES: usize = 1024;
pub const CLIENTS: usize = 256;

/// What a request asks of its shelf.
#[derive(Clone, Copy, Debug, PartialEq, Eq)]
pub enum Asked {
    Put(u32),
    Take(u32),
    Look,
}

#[derive(Clone, Copy, Debug, PartialEq, Eq)]
pub struct Request {
    pub client: u8,
    pub number: u32,
    pub key: u16,
    pub asked: Asked,
}

/// A request as text: the client, the number, and what is asked.
impl fmt::Display for Request {
    fn fmt(&self, f: &mut fmt::Formatter<'_>) -> fmt::Result {
        let Request {
            client,
            number,
            key,
            asked,
        } = self;
        write!(f, "{client} {number} ")?;
        match asked {
            Asked::Put(value) => write!(f, "put {key} {value}"),
            Asked::Take(amount) => write!(f, "take {key} {amount}"),
            Asked::Look => write!(f, "look {key}"),
        }
    }
}

#[derive(Clone, Copy, Debug, PartialEq, Eq)]
pub enum Refusal {
    Malformed = 1,
    OutOfRange = 2,
    NotNext = 13,
}

/// A shelf that doesn't hold 0.
#[derive(Clone, Copy, Debug, PartialEq, Eq)]
pub struct ShelfRow {
    pub key: u16,
    pub number: u32,
}

/// A client with a last above 0.
#[derive(Clone, Copy, Debug, PartialEq, Eq)]
pub struct ClientRow {
    pub client: u8,
    pub last: u32,
    pub word: u32,
}

#[derive(Clone, Debug, PartialEq, Eq)]
pub struct Store {
    shelves: [u32; SHELVES],
    lasts: [u32; CLIENTS],
    words: [u32; CLIENTS],
}

impl Default for Store {
    fn default() -> Self {
        Store {
            shelves: [0; SHELVES],
            lasts: [0; CLIENTS],
            words: [0; CLIENTS],
        }
    }
}

impl Store {
    /// Does the request and gives its word, or refuses it and changes nothing.
    pub fn perform(&mut self, request: &Request) -> Result<u32, Refusal> {
        let client = usize::from(request.client);
        let shelf = self
            .shelves
            .get_mut(usize::from(request.key))
            .ok_or(Refusal::OutOfRange)?;
        if self.lasts[client].checked_add(1) != Some(request.number) {
            return Err(Refusal::NotNext);
        }
        let held = *shelf;
        let word = match request.asked {
            Asked::Put(value) => {
                *shelf = value;
                held
            }
            Asked::Take(amount) => {
                *shelf = held.saturating_sub(amount);
                held - *shelf
            }
            Asked::Look => held,
        };
        self.lasts[client] = request.number;
        self.words[client] = word;
        Ok(word)
    }

    /// The store that has these rows, unless they don't rise, name no shelf, or hold 0.
    pub fn from_rows(shelves: &[ShelfRow], clients: &[ClientRow]) -> Option<Self> {
        let rising = shelves.is_sorted_by(|one, next| one.key < next.key)
            && clients.is_sorted_by(|one, next| one.client < next.client);
        let above_0 =
            shelves.iter().all(|row| row.number > 0) && clients.iter().all(|row| row.last > 0);
        if !rising || !above_0 {
            return None;
        }
        let mut store = Store::default();
        for row in shelves {
            *store.shelves.get_mut(usize::from(row.key))? = row.number;
        }
        for row in clients {
            store.lasts[usize::from(row.client)] = row.last;
            store.words[usize::from(row.client)] = row.word;
        }
        Some(store)
    }

    /// The shelves that don't hold 0, by rising key.
    pub fn shelf_rows(&self) -> impl Iterator<Item = ShelfRow> {
        let rows = (0..).zip(self.shelves);
        rows.map(|(key, number)| ShelfRow { key, number })
            .filter(|row| row.number > 0)
    }

    /// The clients with a last above 0, by rising number.
    pub fn client_rows(&self) -> impl Iterator<Item = ClientRow> {
        let rows = (0..=255).zip(self.lasts.into_iter().zip(self.words));
        rows.map(|(client, (last, word))| ClientRow { client, last, word })
            .filter(|row| row.last > 0)
    }
}

/// The lines that stand under `LINE show`.
impl fmt::Display for Store {
    fn fmt(&self, f: &mut fmt::Formatter<'_>) -> fmt::Result {
        for ShelfRow { key, number } in self.shelf_rows() {
            writeln!(f, "shelf {key} {number}")?;
        }
        for ClientRow { client, last, word } in self.client_rows() {
            writeln!(f, "client {client} last {last} word {word}")?;
        }
        Ok(())
    }
}

#[cfg(test)]
mod tests {
    use super::*;

    fn request(client: u8, number: u32, key: u16, asked: Asked) -> Request {
        Request {
            client,
            number,
            key,
            asked,
        }
    }

    #[test]
    fn each_thing_asked_has_its_word() {
        let mut store = Store::default();
        let steps = [
            (Asked::Put(9), 0, 9),
            (Asked::Put(5), 9, 5),
            (Asked::Look, 5, 5),
            (Asked::Take(2), 2, 3),
            (Asked::Take(3), 3, 0),
            (Asked::Put(u32::MAX), 0, u32::MAX),
            (Asked::Take(u32::MAX), u32::MAX, 0),
            (Asked::Put(1), 0, 1),
            (Asked::Take(u32::MAX), 1, 0),
        ];
        for (number, (asked, word, held)) in (1..).zip(steps) {
            assert_eq!(store.perform(&request(255, number, 1023, asked)), Ok(word));
            assert_eq!(store.shelves[1023], held);
            assert_eq!((store.lasts[255], store.words[255]), (number, word));
        }
    }

    #[test]
    fn only_the_next_request_is_done() {
        let mut store = Store::default();
        assert_eq!(store.perform(&request(3, 1, 0, Asked::Put(8))), Ok(0));
        let before = store.clone();
        for number in [0, 1, 3, u32::MAX] {
            let refused = store.perform(&request(3, number, 0, Asked::Take(1)));
            assert_eq!(refused, Err(Refusal::NotNext));
        }
        assert_eq!(store, before);
    }

    #[test]
    fn the_lowest_refusal_is_given() {
        let mut store = Store::default();
        for number in [0, 1, 2] {
            let refused = store.perform(&request(0, number, 1024, Asked::Look));
            assert_eq!(refused, Err(Refusal::OutOfRange));
        }
        assert_eq!(store, Store::default());
    }

    #[test]
    fn a_client_can_be_finished() {
        let mut store = Store::default();
        store.lasts[7] = u32::MAX - 1;
        assert_eq!(
            store.perform(&request(7, u32::MAX, 0, Asked::Put(4))),
            Ok(0)
        );
        for number in [0, 1, u32::MAX] {
            let refused = store.perform(&request(7, number, 0, Asked::Look));
            assert_eq!(refused, Err(Refusal::NotNext));
        }
    }
}
