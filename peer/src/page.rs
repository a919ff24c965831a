//! A store as bytes, with the number of entries that made it.

use crate::bytes::{Bytes, Reader, write_list};
use crate::store::{CLIENTS, ClientRow, Refusal, SHELVES, ShelfRow, Store};

#[derive(Clone, Debug, PartialEq, Eq)]
pub struct Page {
    /// How many entries stand before.
    pub before: u32,
    pub store: Store,
}

impl Bytes for Page {
    fn read(reader: &mut Reader) -> Result<Self, Refusal> {
        let before = reader.u32()?;
        let shelves = reader.list(SHELVES)?;
        let clients = reader.list(CLIENTS)?;
        let store = Store::from_rows(&shelves, &clients);
        reader.require(store.is_some());
        Ok(Page {
            before,
            store: store.unwrap_or_default(),
        })
    }

    fn write(&self, out: &mut Vec<u8>) {
        out.extend(self.before.to_be_bytes());
        write_list(&self.store.shelf_rows().collect::<Vec<_>>(), out);
        write_list(&self.store.client_rows().collect::<Vec<_>>(), out);
    }
}

/// The range of rows is judged with the whole store.
impl Bytes for ShelfRow {
    fn read(reader: &mut Reader) -> Result<Self, Refusal> {
        Ok(ShelfRow {
            key: reader.u16()?,
            number: reader.u32()?,
        })
    }

    fn write(&self, out: &mut Vec<u8>) {
        out.extend(self.key.to_be_bytes());
        out.extend(self.number.to_be_bytes());
    }
}

impl Bytes for ClientRow {
    fn read(reader: &mut Reader) -> Result<Self, Refusal> {
        Ok(ClientRow {
            client: reader.u8()?,
            last: reader.u32()?,
            word: reader.u32()?,
        })
    }

    fn write(&self, out: &mut Vec<u8>) {
        out.push(self.client);
        out.extend(self.last.to_be_bytes());
        out.extend(self.word.to_be_bytes());
    }
}

#[cfg(test)]
mod tests {
    use super::*;
    use crate::hex;

    fn read(word: &str) -> Result<Page, Refusal> {
        Page::from_bytes(&hex::read(word.as_bytes()).expect("hex"))
    }

    /// The bytes of a page with these rows, right or wrong.
    fn raw(shelves: &[(u16, u32)], clients: &[(u8, u32)]) -> Vec<u8> {
        let mut out = vec![0; 4];
        let row = |&(key, number)| ShelfRow { key, number };
        write_list(&shelves.iter().map(row).collect::<Vec<_>>(), &mut out);
        let row = |&(client, last)| ClientRow {
            client,
            last,
            word: 0,
        };
        write_list(&clients.iter().map(row).collect::<Vec<_>>(), &mut out);
        out
    }

    #[test]
    fn the_example_of_the_document() {
        let word = "000000030001000700000005000101000000020000000c";
        let page = read(word).expect("a page");
        let text = page.store.to_string();
        assert_eq!(
            (page.before, &*text),
            (3, "shelf 7 5\nclient 1 last 2 word 12\n")
        );
        assert_eq!(hex::write(&page.to_bytes()), word.as_bytes());
        assert_eq!(read(&word[..word.len() - 2]), Err(Refusal::Malformed));
        assert_eq!(read(&format!("{word}00")), Err(Refusal::Malformed));
    }

    #[test]
    fn rows_out_of_range() {
        let shelves: [&[(u16, u32)]; 4] = [
            &[(7, 1), (7, 1)],
            &[(8, 1), (7, 1)],
            &[(7, 0)],
            &[(7, 1), (1024, 1)],
        ];
        for rows in shelves {
            assert_eq!(Page::from_bytes(&raw(rows, &[])), Err(Refusal::OutOfRange));
        }
        let clients: [&[(u8, u32)]; 3] = [&[(7, 1), (7, 1)], &[(8, 1), (7, 1)], &[(7, 0)]];
        for rows in clients {
            assert_eq!(Page::from_bytes(&raw(&[], rows)), Err(Refusal::OutOfRange));
        }
    }

    #[test]
    fn limits_of_counts() {
        let shelves: Vec<_> = (0..=1024).map(|key| (key, 1)).collect();
        let clients: Vec<_> = (0..=255).chain([255]).map(|client| (client, 1)).collect();
        let full = raw(&shelves[..1024], &clients[..256]);
        assert_eq!(
            Page::from_bytes(&full).map(|page| page.to_bytes()),
            Ok(full)
        );
        for (shelves, clients) in [(&shelves[..], &[][..]), (&[], &clients)] {
            let page = Page::from_bytes(&raw(shelves, clients));
            assert_eq!(page, Err(Refusal::Malformed));
        }
    }
}
