//! Scripts, which are bytes that stand for calls (definition, Scripts). Here are the items: their
//! kinds, their bytes, reading one and writing one.

pub mod files;
pub mod form;
pub mod judge;
pub mod program;
pub mod reader;
pub mod run;

use crate::answer::{Reply, BAD_BUFFER};

/// The first byte of a script.
pub const VERSION: u8 = 1;
/// Where the first item begins.
pub const ITEMS_FROM: usize = 1;

/// A call, with its word, budget or line number.
#[derive(Clone, Copy, Debug, PartialEq, Eq)]
pub enum Item {
    ControlWrite(u16),
    DataWrite(u16),
    DataRead,
    StatusRead,
    Run(u16),
    Line(u16),
    NewFrame,
}

impl Item {
    /// The item of a kind, if there is such a kind. One without a content does not look at it.
    pub fn of(kind: u8, content: u16) -> Option<Item> {
        match kind {
            1 => Some(Item::ControlWrite(content)),
            2 => Some(Item::DataWrite(content)),
            3 => Some(Item::DataRead),
            4 => Some(Item::StatusRead),
            5 => Some(Item::Run(content)),
            6 => Some(Item::Line(content)),
            7 => Some(Item::NewFrame),
            _ => None,
        }
    }

    pub fn kind(self) -> u8 {
        match self {
            Item::ControlWrite(_) => 1,
            Item::DataWrite(_) => 2,
            Item::DataRead => 3,
            Item::StatusRead => 4,
            Item::Run(_) => 5,
            Item::Line(_) => 6,
            Item::NewFrame => 7,
        }
    }

    pub fn content(self) -> Option<u16> {
        match self {
            Item::ControlWrite(word) | Item::DataWrite(word) => Some(word),
            Item::Run(number) | Item::Line(number) => Some(number),
            Item::DataRead | Item::StatusRead | Item::NewFrame => None,
        }
    }

    /// Length, kind and content. The length counts the two that follow it.
    pub fn bytes(self) -> Vec<u8> {
        let mut counted = vec![self.kind()];
        counted.extend(self.content().iter().flat_map(|word| word.to_be_bytes()));
        [&(counted.len() as u16).to_be_bytes()[..], &counted].concat()
    }
}

/// How many bytes a kind's content has.
pub fn content_size(kind: u8) -> Option<usize> {
    match kind {
        1 | 2 | 5 | 6 => Some(2),
        3 | 4 | 7 => Some(0),
        _ => None,
    }
}

/// The item that begins at a byte, and the byte after it. There is none if it is faulty.
pub fn read_item(script: &[u8], at: usize) -> Option<(Item, usize)> {
    let [upper, lower, kind, rest @ ..] = script.get(at..)? else {
        return None;
    };
    let size = content_size(*kind)?;
    let length = usize::from(u16::from_be_bytes([*upper, *lower]));
    let content = rest.get(..size).filter(|_| length == 1 + size)?;
    let word = content.try_into().map_or(0, u16::from_be_bytes);
    Some((Item::of(*kind, word)?, at + 3 + size))
}

/// Writes an item at a byte of a lent buffer; where it has no room, nothing changes.
pub fn write_item(buffer: &mut [u8], at: usize, item: Item) -> Reply {
    let bytes = item.bytes();
    let end = at.checked_add(bytes.len()).ok_or(BAD_BUFFER)?;
    buffer.get_mut(at..end).ok_or(BAD_BUFFER)?.copy_from_slice(&bytes);
    Ok(end as u32)
}

/// A whole script of these items.
pub fn script_of(items: &[Item]) -> Vec<u8> {
    let bytes = items.iter().flat_map(|item| item.bytes());
    std::iter::once(VERSION).chain(bytes).collect()
}

#[cfg(test)]
pub mod tests {
    use super::judge::{judged, Report};
    use super::*;

    /// A control write for register 24, and a first half.
    pub const MISSING: Item = Item::ControlWrite(0x9800);
    pub const FIRST: Item = Item::ControlWrite(0x4000);

    /// A script is judged as the program does it, with pending clear.
    pub fn judged_clear(script: &[u8]) -> Report {
        judged(script, false)
    }

    /// Control writes of these words, then these items.
    pub fn with_words(words: &[u16], items: &[Item]) -> Vec<Item> {
        let words = words.iter().map(|word| Item::ControlWrite(*word));
        words.chain(items.iter().copied()).collect()
    }

    /// An item of each kind with its bytes, by the table of the definition.
    const EACH: [(Item, &[u8]); 7] = [
        (Item::ControlWrite(0x8F02), &[0, 3, 1, 0x8F, 0x02]),
        (Item::DataWrite(0x1234), &[0, 3, 2, 0x12, 0x34]),
        (Item::DataRead, &[0, 1, 3]),
        (Item::StatusRead, &[0, 1, 4]),
        (Item::Run(0xFFFE), &[0, 3, 5, 0xFF, 0xFE]),
        (Item::Line(0x00DF), &[0, 3, 6, 0x00, 0xDF]),
        (Item::NewFrame, &[0, 1, 7]),
    ];

    #[test]
    fn an_item_of_each_kind_is_written_and_read() {
        for (item, bytes) in EACH {
            let end = 4 + bytes.len();
            let mut buffer = [0xAA; 12];
            assert_eq!(write_item(&mut buffer, 4, item), Ok(end as u32));
            let around = [&[0xAA; 4], bytes, &vec![0xAA; 12 - end]].concat();
            assert_eq!(buffer[..], around);
            assert_eq!(read_item(&buffer, 4), Some((item, end)));
            assert_eq!(read_item(&buffer[..end], 4), Some((item, end)));
            for cut in 4..end {
                assert_eq!(read_item(&buffer[..cut], 4), None);
            }
        }
    }

    /// Nine bytes have room for five at byte 4 and for three at byte 6.
    #[test]
    fn without_room_nothing_is_written() {
        let (five, three) = (Item::Line(0x1234), Item::NewFrame);
        for (item, at) in [(five, 4), (three, 6)] {
            let mut buffer = [0xAA; 9];
            assert_eq!(write_item(&mut buffer, at, item), Ok(9));
            for past in [at + 1, at + 2, 8, 9, 10, 65_536, usize::MAX - 2, usize::MAX] {
                let mut buffer = [0xAA; 9];
                assert_eq!(write_item(&mut buffer, past, item), Err(BAD_BUFFER));
                assert_eq!(buffer, [0xAA; 9]);
            }
        }
        assert_eq!(write_item(&mut [], 0, three), Err(BAD_BUFFER));
    }

    #[test]
    fn there_are_seven_kinds() {
        for kind in 0..=255 {
            let item = Item::of(kind, 0x1234);
            assert_eq!(item.is_some(), (1..=7).contains(&kind));
            assert_eq!(content_size(kind).is_some(), item.is_some());
            if let Some(item) = item {
                assert_eq!(item.kind(), kind);
                assert_eq!(item.content().is_some(), [1, 2, 5, 6].contains(&kind));
            }
        }
    }
}
