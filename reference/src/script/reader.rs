//! The reader, which is brought a script a few bytes at a time and makes each call as soon as its
//! item is whole (definition, The reader).

use super::judge::names_missing;
use super::run::Lent;
use super::{content_size, read_item, Item, VERSION};
use crate::answer::{Answer, Reply, BAD_SCRIPT, BAD_STATE, DONE, MISSING_REGISTER};

/// What a reader keeps between deliveries.
#[derive(Clone, Debug, Default, PartialEq, Eq)]
pub enum Reader {
    /// Started anew: no byte has come.
    #[default]
    BeforeVersion,
    /// The version has come, and whole items; these are the bytes of the next one, if any has come.
    InItems(Vec<u8>),
    /// It takes no byte until it is started anew, and gives this number.
    Stopped(Answer),
}

/// A call that a reader makes, and its reply.
pub type Made = (Item, Reply);

/// What a delivery answers, and the calls that it made.
#[derive(Clone, Debug, PartialEq, Eq)]
pub struct Delivery {
    pub number: Answer,
    pub calls: Vec<Made>,
}

impl Reader {
    /// All the bytes of a delivery, one after the other. Of the state only the pending flag is
    /// asked, and by a control write alone; what else the calls ask for they ask by themselves.
    pub fn delivery(&mut self, lent: &mut Lent, bytes: &[u8]) -> Delivery {
        let mut calls = Vec::new();
        let mut rest = bytes;
        while !rest.is_empty() {
            let (made, taken) = self.deliver(lent, rest);
            calls.extend(made);
            rest = &rest[taken..];
            if taken == 0 {
                break;
            }
        }
        Delivery { number: self.number(), calls }
    }

    /// Bytes up to the one that makes an item whole or stops the reader: the call, if one is made,
    /// and how many bytes were taken.
    pub fn deliver(&mut self, lent: &mut Lent, bytes: &[u8]) -> (Option<Made>, usize) {
        for (place, byte) in bytes.iter().enumerate() {
            if !self.takes_bytes() {
                return (None, place);
            }
            if let Some(item) = self.take(*byte) {
                return (self.whole(lent, item), place + 1);
            }
        }
        (None, bytes.len())
    }

    /// The end notice: only between items has the script come to its end.
    pub fn end(&mut self) -> Answer {
        if self.takes_bytes() {
            let ended = matches!(self, Reader::InItems(kept) if kept.is_empty());
            *self = Reader::Stopped(if ended { DONE } else { BAD_SCRIPT });
        }
        self.number()
    }

    /// The number that a delivery or an end notice answers which leaves the reader like this.
    pub fn number(&self) -> Answer {
        match self {
            _ if !self.in_ranges() => BAD_STATE,
            Reader::Stopped(number) => *number,
            _ => DONE,
        }
    }

    fn takes_bytes(&self) -> bool {
        self.in_ranges() && !matches!(self, Reader::Stopped(_))
    }

    /// A reader that was made by deliveries and end notices alone is always in its ranges.
    fn in_ranges(&self) -> bool {
        match self {
            Reader::BeforeVersion => true,
            Reader::InItems(kept) => read_item(kept, 0).is_none() && begins_an_item(kept),
            Reader::Stopped(number) => *number <= MISSING_REGISTER && *number != 9,
        }
    }

    /// Takes a byte and gives the item that it makes whole. A byte that no script has there stops
    /// the reader.
    fn take(&mut self, byte: u8) -> Option<Item> {
        let mut kept = match self {
            Reader::BeforeVersion if byte == VERSION => {
                *self = Reader::InItems(Vec::new());
                return None;
            }
            Reader::InItems(kept) => std::mem::take(kept),
            _ => {
                *self = Reader::Stopped(BAD_SCRIPT);
                return None;
            }
        };
        kept.push(byte);
        match read_item(&kept, 0) {
            Some((item, _)) => return Some(item),
            None if begins_an_item(&kept) => *self = Reader::InItems(kept),
            None => *self = Reader::Stopped(BAD_SCRIPT),
        }
        None
    }

    /// Makes the call of an item, unless it names a missing register.
    fn whole(&mut self, lent: &mut Lent, item: Item) -> Option<Made> {
        if names_missing(item, lent.state.pending) {
            *self = Reader::Stopped(MISSING_REGISTER);
            return None;
        }
        let reply = lent.call(item);
        if let Err(number) = reply {
            *self = Reader::Stopped(number);
        }
        Some((item, reply))
    }
}

/// Is there an item that begins with these bytes? Contents are whatever comes.
fn begins_an_item(bytes: &[u8]) -> bool {
    let head = |kind: u8| content_size(kind).map(|size| [0, 1 + size as u8, kind]);
    let mut heads = (0..=255).filter_map(head);
    heads.any(|head| head.iter().zip(bytes).all(|(needed, byte)| needed == byte))
}
