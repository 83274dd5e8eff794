//! A script is judged as a whole, with a pending flag: first its form, then whether an item names a
//! missing register (definition, Missing registers and Judging).

use super::{form, Item};
use crate::answer::{Answer, BAD_SCRIPT, DONE, MISSING_REGISTER};
use crate::ports::Taken;

/// The number that a script answers, and a place among its items.
pub type Report = (Answer, u32);

/// How many items the script has, or the number and the place that it is refused with.
pub fn judged(script: &[u8], pending: bool) -> Report {
    match items(script, pending) {
        Ok(items) => (DONE, items.len() as u32),
        Err(report) => report,
    }
}

/// The items of a script that is judged with 0.
pub fn items(script: &[u8], pending: bool) -> Result<Vec<Item>, Report> {
    let items = form::items(script).map_err(|place| (BAD_SCRIPT, place))?;
    match first_missing(&items, pending) {
        Some(place) => Err((MISSING_REGISTER, place as u32)),
        None => Ok(items),
    }
}

/// The place of the first item that names a missing register.
pub fn first_missing(items: &[Item], pending: bool) -> Option<usize> {
    let mut found = items.iter().zip(flags(items, pending));
    found.position(|(item, pending)| names_missing(*item, pending))
}

/// Does an item that finds this flag name a missing register? A second half names none.
pub fn names_missing(item: Item, pending: bool) -> bool {
    match item {
        Item::ControlWrite(word) => Taken::of(word, pending) == Taken::MissingRegister,
        _ => false,
    }
}

/// The pending flag that each item would find, and that after the last one. Nothing else of the
/// state is asked: "A call that would be refused counts as done."
pub fn flags(items: &[Item], pending: bool) -> Vec<bool> {
    let mut flags = vec![pending];
    for (place, item) in items.iter().enumerate() {
        flags.push(flag_after(*item, flags[place]));
    }
    flags
}

/// The flag that the call of an item leaves once it is done.
fn flag_after(item: Item, pending: bool) -> bool {
    match item {
        Item::ControlWrite(word) => Taken::of(word, pending).leaves_pending(),
        Item::DataWrite(_) | Item::DataRead | Item::StatusRead => false,
        Item::Run(_) | Item::Line(_) | Item::NewFrame => pending,
    }
}
