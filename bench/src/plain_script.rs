// A script as a plain Rust program would run it, by the rules of docs/DEFINITION.md (Scripts): judged as a whole, and
// then data write by data write. It knows the lengths of all kinds, and makes no other calls.
use crate::exports::{ScriptAnswer, State, BAD_SCRIPT, DONE, MISSING_REGISTER};
use crate::machine::Memory;
use crate::plain::data_write_asking_good;

const VERSION: u8 = 1;
const DATA_WORD: u8 = 2;

// The kind and the content of the item that the bytes begin with, and the bytes behind it.
fn item(bytes: &[u8]) -> Option<(u8, &[u8], &[u8])> {
    let [upper, lower, rest @ ..] = bytes else {
        return None;
    };
    let length = usize::from(u16::from_be_bytes([*upper, *lower]));
    let (item, behind) = rest.split_at_checked(length)?;
    let (kind, content) = item.split_first()?;
    let right = match kind {
        1 | 2 | 5 | 6 => content.len() == 2,
        3 | 4 | 7 => content.is_empty(),
        _ => false,
    };
    right.then_some((*kind, content, behind))
}

// Whether an item names a missing register, with this pending flag, and the flag that it leaves.
fn names_missing(pending: bool, kind: u8, content: &[u8]) -> (bool, bool) {
    match (kind, content) {
        (1, &[high, _]) => {
            let register = !pending && high >> 6 == 0b10;
            (register && high % 32 > 23, !pending && !register)
        }
        (2..=4, _) => (false, false),
        _ => (false, pending),
    }
}

// In one walk over the items: the first that names a missing register is kept until the form is known.
fn judge(mut pending: bool, script: &[u8]) -> ScriptAnswer {
    let answer = |number, place| ScriptAnswer { number, place };
    let Some((&VERSION, mut bytes)) = script.split_first() else {
        return answer(BAD_SCRIPT, 0);
    };
    let mut place = 0;
    let mut missing = None;
    while !bytes.is_empty() {
        let Some((kind, content, behind)) = item(bytes) else {
            return answer(BAD_SCRIPT, place);
        };
        let (names, left) = names_missing(pending, kind, content);
        if names {
            missing.get_or_insert(place);
        }
        (bytes, place, pending) = (behind, place + 1, left);
    }
    match missing {
        Some(first) => answer(MISSING_REGISTER, first),
        None => answer(DONE, place),
    }
}

#[inline(never)]
pub fn run(state: &mut State, vram: &mut Memory, script: &[u8]) -> ScriptAnswer {
    let judged = judge(state.control.port.pending, script);
    if judged.number != DONE {
        return judged;
    }
    let mut bytes = &script[1..];
    let mut place = 0;
    while let Some((DATA_WORD, &[high, low], behind)) = item(bytes) {
        let number = data_write_asking_good(state, vram, u16::from_be_bytes([high, low])).number;
        if number != DONE {
            return ScriptAnswer { number, place };
        }
        (bytes, place) = (behind, place + 1);
    }
    ScriptAnswer {
        number: DONE,
        place,
    }
}
