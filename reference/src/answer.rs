//! The numbers a call may answer (definition, Numbers a call may answer); 9 is not used.

pub type Answer = u8;

pub const DONE: Answer = 0;
pub const BAD_STATE: Answer = 1;
pub const BAD_BUFFER: Answer = 2;
pub const BUSY: Answer = 3;
pub const NOT_MODELLED: Answer = 4;
pub const NO_SUCH_PLACE: Answer = 5;
pub const TAPE_FULL: Answer = 6;
pub const SOURCE_NOT_LENT: Answer = 7;
pub const BAD_RECORD: Answer = 8;
pub const NOTHING_THERE: Answer = 10;
pub const BAD_SCRIPT: Answer = 11;
pub const MISSING_REGISTER: Answer = 12;

/// An accepted call gives its result, a refused one its number.
pub type Reply = Result<u32, Answer>;

/// The number and the result that are printed; a refused call has 0 as its result.
pub fn numbers(reply: Reply) -> (Answer, u32) {
    match reply {
        Ok(result) => (DONE, result),
        Err(number) => (number, 0),
    }
}

/// Refuses with the given number unless the condition holds.
pub fn need(holds: bool, otherwise: Answer) -> Result<(), Answer> {
    if holds {
        Ok(())
    } else {
        Err(otherwise)
    }
}
