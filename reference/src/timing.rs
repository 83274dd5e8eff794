//! Frame timing: a line that begins, the levels offered and their acknowledges, the V counter
//! (definition, Frame timing; notes s4 and s5). Refusals are in calls.rs.

use crate::state::{State, LAST_LINE};

/// The last line on which the counter counts; vertical is set on it.
const VERTICAL_LINE: u16 = 224;
/// Vertical blanking ends after this line, one before the last.
const LAST_BLANKED: u16 = 260;
/// The V counter goes back after this line, by as many as 262 lines are above 256.
const LAST_STRAIGHT: u16 = 234;
const V_COUNTER_BACK: u16 = 6;

/// The levels that can be offered; 0 stands for none.
pub const NO_LEVEL: u8 = 0;
pub const LINE_LEVEL: u8 = 4;
pub const FRAME_LEVEL: u8 = 6;

/// "First the line becomes the next one", and all else goes by the new line, in this order.
pub fn line_begins(state: &mut State) {
    state.line = next_line(state.line);
    if state.line == 0 || state.line > VERTICAL_LINE {
        load_counter(state);
    }
    if state.line <= VERTICAL_LINE {
        count_line(state);
    }
    if state.line == VERTICAL_LINE {
        state.vertical = true;
    }
}

fn next_line(line: u16) -> u16 {
    if line == LAST_LINE {
        0
    } else {
        line + 1
    }
}

/// A write to register 10 does not load the counter.
fn load_counter(state: &mut State) {
    state.counter = state.registers[10];
}

/// An expiry that is not asked for loads the counter all the same and leaves horizontal.
fn count_line(state: &mut State) {
    if state.counter > 0 {
        state.counter -= 1;
        return;
    }
    load_counter(state);
    if state.registers[0] & 0x10 != 0 {
        state.horizontal = true;
    }
}

/// The level offered: 4 goes before 6, and register 0 is not asked any more.
pub fn level(state: &State) -> u8 {
    if state.horizontal {
        LINE_LEVEL
    } else if state.vertical && state.registers[1] & 0x20 != 0 {
        FRAME_LEVEL
    } else {
        NO_LEVEL
    }
}

/// "Level 0 is never offered."
pub fn offered(state: &State, asked: u8) -> bool {
    asked != NO_LEVEL && asked == level(state)
}

/// Clears what the level is for, once it is known to be offered.
pub fn acknowledge(state: &mut State, offered: u8) {
    if offered == LINE_LEVEL {
        state.horizontal = false;
    } else {
        state.vertical = false;
    }
}

/// Up to EAh with the line, then from E5h to FFh.
pub fn v_counter(state: &State) -> u16 {
    if state.line <= LAST_STRAIGHT {
        state.line
    } else {
        state.line - V_COUNTER_BACK
    }
}

/// Status bit 3.
pub fn vertical_blanking(state: &State) -> bool {
    (VERTICAL_LINE..=LAST_BLANKED).contains(&state.line)
}
