//! Counts of why the calls of the timing were refused, and of the order between two reasons.

use super::refused::{count_over, free};
use super::{names, Before, Tally};
use crate::answer::{Answer, BAD_BUFFER, BAD_STATE, NOTHING_THERE, NOT_MODELLED, TAPE_FULL};
use crate::replay::Command;
use crate::state::State;
use crate::timing::{level, offered};

const RULES: &[&str] = &[
    "line begins: 1 before 2",
    "line begins: 1 before 4",
    "line begins: 2 before 4",
    "line begins: 4 before 6",
    "acknowledge: 1 before 2",
    "acknowledge: 1 before 10",
    "acknowledge: 2 before 10",
    "acknowledge: 10 before 6",
    "acknowledge of 0 refused, no level offered",
    "acknowledge of 0 refused, a level offered",
    "acknowledge of 2 refused",
    "acknowledge of 4 refused, no level offered",
    "acknowledge of 4 refused while 6 is offered",
    "acknowledge of 6 refused, no level offered",
    "acknowledge of 6 refused while 4 is offered",
    "acknowledge of 6 refused, vertical set, register 1 bit 5 clear",
    "acknowledge of the level offered plus 8 refused",
    "V counter refused on line 262",
    "level read refused on line 262",
];

/// The numbers that the plain and the recorded form of ops 13 and 14 may be refused with.
const FORMS: [(u8, &str, &[Answer]); 4] = [
    (13, "plain", &[BAD_STATE, NOT_MODELLED]),
    (13, "recorded", &[BAD_STATE, BAD_BUFFER, NOT_MODELLED, TAPE_FULL]),
    (14, "plain", &[BAD_STATE, NOTHING_THERE]),
    (14, "recorded", &[BAD_STATE, BAD_BUFFER, NOTHING_THERE, TAPE_FULL]),
];

pub fn rules() -> Vec<String> {
    let mut rules = names(RULES);
    for (op, form, numbers) in FORMS {
        rules.extend(numbers.iter().map(|number| refused_form(op, form, *number)));
    }
    rules
}

fn refused_form(op: u8, form: &str, number: Answer) -> String {
    format!("op {op}, {form}, answers {number}")
}

pub fn count(tally: &mut Tally, before: &Before, number: Answer) {
    let Command { op, a, .. } = before.command;
    let state = &before.machine.state;
    if matches!(op, 13 | 14) {
        let form = if before.taped() { "recorded" } else { "plain" };
        tally.meet(&refused_form(op, form, number));
    }
    match op {
        13 => order(tally, before, number, "line begins", state.pal, NOT_MODELLED),
        14 => {
            let absent = !offered(state, a);
            order(tally, before, number, "acknowledge", absent, NOTHING_THERE);
            not_offered(tally, state, a, number);
        }
        15 => tally.meet_if(state.line == 262, "V counter refused on line 262"),
        16 => tally.meet_if(state.line == 262, "level read refused on line 262"),
        _ => (),
    }
}

/// Both calls may answer 1, 2, a number of their own, or 6, in this order.
fn order(
    tally: &mut Tally,
    before: &Before,
    number: Answer,
    name: &str,
    own_holds: bool,
    own: Answer,
) {
    let over = before.taped() && count_over(&before.machine);
    let full = before.taped() && free(&before.machine) == 0;
    if number == BAD_STATE {
        tally.meet_if(over, &format!("{name}: 1 before 2"));
        tally.meet_if(own_holds, &format!("{name}: 1 before {own}"));
    } else if number == BAD_BUFFER {
        tally.meet_if(own_holds, &format!("{name}: 2 before {own}"));
    } else if number == own {
        tally.meet_if(full, &format!("{name}: {own} before 6"));
    }
}

fn not_offered(tally: &mut Tally, state: &State, asked: u8, number: Answer) {
    if number != NOTHING_THERE {
        return;
    }
    let offered = level(state);
    match (asked, offered) {
        (0, 0) => tally.meet("acknowledge of 0 refused, no level offered"),
        (0, _) => tally.meet("acknowledge of 0 refused, a level offered"),
        (2, _) => tally.meet("acknowledge of 2 refused"),
        (4, 0) => tally.meet("acknowledge of 4 refused, no level offered"),
        (4, _) => tally.meet("acknowledge of 4 refused while 6 is offered"),
        (6, 0) => tally.meet("acknowledge of 6 refused, no level offered"),
        (6, _) => tally.meet("acknowledge of 6 refused while 4 is offered"),
        _ => {
            let plus_8 = offered != 0 && asked == offered + 8;
            tally.meet_if(plus_8, "acknowledge of the level offered plus 8 refused");
        }
    }
    let unasked = asked == 6 && offered == 0 && state.vertical;
    tally.meet_if(unasked, "acknowledge of 6 refused, vertical set, register 1 bit 5 clear");
}
