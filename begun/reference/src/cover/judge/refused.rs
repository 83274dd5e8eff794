//! Counts of captures that are refused as their lines would be, and of what comes before what.

use super::{both_ways, by, ADD};
use crate::answer::{Answer, BAD_BUFFER, BAD_STATE, NOT_MODELLED, NO_SUCH_PLACE, PAST_THE_LIMIT};
use crate::cover::refused::REASONS;
use crate::cover::{names, Before, Tally};
use crate::draw;
use crate::planes::width;
use crate::replay::{Buffer, Machine};

const RULES: &[&str] = &[
    "bad state",
    "VRAM short",
    "VRAM long",
    "capture short, width 320",
    "capture short, width 256",
    "capture long, width 320",
    "capture long, width 256",
    "capture of one byte less",
    "capture of one byte more",
    "capture of no bytes",
    "capture of 256 bytes at 256",
    "bad buffer, the pixel buffer right",
    "line 224 of 224",
    "line 240 of 240",
    "line above 65,535",
    "not modelled on a blanked line",
    "1 before 2",
    "1 before 5",
    "1 before 4",
    "2 before 5",
    "2 before 4",
    "5 before 4",
    "while recorded is set",
    "it would be equal with 320 bytes lent",
];

/// The numbers that come before 15.
const DRAWING: [Answer; 4] = [BAD_STATE, BAD_BUFFER, NO_SUCH_PLACE, NOT_MODELLED];

pub fn rules() -> Vec<String> {
    let reasons = REASONS.map(not_modelled);
    let before = DRAWING.map(before_the_limit);
    [both_ways(&names(RULES)), both_ways(&reasons), before.to_vec()].concat()
}

fn not_modelled(reason: &str) -> String {
    format!("not modelled: {reason}")
}

fn before_the_limit(number: Answer) -> String {
    by(ADD, &format!("{number} before {PAST_THE_LIMIT}"))
}

type Facts = Vec<(bool, &'static str)>;

pub fn count(tally: &mut Tally, before: &Before, number: Answer) {
    let (op, machine) = (before.command.op, &before.machine);
    let facts = match number {
        BAD_STATE => vec![(true, "bad state")],
        BAD_BUFFER => [vram(machine), capture(machine)].concat(),
        NO_SUCH_PLACE => line(before),
        NOT_MODELLED => {
            vec![(machine.state.registers[1] & 0x40 == 0, "not modelled on a blanked line")]
        }
        _ => Vec::new(),
    };
    for (holds, rule) in [facts, order(before, number)].concat() {
        tally.meet_if(holds, &by(op, rule));
    }
    if number == NOT_MODELLED {
        let reason = draw::not_modelled(&machine.state).unwrap_or("");
        tally.meet(&by(op, &not_modelled(reason)));
    }
    let full = op == ADD && machine.batch.batch.lines == u32::MAX;
    tally.meet_if(full && DRAWING.contains(&number), &before_the_limit(number));
}

fn lent_right(buffer: &Buffer, bytes: usize) -> bool {
    buffer.length == bytes
}

fn vram(machine: &Machine) -> Facts {
    let length = machine.vram.length;
    vec![
        (length < 65_536, "VRAM short"),
        (length > 65_536, "VRAM long"),
        (lent_right(&machine.pixels, 320), "bad buffer, the pixel buffer right"),
    ]
}

fn capture(machine: &Machine) -> Facts {
    let (length, narrow) = (machine.capture.length, width(&machine.state) == 256);
    let (short, long) = (length < 320, length > 320);
    vec![
        (short && !narrow, "capture short, width 320"),
        (short && narrow, "capture short, width 256"),
        (long && !narrow, "capture long, width 320"),
        (long && narrow, "capture long, width 256"),
        (length == 319, "capture of one byte less"),
        (length == 321, "capture of one byte more"),
        (length == 0, "capture of no bytes"),
        (length == 256 && narrow, "capture of 256 bytes at 256"),
        (would_be_equal(machine), "it would be equal with 320 bytes lent"),
    ]
}

/// Has the capture that is held the pixels that were drawn last, though it is lent wrongly?
fn would_be_equal(machine: &Machine) -> bool {
    let width = width(&machine.state);
    let wrong = !lent_right(&machine.capture, 320);
    wrong && machine.capture.bytes[..width] == machine.pixels.bytes[..width]
}

fn line(before: &Before) -> Facts {
    let (line, height) = (before.command.c, draw::height(&before.machine.state));
    vec![
        (line == 224 && height == 224, "line 224 of 224"),
        (line == 240 && height == 240, "line 240 of 240"),
        (line > 65_535, "line above 65,535"),
    ]
}

/// The reasons behind the one that is answered.
fn order(before: &Before, number: Answer) -> Facts {
    let machine = &before.machine;
    let lent = lent_right(&machine.vram, 65_536) && lent_right(&machine.capture, 320);
    let past = before.command.c >= draw::height(&machine.state);
    let unmodelled = draw::not_modelled(&machine.state).is_some();
    vec![
        (number == BAD_STATE && !lent, "1 before 2"),
        (number == BAD_STATE && past, "1 before 5"),
        (number == BAD_STATE && unmodelled, "1 before 4"),
        (number == BAD_BUFFER && past, "2 before 5"),
        (number == BAD_BUFFER && unmodelled, "2 before 4"),
        (number == NO_SUCH_PLACE && unmodelled, "5 before 4"),
        (machine.recorded, "while recorded is set"),
    ]
}

#[cfg(test)]
mod tests {
    use super::*;
    use crate::bench::command;
    use crate::cover::judge::tests::assert_met;
    use crate::replay::{Command, CAPTURE, PIXELS, VRAM};

    const BAD: Command = Command { op: 32, a: 4, b: 0, c: 64 };

    fn assert_refused(commands: &[Command], line: u32, expected: &[&str]) {
        let judge = command(25, 0, 0, line);
        assert_met(rules(), "capture judged: ", &[commands, &[judge]].concat(), expected);
    }

    /// The pixel buffer is 0, so the capture of 25h is that of no line that was drawn.
    #[test]
    fn each_reason() {
        let length = |buffer, bytes| command(36, 0, buffer, bytes);
        let right = "bad buffer, the pixel buffer right";
        assert_refused(&[], 9, &[]);
        assert_refused(&[BAD], 9, &["bad state"]);
        assert_refused(&[length(VRAM, 9)], 9, &["VRAM short", right]);
        let short = ["capture short, width 320", "capture of one byte less"];
        assert_refused(&[length(CAPTURE, 319)], 9, &[&short[..], &[right]].concat());
        assert_refused(&[length(CAPTURE, 319), length(PIXELS, 9)], 9, &short);
        let equal = "it would be equal with 320 bytes lent";
        let drawn = [command(8, 0, 0, 9), length(CAPTURE, 321)];
        let long = ["capture long, width 320", "capture of one byte more", right, equal];
        assert_refused(&drawn, 9, &long);
        assert_refused(&[], 224, &["line 224 of 224"]);
        assert_refused(&[], u32::MAX, &["line above 65,535"]);
    }

    #[test]
    fn the_order() {
        let unmodelled = command(32, 0, 1, 0x40);
        let reason = "not modelled: register 1 bit 2 clear";
        assert_refused(&[unmodelled], 9, &[reason]);
        assert_refused(&[unmodelled], 224, &["line 224 of 224", "5 before 4"]);
        let all = ["bad state", "1 before 5", "1 before 4"];
        assert_refused(&[unmodelled, BAD], 224, &all);
        let blanked = "not modelled on a blanked line";
        assert_refused(&[command(32, 0, 1, 0x00)], 9, &[reason, blanked]);
    }

    /// A batch that is full refuses a line with 15 only if drawing does not refuse it.
    #[test]
    fn before_15() {
        let full = command(28, 0, 0, u32::MAX);
        let add = |line| command(26, 0, 0, line);
        let begin = "capture added: ";
        assert_met(rules(), begin, &[full, add(9)], &[]);
        let met = ["line 240 of 240", "5 before 15"];
        assert_met(rules(), begin, &[full, command(32, 0, 1, 0x4C), add(240)], &met);
        assert_met(rules(), begin, &[BAD, add(9)], &["bad state"]);
    }
}
