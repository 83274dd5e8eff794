//! Counts of captures that are judged: where they differ and in what, what they are judged with, and
//! what drawing their lines would have changed.

use super::{both_ways, by, differing, Compared};
use crate::cover::refused::{count_over, free};
use crate::cover::{at_both_widths, at_width, names, Before, Tally};
use crate::draw;
use crate::state::{State, COPY, FILL, FILL_WAITING, TRANSFER};

/// What a byte has as its index, and as its intensity.
const INDEX: u8 = 0x3F;
const INTENSITY: u8 = 0xC0;

const OF_WIDTHS: &[&str] = &[
    "equal",
    "differs first on column 0",
    "differs first on the last column",
    "differs first between these",
    "differs on one column",
    "differs on several columns",
    "differs on every column",
    "differs in intensities alone",
    "differs in indexes alone",
    "differs by an intensity that no line has",
    "blanked line equal",
    "blanked line differs",
    "shadow and highlight, equal",
    "shadow and highlight, differs",
    "equal, but not with used up clear",
    "equal, but not with used up set",
    "differs, but not with used up clear",
    "differs, but not with used up set",
    "drawn, the line would set overflow",
    "drawn, the line would set collision",
    "drawn, the line would set used up",
    "drawn, the line would clear used up",
];

const OTHERS: &[&str] = &[
    "equal at 256, with bytes past the width that are not 0",
    "equal at 256, with bytes past the width that are not the pixel buffer's",
    "equal at 320, with other pixels in the pixel buffer",
    "line 0",
    "line 223",
    "line 239",
    "while a fill waits",
    "in a transfer",
    "in a fill",
    "in a copy",
    "while a second half is awaited",
    "with PAL",
    "with a pixel buffer of another length",
    "while recorded is set",
    "while recorded is set, on a full tape",
    "while recorded is set, the count above the capacity",
];

pub fn rules() -> Vec<String> {
    [both_ways(&at_both_widths(OF_WIDTHS)), both_ways(&names(OTHERS))].concat()
}

type Facts = Vec<(bool, &'static str)>;

pub fn count(tally: &mut Tally, before: &Before, compared: &Compared) {
    let (op, width) = (before.command.op, compared.view.width());
    let of_widths = [columns(compared), bytes(compared), screen(compared), flags(compared)];
    for (holds, rule) in of_widths.concat() {
        tally.meet_if(holds, &at_width(&by(op, rule), width));
    }
    let others = [past_the_width(before, compared), chip(before), beside(before)];
    for (holds, rule) in others.concat() {
        tally.meet_if(holds, &by(op, rule));
    }
}

fn columns(compared: &Compared) -> Facts {
    let (width, differing) = (compared.view.width(), &compared.differing);
    let first = differing.first().copied();
    let last = width - 1;
    vec![
        (compared.equal(), "equal"),
        (first == Some(0), "differs first on column 0"),
        (first == Some(last), "differs first on the last column"),
        (first.is_some_and(|first| 0 < first && first < last), "differs first between these"),
        (differing.len() == 1, "differs on one column"),
        (1 < differing.len() && differing.len() < width, "differs on several columns"),
        (differing.len() == width, "differs on every column"),
    ]
}

/// In what the bytes of the columns that differ do so.
fn bytes(compared: &Compared) -> Facts {
    let captured = |column: &usize| compared.capture.get(*column).copied().unwrap_or(0);
    let bits = |column: &usize| captured(column) ^ compared.picture.pixels[*column];
    let differs = !compared.equal();
    let alone = |part: u8| differs && compared.differing.iter().all(|at| bits(at) & !part == 0);
    let no_such = compared.differing.iter().any(|at| captured(at) & INTENSITY == INTENSITY);
    vec![
        (alone(INTENSITY), "differs in intensities alone"),
        (alone(INDEX), "differs in indexes alone"),
        (no_such, "differs by an intensity that no line has"),
    ]
}

fn screen(compared: &Compared) -> Facts {
    let registers = &compared.view.state.registers;
    let (equal, blanked) = (compared.equal(), registers[1] & 0x40 == 0);
    let shaded = !blanked && registers[12] & 0x08 != 0;
    vec![
        (blanked && equal, "blanked line equal"),
        (blanked && !equal, "blanked line differs"),
        (shaded && equal, "shadow and highlight, equal"),
        (shaded && !equal, "shadow and highlight, differs"),
    ]
}

/// What used up decides, and what a drawn line would leave of the flags.
fn flags(compared: &Compared) -> Facts {
    let (view, picture, equal) = (&compared.view, &compared.picture, compared.equal());
    let set = view.state.used_up;
    let other = State { used_up: !set, ..view.state.clone() };
    let other = draw::picture(&other, view.vram, view.line as u32);
    let decides = differing(&other, compared.capture).is_empty() != equal;
    vec![
        (decides && equal && set, "equal, but not with used up clear"),
        (decides && equal && !set, "equal, but not with used up set"),
        (decides && !equal && set, "differs, but not with used up clear"),
        (decides && !equal && !set, "differs, but not with used up set"),
        (picture.overflow && !view.state.overflow, "drawn, the line would set overflow"),
        (picture.collision && !view.state.collision, "drawn, the line would set collision"),
        (picture.used_up && !set, "drawn, the line would set used up"),
        (!picture.used_up && set, "drawn, the line would clear used up"),
    ]
}

/// Bytes that are not looked at, and the pixel buffer, which isn't either.
fn past_the_width(before: &Before, compared: &Compared) -> Facts {
    let (width, capture) = (compared.view.width(), compared.capture);
    let pixels = &before.machine.pixels.bytes;
    let narrow = compared.equal() && width == 256;
    let wide = compared.equal() && width == 320;
    let past = &capture[width..];
    vec![
        (narrow && past.iter().any(|byte| *byte != 0), OTHERS[0]),
        (narrow && *past != pixels[width..320], OTHERS[1]),
        (wide && *capture != pixels[..320], OTHERS[2]),
    ]
}

fn chip(before: &Before) -> Facts {
    let (state, line) = (&before.machine.state, before.command.c);
    vec![
        (line == 0, "line 0"),
        (line == 223, "line 223"),
        (line == 239, "line 239"),
        (state.kind == FILL_WAITING, "while a fill waits"),
        (state.kind == TRANSFER, "in a transfer"),
        (state.kind == FILL, "in a fill"),
        (state.kind == COPY, "in a copy"),
        (state.pending, "while a second half is awaited"),
        (state.pal, "with PAL"),
    ]
}

/// What is not asked: the pixel buffer, the tape and the count.
fn beside(before: &Before) -> Facts {
    let machine = &before.machine;
    let (over, full) = (count_over(machine), free(machine) == 0);
    vec![
        (machine.pixels.length != 320, "with a pixel buffer of another length"),
        (machine.recorded, "while recorded is set"),
        (machine.recorded && full && !over, "while recorded is set, on a full tape"),
        (machine.recorded && over, "while recorded is set, the count above the capacity"),
    ]
}

#[cfg(test)]
mod tests {
    use super::*;
    use crate::bench::command;
    use crate::cover::judge::tests::{assert_met, spoil};
    use crate::replay::{Command, CAPTURE, PIXELS};

    fn register(number: u16, value: u32) -> Command {
        command(32, 0, number, value)
    }

    /// What a star stands for.
    const WIDE: &str = ", width 320";

    /// The rules of these commands, with a capture that is judged against line 9 behind them.
    fn assert_judged(commands: &[Command], expected: &[&str]) {
        let judge = command(25, 0, 0, 9);
        let commands = [commands, &[judge]].concat();
        let expected: Vec<_> = expected.iter().map(|rule| rule.replace(" *", WIDE)).collect();
        let expected: Vec<_> = expected.iter().map(String::as_str).collect();
        assert_met(rules(), "capture judged: ", &commands, &expected);
    }

    const PIXELS_ELSE: &str = "equal at 320, with other pixels in the pixel buffer";

    #[test]
    fn columns_and_bytes() {
        let one = ["differs on one column *", "differs in indexes alone *"];
        assert_judged(&[], &["equal *", PIXELS_ELSE]);
        assert_judged(&[spoil(0, 1)], &[&one[..], &["differs first on column 0 *"]].concat());
        let last = "differs first on the last column *";
        assert_judged(&[spoil(319, 1)], &[&one[..], &[last]].concat());
        let between = ["differs first between these *", "differs on several columns *"];
        let intensities = [&between[..], &["differs in intensities alone *"]].concat();
        assert_judged(&[spoil(7, 0x65), spoil(9, 0xA5)], &intensities);
        let no_such = [&intensities[..], &["differs by an intensity that no line has *"]].concat();
        assert_judged(&[spoil(7, 0x65), spoil(9, 0xE5)], &no_such);
        assert_judged(&[spoil(7, 0x65), spoil(9, 1)], &between);
        let every = ["differs on every column *", "differs first on column 0 *"];
        let every = [&every[..], &["differs in indexes alone *"]].concat();
        assert_judged(&[command(39, 1, CAPTURE, 0)], &every);
    }

    /// The pixel buffer is 0, and the capture has 25h past the width.
    #[test]
    fn at_256() {
        let narrow = register(12, 0);
        let equal = ["equal, width 256", OTHERS[0], OTHERS[1]];
        assert_judged(&[narrow], &equal);
        assert_judged(&[narrow, command(40, 0, 0, 0), register(7, 0)], &["equal, width 256"]);
        let same = [narrow, command(39, 0x25, PIXELS, 0)];
        assert_judged(&same, &["equal, width 256", OTHERS[0]]);
    }

    #[test]
    fn what_it_is_judged_with() {
        let equal = ["equal *", PIXELS_ELSE];
        let with = |more: &[&'static str]| [&equal[..], more].concat();
        assert_judged(&[register(1, 0x04)], &with(&["blanked line equal *"]));
        let shaded = [register(12, 0x89), command(39, 0x65, CAPTURE, 0)];
        assert_judged(&shaded, &with(&["shadow and highlight, equal *"]));
        let clear = "drawn, the line would clear used up *";
        assert_judged(&[command(32, 17, 0, 1)], &with(&[clear]));
        assert_judged(&[command(32, 12, 0, 1)], &with(&["with PAL"]));
        assert_judged(&[command(32, 6, 0, 1)], &with(&["while a fill waits"]));
        let length = command(36, 0, PIXELS, 9);
        assert_judged(&[length], &with(&["with a pixel buffer of another length"]));
        let record = [command(38, 1, 0, 0), command(37, 0, 0, 4_096)];
        let full = "while recorded is set, on a full tape";
        assert_judged(&record, &with(&["while recorded is set", full]));
    }
}
