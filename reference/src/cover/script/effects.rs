//! Counts of what the calls of a script do once they are done.

use super::missing::{bit_13, MISSING};
use crate::cover::{names, Tally};
use crate::ports::Taken;
use crate::script::Item;
use crate::state::{State, COPY, FILL, FILL_WAITING, SCROLLS, TRANSFER, UNITS_MOST};

const RULES: &[&str] = &[
    "script: register written",
    "script: first half",
    "script: second half",
    "script: second half at place 0",
    "script: transfer begins",
    "script: fill waits",
    "script: copy begins",
    "script: VRAM word stored",
    "script: colour word stored",
    "script: scroll word stored",
    "script: data write that stores nothing",
    "script: data write that begins a fill",
    "script: VRAM word read, not 0",
    "script: colour word read, not 0",
    "script: scroll word read, not 0",
    "script: status read with pending set",
    "script: status read shows a flag that a line of the script set",
    "script: status read shows vertical",
    "script: status read shows a fill or copy",
    "script: status read shows PAL",
    "script: run with budget 0, idle",
    "script: run with budget 0, units remaining",
    "script: run with budget below the remaining",
    "script: run with budget just the remaining",
    "script: run with budget above the remaining",
    "script: run with budget FFFFh",
    "script: run of 65,535 units of 65,536",
    "script: run of transfer units",
    "script: run of fill units",
    "script: run of copy units",
    "script: line, more than one sprite visited",
    "script: line sets overflow",
    "script: line sets collision",
    "script: line sets used up",
    "script: line of 320 pixels",
    "script: line of 256 pixels",
    "script: line blanked",
    "script: line after another",
    "script: line 224 or below it",
    "script: new frame clears a flag that a line of the script set",
    "script: new frame clears used up",
];

pub fn rules() -> Vec<String> {
    let mut rules = names(RULES);
    rules.extend([0x9700, 0xB700].map(last_register));
    rules.extend(MISSING.map(bits_of));
    rules
}

/// The last register that there is, by its word.
fn last_register(word: u16) -> String {
    format!("script: register 23 written, {}", bit_13(word))
}

fn bits_of(number: u16) -> String {
    format!("script: second half with the bits of register {number}")
}

/// What the calls so far have done.
#[derive(Default)]
pub struct Effects {
    flag_by_line: bool,
    lines: u32,
}

/// A state with another one, before and after a call.
type Around<'a> = [&'a State; 2];

impl Effects {
    pub fn count(
        &mut self,
        tally: &mut Tally,
        place: usize,
        item: Item,
        around: Around,
        result: u32,
    ) {
        match item {
            Item::ControlWrite(word) => control(tally, place, around, word),
            Item::DataWrite(_) => data_write(tally, around[0]),
            Item::DataRead => data_read(tally, around[0], result),
            Item::StatusRead => self.status(tally, around[0]),
            Item::Run(budget) => run(tally, around[0], u32::from(budget), result),
            Item::Line(line) => self.line(tally, around, line, result),
            Item::NewFrame => {
                let rule = "script: new frame clears a flag that a line of the script set";
                tally.meet_if(self.flag_by_line && flag(around[0]), rule);
                tally.meet_if(around[0].used_up, "script: new frame clears used up");
            }
        }
    }

    fn status(&mut self, tally: &mut Tally, then: &State) {
        let rule = "script: status read shows a flag that a line of the script set";
        tally.meet_if(self.flag_by_line && flag(then), rule);
        tally.meet_if(then.pending, "script: status read with pending set");
        tally.meet_if(then.vertical, "script: status read shows vertical");
        tally.meet_if(then.running(), "script: status read shows a fill or copy");
        tally.meet_if(then.pal, "script: status read shows PAL");
    }

    fn line(&mut self, tally: &mut Tally, [then, now]: Around, line: u16, visits: u32) {
        let wide = then.registers[12] & 1 != 0;
        let facts = [
            (visits > 1, "script: line, more than one sprite visited"),
            (now.overflow && !then.overflow, "script: line sets overflow"),
            (now.collision && !then.collision, "script: line sets collision"),
            (now.used_up, "script: line sets used up"),
            (wide, "script: line of 320 pixels"),
            (!wide, "script: line of 256 pixels"),
            (then.registers[1] & 0x40 == 0, "script: line blanked"),
            (self.lines > 0, "script: line after another"),
            (line >= 224, "script: line 224 or below it"),
        ];
        for (holds, rule) in facts {
            tally.meet_if(holds, rule);
        }
        self.lines += 1;
        self.flag_by_line |= flag(now) && !flag(then);
    }
}

fn flag(state: &State) -> bool {
    state.overflow || state.collision
}

fn control(tally: &mut Tally, place: usize, around: Around, word: u16) {
    match Taken::of(word, around[0].pending) {
        Taken::SecondHalf => second_half(tally, place, around, word),
        Taken::FirstHalf => tally.meet("script: first half"),
        Taken::RegisterWrite(number) => {
            tally.meet("script: register written");
            tally.meet_if(number == 23, &last_register(word));
        }
        // No script with one is called.
        Taken::MissingRegister => (),
    }
}

fn second_half(tally: &mut Tally, place: usize, [then, now]: Around, word: u16) {
    tally.meet("script: second half");
    tally.meet_if(place == 0, "script: second half at place 0");
    let begins = now.code & 0x20 != 0 && then.registers[1] & 0x10 != 0;
    tally.meet_if(begins && now.kind == TRANSFER, "script: transfer begins");
    tally.meet_if(begins && now.kind == FILL_WAITING, "script: fill waits");
    tally.meet_if(begins && now.kind == COPY, "script: copy begins");
    if Taken::of(word, false) == Taken::MissingRegister {
        tally.meet(&bits_of(word / 256 % 32));
    }
}

fn data_write(tally: &mut Tally, then: &State) {
    let there = usize::from(then.address / 2 % 64) < SCROLLS;
    tally.meet(match then.code & 0x0F {
        0b0001 => "script: VRAM word stored",
        0b0011 => "script: colour word stored",
        0b0101 if there => "script: scroll word stored",
        _ => "script: data write that stores nothing",
    });
    tally.meet_if(then.kind == FILL_WAITING, "script: data write that begins a fill");
}

fn data_read(tally: &mut Tally, then: &State, word: u32) {
    let memory = match then.code & 0x0F {
        0b0000 => "VRAM",
        0b1000 => "colour",
        _ => "scroll",
    };
    tally.meet_if(word != 0, &format!("script: {memory} word read, not 0"));
}

fn run(tally: &mut Tally, then: &State, budget: u32, units: u32) {
    let remaining = then.remaining;
    let facts = [
        (budget == 0 && remaining == 0, "script: run with budget 0, idle"),
        (budget == 0 && remaining > 0, "script: run with budget 0, units remaining"),
        (budget > 0 && budget < remaining, "script: run with budget below the remaining"),
        (budget > 0 && budget == remaining, "script: run with budget just the remaining"),
        (remaining > 0 && budget > remaining, "script: run with budget above the remaining"),
        (budget == 0xFFFF, "script: run with budget FFFFh"),
        (remaining == UNITS_MOST && budget == 0xFFFF, "script: run of 65,535 units of 65,536"),
        (units > 0 && then.kind == TRANSFER, "script: run of transfer units"),
        (units > 0 && then.kind == COPY, "script: run of copy units"),
        (units > 0 && then.kind == FILL, "script: run of fill units"),
    ];
    for (holds, rule) in facts {
        tally.meet_if(holds, rule);
    }
}

#[cfg(test)]
mod tests {
    use super::*;
    use crate::bench::command;
    use crate::cover::script::tests::{assert_met_of, run_of, SET_PENDING};
    use crate::replay::Command;
    use crate::script::tests::with_words;

    /// A script of these items meets just these rules of this file after these commands.
    fn assert_met(before: &[Command], items: &[Item], expected: &[&str]) {
        assert_met_of(rules(), &[before, &run_of(items)].concat(), expected);
    }

    #[test]
    fn ports() {
        let halves = ["first half", "second half"];
        let to_vram = with_words(&[0x4000, 0x0000], &[Item::DataWrite(1)]);
        assert_met(&[], &to_vram, &[&halves[..], &["VRAM word stored"]].concat());
        let to_colour = with_words(&[0xC000, 0x0000], &[Item::DataWrite(1)]);
        assert_met(&[], &to_colour, &[&halves[..], &["colour word stored"]].concat());
        let nothing = with_words(&[0x4050, 0x0010], &[Item::DataWrite(1)]);
        let stored = "data write that stores nothing";
        assert_met(&[], &nothing, &[&halves[..], &[stored]].concat());
        assert_met(
            &[SET_PENDING],
            &with_words(&[0x0000], &[]),
            &["second half", "second half at place 0"],
        );
        assert_met(&[SET_PENDING], &[Item::StatusRead], &["status read with pending set"]);
        assert_met(&[], &with_words(&[0x8F02], &[]), &["register written"]);
    }

    /// What is turned down has no effects.
    #[test]
    fn the_last_register_and_missing_ones() {
        let last = ["register written", "register 23 written, bit 13 set"];
        assert_met(&[], &with_words(&[0xB700], &[]), &last);
        assert_met(&[], &with_words(&[0x9600], &[]), &last[..1]);
        let half = ["first half", "second half", "second half with the bits of register 25"];
        assert_met(&[], &with_words(&[0x4000, 0xB900], &[]), &half);
        assert_met(&[], &with_words(&[0x4000, 0x1900], &[]), &half[..2]);
        assert_met(&[], &with_words(&[0x8F02, 0x9800], &[]), &[]);
    }

    /// A word of VRAM, of the colours or of the scroll words counts if it is not 0.
    #[test]
    fn reads() {
        let vram = command(34, 1, 0, 1);
        assert_met(&[vram], &[Item::DataRead], &["VRAM word read, not 0"]);
        assert_met(&[], &[Item::DataRead], &[]);
        let (colour, code) = (command(32, 1, 0, 2), command(32, 4, 0, 8));
        assert_met(&[colour, code], &[Item::DataRead], &["colour word read, not 0"]);
        let (scroll, code) = (command(32, 2, 0, 2), command(32, 4, 0, 4));
        assert_met(&[scroll, code], &[Item::DataRead], &["scroll word read, not 0"]);
    }

    #[test]
    fn budgets() {
        let copy = |units| [command(32, 6, 0, 4), command(32, 7, 0, units)];
        let (below, just) =
            ("run with budget below the remaining", "run with budget just the remaining");
        let (above, most) = ("run with budget above the remaining", "run with budget FFFFh");
        let units = "run of copy units";
        assert_met(&[], &[Item::Run(0)], &["run with budget 0, idle"]);
        assert_met(&copy(3), &[Item::Run(0)], &["run with budget 0, units remaining"]);
        assert_met(&copy(3), &[Item::Run(2), Item::Run(1)], &[below, just, units]);
        assert_met(&copy(3), &[Item::Run(0xFFFF)], &[above, most, units]);
        let greatest = "run of 65,535 units of 65,536";
        assert_met(&copy(65_536), &[Item::Run(0xFFFF)], &[below, most, greatest, units]);
    }

    /// VRAM of zeros has one sprite, which is on no line.
    #[test]
    fn lines() {
        let narrow = "line of 256 pixels";
        let shown = command(32, 0, 1, 0x4C);
        assert_met(&[shown], &[Item::Line(0)], &[narrow]);
        assert_met(&[shown], &[Item::Line(224)], &[narrow, "line 224 or below it"]);
        let blanked = command(32, 0, 1, 0x04);
        let two = [Item::Line(0), Item::Line(1)];
        assert_met(&[blanked], &two, &[narrow, "line blanked", "line after another"]);
        let used_up = command(32, 17, 0, 1);
        assert_met(&[used_up], &[Item::NewFrame], &["new frame clears used up"]);
    }

    /// Sprite 0 is on line 0 and links to sprite 1, which is there too and links to itself. At 256
    /// the line keeps 16 of them, of 8 pixels each. Their pattern is clear, so nothing collides.
    #[test]
    fn flags_of_a_line() {
        let bytes = [0, 128, 0, 1, 0, 8, 0, 200, 0, 128, 0, 1, 0, 8, 0, 200];
        let poke = |(at, byte): (u32, &u8)| command(34, *byte, 0, at);
        let mut before: Vec<_> = (0..).zip(&bytes).map(poke).collect();
        before.push(command(32, 0, 1, 0x44));
        let line =
            ["line of 256 pixels", "line, more than one sprite visited", "line sets overflow"];
        assert_met(&before, &[Item::Line(0)], &line);
        let read =
            [&line[..], &["status read shows a flag that a line of the script set"]].concat();
        assert_met(&before, &[Item::Line(0), Item::StatusRead], &read);
        let frame =
            [&line[..], &["new frame clears a flag that a line of the script set"]].concat();
        assert_met(&before, &[Item::Line(0), Item::NewFrame, Item::StatusRead], &frame);
    }
}
