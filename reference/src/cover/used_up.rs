//! Counts of the flag used up: what sets, clears and leaves it, and the lines that show what the
//! calls before them made of it (definition, What a line leaves; Status and new frame; The tape).

use super::lines::numbers;
use super::masking::decides;
use super::{at_both_widths, at_width, names, Before, Tally};
use crate::answer::{Answer, BAD_BUFFER, BAD_STATE, DONE, NOT_MODELLED, NO_SUCH_PLACE, TAPE_FULL};
use crate::planes::View;
use crate::replay::{Command, Machine, TAPE};
use crate::sprites::{self, Kept, Walk};

const RULES: &[&str] = &[
    "new frame clears used up",
    "status read leaves used up",
    "status read clears a flag and leaves used up",
    "blanked line clears used up and leaves a flag",
    "step back sets used up again",
    "step back clears used up again",
];

/// What a line does by the widths of its sprites, or by being blanked.
const OF_LINES: &[&str] = &[
    "used up set by sprites of just the width",
    "used up set by sprites of more than the width",
    "used up set, but not without sprites off the screen",
    "used up set, but not without masked sprites",
    "used up left set by sprites of just the width",
    "used up cleared by sprites of 8 pixels less than the width",
    "used up cleared by a line without sprites",
    "used up left clear by sprites of 8 pixels less than the width",
    "used up clear, but not with the sprite that is not kept",
    "used up cleared by a blanked line",
];

/// The numbers that a line may be refused with.
const REFUSALS: [Answer; 5] = [BAD_STATE, BAD_BUFFER, NOT_MODELLED, NO_SUCH_PLACE, TAPE_FULL];
/// The other calls that have a recorded form and leave used up.
const LEAVING: [u8; 8] = [1, 2, 3, 4, 5, 7, 13, 14];

pub fn rules() -> Vec<String> {
    let mut rules = names(RULES);
    rules.extend(at_both_widths(OF_LINES));
    rules.extend(REFUSALS.map(refused));
    rules.extend(LEAVING.map(left));
    let shown: Vec<_> = Last::ALL.iter().filter_map(|last| last.shown_by_x_0()).collect();
    rules.extend(at_both_widths(&shown));
    rules.extend(Last::ALL.iter().filter_map(|last| last.taken_back()).map(str::to_string));
    rules
}

fn refused(number: Answer) -> String {
    format!("line refused with {number} leaves used up")
}

fn left(op: u8) -> String {
    format!("op {op} leaves used up")
}

/// What last happened to the flag.
#[derive(Clone, Copy, Default, PartialEq, Eq)]
enum Last {
    #[default]
    Other,
    SetByLine,
    LeftByRead,
    LeftByRefused,
    SetByBack,
    ClearedByLine,
    ClearedByBlanked,
    ClearedByFrame,
    ClearedByBack,
}

impl Last {
    const ALL: [Last; 9] = [
        Last::Other,
        Last::SetByLine,
        Last::LeftByRead,
        Last::LeftByRefused,
        Last::SetByBack,
        Last::ClearedByLine,
        Last::ClearedByBlanked,
        Last::ClearedByFrame,
        Last::ClearedByBack,
    ];

    /// The rule of a line whose first X of 0 shows it.
    fn shown_by_x_0(self) -> Option<&'static str> {
        match self {
            Last::Other => None,
            Last::SetByLine => Some("X 0 first masks: a line set used up"),
            Last::LeftByRead => Some("X 0 first masks: a line set used up, a status read left it"),
            Last::LeftByRefused => {
                Some("X 0 first masks: a line set used up, a refused one left it")
            }
            Last::SetByBack => Some("X 0 first masks: a step back set used up"),
            Last::ClearedByLine => Some("X 0 first masks nothing: a line cleared used up"),
            Last::ClearedByBlanked => {
                Some("X 0 first masks nothing: a blanked line cleared used up")
            }
            Last::ClearedByFrame => Some("X 0 first masks nothing: a new frame cleared used up"),
            Last::ClearedByBack => Some("X 0 first masks nothing: a step back cleared used up"),
        }
    }

    /// The rule of a step back that gives the flag as it was before a step like this.
    fn taken_back(self) -> Option<&'static str> {
        match self {
            Last::SetByLine => Some("step back over a line that set used up"),
            Last::ClearedByLine => Some("step back over a line that cleared used up"),
            Last::ClearedByBlanked => Some("step back over a blanked line that cleared used up"),
            Last::ClearedByFrame => Some("step back over a new frame that cleared used up"),
            _ => None,
        }
    }
}

/// The flag of one stream, followed from call to call.
#[derive(Default)]
pub struct UsedUp {
    last: Last,
    /// Where the tape has the record of a step that changed the flag.
    steps: Vec<(u32, Last)>,
}

impl UsedUp {
    /// A flag or records that are set by hand say nothing about calls.
    pub fn set_up(&mut self, command: &Command) {
        if command.op == 33 || (command.op, command.a) == (32, 17) {
            self.last = Last::Other;
        }
        if matches!(command.op, 34 | 35 | 39) && command.b == TAPE {
            self.steps.clear();
        }
    }

    /// Calls that are not followed may have changed the flag.
    pub fn forget(&mut self) {
        self.last = Last::Other;
    }

    pub fn count(&mut self, tally: &mut Tally, before: &Before, after: &Machine, number: Answer) {
        let (then, now) = (before.machine.state.used_up, after.state.used_up);
        let changed = then != now;
        match (before.command.op, number) {
            (8, DONE) => self.line(tally, before, now),
            (10, DONE) if changed => self.back(tally, before, now),
            (10, DONE) if before.command.c > 0 => self.last = Last::Other,
            _ if then => self.other(tally, before, number),
            _ => (),
        }
        if before.taped() && number == DONE {
            self.steps.retain(|(place, _)| *place < before.machine.count);
            if changed {
                self.steps.push((before.machine.count, self.last));
            }
        }
    }

    fn line(&mut self, tally: &mut Tally, before: &Before, now: bool) {
        let then = before.machine.state.used_up;
        if let Some(view) = before.shown() {
            self.shown_line(tally, &view);
            self.last = match (then, now) {
                (_, true) => Last::SetByLine,
                (true, false) => Last::ClearedByLine,
                (false, false) => Last::Other,
            };
        } else if let (Some(view), true) = (before.view(), then) {
            tally.meet(&at_width("used up cleared by a blanked line", view.width()));
            let flag = view.state.overflow || view.state.collision;
            tally.meet_if(flag, "blanked line clears used up and leaves a flag");
            self.last = Last::ClearedByBlanked;
        }
    }

    fn shown_line(&self, tally: &mut Tally, view: &View) {
        let walk = sprites::walk(view);
        for (holds, rule) in sums(view, &walk) {
            tally.meet_if(holds, &at_width(rule, view.width()));
        }
        if let Some(rule) = self.last.shown_by_x_0() {
            tally.meet_if(decides(view, &walk), &at_width(rule, view.width()));
        }
    }

    /// Of the steps that are taken back and changed the flag, the first is the one that counts.
    fn back(&mut self, tally: &mut Tally, before: &Before, now: bool) {
        tally.meet_if(now, "step back sets used up again");
        tally.meet_if(!now, "step back clears used up again");
        let (steps, count) = (before.command.c, before.machine.count);
        let taken = count - steps..count;
        let first = self.steps.iter().find(|(place, _)| taken.contains(place));
        if let Some(rule) = first.and_then(|(_, last)| last.taken_back()) {
            tally.meet(rule);
        }
        self.last = if now { Last::SetByBack } else { Last::ClearedByBack };
    }

    /// A call other than these, done or refused, that finds the flag set.
    fn other(&mut self, tally: &mut Tally, before: &Before, number: Answer) {
        let state = &before.machine.state;
        let by_line = self.last == Last::SetByLine;
        match (before.command.op, number) {
            (6, DONE) => {
                tally.meet("status read leaves used up");
                let flag = state.overflow || state.collision;
                tally.meet_if(flag, "status read clears a flag and leaves used up");
                self.last = if by_line { Last::LeftByRead } else { self.last };
            }
            (8, _) => {
                tally.meet(&refused(number));
                self.last = if by_line { Last::LeftByRefused } else { self.last };
            }
            (9, DONE) => {
                tally.meet("new frame clears used up");
                self.last = Last::ClearedByFrame;
            }
            (op, DONE) => tally.meet_if(LEAVING.contains(&op), &left(op)),
            _ => (),
        }
    }
}

/// What the widths of the sprites on a line come to.
fn sums(view: &View, walk: &Walk) -> [(bool, &'static str); 9] {
    let (sum, width) = (sprites::widths(&walk.kept), view.width());
    let (set, clear) = (view.state.used_up, !view.state.used_up);
    let without = |left_out: fn(&View, &Kept) -> bool| {
        let mut kept = walk.kept.clone();
        kept.retain(|kept| !left_out(view, kept));
        clear && sum >= width && sprites::widths(&kept) < width
    };
    let less = sum + 8 == width;
    let one_more = walk.overflow && sum < width && sum + not_kept(view, walk) >= width;
    [
        (clear && sum == width, "used up set by sprites of just the width"),
        (clear && sum > width, "used up set by sprites of more than the width"),
        (without(off_screen), "used up set, but not without sprites off the screen"),
        (without(|_, kept| kept.masked), "used up set, but not without masked sprites"),
        (set && sum == width, "used up left set by sprites of just the width"),
        (set && less, "used up cleared by sprites of 8 pixels less than the width"),
        (set && sum == 0, "used up cleared by a line without sprites"),
        (clear && less, "used up left clear by sprites of 8 pixels less than the width"),
        (one_more, "used up clear, but not with the sprite that is not kept"),
    ]
}

fn off_screen(view: &View, kept: &Kept) -> bool {
    let x = kept.sprite.x;
    x + 8 * kept.sprite.cells_wide <= 128 || x >= 128 + view.width()
}

/// The width of the sprite that the walk ended at, if it ended with overflow.
fn not_kept(view: &View, walk: &Walk) -> usize {
    let last = numbers(view, walk).pop();
    last.map_or(0, |(_, sprite)| 8 * sprite.cells_wide)
}

#[cfg(test)]
mod tests {
    use super::*;
    use crate::cover::masking::tests::screen;
    use crate::cover::tests::met_by;

    /// Op, a, b and c.
    type Call = (u8, u8, u16, u32);

    const SET: Call = (32, 17, 0, 1);
    const USES_UP: Call = (8, 0, 0, 0);
    const X_0: Call = (8, 0, 0, 16);
    const RECORD: Call = (38, 1, 0, 0);
    const BACK: Call = (10, 0, 0, 1);
    const BLANK: Call = (32, 0, 1, 0x04);
    const SHOW: Call = (32, 0, 1, 0x44);

    /// These are the rules of this file that the commands meet. The screen has 320 pixels, ten
    /// sprites of 32 pixels on lines 0 to 7, and an X 0 and a sprite to be seen on line 16.
    fn assert_met(calls: &[Call], expected: &[&str]) {
        let mut sprites = vec![(128, 300, 4); 10];
        sprites.extend([(144, 0, 1), (144, 200, 1)]);
        let mut commands = screen(&sprites);
        commands.extend(calls.iter().map(|(op, a, b, c)| Command { op: *op, a: *a, b: *b, c: *c }));
        let met = met_by(rules(), &commands);
        let mut met: Vec<_> = met.iter().map(|rule| rule.replace(", width 320", "")).collect();
        let mut expected = names(expected);
        met.sort();
        expected.sort();
        assert_eq!(met, expected);
    }

    const JUST: &str = "used up set by sprites of just the width";

    fn after(last: Last) -> &'static str {
        last.shown_by_x_0().unwrap_or("")
    }

    #[test]
    fn a_line_that_shows_what_was_before_it() {
        assert_met(&[X_0], &[]);
        assert_met(&[SET, X_0], &[]);
        assert_met(&[USES_UP, X_0], &[JUST, after(Last::SetByLine)]);
        let twice = [JUST, after(Last::SetByLine), after(Last::ClearedByLine)];
        assert_met(&[USES_UP, X_0, X_0], &twice);
        // Set by hand, the flag says nothing about the line before, and neither after a script.
        assert_met(&[USES_UP, SET, X_0], &[JUST]);
        assert_met(&[USES_UP, (17, 0, 0, 0), X_0], &[JUST]);
    }

    /// The ten sprites are at the same place and collide.
    #[test]
    fn what_comes_between_two_lines() {
        let read = [JUST, RULES[1], RULES[2], after(Last::LeftByRead)];
        assert_met(&[USES_UP, (6, 0, 0, 0), X_0], &read);
        assert_met(&[USES_UP, (9, 0, 0, 0), X_0], &[JUST, RULES[0], after(Last::ClearedByFrame)]);
        let refused = [JUST, &refused(NO_SUCH_PLACE), after(Last::LeftByRefused)];
        assert_met(&[USES_UP, (8, 0, 0, 224), X_0], &refused);
        let cleared = "used up cleared by a blanked line";
        let blanked = [JUST, RULES[3], cleared, after(Last::ClearedByBlanked)];
        assert_met(&[USES_UP, BLANK, X_0, SHOW, X_0], &blanked);
    }

    #[test]
    fn a_step_back_over_a_line() {
        let over = "step back over a line that set used up";
        assert_met(&[RECORD, USES_UP, BACK], &[JUST, RULES[5], over]);
        let clear = after(Last::ClearedByBack);
        assert_met(&[RECORD, USES_UP, BACK, X_0], &[JUST, RULES[5], over, clear]);
        let over = "step back over a line that cleared used up";
        let set = after(Last::SetByBack);
        assert_met(&[RECORD, SET, X_0, BACK, X_0], &[RULES[4], over, set]);
        // A record that is poked says nothing about calls, and no change is brought back here.
        assert_met(&[RECORD, SET, X_0, (34, 7, TAPE, 20), BACK], &[RULES[4]]);
        assert_met(&[RECORD, X_0, BACK], &[]);
    }

    /// The first of the ten sprites is made 24 pixels wide.
    #[test]
    fn sprites_of_8_pixels_less() {
        let narrower = (34, 0x08, 0, 0x8000 + 2);
        let set = "used up cleared by sprites of 8 pixels less than the width";
        let clear = "used up left clear by sprites of 8 pixels less than the width";
        assert_met(&[narrower, USES_UP], &[clear]);
        assert_met(&[narrower, SET, USES_UP], &[set]);
        assert_met(&[SET, USES_UP], &["used up left set by sprites of just the width"]);
        assert_met(&[SET, (8, 0, 0, 100)], &["used up cleared by a line without sprites"]);
    }
}
