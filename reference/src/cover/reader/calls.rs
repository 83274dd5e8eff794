//! Counts of the calls that a reader makes: which are done and what they do, which are refused, what
//! a refused one leaves standing, and that none of them is recorded.

use super::{Step, Walk};
use crate::answer::{Answer, BAD_BUFFER, BAD_SCRIPT, MISSING_REGISTER};
use crate::calls::{vram_good, WORK_RAM_BYTES};
use crate::cover::refused::{count_over, free};
use crate::cover::script::{call_name, changed, CALLS, CHANGED};
use crate::cover::{names, Tally};
use crate::replay::Machine;
use crate::script::Item;
use crate::state::{State, COPY, FILL, TRANSFER};

const RULES: &[&str] = &[
    "reader: done while recorded is set",
    "reader: done while recorded is set, on a full tape",
    "reader: done while recorded is set, the count above the capacity",
    "reader: refused while recorded is set",
    "reader: refused with bytes behind it",
    "reader: 2 for VRAM",
    "reader: 2 for pixels",
    "reader: 2 for work RAM",
    "reader: 2 for the cartridge",
    "reader: transfer units from the cartridge",
    "reader: transfer units from work RAM",
    "reader: fill units",
    "reader: copy units",
    "reader: DMA left under way by a delivery",
    "reader: DMA from before a delivery ended by it",
    "reader: line of 320 pixels",
    "reader: line of 256 pixels",
    "reader: line blanked",
    "reader: line sets a flag",
    "reader: pixels changed by a line whose item was cut",
    "reader: half left awaited by a delivery",
];

pub fn rules() -> Vec<String> {
    let mut rules = names(RULES);
    for (call, numbers) in CALLS {
        for cut in [false, true] {
            rules.push(done(call, cut));
            rules.extend(numbers.iter().map(|number| refused(call, *number, cut)));
        }
    }
    rules.extend(CHANGED.map(stands));
    rules
}

fn cut_name(cut: bool) -> &'static str {
    if cut {
        ", its item cut"
    } else {
        ""
    }
}

fn done(call: &str, cut: bool) -> String {
    format!("reader: {call} done{}", cut_name(cut))
}

fn refused(call: &str, number: Answer, cut: bool) -> String {
    format!("reader: {call} refused with {number}{}", cut_name(cut))
}

fn stands(what: &str) -> String {
    format!("reader: refused, and what calls of the same delivery did to {what} stands")
}

pub fn count(tally: &mut Tally, walk: &Walk) {
    for (place, step) in walk.steps.iter().enumerate() {
        match step.made {
            Some((item, Ok(_))) => {
                tally.meet(&done(call_name(item), walk.cut(place)));
                effects(tally, walk, place, item);
            }
            Some((item, Err(number))) => {
                tally.meet(&refused(call_name(item), number, walk.cut(place)));
                tally.meet_if(number == BAD_BUFFER, bad_buffer(walk.machine, item));
            }
            None => (),
        }
    }
    recorded(tally, walk);
    as_a_whole(tally, walk);
}

/// The tape and the count stay, whatever they are.
fn recorded(tally: &mut Tally, walk: &Walk) {
    let machine = walk.machine;
    if !machine.recorded || walk.done() == 0 {
        return;
    }
    let (over, full) = (count_over(machine), free(machine) == 0);
    tally.meet("reader: done while recorded is set");
    let rule = "reader: done while recorded is set, on a full tape";
    tally.meet_if(full && !over, rule);
    let rule = "reader: done while recorded is set, the count above the capacity";
    tally.meet_if(over, rule);
}

fn as_a_whole(tally: &mut Tally, walk: &Walk) {
    let (then, now) = (&walk.machine.state, &walk.after.state);
    let left = walk.done() > 0 && now.running() && !then.running();
    tally.meet_if(left, "reader: DMA left under way by a delivery");
    let ended = then.running() && !now.running();
    tally.meet_if(ended, "reader: DMA from before a delivery ended by it");
    let half = walk.done() > 0 && now.pending;
    tally.meet_if(half, "reader: half left awaited by a delivery");
    let Some((_, number, behind)) = walk.stop() else {
        return;
    };
    if matches!(number, BAD_SCRIPT | MISSING_REGISTER) {
        return;
    }
    tally.meet_if(walk.machine.recorded, "reader: refused while recorded is set");
    tally.meet_if(behind > 0, "reader: refused with bytes behind it");
    for what in changed(walk.machine, walk.after) {
        tally.meet(&stands(what));
    }
}

/// The buffer that is to blame, where only one is.
fn bad_buffer(machine: &Machine, item: Item) -> &'static str {
    match item {
        _ if !vram_good(machine.vram.lent()) => "reader: 2 for VRAM",
        Item::Line(_) => "reader: 2 for pixels",
        _ if machine.work_ram.length != WORK_RAM_BYTES => "reader: 2 for work RAM",
        _ => "reader: 2 for the cartridge",
    }
}

/// What a call did that is done; the state after it is that of the next byte, or of the end.
fn effects(tally: &mut Tally, walk: &Walk, place: usize, item: Item) {
    let Step { state: then, .. } = &walk.steps[place];
    let now = walk.steps.get(place + 1).map_or(&walk.after.state, |step| &step.state);
    match item {
        Item::Run(_) => run(tally, then, now),
        Item::Line(_) => {
            line(tally, then, now);
            let drawn = walk.cut(place) && walk.machine.pixels.bytes != walk.after.pixels.bytes;
            tally.meet_if(drawn, "reader: pixels changed by a line whose item was cut");
        }
        _ => (),
    }
}

fn run(tally: &mut Tally, then: &State, now: &State) {
    if then.remaining == now.remaining {
        return;
    }
    let work_ram = then.source >= 0xE0_0000;
    tally.meet(match then.kind {
        TRANSFER if work_ram => "reader: transfer units from work RAM",
        TRANSFER => "reader: transfer units from the cartridge",
        FILL => "reader: fill units",
        COPY => "reader: copy units",
        _ => return,
    });
}

fn line(tally: &mut Tally, then: &State, now: &State) {
    let (wide, shown) = (then.registers[12] & 1 != 0, then.registers[1] & 0x40 != 0);
    let set = (now.overflow, now.collision) != (then.overflow, then.collision);
    tally.meet_if(wide, "reader: line of 320 pixels");
    tally.meet_if(!wide, "reader: line of 256 pixels");
    tally.meet_if(!shown, "reader: line blanked");
    tally.meet_if(set, "reader: line sets a flag");
}

#[cfg(test)]
mod tests {
    use super::*;
    use crate::bench::command;
    use crate::cover::reader::tests::{assert_met, deliver, SCRIPT, SPOIL_STATE};

    #[test]
    fn done_and_refused() {
        let both = ["status read done", "control write done"];
        assert_met(rules(), &SCRIPT, &[deliver(0, 9)], &both);
        let cut = ["status read done", "control write done, its item cut"];
        assert_met(rules(), &SCRIPT, &[deliver(0, 5), deliver(5, 4)], &cut);
        let bad = ["status read refused with 1", "refused with bytes behind it"];
        assert_met(rules(), &SCRIPT, &[SPOIL_STATE, deliver(0, 9)], &bad);
        let cut = ["status read refused with 1, its item cut"];
        assert_met(rules(), &SCRIPT, &[SPOIL_STATE, deliver(0, 2), deliver(2, 2)], &cut);
    }

    #[test]
    fn buffers_and_what_stands() {
        let script = [&SCRIPT[..], &[0, 3, 5, 0, 1]].concat();
        let before = ["status read done", "control write done", "run refused with 2"];
        let state = "refused, and what calls of the same delivery did to the state stands";
        let met = [&before[..], &["2 for work RAM", state]].concat();
        let short = command(36, 0, 2, 9);
        assert_met(rules(), &script, &[short, deliver(0, 99)], &met);
        let met = [&before[..], &["2 for the cartridge", state]].concat();
        let odd = command(36, 0, 3, 9);
        assert_met(rules(), &script, &[odd, deliver(0, 99)], &met);
    }

    /// A transfer of two words from work RAM, begun by hand; the run ends it.
    #[test]
    fn units() {
        let fields = [(6, 2), (7, 2), (8, 0xE0_0000)];
        let mut commands = fields.map(|(field, value)| command(32, field, 0, value)).to_vec();
        commands.push(deliver(0, 6));
        let met = ["run done", "transfer units from work RAM"];
        let ended = "DMA from before a delivery ended by it";
        assert_met(rules(), &[1, 0, 3, 5, 0, 2], &commands, &[&met[..], &[ended]].concat());
        assert_met(rules(), &[1, 0, 3, 5, 0, 1], &commands, &met);
    }

    #[test]
    fn recorded_is_set() {
        let met = ["status read done", "done while recorded is set"];
        let record = command(38, 1, 0, 0);
        assert_met(rules(), &SCRIPT, &[record, deliver(0, 4)], &met);
        let over = "done while recorded is set, the count above the capacity";
        let count = command(37, 0, 0, 4_097);
        let met = [&met[..], &[over]].concat();
        assert_met(rules(), &SCRIPT, &[record, count, deliver(0, 4)], &met);
    }
}
