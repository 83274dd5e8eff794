//! Counts of why calls were refused, and of the order between two reasons.

use super::{names, Before, Tally};
use crate::answer::{
    BAD_BUFFER, BAD_RECORD, BAD_STATE, BUSY, NOTHING_THERE, NOT_MODELLED, NO_SUCH_PLACE,
    SOURCE_NOT_LENT, TAPE_FULL,
};
use crate::dma::{self, word_from};
use crate::draw;
use crate::replay::{Buffer, Machine};
use crate::state::{State, COPY, FILL, LAST_LINE, TRANSFER, UNITS_MOST};
use crate::tape::{good_record, line_of, remaining_of, Record, RECORD_BYTES, VERSION};

/// Parts of a record, each with the bytes it takes. The last two hold anything.
const PARTS: [(&str, usize, usize); 17] = [
    ("version", 0, 1),
    ("length", 1, 3),
    ("cell kind", 3, 4),
    ("place", 4, 6),
    ("content", 6, 8),
    ("code", 10, 11),
    ("pending", 11, 12),
    ("DMA kind", 12, 13),
    ("remaining", 13, 16),
    ("source", 16, 19),
    ("fill byte", 19, 20),
    ("flags", 20, 21),
    ("line", 21, 23),
    ("vertical and horizontal", 24, 25),
    ("zeros", 25, 32),
    ("address", 8, 10),
    ("line counter", 23, 24),
];

const RULES: &[&str] = &[
    "bad state: colour word",
    "bad state: scroll word",
    "bad state: code",
    "bad state: kind",
    "bad state: remaining above the most",
    "bad state: one unit above the most, else good",
    "bad state: none remaining in a run",
    "bad state: some remaining without a run",
    "bad state: odd source of a transfer",
    "bad state: transfer source over 24 bits",
    "bad state: copy source over 16 bits",
    "bad state: source without a use",
    "bad state: fill byte without a fill",
    "bad state: line",
    "bad state: line 262, else good",
    "bad state: line 65,535, else good",
    "bad buffer: VRAM short",
    "bad buffer: VRAM long",
    "bad buffer: pixels short",
    "bad buffer: pixels long",
    "bad buffer: row short",
    "bad buffer: row long",
    "bad buffer: work RAM short",
    "bad buffer: work RAM long",
    "bad buffer: cartridge odd",
    "bad buffer: count above the capacity",
    "bad buffer: count above the capacity, step back of 0",
    "busy: transfer",
    "busy: transfer at a status read",
    "busy: fill",
    "busy: copy",
    "1 before 2",
    "1 before 3",
    "2 before 3",
    "2 before 10",
    "2 before 5",
    "2 before 7",
    "3 before 6",
    "5 before 4",
    "7 before 6",
    "4 on a blanked line",
    "no such line: 224",
    "no such line: 240",
    "no such pattern name",
    "no such pattern row",
    "not lent: the first word",
    "not lent: a later word",
    "not lent: past the cartridge's end",
    "not lent: just below E00000h",
    "tape full: none free",
    "tape full: some free, too few for a run",
    "nothing there: one more than the count",
    "nothing there: at a count of 0",
    "bad record: the top one",
    "bad record: a deeper one",
    "bad record: one unit above the most, else good",
    "bad record: version 1, else good",
    "bad record: version 1 as it was, without timing",
    "bad record: version 2, else good",
    "bad record: version 2 as it was, without used up",
    "bad record: version 4, else good",
    "bad record: 8 for the flags, else good",
    "bad record: more than 8 for the flags, else good",
    "bad record: line 262, else good",
    "bad record: 4 for vertical and horizontal, else good",
];

pub fn rules() -> Vec<String> {
    let mut rules = names(RULES);
    rules.extend(parts().map(|(part, _, _)| format!("bad record: {part}")));
    rules.extend((25..RECORD_BYTES).map(not_zero));
    rules.extend(REASONS.iter().map(|reason| format!("not modelled: {reason}")));
    rules
}

/// The parts that can be bad.
fn parts() -> impl Iterator<Item = &'static (&'static str, usize, usize)> {
    PARTS.iter().take(15)
}

fn not_zero(at: usize) -> String {
    format!("bad record: byte {at} is not 0, else good")
}

const REASONS: [&str; 11] = [
    "register 0 bit 0",
    "register 0 bit 3",
    "register 1 bit 7",
    "register 1 bit 0",
    "register 1 bit 2 clear",
    "register 12 bits 7 and 0 differ",
    "register 12 bit 2",
    "register 12 bit 1",
    "plane width code 2",
    "plane height code 2",
    "over 4,096 cells",
];

pub fn count(tally: &mut Tally, before: &Before, number: u8) {
    let op = before.command.op;
    match number {
        BAD_STATE => bad_state(tally, before),
        BAD_BUFFER => bad_buffer(tally, before),
        BUSY => busy(tally, before),
        NOT_MODELLED if op == 8 => not_modelled(tally, &before.machine.state),
        NO_SUCH_PLACE => no_such_place(tally, before),
        SOURCE_NOT_LENT => not_lent(tally, before),
        TAPE_FULL => tape_full(tally, before),
        BAD_RECORD => bad_record(tally, before),
        NOTHING_THERE if op == 10 => {
            let (steps, count) = (before.command.c, before.machine.count);
            let one_more = count.checked_add(1) == Some(steps);
            tally.meet_if(one_more, "nothing there: one more than the count");
            tally.meet_if(count == 0, "nothing there: at a count of 0");
        }
        _ => (),
    }
}

fn bad_state(tally: &mut Tally, before: &Before) {
    let state = &before.machine.state;
    let kind = state.kind;
    let run = (TRANSFER..=COPY).contains(&kind);
    let colours = state.colours.iter().any(|word| word & 0xF111 != 0);
    let facts = [
        (colours, "colour word"),
        (state.scrolls.iter().any(|word| *word > 0x3FF), "scroll word"),
        (state.code > 63, "code"),
        (kind > COPY, "kind"),
        (state.remaining > UNITS_MOST, "remaining above the most"),
        (one_unit_over(state), "one unit above the most, else good"),
        (run && state.remaining == 0, "none remaining in a run"),
        (kind < 2 && state.remaining != 0, "some remaining without a run"),
        (kind == TRANSFER && state.source % 2 == 1, "odd source of a transfer"),
        (kind == TRANSFER && state.source >> 24 != 0, "transfer source over 24 bits"),
        (kind == COPY && state.source >> 16 != 0, "copy source over 16 bits"),
        (!matches!(kind, TRANSFER | COPY) && state.source != 0, "source without a use"),
        (kind != FILL && state.fill != 0, "fill byte without a fill"),
        (state.line > LAST_LINE, "line"),
        (state.line == 262 && good_but_line(state), "line 262, else good"),
        (state.line == 65_535 && good_but_line(state), "line 65,535, else good"),
    ];
    for (holds, name) in facts {
        tally.meet_if(holds, &format!("bad state: {name}"));
    }
    tally.meet_if(!buffers_good(before), "1 before 2");
    tally.meet_if(run && before.command.op <= 6, "1 before 3");
}

/// Would a state be good with one unit less, which is the most that can remain?
fn one_unit_over(state: &State) -> bool {
    let mended = State { remaining: UNITS_MOST, ..state.clone() };
    state.remaining == UNITS_MOST + 1 && mended.good()
}

fn good_but_line(state: &State) -> bool {
    State { line: 0, ..state.clone() }.good()
}

/// Are VRAM and the count as they should be, if the call uses them?
fn buffers_good(before: &Before) -> bool {
    let machine = &before.machine;
    let vram = matches!(before.command.op, 3..=5 | 7 | 8 | 10);
    let vram_wrong = vram && machine.vram.length != 65_536;
    let count_wrong = uses_tape(before) && count_over(machine);
    !vram_wrong && !count_wrong
}

fn uses_tape(before: &Before) -> bool {
    before.taped() || before.command.op == 10
}

pub fn count_over(machine: &Machine) -> bool {
    machine.count as usize > machine.tape.length / RECORD_BYTES
}

fn bad_buffer(tally: &mut Tally, before: &Before) {
    let (machine, op) = (&before.machine, before.command.op);
    let uses_vram = matches!(op, 3..=5 | 7 | 8 | 10 | 11);
    size(tally, uses_vram, &machine.vram, 65_536, "VRAM");
    size(tally, op == 8, &machine.pixels, 320, "pixels");
    size(tally, op == 11, &machine.row, 8, "row");
    size(tally, op == 7, &machine.work_ram, 65_536, "work RAM");
    let odd = op == 7 && machine.cartridge.length % 2 == 1;
    tally.meet_if(odd, "bad buffer: cartridge odd");
    let over = uses_tape(before) && count_over(machine);
    tally.meet_if(over, "bad buffer: count above the capacity");
    let back0 = over && op == 10 && before.command.c == 0;
    tally.meet_if(back0, "bad buffer: count above the capacity, step back of 0");
    tally.meet_if(op <= 5 && machine.state.running(), "2 before 3");
    tally.meet_if(op == 10 && before.command.c > machine.count, "2 before 10");
    let past = op == 8 && before.command.c >= 240 || op == 11 && before.command.b > 2_047;
    tally.meet_if(past, "2 before 5");
    let units = dma::units(&machine.state, before.command.c);
    let lent = dma::all_lent(&machine.state, units, machine.memories());
    tally.meet_if(op == 7 && !lent, "2 before 7");
}

fn size(tally: &mut Tally, used: bool, buffer: &Buffer, right: usize, name: &str) {
    let (short, long) = (buffer.length < right, buffer.length > right);
    tally.meet_if(used && short, &format!("bad buffer: {name} short"));
    tally.meet_if(used && long, &format!("bad buffer: {name} long"));
}

fn busy(tally: &mut Tally, before: &Before) {
    let kind = before.machine.state.kind;
    let status = before.command.op == 6;
    tally.meet_if(kind == TRANSFER, "busy: transfer");
    tally.meet_if(kind == TRANSFER && status, "busy: transfer at a status read");
    tally.meet_if(kind == FILL, "busy: fill");
    tally.meet_if(kind == COPY, "busy: copy");
    tally.meet_if(before.taped() && free(&before.machine) == 0, "3 before 6");
}

pub fn free(machine: &Machine) -> usize {
    (machine.tape.length / RECORD_BYTES).saturating_sub(machine.count as usize)
}

fn not_modelled(tally: &mut Tally, state: &State) {
    if let Some(reason) = draw::not_modelled(state) {
        tally.meet(&format!("not modelled: {reason}"));
    }
    tally.meet_if(state.registers[1] & 0x40 == 0, "4 on a blanked line");
}

fn no_such_place(tally: &mut Tally, before: &Before) {
    let command = &before.command;
    let state = &before.machine.state;
    if command.op == 8 {
        tally.meet_if(command.c == 224, "no such line: 224");
        tally.meet_if(command.c == 240 && draw::height(state) == 240, "no such line: 240");
        tally.meet_if(draw::not_modelled(state).is_some(), "5 before 4");
    } else {
        tally.meet_if(command.b > 2_047, "no such pattern name");
        tally.meet_if(command.c > 7, "no such pattern row");
    }
}

fn not_lent(tally: &mut Tally, before: &Before) {
    let machine = &before.machine;
    let state = &machine.state;
    let first = word_from(state.source, machine.memories()).is_none();
    tally.meet_if(first, "not lent: the first word");
    tally.meet_if(!first, "not lent: a later word");
    let at_end = state.source as usize == machine.cartridge.length;
    tally.meet_if(at_end, "not lent: past the cartridge's end");
    tally.meet_if(state.source == 0xDF_FFFE, "not lent: just below E00000h");
    let units = dma::units(state, before.command.c) as usize;
    tally.meet_if(before.taped() && units > free(machine), "7 before 6");
}

fn tape_full(tally: &mut Tally, before: &Before) {
    let none = free(&before.machine) == 0;
    tally.meet_if(none, "tape full: none free");
    tally.meet_if(!none, "tape full: some free, too few for a run");
}

/// Names the part by trying to mend it alone from a record known to be good.
fn bad_record(tally: &mut Tally, before: &Before) {
    for number in 1..=before.command.c {
        let Some(record) = before.record(before.machine.count.saturating_sub(number)) else {
            continue;
        };
        if !good_record(&record) {
            tally.meet_if(number == 1, "bad record: the top one");
            tally.meet_if(number > 1, "bad record: a deeper one");
            let over = record_one_unit_over(record);
            tally.meet_if(over, "bad record: one unit above the most, else good");
            bad_version(tally, &record);
            bad_field(tally, &record);
            bad_part(tally, record);
            return;
        }
    }
}

/// Would a record be good with one unit less, which is the most that can remain?
fn record_one_unit_over(record: Record) -> bool {
    let mut mended = record;
    mended[13..16].copy_from_slice(&UNITS_MOST.to_be_bytes()[1..]);
    remaining_of(&record) == UNITS_MOST + 1 && good_record(&mended)
}

/// Would a record be good with these bytes in it?
fn good_but(record: &Record, at: usize, bytes: &[u8]) -> bool {
    let mut mended = *record;
    mended[at..at + bytes.len()].copy_from_slice(bytes);
    good_record(&mended)
}

/// Records of other versions, which hold what a record of version 3 may hold, or no more than what
/// they held as versions 1 and 2.
fn bad_version(tally: &mut Tally, record: &Record) {
    let version = |number: u8| record[0] == number && good_but(record, 0, &[VERSION]);
    let untimed = record[21..].iter().all(|byte| *byte == 0);
    let without_used_up = record[20] <= 3;
    tally.meet_if(version(1), "bad record: version 1, else good");
    let as_it_was = version(1) && untimed && without_used_up;
    tally.meet_if(as_it_was, "bad record: version 1 as it was, without timing");
    tally.meet_if(version(2), "bad record: version 2, else good");
    let as_it_was = version(2) && without_used_up;
    tally.meet_if(as_it_was, "bad record: version 2 as it was, without used up");
    tally.meet_if(version(4), "bad record: version 4, else good");
}

/// A record that is good but for one field of those that versions 2 and 3 brought.
fn bad_field(tally: &mut Tally, record: &Record) {
    let flags = |holds: bool| holds && good_but(record, 20, &[0]);
    tally.meet_if(flags(record[20] == 8), "bad record: 8 for the flags, else good");
    tally.meet_if(flags(record[20] > 8), "bad record: more than 8 for the flags, else good");
    let line = line_of(record) == 262 && good_but(record, 21, &[0, 0]);
    tally.meet_if(line, "bad record: line 262, else good");
    let waits = record[24] == 4 && good_but(record, 24, &[0]);
    tally.meet_if(waits, "bad record: 4 for vertical and horizontal, else good");
    for (at, byte) in record.iter().enumerate().skip(25) {
        tally.meet_if(*byte != 0 && good_but(record, at, &[0]), &not_zero(at));
    }
}

/// A part is to blame if some other value of it makes the record good.
fn bad_part(tally: &mut Tally, record: Record) {
    for (part, from, to) in parts() {
        let blamed = (0..=255u8).any(|value| {
            let mut mended = record;
            mended[*from..*to].fill(0);
            mended[*to - 1] = value;
            good_record(&mended)
        });
        tally.meet_if(blamed, &format!("bad record: {part}"));
    }
}
