//! Running a script: its plain calls, one after the other (definition, Running).

use super::judge::{self, Report};
use super::{read_item, Item};
use crate::answer::{Reply, BAD_SCRIPT, DONE};
use crate::calls;
use crate::dma::Memories;
use crate::state::State;

/// What the calls of a script are made on.
pub struct Lent<'a> {
    pub state: &'a mut State,
    pub vram: &'a mut [u8],
    pub memories: Memories<'a>,
    pub pixels: &'a mut [u8],
}

impl Lent<'_> {
    /// The plain call that an item stands for.
    pub fn call(&mut self, item: Item) -> Reply {
        let (state, vram) = (&mut *self.state, &mut *self.vram);
        match item {
            Item::ControlWrite(word) => calls::control_write(state, None, word),
            Item::DataWrite(word) => calls::data_write(state, vram, None, word),
            Item::DataRead => calls::data_read(state, vram, None),
            Item::StatusRead => calls::status_read(state, None),
            Item::Run(budget) => calls::run(state, vram, self.memories, None, budget.into()),
            Item::Line(line) => calls::draw_line(state, vram, self.pixels, None, line.into()),
            Item::NewFrame => calls::new_frame(state, None),
        }
    }
}

/// The script is judged as a whole before its first call, with the pending flag of the state. Nothing
/// else is asked of the state and the buffers but by the calls, and what those before a refused one
/// did stands.
pub fn script(lent: &mut Lent, script: &[u8]) -> Report {
    let items = match judge::items(script, lent.state.pending) {
        Ok(items) => items,
        Err(report) => return report,
    };
    for (place, item) in (0..).zip(&items) {
        if let Err(number) = lent.call(*item) {
            return (number, place);
        }
    }
    (DONE, items.len() as u32)
}

/// The item that begins at a byte is called, and the byte to go on from is given with its answer. A
/// refused call gives the same byte again. Neither the version nor other items are looked at, and a
/// write to a missing register is taken, as by the port.
pub fn item(lent: &mut Lent, script: &[u8], at: usize) -> (Reply, usize) {
    let Some((item, next)) = read_item(script, at) else {
        return (Err(BAD_SCRIPT), at);
    };
    let reply = lent.call(item);
    (reply, if reply.is_ok() { next } else { at })
}

#[cfg(test)]
pub mod tests {
    use super::*;
    use crate::replay::Machine;
    use crate::script::script_of;
    use crate::script::tests::with_words;
    use crate::state::{State, FILL};

    /// What a script of these items reports, and the machine after it.
    pub fn run_on(machine: &Machine, items: &[Item]) -> (Report, Machine) {
        let mut machine = machine.clone();
        let report = script(&mut machine.lent().0, &script_of(items));
        (report, machine)
    }

    #[test]
    fn calls_are_made_in_order() {
        let calls = [Item::DataWrite(0x1234), Item::DataWrite(0x5678), Item::NewFrame];
        let items = with_words(&[0x8F02, 0x4000, 0x0000], &calls);
        let (report, machine) = run_on(&Machine::new(), &items);
        assert_eq!(report, (0, 6));
        assert_eq!(machine.vram.bytes[..5], [0x12, 0x34, 0x56, 0x78, 0]);
        assert_eq!((machine.state.address, machine.state.registers[15]), (4, 2));
    }

    /// Register 1 bit 2 is clear, so the line is not modelled; the write after it is not made.
    #[test]
    fn a_refused_call_ends_it_and_those_before_it_stand() {
        let calls = [Item::DataWrite(0x1234), Item::Line(0), Item::DataWrite(0x5678)];
        let items = with_words(&[0x8F02, 0x4000, 0x0000], &calls);
        let (report, machine) = run_on(&Machine::new(), &items);
        assert_eq!(report, (4, 4));
        assert_eq!(machine.vram.bytes[..4], [0x12, 0x34, 0, 0]);
        assert_eq!(machine.state.address, 2);
    }

    /// The form comes first; then the first call meets a bad state, if there is a call.
    #[test]
    fn a_bad_state_is_met_by_the_first_call() {
        let mut machine = Machine::new();
        machine.state.code = 64;
        machine.vram.length = 0;
        let state = machine.state.clone();
        for item in [Item::ControlWrite(0x8F02), Item::StatusRead, Item::Run(0), Item::NewFrame] {
            let (report, after) = run_on(&machine, &[item, Item::StatusRead]);
            assert_eq!((report, after.state), ((1, 0), state.clone()));
        }
        assert_eq!(run_on(&machine, &[]).0, (0, 0));
        for (bytes, place) in [(&[][..], 0), (&[2, 0, 1, 4], 0), (&[1, 0, 1, 4, 0, 1], 1)] {
            assert_eq!(script(&mut machine.lent().0, bytes), (BAD_SCRIPT, place));
        }
    }

    /// A fault at the end keeps the first call from being made.
    #[test]
    fn the_whole_form_comes_before_the_first_call() {
        let mut machine = Machine::new();
        let bytes = [script_of(&[Item::ControlWrite(0x8F02)]), vec![0, 1, 8]].concat();
        assert_eq!(script(&mut machine.lent().0, &bytes), (BAD_SCRIPT, 1));
        assert_eq!(machine.state, State::fresh(false));
    }

    /// Each call asks for its own buffers, as it is made.
    #[test]
    fn bad_buffers() {
        let first = Item::ControlWrite(0x8F02);
        let line = |items: &[Item]| with_words(&[0x8144], items);
        let wrong = |spoil: fn(&mut Machine)| {
            let mut machine = Machine::new();
            spoil(&mut machine);
            machine
        };
        let vram = wrong(|machine| machine.vram.length = 65_537);
        for item in [Item::DataWrite(0), Item::DataRead, Item::Run(0), Item::Line(0)] {
            let (report, after) = run_on(&vram, &[first, item, Item::NewFrame]);
            assert_eq!((report, after.state.registers[15]), ((2, 1), 2));
        }
        assert_eq!(run_on(&vram, &[first, Item::StatusRead, Item::NewFrame]).0, (0, 3));
        let pixels = wrong(|machine| machine.pixels.length = 319);
        assert_eq!(run_on(&pixels, &line(&[Item::DataRead, Item::Line(0)])).0, (2, 2));
        let work_ram = wrong(|machine| machine.work_ram.length = 65_535);
        assert_eq!(run_on(&work_ram, &line(&[Item::Line(0), Item::Run(0)])).0, (2, 2));
        let cartridge = wrong(|machine| machine.cartridge.length = 3);
        assert_eq!(run_on(&cartridge, &[Item::Run(0)]).0, (2, 0));
    }

    /// A copy of one byte is begun: a status read is done, a control write is busy, but not after a
    /// run.
    #[test]
    fn busy() {
        let copy = [0x8110, 0x9301, 0x97C0, 0x0000, 0x00C0];
        let mut items = with_words(&copy, &[Item::StatusRead, Item::ControlWrite(0x8F01)]);
        assert_eq!(run_on(&Machine::new(), &items).0, (3, 6));
        items.insert(6, Item::Run(1));
        let (report, machine) = run_on(&Machine::new(), &items);
        assert_eq!((report, machine.state.registers[15]), ((0, 8), 1));
    }

    /// The cartridge has two words, and the third is not lent. Line 224 is not there at height 224.
    #[test]
    fn source_not_lent_and_no_such_line() {
        let mut machine = Machine::new();
        machine.cartridge.length = 4;
        machine.cartridge.bytes[..4].copy_from_slice(&[0xA1, 0xA2, 0xA3, 0xA4]);
        let runs = [Item::Run(2), Item::Run(0), Item::Run(1), Item::NewFrame];
        let items = with_words(&[0x8110, 0x8F02, 0x9303, 0x4000, 0x0080], &runs);
        let (report, after) = run_on(&machine, &items);
        assert_eq!(report, (7, 7));
        assert_eq!(after.vram.bytes[..5], [0xA1, 0xA2, 0xA3, 0xA4, 0]);
        let items = [Item::ControlWrite(0x8144), Item::Line(223), Item::Line(224)];
        assert_eq!(run_on(&machine, &items).0, (5, 2));
        assert_eq!(run_on(&machine, &[Item::Line(0xFFFF)]).0, (5, 0));
    }

    /// A fill of 65,536 bytes: no budget of 16 bits makes them all.
    #[test]
    fn the_greatest_budget_leaves_one_unit() {
        let fill = [0x8110, 0x8F01, 0x9780, 0x4000, 0x0080];
        let items = with_words(&fill, &[Item::DataWrite(0x1234), Item::Run(0xFFFF)]);
        let (report, machine) = run_on(&Machine::new(), &items);
        assert_eq!((report, machine.state.kind, machine.state.remaining), ((0, 7), FILL, 1));
    }

    /// The first item writes a register; the second is refused and its byte comes again; at the end
    /// and inside an item none begins.
    #[test]
    fn item_by_item() {
        let mut machine = Machine::new();
        let bytes = script_of(&[Item::ControlWrite(0x8F02), Item::Line(0), Item::StatusRead]);
        let mut called = |at| item(&mut machine.lent().0, &bytes, at);
        assert_eq!(called(1), (Ok(0), 6));
        assert_eq!(called(6), (Err(4), 6));
        assert_eq!(called(11), (Ok(0x3600), 14));
        for at in [0, 2, 7, 12, 14, 15, usize::MAX] {
            assert_eq!(called(at), (Err(BAD_SCRIPT), at));
        }
        assert_eq!(machine.state.registers[15], 2);
    }

    /// No whole item comes before a bad state.
    #[test]
    fn item_by_item_with_a_bad_state() {
        let mut machine = Machine::new();
        machine.state.code = 64;
        let bytes = script_of(&[Item::StatusRead]);
        assert_eq!(item(&mut machine.lent().0, &bytes, 1), (Err(1), 1));
        assert_eq!(item(&mut machine.lent().0, &bytes, 4), (Err(BAD_SCRIPT), 4));
        assert_eq!(item(&mut machine.lent().0, &bytes[..3], 1), (Err(BAD_SCRIPT), 1));
    }
}
