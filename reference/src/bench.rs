//! The bench that the tests' cases are worked on.

use crate::replay::{Command, Machine, SCRIPT};
use crate::state::State;

pub fn command(op: u8, a: u8, b: u16, c: u32) -> Command {
    Command { op, a, b, c }
}

pub const RUN_SCRIPT: Command = Command { op: 17, a: 0, b: 0, c: 0 };

/// The length at which the script is lent.
pub fn script_length(bytes: u32) -> Command {
    command(36, 0, SCRIPT, bytes)
}

/// Commands that put these bytes into the script and lend just those.
pub fn lend_script(bytes: &[u8]) -> Vec<Command> {
    let poke = |(at, byte): (u32, &u8)| command(34, *byte, SCRIPT, at);
    let mut commands: Vec<_> = (0..).zip(bytes).map(poke).collect();
    commands.push(script_length(bytes.len() as u32));
    commands
}

/// A step back over the record of a call on a fresh chip, with these bytes of it changed: its number,
/// and the state after it.
pub fn back_over(op: u8, changes: &[(usize, u8)]) -> (Result<u32, u8>, State) {
    let mut bench = Bench::new();
    bench.0.recorded = true;
    assert_eq!(bench.call(op, 0, 0, 0), Ok(0));
    for (at, byte) in changes {
        bench.0.tape.bytes[*at] = *byte;
    }
    let reply = bench.back(1);
    assert_eq!(bench.0.count, u32::from(reply.is_err()));
    (reply, bench.0.state)
}

/// A machine with a call for each op, so that the cases read like the definition.
pub struct Bench(pub Machine);

impl Bench {
    pub fn new() -> Bench {
        Bench(Machine::new())
    }

    pub fn call(&mut self, op: u8, a: u8, b: u16, c: u32) -> Result<u32, u8> {
        self.0.call(&Command { op, a, b, c })
    }

    pub fn control(&mut self, words: &[u16]) {
        for word in words {
            assert_eq!(self.call(1, 0, *word, 0), Ok(0));
        }
    }

    pub fn write(&mut self, word: u16) {
        assert_eq!(self.call(3, 0, word, 0), Ok(0));
    }

    pub fn status(&mut self) -> Result<u32, u8> {
        self.call(6, 0, 0, 0)
    }

    pub fn frame(&mut self) -> Result<u32, u8> {
        self.call(9, 0, 0, 0)
    }

    pub fn run(&mut self, budget: u32) -> Result<u32, u8> {
        self.call(7, 0, 0, budget)
    }

    pub fn line(&mut self, line: u32) -> Result<u32, u8> {
        self.call(8, 0, 0, line)
    }

    pub fn begins(&mut self) -> Result<u32, u8> {
        self.call(13, 0, 0, 0)
    }

    /// Lines begin until the display is on this one, at least one and at most a frame of them.
    pub fn begins_to(&mut self, line: u16) {
        for _ in 0..262 {
            assert_eq!(self.begins(), Ok(0));
            if self.0.state.line == line {
                return;
            }
        }
        panic!("line {line} never began");
    }

    pub fn acknowledge(&mut self, level: u8) -> Result<u32, u8> {
        self.call(14, level, 0, 0)
    }

    pub fn v_counter(&mut self) -> Result<u32, u8> {
        self.call(15, 0, 0, 0)
    }

    pub fn level(&mut self) -> Result<u32, u8> {
        self.call(16, 0, 0, 0)
    }

    pub fn back(&mut self, steps: u32) -> Result<u32, u8> {
        self.call(10, 0, 0, steps)
    }

    pub fn state(&mut self) -> &mut State {
        &mut self.0.state
    }

    pub fn vram(&mut self) -> &mut [u8] {
        &mut self.0.vram.bytes
    }

    pub fn assert_same(&self, other: &Bench) {
        assert_eq!(self.0.state, other.0.state);
        assert!(self.0.vram.bytes == other.0.vram.bytes, "VRAM differs");
    }

    /// Shows a 320 pixel screen: sprites at 8000h, A at E000h, B at C000h, window and scroll at F000h.
    pub fn screen() -> Bench {
        let mut bench = Bench::new();
        bench.control(&[0x8004, 0x8144, 0x8540, 0x8C81, 0x8238, 0x8406, 0x833C, 0x8D3C]);
        bench
    }

    /// Writes a sprite to the table that register 5 names.
    pub fn sprite(&mut self, number: usize, y: u16, size: u8, link: u8, cell: u16, x: u16) {
        let at = 512 * usize::from(self.state().registers[5]) + 8 * number;
        let (y, cell, x) = (y.to_be_bytes(), cell.to_be_bytes(), x.to_be_bytes());
        let bytes = [y[0], y[1], size, link, cell[0], cell[1], x[0], x[1]];
        self.vram()[at..at + 8].copy_from_slice(&bytes);
    }

    /// A screen with so many sprites on lines 0 to 7, each linked to the next, all of pattern 1.
    pub fn row_of_sprites(sprites: u8) -> Bench {
        let mut bench = Bench::screen();
        for number in 0..sprites {
            let link = if number + 1 == sprites { 0 } else { number + 1 };
            bench.sprite(usize::from(number), 128, 0, link, 1, 200);
        }
        bench
    }

    /// Makes a pattern of one pixel value.
    pub fn pattern(&mut self, name: usize, pixel: u8) {
        self.vram()[32 * name..32 * name + 32].fill(17 * pixel);
    }
}
