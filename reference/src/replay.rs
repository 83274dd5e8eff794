//! The replay stream: its commands, the machine they drive and the lines they print.

use crate::answer::{numbers, Answer, Reply};
use crate::calls;
use crate::dma::Memories;
use crate::ports::doubled;
use crate::script::judge::Report;
use crate::script::reader::{Delivery, Reader};
use crate::script::run::{self, Lent};
use crate::script::{self, Item};
use crate::state::{State, COLOURS, REGISTERS, SCROLLS};
use crate::tape::Tape;

/// Input is read no further than this many commands.
pub const MOST_COMMANDS: usize = 1_048_576;
pub const COMMAND_BYTES: usize = 8;

/// Buffer numbers of the stream.
pub const VRAM: u16 = 0;
pub const PIXELS: u16 = 1;
pub const WORK_RAM: u16 = 2;
pub const CARTRIDGE: u16 = 3;
pub const TAPE: u16 = 4;
pub const ROW: u16 = 5;
pub const SCRIPT: u16 = 6;

#[derive(Clone, Copy, Debug, PartialEq, Eq)]
pub struct Command {
    pub op: u8,
    pub a: u8,
    pub b: u16,
    pub c: u32,
}

impl Command {
    pub fn from_bytes(bytes: [u8; COMMAND_BYTES]) -> Command {
        let [op, a, b1, b0, c3, c2, c1, c0] = bytes;
        Command { op, a, b: u16::from_be_bytes([b1, b0]), c: u32::from_be_bytes([c3, c2, c1, c0]) }
    }

    pub fn to_bytes(self) -> [u8; COMMAND_BYTES] {
        let [b1, b0] = self.b.to_be_bytes();
        let [c3, c2, c1, c0] = self.c.to_be_bytes();
        [self.op, self.a, b1, b0, c3, c2, c1, c0]
    }

    /// Does it call the model? An item of no kind is not written and prints nothing.
    pub fn calls(self) -> bool {
        matches!(self.op, 1..=17 | 20 | 22) || self.item().is_some()
    }

    /// The item that op 18 writes.
    pub fn item(self) -> Option<Item> {
        Item::of(self.a, self.b).filter(|_| self.op == 18)
    }

    /// The bytes of a script that op 20 delivers, as far as it has them.
    pub fn delivered(self, script: &[u8]) -> &[u8] {
        let from = script.get(usize::from(self.b)..).unwrap_or(&[]);
        from.get(..self.c as usize).unwrap_or(from)
    }

    /// Has its call a recorded form?
    pub fn recordable(self) -> bool {
        matches!(self.op, 1..=9 | 13 | 14)
    }
}

/// The commands of a stream; a cut last one is dropped.
pub fn commands(input: &[u8]) -> Vec<Command> {
    input
        .chunks_exact(COMMAND_BYTES)
        .take(MOST_COMMANDS)
        .filter_map(|bytes| bytes.try_into().ok())
        .map(Command::from_bytes)
        .collect()
}

/// A buffer is held whole and lent up to a length.
#[derive(Clone)]
pub struct Buffer {
    pub bytes: Vec<u8>,
    pub length: usize,
}

impl Buffer {
    fn zero(held: usize, length: usize) -> Buffer {
        Buffer { bytes: vec![0; held], length }
    }

    pub fn lent(&self) -> &[u8] {
        self.bytes.get(..self.length).unwrap_or(&[])
    }

    fn lent_mut(&mut self) -> &mut [u8] {
        self.bytes.get_mut(..self.length).unwrap_or(&mut [])
    }
}

#[derive(Clone)]
pub struct Machine {
    pub state: State,
    pub reader: Reader,
    pub vram: Buffer,
    pub pixels: Buffer,
    pub work_ram: Buffer,
    pub cartridge: Buffer,
    pub tape: Buffer,
    pub row: Buffer,
    pub script: Buffer,
    pub count: u32,
    pub recorded: bool,
}

impl Machine {
    pub fn new() -> Machine {
        Machine {
            state: State::fresh(false),
            reader: Reader::default(),
            vram: Buffer::zero(65_540, 65_536),
            pixels: Buffer::zero(324, 320),
            work_ram: Buffer::zero(65_540, 65_536),
            cartridge: Buffer::zero(131_076, 131_072),
            tape: Buffer::zero(131_080, 131_072),
            row: Buffer::zero(12, 8),
            script: Buffer::zero(16_388, 0),
            count: 0,
            recorded: false,
        }
    }

    /// What a run is lent to take words from.
    pub fn memories(&self) -> Memories<'_> {
        Memories { cartridge: self.cartridge.lent(), work_ram: self.work_ram.lent() }
    }

    /// Does a command and gives the lines it prints: one for a call, none for a set-up, and for a
    /// delivery as many more as it makes calls.
    pub fn apply(&mut self, command: &Command) -> Vec<String> {
        match command.op {
            20 => self.delivery_lines(command),
            48 => vec![self.digest_line()],
            _ if command.calls() => vec![self.call_line(command)],
            _ => {
                self.set_up(command);
                Vec::new()
            }
        }
    }

    fn call_line(&mut self, command: &Command) -> String {
        let report = match command.op {
            17 => self.run_script(),
            22 => (self.reader.end(), 0),
            _ => numbers(self.call(command)),
        };
        self.line(command.op, report)
    }

    fn line(&self, op: u8, (number, result): (Answer, u32)) -> String {
        format!("{} {} {} {}", op, number, result, self.count)
    }

    /// Op 20: a line for each call, then that of the delivery.
    fn delivery_lines(&mut self, command: &Command) -> Vec<String> {
        let bytes = command.delivered(self.script.lent()).to_vec();
        let Delivery { number, calls } = self.deliver(&bytes);
        let of_call = calls.iter().map(|(_, reply)| self.line(21, numbers(*reply)));
        let of_delivery = self.line(20, (number, calls.len() as u32));
        of_call.chain([of_delivery]).collect()
    }

    /// Brings bytes to the reader. Its calls are plain, whatever `recorded` is.
    pub fn deliver(&mut self, bytes: &[u8]) -> Delivery {
        let mut reader = std::mem::take(&mut self.reader);
        let delivery = reader.delivery(&mut self.lent().0, bytes);
        self.reader = reader;
        delivery
    }

    /// Op 17; a refused script has a place too.
    pub fn run_script(&mut self) -> Report {
        let (mut lent, script) = self.lent();
        run::script(&mut lent, script)
    }

    /// What a script's calls are made on, and the script. They are plain, whatever `recorded` is.
    pub fn lent(&mut self) -> (Lent<'_>, &[u8]) {
        let memories =
            Memories { cartridge: self.cartridge.lent(), work_ram: self.work_ram.lent() };
        let (vram, pixels) = (self.vram.lent_mut(), self.pixels.lent_mut());
        (Lent { state: &mut self.state, vram, memories, pixels }, self.script.lent())
    }

    /// Ops 1 to 16, and 18.
    pub fn call(&mut self, command: &Command) -> Reply {
        if let Some(item) = command.item() {
            return script::write_item(self.script.lent_mut(), command.c as usize, item);
        }
        match command.op {
            1 => self.control(command.b),
            2 => self.control(doubled(command.a)),
            3 => self.data_write(command.b),
            4 => self.data_write(doubled(command.a)),
            5..=9 | 13 | 14 => self.other_call(command),
            10 => {
                let (state, vram, tape) = self.with_tape();
                calls::step_back(state, vram, tape, command.c)
            }
            11 => calls::pattern_row(self.vram.lent(), self.row.lent_mut(), command.b, command.c),
            12 => calls::colour_parts(command.b, command.a),
            15 => calls::v_counter_read(&self.state),
            _ => calls::level_read(&self.state),
        }
    }

    fn with_tape(&mut self) -> (&mut State, &mut [u8], Tape<'_>) {
        let tape = Tape { bytes: self.tape.lent_mut(), count: &mut self.count };
        (&mut self.state, self.vram.lent_mut(), tape)
    }

    fn control(&mut self, word: u16) -> Reply {
        let recorded = self.recorded;
        let (state, _, tape) = self.with_tape();
        calls::control_write(state, recorded.then_some(tape), word)
    }

    fn data_write(&mut self, word: u16) -> Reply {
        let recorded = self.recorded;
        let (state, vram, tape) = self.with_tape();
        calls::data_write(state, vram, recorded.then_some(tape), word)
    }

    /// Ops 5 to 9, 13 and 14, plain or recorded.
    fn other_call(&mut self, command: &Command) -> Reply {
        let memories =
            Memories { cartridge: self.cartridge.lent(), work_ram: self.work_ram.lent() };
        let tape = Tape { bytes: self.tape.lent_mut(), count: &mut self.count };
        let tape = self.recorded.then_some(tape);
        let (state, vram) = (&mut self.state, self.vram.lent_mut());
        match command.op {
            5 => calls::data_read(state, vram, tape),
            6 => calls::status_read(state, tape),
            7 => calls::run(state, vram, memories, tape, command.c),
            8 => calls::draw_line(state, vram, self.pixels.lent_mut(), tape, command.c),
            9 => calls::new_frame(state, tape),
            13 => calls::line_begins(state, tape),
            _ => calls::acknowledge(state, tape, command.a),
        }
    }

    /// Ops 19 and 32 to 39. The state is made anew without the reader, and the reader without it.
    fn set_up(&mut self, command: &Command) {
        match command.op {
            19 => self.reader = Reader::default(),
            32 => set_field(&mut self.state, command),
            33 => self.state = State::fresh(command.a % 2 == 1),
            34..=36 | 39 => self.set_buffer(command),
            37 => self.count = command.c,
            38 => self.recorded = command.a % 2 == 1,
            _ => (),
        }
    }

    fn set_buffer(&mut self, command: &Command) {
        let Some(buffer) = self.buffer(command.b) else {
            return;
        };
        let held = buffer.bytes.len();
        match command.op {
            34 => {
                if let Some(byte) = buffer.bytes.get_mut(command.c as usize % held) {
                    *byte = command.a;
                }
            }
            35 => scatter(&mut buffer.bytes, command.c),
            36 => buffer.length = held.min(command.c as usize),
            _ => buffer.bytes.fill(command.a),
        }
    }

    fn buffer(&mut self, number: u16) -> Option<&mut Buffer> {
        match number {
            VRAM => Some(&mut self.vram),
            PIXELS => Some(&mut self.pixels),
            WORK_RAM => Some(&mut self.work_ram),
            CARTRIDGE => Some(&mut self.cartridge),
            TAPE => Some(&mut self.tape),
            ROW => Some(&mut self.row),
            SCRIPT => Some(&mut self.script),
            _ => None,
        }
    }

    /// Op 48: state, VRAM, pixels, row and tape, each over all bytes held.
    fn digest_line(&self) -> String {
        format!(
            "48 {} {} {} {} {} {}",
            digest(&state_bytes(&self.state)),
            digest(&self.vram.bytes),
            digest(&self.pixels.bytes),
            digest(&self.row.bytes),
            digest(&self.tape.bytes),
            self.count
        )
    }
}

/// Op 32: one number of the state, cut to its type.
fn set_field(state: &mut State, command: &Command) {
    let c = command.c;
    let (byte, word) = ((c % 256) as u8, (c % 65_536) as u16);
    let place = usize::from(command.b);
    match command.a {
        0 => state.registers[place % REGISTERS] = byte,
        1 => state.colours[place % COLOURS] = word,
        2 => state.scrolls[place % SCROLLS] = word,
        3 => state.address = word,
        4 => state.code = byte,
        5 => state.pending = c % 2 == 1,
        6 => state.kind = byte,
        7 => state.remaining = c,
        8 => state.source = c,
        9 => state.fill = byte,
        10 => state.overflow = c % 2 == 1,
        11 => state.collision = c % 2 == 1,
        12 => state.pal = c % 2 == 1,
        13 => state.line = word,
        14 => state.counter = byte,
        15 => state.vertical = c % 2 == 1,
        16 => state.horizontal = c % 2 == 1,
        17 => state.used_up = c % 2 == 1,
        _ => (),
    }
}

/// The stream's byte generator.
fn scatter(bytes: &mut [u8], seed: u32) {
    let mut x = seed;
    for byte in bytes {
        x = x.wrapping_mul(1_664_525).wrapping_add(1_013_904_223);
        *byte = (x >> 24) as u8;
    }
}

fn digest(bytes: &[u8]) -> u32 {
    bytes.iter().fold(0u32, |h, byte| h.wrapping_mul(16_777_619).wrapping_add(u32::from(*byte) + 1))
}

/// The state as bytes, in the stream's order.
pub fn state_bytes(state: &State) -> Vec<u8> {
    let mut bytes = state.registers.to_vec();
    for word in state.colours.iter().chain(&state.scrolls) {
        bytes.extend(word.to_be_bytes());
    }
    bytes.extend(state.address.to_be_bytes());
    bytes.extend([state.code, u8::from(state.pending), state.kind]);
    bytes.extend(state.remaining.to_be_bytes());
    bytes.extend(state.source.to_be_bytes());
    bytes.push(state.fill);
    bytes.extend([state.overflow, state.collision, state.pal].map(u8::from));
    bytes.extend(state.line.to_be_bytes());
    bytes.push(state.counter);
    bytes.extend([state.vertical, state.horizontal, state.used_up].map(u8::from));
    bytes
}
