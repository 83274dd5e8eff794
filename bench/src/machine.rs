// A chip with its VRAM, its screen and its tape, beside the work RAM of its 68000, and what makes it ready for each
// piece of work.
use crate::exports::{
    control_write, data_write, fresh, recorded_data_write, State, DONE, LINE_SIZE, MOST_UNITS,
    RECORD_SIZE,
};

pub const MEMORY_SIZE: usize = 65_536;

pub type Memory = [u8; MEMORY_SIZE];

pub const LINES: usize = 224;

// Room for a step for each unit of the longest run.
const TAPE_SIZE: usize = MOST_UNITS as usize * RECORD_SIZE;

pub const RECORDED_WRITES: u32 = 10_000;

// As many data words as a script of 16,384 bytes can have.
pub const SCRIPT_ITEMS: u32 = 3_276;

// The lines drawn, and the sprites that were visited for each.
#[derive(Clone, PartialEq)]
pub struct Screen {
    pub pixels: [[u8; LINE_SIZE]; LINES],
    pub visits: [u32; LINES],
}

const CLEARED: Screen = Screen {
    pixels: [[0; LINE_SIZE]; LINES],
    visits: [0; LINES],
};

pub struct Machine {
    pub state: State,
    pub vram: Box<Memory>,
    pub ram: Box<Memory>,
    pub screen: Box<Screen>,
    pub tape: Vec<u8>,
    pub count: usize,
    pub script: Vec<u8>,
}

impl Machine {
    pub fn new() -> Machine {
        Machine {
            state: fresh(false),
            vram: Box::new([0; MEMORY_SIZE]),
            ram: Box::new([0; MEMORY_SIZE]),
            screen: Box::new(CLEARED),
            tape: vec![0; TAPE_SIZE],
            count: 0,
            script: Vec::new(),
        }
    }

    // A fresh state and cleared buffers.
    pub fn clear(&mut self) {
        self.state = fresh(false);
        self.vram.fill(0);
        self.ram.fill(0);
        *self.screen = CLEARED;
        self.tape.fill(0);
        self.count = 0;
        self.script.clear();
    }

    fn control(&mut self, words: &[u16]) {
        for word in words {
            assert_eq!(control_write(&mut self.state, *word).number, DONE);
        }
    }
}

// Bytes that differ from place to place, for what a copy or a transfer is to move.
fn lay_pattern(bytes: &mut [u8]) {
    for (i, byte) in bytes.iter_mut().enumerate() {
        *byte = (i * 7 + i / 256 * 13 + 1) as u8;
    }
}

// DMA on, and the longest length: registers 19 and 20 zero.
const LONGEST: [u16; 3] = [0x8114, 0x9300, 0x9400];

// A fill with 5Ah, VRAM address 0, step 1.
pub fn fill(m: &mut Machine) {
    m.control(&LONGEST);
    m.control(&[0x8F01, 0x9780, 0x4000, 0x0080]);
    assert_eq!(
        data_write(&mut m.state, &mut m.vram[..], 0x5AA5).number,
        DONE
    );
}

// A copy from VRAM 8000h to 0, step 1.
pub fn copy(m: &mut Machine) {
    lay_pattern(&mut m.vram[..]);
    m.control(&LONGEST);
    m.control(&[0x8F01, 0x9500, 0x9680, 0x97C0, 0x0000, 0x00C0]);
}

// A transfer from work RAM at E00000h, step 2, to VRAM address 0.
pub fn transfer_to_vram(m: &mut Machine) {
    transfer(m);
    m.control(&[0x4000, 0x0080]);
}

// The same to colour memory.
pub fn transfer_to_colours(m: &mut Machine) {
    transfer(m);
    m.control(&[0xC000, 0x0080]);
}

fn transfer(m: &mut Machine) {
    lay_pattern(&mut m.ram[..]);
    m.control(&LONGEST);
    m.control(&[0x8F02, 0x9500, 0x9600, 0x9770]);
}

// Planes of 64 x 32 cells at C000h and E000h, scrolled line by line, a window in the leftmost 128 columns at A000h, and
// 80 sprites at F800h that are spread over the screen. Patterns and cells differ from place to place, and a third of
// the patterns' bytes are clear.
pub fn scene(m: &mut Machine) {
    lay_pattern(&mut m.vram[..]);
    for byte in m.vram.iter_mut().step_by(3) {
        *byte = 0;
    }
    for number in 0..80_u16 {
        let y = 128 + number * 53 % 224;
        let x = 128 + number * 37 % 320;
        let size = number % 16;
        let link = (number + 1) % 80;
        let words = [y, size << 8 | link, number.wrapping_mul(0x0935), x];
        let entry = 0xF800 + 8 * usize::from(number);
        for (place, word) in words.iter().enumerate() {
            m.vram[entry + 2 * place..][..2].copy_from_slice(&word.to_be_bytes());
        }
    }
    m.control(&[0x8004, 0x8144, 0x8230, 0x8328, 0x8407, 0x857C, 0x8703]);
    m.control(&[0x8B03, 0x8C81, 0x8D2C, 0x9001, 0x9108, 0x9200]);
}

// The same scene with register 12 bit 3 set.
pub fn shadowed_scene(m: &mut Machine) {
    scene(m);
    m.control(&[0x8C89]);
}

// A script of data words, to be written where `data_writes` leads.
pub fn script(m: &mut Machine) {
    data_writes(m);
    m.script.push(1);
    for i in 0..SCRIPT_ITEMS {
        let [high, low] = ((i * 5 + 1) as u16).to_be_bytes();
        m.script.extend([0, 3, 2, high, low]);
    }
}

// Data writes to VRAM from address 0, step 2.
pub fn data_writes(m: &mut Machine) {
    m.control(&[0x8F02, 0x4000, 0x0000]);
}

// The same to colour memory.
pub fn data_writes_to_colours(m: &mut Machine) {
    m.control(&[0x8F02, 0xC000, 0x0000]);
}

// Data writes that have been recorded, from the same beginning.
pub fn recorded_writes(m: &mut Machine) {
    data_writes(m);
    for i in 0..RECORDED_WRITES {
        let word = (i * 5 + 1) as u16;
        let r = recorded_data_write(&mut m.state, &mut m.vram[..], &mut m.tape, m.count, word);
        assert_eq!(r.number, DONE);
        m.count = r.count;
    }
}
