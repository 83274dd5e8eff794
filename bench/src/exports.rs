// What include/kuthbareen.h declares, as far as the benchmark calls it. The only `unsafe` of the program is here: each
// export stands behind a safe function that lends it references and slices.

#[repr(C)]
#[derive(Clone, Debug, PartialEq)]
pub struct Port {
    pub address: u16,
    pub code: u8,
    pub pending: bool,
}

#[repr(C)]
#[derive(Clone, Debug, Default, PartialEq)]
pub struct Dma {
    pub kind: u8,
    pub remaining: u32,
    pub source: u32,
    pub fill: u8,
}

#[repr(C)]
#[derive(Clone, Debug, PartialEq)]
pub struct Flags {
    pub overflow: bool,
    pub collision: bool,
    pub used_up: bool,
}

#[repr(C)]
#[derive(Clone, Debug, PartialEq)]
pub struct Timing {
    pub line: u16,
    pub counter: u8,
    pub vertical: bool,
    pub horizontal: bool,
}

#[repr(C)]
#[derive(Clone, Debug, PartialEq)]
pub struct Control {
    pub port: Port,
    pub dma: Dma,
    pub flags: Flags,
    pub timing: Timing,
}

#[repr(C)]
#[derive(Clone, Debug, PartialEq)]
pub struct State {
    pub registers: [u8; 24],
    pub cram: [u16; 64],
    pub vsram: [u16; 40],
    pub control: Control,
    pub pal: bool,
}

#[repr(C)]
#[derive(Clone, Copy, Debug, PartialEq)]
pub struct Answer {
    pub number: u8,
    pub result: u32,
}

// What a call on a tape gives.
#[repr(C)]
#[derive(Clone, Copy, Debug, PartialEq)]
pub struct Recorded {
    pub number: u8,
    pub result: u32,
    pub count: usize,
}

// What a script that is run gives.
#[repr(C)]
#[derive(Clone, Copy, Debug, PartialEq)]
pub struct ScriptAnswer {
    pub number: u8,
    pub place: usize,
}

// What a reader keeps, and what a delivery to it gives.
#[repr(C)]
#[derive(Clone, Copy, Debug, PartialEq)]
pub struct Reader {
    pub stage: u8,
    pub kind: u8,
    pub upper: u8,
    pub number: u8,
}

#[repr(C)]
#[derive(Clone, Copy, Debug, PartialEq)]
pub struct Delivery {
    pub number: u8,
    pub called: bool,
    pub result: u32,
    pub taken: usize,
    pub reader: Reader,
}

pub const DONE: u8 = 0;
pub const BAD_STATE: u8 = 1;
pub const BAD_BUFFER: u8 = 2;
pub const BUSY: u8 = 3;
pub const NOT_MODELLED: u8 = 4;
pub const NO_SUCH_PLACE: u8 = 5;
pub const TAPE_FULL: u8 = 6;
pub const SOURCE_NOT_LENT: u8 = 7;
pub const BAD_RECORD: u8 = 8;
pub const NOTHING_THERE: u8 = 10;
pub const BAD_SCRIPT: u8 = 11;
pub const MISSING_REGISTER: u8 = 12;

pub const LINE_SIZE: usize = 320;
pub const RECORD_SIZE: usize = 32;

// The most units of DMA that can remain.
pub const MOST_UNITS: u32 = 65_536;

// The last line of a frame.
pub const LAST_LINE: u16 = 261;

mod c {
    use super::{Answer, Delivery, Reader, Recorded, ScriptAnswer, State};

    extern "C" {
        pub fn kuthbareen_fresh(pal: bool) -> State;
        pub fn kuthbareen_control_write(state: *mut State, word: u16) -> Answer;
        pub fn kuthbareen_data_write(
            state: *mut State,
            vram: *mut u8,
            vram_size: usize,
            word: u16,
        ) -> Answer;
        pub fn kuthbareen_run(
            state: *mut State,
            vram: *mut u8,
            vram_size: usize,
            cartridge: *const u8,
            cartridge_size: usize,
            ram: *const u8,
            ram_size: usize,
            budget: u32,
        ) -> Answer;
        pub fn kuthbareen_line(
            state: *mut State,
            vram: *const u8,
            vram_size: usize,
            line: u32,
            pixels: *mut u8,
            pixels_size: usize,
        ) -> Answer;
        pub fn kuthbareen_recorded_data_write(
            state: *mut State,
            vram: *mut u8,
            vram_size: usize,
            tape: *mut u8,
            tape_size: usize,
            count: usize,
            word: u16,
        ) -> Recorded;
        pub fn kuthbareen_recorded_run(
            state: *mut State,
            vram: *mut u8,
            vram_size: usize,
            cartridge: *const u8,
            cartridge_size: usize,
            ram: *const u8,
            ram_size: usize,
            tape: *mut u8,
            tape_size: usize,
            count: usize,
            budget: u32,
        ) -> Recorded;
        pub fn kuthbareen_step_back(
            state: *mut State,
            vram: *mut u8,
            vram_size: usize,
            tape: *const u8,
            tape_size: usize,
            count: usize,
            k: usize,
        ) -> Recorded;
        pub fn kuthbareen_run_script(
            state: *mut State,
            vram: *mut u8,
            vram_size: usize,
            cartridge: *const u8,
            cartridge_size: usize,
            ram: *const u8,
            ram_size: usize,
            pixels: *mut u8,
            pixels_size: usize,
            script: *const u8,
            script_size: usize,
        ) -> ScriptAnswer;
        pub fn kuthbareen_start_reader() -> Reader;
        pub fn kuthbareen_deliver(
            state: *mut State,
            vram: *mut u8,
            vram_size: usize,
            cartridge: *const u8,
            cartridge_size: usize,
            ram: *const u8,
            ram_size: usize,
            pixels: *mut u8,
            pixels_size: usize,
            reader: Reader,
            bytes: *const u8,
            bytes_size: usize,
        ) -> Delivery;
    }
}

pub fn fresh(pal: bool) -> State {
    // SAFETY: takes no memory; every field of the state it gives is set.
    unsafe { c::kuthbareen_fresh(pal) }
}

pub fn control_write(state: &mut State, word: u16) -> Answer {
    // SAFETY: a State has every field set, and the reference is the only one.
    unsafe { c::kuthbareen_control_write(state, word) }
}

pub fn data_write(state: &mut State, vram: &mut [u8], word: u16) -> Answer {
    // SAFETY: as above; a slice is never null, and two mutable references do not overlap.
    unsafe { c::kuthbareen_data_write(state, vram.as_mut_ptr(), vram.len(), word) }
}

pub fn run(
    state: &mut State,
    vram: &mut [u8],
    cartridge: &[u8],
    ram: &[u8],
    budget: u32,
) -> Answer {
    // SAFETY: as above; what is only read may overlap nothing that is written, by the rules of references.
    unsafe {
        c::kuthbareen_run(
            state,
            vram.as_mut_ptr(),
            vram.len(),
            cartridge.as_ptr(),
            cartridge.len(),
            ram.as_ptr(),
            ram.len(),
            budget,
        )
    }
}

pub fn line(state: &mut State, vram: &[u8], line: u32, pixels: &mut [u8]) -> Answer {
    // SAFETY: as above.
    unsafe {
        c::kuthbareen_line(
            state,
            vram.as_ptr(),
            vram.len(),
            line,
            pixels.as_mut_ptr(),
            pixels.len(),
        )
    }
}

pub fn recorded_data_write(
    state: &mut State,
    vram: &mut [u8],
    tape: &mut [u8],
    count: usize,
    word: u16,
) -> Recorded {
    // SAFETY: as above.
    unsafe {
        c::kuthbareen_recorded_data_write(
            state,
            vram.as_mut_ptr(),
            vram.len(),
            tape.as_mut_ptr(),
            tape.len(),
            count,
            word,
        )
    }
}

// A run that no cartridge is lent to.
pub fn recorded_run(
    state: &mut State,
    vram: &mut [u8],
    ram: &[u8],
    tape: &mut [u8],
    count: usize,
    budget: u32,
) -> Recorded {
    let cartridge: &[u8] = &[];
    // SAFETY: as above.
    unsafe {
        c::kuthbareen_recorded_run(
            state,
            vram.as_mut_ptr(),
            vram.len(),
            cartridge.as_ptr(),
            cartridge.len(),
            ram.as_ptr(),
            ram.len(),
            tape.as_mut_ptr(),
            tape.len(),
            count,
            budget,
        )
    }
}

pub fn step_back(
    state: &mut State,
    vram: &mut [u8],
    tape: &[u8],
    count: usize,
    k: usize,
) -> Recorded {
    // SAFETY: as above.
    unsafe {
        c::kuthbareen_step_back(
            state,
            vram.as_mut_ptr(),
            vram.len(),
            tape.as_ptr(),
            tape.len(),
            count,
            k,
        )
    }
}

// A script that no cartridge is lent to.
pub fn run_script(
    state: &mut State,
    vram: &mut [u8],
    ram: &[u8],
    pixels: &mut [u8],
    script: &[u8],
) -> ScriptAnswer {
    let cartridge: &[u8] = &[];
    // SAFETY: as above.
    unsafe {
        c::kuthbareen_run_script(
            state,
            vram.as_mut_ptr(),
            vram.len(),
            cartridge.as_ptr(),
            cartridge.len(),
            ram.as_ptr(),
            ram.len(),
            pixels.as_mut_ptr(),
            pixels.len(),
            script.as_ptr(),
            script.len(),
        )
    }
}

pub fn start_reader() -> Reader {
    // SAFETY: it takes nothing.
    unsafe { c::kuthbareen_start_reader() }
}

// Bytes to a reader that no cartridge is lent to.
pub fn deliver(
    state: &mut State,
    vram: &mut [u8],
    ram: &[u8],
    pixels: &mut [u8],
    reader: Reader,
    bytes: &[u8],
) -> Delivery {
    let cartridge: &[u8] = &[];
    // SAFETY: as above.
    unsafe {
        c::kuthbareen_deliver(
            state,
            vram.as_mut_ptr(),
            vram.len(),
            cartridge.as_ptr(),
            cartridge.len(),
            ram.as_ptr(),
            ram.len(),
            pixels.as_mut_ptr(),
            pixels.len(),
            reader,
            bytes.as_ptr(),
            bytes.len(),
        )
    }
}
