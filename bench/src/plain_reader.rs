// A reader as a plain Rust program would have it, by the rules of docs/DEFINITION.md (The reader): it keeps the bytes of
// an unfinished item and tests each as it comes. Of the calls it makes the data writes.
use crate::exports::{Answer, State, BAD_SCRIPT, DONE};
use crate::machine::Memory;
use crate::plain::data_write_asking_good;

const VERSION: u8 = 1;
const DATA_WORD: u8 = 2;

#[derive(Default)]
struct Reader {
    begun: bool,
    kept: [u8; 5],
    held: usize,
}

impl Reader {
    // Whether the byte may come next.
    fn right(&self, byte: u8) -> bool {
        match (self.begun, self.held) {
            (false, _) => byte == VERSION,
            (true, 0) => byte == 0,
            (true, 1) => byte == 1 || byte == 3,
            (true, 2) if self.kept[1] == 1 => matches!(byte, 3 | 4 | 7),
            (true, 2) => matches!(byte, 1 | 2 | 5 | 6),
            _ => true,
        }
    }

    // Keeps a byte; whether it makes an item whole.
    fn keep(&mut self, byte: u8) -> bool {
        if !self.begun {
            self.begun = true;
            return false;
        }
        self.kept[self.held] = byte;
        self.held += 1;
        self.held > 2 && self.held == 2 + usize::from(self.kept[1])
    }
}

// All the bytes to a reader that is started anew: the number and how many calls were made.
#[inline(never)]
pub fn deliver(state: &mut State, vram: &mut Memory, bytes: &[u8]) -> Answer {
    let mut reader = Reader::default();
    let mut calls = 0;
    for &byte in bytes {
        if !reader.right(byte) {
            return Answer {
                number: BAD_SCRIPT,
                result: calls,
            };
        }
        if reader.keep(byte) {
            reader.held = 0;
            let [_, _, DATA_WORD, high, low] = reader.kept else {
                unreachable!("the script of the benchmark has data words only");
            };
            let word = u16::from_be_bytes([high, low]);
            let number = data_write_asking_good(state, vram, word).number;
            calls += 1;
            if number != DONE {
                return Answer {
                    number,
                    result: calls,
                };
            }
        }
    }
    Answer {
        number: DONE,
        result: calls,
    }
}
