//! What the program `script` prints (definition, The program `script`).

use super::judge::{self, Report};
use super::{run, ITEMS_FROM};
use crate::answer::{numbers, Answer, BAD_BUFFER, DONE};
use crate::replay::Machine;

/// The program takes a script of so many bytes and no more.
pub const MOST_BYTES: usize = 16_384;

/// The lines that it prints, and whether every call was done.
#[derive(Debug, PartialEq, Eq)]
pub struct Told {
    pub lines: Vec<String>,
    pub done: bool,
}

/// A machine as the replay has it at its start, but without a cartridge.
pub fn start() -> Machine {
    let mut machine = Machine::new();
    machine.cartridge.length = 0;
    machine
}

/// A script that is refused before any call has one line.
pub fn told(script: &[u8]) -> Told {
    let machine = start();
    match admitted(script, machine.state.pending) {
        (DONE, _) => called(machine, script),
        (number, place) => Told { lines: vec![line(place, number, 0)], done: false },
    }
}

/// Too many bytes are refused whatever they are; only then is the script judged.
fn admitted(script: &[u8], pending: bool) -> Report {
    if script.len() > MOST_BYTES {
        (BAD_BUFFER, 0)
    } else {
        judge::judged(script, pending)
    }
}

/// A script that is judged with 0, item by item, up to its end or to a refused call.
fn called(mut machine: Machine, script: &[u8]) -> Told {
    let mut told = Told { lines: Vec::new(), done: true };
    let mut at = ITEMS_FROM;
    while told.done && at < script.len() {
        let (reply, next) = run::item(&mut machine.lent().0, script, at);
        let (number, result) = numbers(reply);
        told.lines.push(line(told.lines.len() as u32, number, result));
        told.done = number == DONE;
        at = next;
    }
    told
}

fn line(place: u32, number: Answer, result: u32) -> String {
    format!("{place} {number} {result:04X}")
}

#[cfg(test)]
mod tests {
    use super::*;
    use crate::script::tests::with_words;
    use crate::script::{script_of, Item};

    fn assert_told(script: &[u8], lines: &[&str], done: bool) {
        let lines = lines.iter().map(|line| line.to_string()).collect();
        assert_eq!(told(script), Told { lines, done });
    }

    fn script(words: &[u16], items: &[Item]) -> Vec<u8> {
        script_of(&with_words(words, items))
    }

    #[test]
    fn the_case_that_was_asked_for() {
        let bytes = [0x01, 0x00, 0x03, 0x01, 0x8F, 0x02, 0x00, 0x01, 0x04];
        assert_told(&bytes, &["0 0 0000", "1 0 3600"], true);
    }

    #[test]
    fn refused_before_any_call() {
        assert_told(&[], &["0 11 0000"], false);
        assert_told(&[2, 0, 1, 4], &["0 11 0000"], false);
        assert_told(&[1, 0, 1, 4, 0, 1, 7, 0, 1], &["2 11 0000"], false);
        assert_told(&[1], &[], true);
    }

    /// A fresh state awaits no second half. Too many bytes and a faulty item come first.
    #[test]
    fn missing_registers() {
        assert_told(&script(&[0x9800], &[]), &["0 12 0000"], false);
        assert_told(&script(&[0x8F02, 0xBFFF], &[Item::StatusRead]), &["1 12 0000"], false);
        assert_told(&script(&[0x4000, 0x9800], &[]), &["0 0 0000", "1 0 0000"], true);
        assert_told(&script(&[0x4000, 0x9800, 0x9800], &[]), &["2 12 0000"], false);
        let cleared = [Item::StatusRead, Item::ControlWrite(0x9F00)];
        assert_told(&script(&[0x4000], &cleared), &["2 12 0000"], false);
        let faulty = [script(&[0x9800], &[]), vec![0, 1, 8]].concat();
        assert_told(&faulty, &["1 11 0000"], false);
        let most = script(&[0x8F02, 0x8F02, 0x9800], &[Item::NewFrame; 5_456]);
        assert_eq!(most.len(), 16_384);
        assert_told(&most, &["2 12 0000"], false);
        assert_told(&[most, vec![0]].concat(), &["0 2 0000"], false);
    }

    /// 16,384 bytes are a version and 5,461 items of three bytes.
    #[test]
    fn the_most_bytes_and_one_more() {
        let frames = script_of(&[Item::NewFrame; 5_461]);
        assert_eq!(frames.len(), 16_384);
        let told = told(&frames);
        assert_eq!((told.lines.len(), told.done), (5_461, true));
        assert_eq!(told.lines[5_460], "5460 0 0000");
        let too_long = [&frames[..], &[0]].concat();
        for bytes in [&too_long[..], &[0; 16_385], &[1; 20_000]] {
            assert_told(bytes, &["0 2 0000"], false);
        }
        assert_told(&[0; 16_384], &["0 11 0000"], false);
        let cut = [&script_of(&[Item::NewFrame; 5_460])[..], &[0, 1]].concat();
        assert_told(&cut, &["5460 11 0000"], false);
    }

    /// A fresh state has register 1 bit 2 clear.
    #[test]
    fn a_refused_call_is_the_last() {
        let bytes = script(&[], &[Item::StatusRead, Item::Line(0), Item::StatusRead]);
        assert_told(&bytes, &["0 0 3600", "1 4 0000"], false);
        let last = script(&[0x8144], &[Item::Line(224)]);
        assert_told(&last, &["0 0 0000", "1 5 0000"], false);
    }

    /// A word read, sprites visited and units made. In a table of zeros one sprite is visited.
    #[test]
    fn results() {
        let items = [Item::DataWrite(0x1ABC), Item::ControlWrite(0), Item::ControlWrite(0)];
        let bytes = script(&[0x4000, 0x0000], &[&items[..], &[Item::DataRead]].concat());
        assert_eq!(told(&bytes).lines[5], "5 0 1ABC");
        let bytes = script(&[0x8144], &[Item::Line(100)]);
        assert_eq!(told(&bytes).lines[1], "1 0 0001");
        let fill = [0x8110, 0x931B, 0x9780, 0x4000, 0x0080];
        let bytes = script(&fill, &[Item::DataWrite(0), Item::Run(0x1A), Item::Run(9)]);
        assert_eq!(told(&bytes).lines[6..], ["6 0 001A", "7 0 0001"]);
    }

    /// There is no cartridge; work RAM is lent, and it is all 0.
    #[test]
    fn memories() {
        let transfer = |page: u16| [0x8110, 0x8F02, 0x9301, 0x9700 + page, 0x4000, 0x0080];
        let bytes = script(&transfer(0), &[Item::Run(1)]);
        assert_eq!(told(&bytes).lines[6], "6 7 0000");
        let bytes = script(&transfer(0x7F), &[Item::Run(1), Item::StatusRead]);
        assert_eq!(told(&bytes).lines[6..], ["6 0 0001", "7 0 3600"]);
    }
}
