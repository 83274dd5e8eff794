//! The batch that a stream holds: its fields as commands set them, and the line that tells them
//! (docs/STREAM.md, Captured lines).

use crate::judge::{Batch, Worst};

#[derive(Clone, Default)]
pub struct HeldBatch {
    pub batch: Batch,
    /// The numbers of a worst line that there is not, for when a command says that there is one.
    pub kept: Worst,
}

impl HeldBatch {
    /// Op 28: one field.
    pub fn set(&mut self, field: u8, value: u32) {
        match field {
            0 => self.batch.lines = value,
            1 => self.batch.equal = value,
            2 => self.batch.differing = value,
            3 => self.batch.visible = value,
            4 => self.worst().place = value,
            5 => self.worst().differing = value,
            6 => self.set_worst(value % 2 == 1),
            _ => (),
        }
    }

    /// The worst line's numbers, of one that is there or of one that is not.
    fn worst(&mut self) -> &mut Worst {
        self.batch.worst.as_mut().unwrap_or(&mut self.kept)
    }

    fn set_worst(&mut self, there: bool) {
        self.kept = *self.worst();
        self.batch.worst = there.then_some(self.kept);
    }

    /// Op 29: the fields in their order, with 0 for the numbers of a worst line that there is not.
    pub fn line(&self) -> String {
        let Batch { lines, equal, differing, visible, worst } = self.batch;
        let (there, worst) = (u8::from(worst.is_some()), worst.unwrap_or_default());
        format!(
            "29 {lines} {equal} {differing} {visible} {} {} {there}",
            worst.place, worst.differing
        )
    }
}

#[cfg(test)]
mod tests {
    use crate::answer::{BAD_STATE, MISSING_REGISTER, PAST_THE_LIMIT};
    use crate::batches::MOST;
    use crate::bench::command;
    use crate::captures::plain;
    use crate::replay::{Command, Machine, CAPTURE, PIXELS};
    use crate::script::reader::Reader;

    /// The lines that these commands print, on a machine with a plain line of 25h at 320.
    fn told(commands: &[Command]) -> Vec<String> {
        let mut machine = Machine::new();
        machine.state = plain(0x81).0.state;
        commands.iter().flat_map(|command| machine.apply(command)).collect()
    }

    fn set(field: u8, value: u32) -> Command {
        command(28, field, 0, value)
    }

    const TELL: Command = Command { op: 29, a: 0, b: 0, c: 0 };
    const JOIN: Command = Command { op: 27, a: 0, b: 0, c: 0 };
    /// A capture of 25h: it is equal.
    const EQUAL_CAPTURE: Command = Command { op: 39, a: 0x25, b: CAPTURE, c: 0 };

    fn spoil(column: u32) -> Command {
        command(34, 0x26, CAPTURE, column)
    }

    fn judge(line: u32) -> Command {
        command(25, 0, 0, line)
    }

    fn add_line(line: u32) -> Command {
        command(26, 0, 0, line)
    }

    /// The count is told as it is, and stays. Byte 324 of the capture is byte 0, and bytes 320 to 323
    /// are held but not lent.
    #[test]
    fn the_lines_of_ops_25_to_27() {
        let commands = [
            command(37, 0, 0, 6),
            judge(0),
            EQUAL_CAPTURE,
            spoil(323),
            judge(0),
            add_line(0),
            spoil(319),
            spoil(7),
            judge(0),
            add_line(0),
            spoil(324),
            judge(223),
            judge(224),
            add_line(224),
            JOIN,
            TELL,
        ];
        let expected = [
            "25 0 0 6",
            "25 0 512 6",
            "26 0 1 6",
            "25 0 7 6",
            "26 0 2 6",
            "25 0 0 6",
            "25 5 0 6",
            "26 5 0 6",
            "27 0 4 6",
            "29 4 2 4 1280 1 2 1",
        ];
        assert_eq!(told(&commands), expected);
    }

    /// Lengths of the capture at 319, 321 and 320, and of the pixel buffer, which is not asked.
    #[test]
    fn the_capture_is_lent_at_its_length() {
        let length = |buffer, bytes| command(36, 0, buffer, bytes);
        let commands = [
            EQUAL_CAPTURE,
            length(CAPTURE, 319),
            judge(0),
            length(CAPTURE, 321),
            add_line(0),
            length(CAPTURE, 5_000),
            add_line(0),
            length(CAPTURE, 320),
            length(PIXELS, 0),
            add_line(0),
        ];
        assert_eq!(told(&commands), ["25 2 0 0", "26 2 0 0", "26 2 0 0", "26 0 1 0"]);
        let machine = Machine::new();
        assert_eq!((machine.capture.length, machine.capture.bytes.len()), (320, 324));
    }

    /// Op 40 copies all the bytes held, whatever the lengths are. It is its own copy then.
    #[test]
    fn the_pixel_buffer_is_copied() {
        let mut machine = Machine::new();
        machine.pixels.bytes = (0..324).map(|at| at as u8).collect();
        machine.pixels.length = 3;
        machine.capture.length = 5;
        let bytes = machine.pixels.bytes.clone();
        assert!(machine.apply(&command(40, 9, 9, 9)).is_empty());
        assert!(machine.capture.bytes == bytes && machine.capture.length == 5);
        machine.apply(&command(39, 0x77, PIXELS, 0));
        assert!(machine.capture.bytes == bytes);
    }

    /// Each field by itself; field 6 goes by the lowest bit; other fields do nothing.
    #[test]
    fn fields_that_are_set() {
        for (commands, line) in [
            (&[][..], "29 0 0 0 0 0 0 0"),
            (&[set(0, 1), set(1, 2), set(2, 3), set(3, MOST)], "29 1 2 3 4294967295 0 0 0"),
            (&[set(4, 5), set(5, 6)], "29 0 0 0 0 0 0 0"),
            (&[set(4, 5), set(5, 6), set(6, 1)], "29 0 0 0 0 5 6 1"),
            (&[set(6, MOST), set(4, 5), set(5, 6)], "29 0 0 0 0 5 6 1"),
            (&[set(6, 1), set(4, 5), set(6, 2)], "29 0 0 0 0 0 0 0"),
            (&[set(6, 1), set(4, 5), set(6, 0), set(5, 6), set(6, 3)], "29 0 0 0 0 5 6 1"),
            (&[set(7, 9), set(8, 9), set(255, 1)], "29 0 0 0 0 0 0 0"),
        ] {
            assert_eq!(told(&[commands, &[TELL]].concat()), [line], "{commands:?}");
        }
    }

    /// A worst line that there is not has no say, and a join or a refused line leaves its numbers; a
    /// line that is added takes their place. Op 33 leaves the batch, too.
    #[test]
    fn numbers_kept_for_a_worst_line() {
        let kept = [EQUAL_CAPTURE, set(4, MOST), set(5, 400), set(0, 3)];
        let shown = [set(6, 1), TELL];
        let after = |commands: &[Command]| told(&[&kept[..], commands, &shown].concat());
        assert_eq!(after(&[]), ["29 3 0 0 0 4294967295 400 1"]);
        assert_eq!(after(&[JOIN]), ["27 0 6 0", "29 6 0 0 0 4294967295 400 1"]);
        let refused = ["26 5 0 0", "29 3 0 0 0 4294967295 400 1"];
        assert_eq!(after(&[add_line(224)]), refused);
        let fresh = ["29 3 0 0 0 4294967295 400 1"];
        assert_eq!(after(&[command(33, 0, 0, 0)]), fresh);
        assert_eq!(after(&[add_line(0)]), ["26 0 4 0", "29 4 1 0 320 3 0 1"]);
        assert_eq!(after(&[add_line(0), set(6, 0)]), ["26 0 4 0", "29 4 1 0 320 3 0 1"]);
        // Once there is a worst line its place is asked.
        let asked = ["27 15 0 0", "29 3 0 0 0 4294967295 400 1"];
        assert_eq!(after(&[set(6, 1), JOIN]), asked);
    }

    /// A batch joined with itself: each total at half the limit and just above, and the place.
    #[test]
    fn joined_with_itself_up_to_the_limit() {
        let half = 1 << 31;
        for field in 0..4 {
            let lines = if field == 0 { MOST - 1 } else { 0 };
            assert_eq!(told(&[set(field, half - 1), JOIN]), [format!("27 0 {lines} 0")]);
            assert_eq!(told(&[set(field, half), JOIN]), ["27 15 0 0"]);
        }
        let placed = |place| told(&[set(0, 9), set(6, 1), set(4, place), JOIN, TELL]);
        assert_eq!(placed(MOST - 9), ["27 0 18 0", "29 18 0 0 0 4294967286 0 1"]);
        assert_eq!(placed(MOST - 8), ["27 15 0 0", "29 9 0 0 0 4294967287 0 1"]);
    }

    /// 15 is no number that a script's call answers, so no reader is stopped with it.
    #[test]
    fn no_reader_is_stopped_with_15() {
        assert_eq!(Reader::Stopped(PAST_THE_LIMIT).number(), BAD_STATE);
        assert_eq!(Reader::Stopped(MISSING_REGISTER).number(), MISSING_REGISTER);
    }
}
