// Measures the pieces of work: both forms from the same beginning, each repetition compared, the best times kept.
use std::hint::black_box;
use std::time::{Duration, Instant};

use crate::exports::Answer;
use crate::machine::Machine;
use crate::work::Work;

// The best times of both forms.
pub struct Best {
    pub ours: Duration,
    pub plain: Duration,
}

impl Best {
    // What any time is better than.
    fn worst() -> Best {
        Best {
            ours: Duration::MAX,
            plain: Duration::MAX,
        }
    }
}

// The best times of each piece of work. A repetition goes through all of them, so that a busy moment of the machine
// spoils no piece's best.
pub fn measure(works: &[Work], repetitions: u32) -> Result<Vec<Best>, String> {
    let mut ours = Machine::new();
    let mut plain = Machine::new();
    let mut bests: Vec<Best> = works.iter().map(|_| Best::worst()).collect();
    for _ in 0..repetitions {
        for (work, best) in works.iter().zip(&mut bests) {
            let (our_time, our_answer) = timed(work, work.ours, &mut ours);
            let (plain_time, plain_answer) = timed(work, work.plain, &mut plain);
            compare(work, (&ours, our_answer), (&plain, plain_answer))?;
            best.ours = best.ours.min(our_time);
            best.plain = best.plain.min(plain_time);
        }
    }
    Ok(bests)
}

// Clears the machine, makes it ready, and times the work alone.
fn timed(
    work: &Work,
    form: fn(&mut Machine) -> Answer,
    machine: &mut Machine,
) -> (Duration, Answer) {
    machine.clear();
    (work.make_ready)(machine);
    let machine = black_box(machine);
    let start = Instant::now();
    let answer = black_box(form(machine));
    (start.elapsed(), answer)
}

// The same state, memories, screen, number and count, and all the units made.
fn compare(
    work: &Work,
    (ours, our_answer): (&Machine, Answer),
    (plain, plain_answer): (&Machine, Answer),
) -> Result<(), String> {
    let checks = [
        (our_answer == plain_answer, "the answers differ"),
        (our_answer.result == work.units, "not all units were made"),
        (ours.state == plain.state, "the states differ"),
        (ours.vram == plain.vram, "VRAM differs"),
        (ours.ram == plain.ram, "work RAM differs"),
        (ours.screen == plain.screen, "pixels or visits differ"),
        (ours.tape == plain.tape, "the tapes differ"),
        (ours.count == plain.count, "the tapes' counts differ"),
    ];
    match checks.iter().find(|(holds, _)| !holds) {
        Some((_, what)) => Err(format!("{}: {what}", work.name)),
        None => Ok(()),
    }
}
