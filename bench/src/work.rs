// The pieces of work: how a machine is made ready, and the work as the library and as plain Rust do it.
use std::hint::black_box;

use crate::exports::{self, Answer, Recorded, ScriptAnswer, State, DONE, LINE_SIZE, MOST_UNITS};
use crate::machine::{self, Machine, Memory, Screen, LINES, RECORDED_WRITES, SCRIPT_ITEMS};
use crate::{plain, plain_line, plain_reader, plain_script, plain_tape};

const DATA_WRITES: u32 = 1_000_000;

// No budget: the run ends by itself.
const ALL: u32 = u32::MAX;

pub struct Work {
    pub name: &'static str,
    pub units: u32,
    pub make_ready: fn(&mut Machine),
    pub ours: fn(&mut Machine) -> Answer,
    pub plain: fn(&mut Machine) -> Answer,
}

pub fn all() -> Vec<Work> {
    vec![
        run("fill", machine::fill),
        run("copy", machine::copy),
        run("transfer to VRAM", machine::transfer_to_vram),
        run("transfer to colours", machine::transfer_to_colours),
        writes("data write", machine::data_writes, plain_writes),
        writes(
            "data write, plain asks GOOD",
            machine::data_writes,
            plain_writes_asking_good,
        ),
        writes(
            "data write to colours, plain asks GOOD",
            machine::data_writes_to_colours,
            plain_writes_asking_good,
        ),
        lines("line", machine::scene),
        lines("line with shadow and highlight", machine::shadowed_scene),
        Work {
            name: "recorded data write",
            units: RECORDED_WRITES,
            make_ready: machine::data_writes,
            ours: our_recorded_writes,
            plain: plain_recorded_writes,
        },
        Work {
            name: "recorded fill",
            units: MOST_UNITS,
            make_ready: machine::fill,
            ours: our_recorded_fill,
            plain: plain_recorded_fill,
        },
        backs("step back of 1", our_backs::<1>, plain_backs::<1>),
        backs("step back of 100", our_backs::<100>, plain_backs::<100>),
        backs(
            "step back of 10,000",
            our_backs::<10_000>,
            plain_backs::<10_000>,
        ),
        Work {
            name: "script of data writes, plain asks GOOD",
            units: SCRIPT_ITEMS,
            make_ready: machine::script,
            ours: our_script,
            plain: plain_script,
        },
        Work {
            name: "the same to a reader, plain asks GOOD",
            units: SCRIPT_ITEMS,
            make_ready: machine::script,
            ours: our_delivery,
            plain: plain_delivery,
        },
    ]
}

fn run(name: &'static str, make_ready: fn(&mut Machine)) -> Work {
    Work {
        name,
        units: MOST_UNITS,
        make_ready,
        ours: our_run,
        plain: plain_run,
    }
}

fn lines(name: &'static str, make_ready: fn(&mut Machine)) -> Work {
    Work {
        name,
        units: LINES as u32,
        make_ready,
        ours: our_lines,
        plain: plain_lines,
    }
}

fn writes(
    name: &'static str,
    make_ready: fn(&mut Machine),
    plain: fn(&mut Machine) -> Answer,
) -> Work {
    Work {
        name,
        units: DATA_WRITES,
        make_ready,
        ours: our_writes,
        plain,
    }
}

// All recorded writes are taken back.
fn backs(
    name: &'static str,
    ours: fn(&mut Machine) -> Answer,
    plain: fn(&mut Machine) -> Answer,
) -> Work {
    Work {
        name,
        units: RECORDED_WRITES,
        make_ready: machine::recorded_writes,
        ours,
        plain,
    }
}

fn our_run(m: &mut Machine) -> Answer {
    exports::run(&mut m.state, &mut m.vram[..], &[], &m.ram[..], ALL)
}

fn plain_run(m: &mut Machine) -> Answer {
    plain::run(
        &mut m.state,
        &mut m.vram,
        black_box(&[]),
        &m.ram,
        black_box(ALL),
    )
}

fn our_writes(m: &mut Machine) -> Answer {
    count_done(|word| exports::data_write(&mut m.state, &mut m.vram[..], word))
}

fn plain_writes(m: &mut Machine) -> Answer {
    count_done(|word| plain::data_write(&mut m.state, &mut m.vram, word))
}

fn plain_writes_asking_good(m: &mut Machine) -> Answer {
    count_done(|word| plain::data_write_asking_good(&mut m.state, &mut m.vram, word))
}

// Makes the data writes and counts those that were done.
fn count_done(mut write: impl FnMut(u16) -> Answer) -> Answer {
    let mut done = 0;
    for i in 0..DATA_WRITES {
        let word = black_box((i * 5 + 1) as u16);
        done += u32::from(black_box(write(word)).number == DONE);
    }
    Answer {
        number: DONE,
        result: done,
    }
}

fn our_lines(m: &mut Machine) -> Answer {
    draw_all(m, |state, vram, line, pixels| {
        exports::line(state, vram, line, pixels)
    })
}

fn plain_lines(m: &mut Machine) -> Answer {
    draw_all(m, plain_line::line)
}

// Draws every line of the screen and counts those that were drawn.
fn draw_all(
    m: &mut Machine,
    draw: impl Fn(&mut State, &Memory, u32, &mut [u8; LINE_SIZE]) -> Answer,
) -> Answer {
    let Screen { pixels, visits } = &mut *m.screen;
    let mut done = 0;
    for (line, (pixels, visits)) in (0..).zip(pixels.iter_mut().zip(visits)) {
        let answer = draw(&mut m.state, &m.vram, black_box(line), pixels);
        *visits = answer.result;
        done += u32::from(answer.number == DONE);
    }
    Answer {
        number: DONE,
        result: done,
    }
}

// A form of the recorded data write, or of the step back by a number of steps: state, VRAM, tape, count, and the rest.
type OnTape<T> = fn(&mut State, &mut Memory, &mut [u8], usize, T) -> Recorded;

fn our_recorded_writes(m: &mut Machine) -> Answer {
    record_writes(m, |state, vram, tape, count, word| {
        exports::recorded_data_write(state, vram, tape, count, word)
    })
}

fn plain_recorded_writes(m: &mut Machine) -> Answer {
    record_writes(m, plain_tape::data_write)
}

fn record_writes(m: &mut Machine, write: OnTape<u16>) -> Answer {
    for i in 0..RECORDED_WRITES {
        let word = black_box((i * 5 + 1) as u16);
        m.count = write(&mut m.state, &mut m.vram, &mut m.tape, m.count, word).count;
    }
    Answer {
        number: DONE,
        result: m.count as u32,
    }
}

fn our_recorded_fill(m: &mut Machine) -> Answer {
    let (vram, ram) = (&mut m.vram[..], &m.ram[..]);
    let filled = exports::recorded_run(&mut m.state, vram, ram, &mut m.tape, m.count, ALL);
    keep_count(m, filled)
}

fn plain_recorded_fill(m: &mut Machine) -> Answer {
    let budget = black_box(ALL);
    let filled = plain_tape::fill(&mut m.state, &mut m.vram, &mut m.tape, m.count, budget);
    keep_count(m, filled)
}

fn keep_count(m: &mut Machine, recorded: Recorded) -> Answer {
    m.count = recorded.count;
    Answer {
        number: recorded.number,
        result: recorded.result,
    }
}

fn our_backs<const K: usize>(m: &mut Machine) -> Answer {
    step_back_by(m, K, |state, vram, tape, count, k| {
        exports::step_back(state, vram, tape, count, k)
    })
}

fn plain_backs<const K: usize>(m: &mut Machine) -> Answer {
    step_back_by(m, K, |state, vram, tape, count, k| {
        plain_tape::step_back(state, vram, tape, count, k)
    })
}

// Steps back by k until nothing is left, and counts the steps.
fn step_back_by(m: &mut Machine, k: usize, back: OnTape<usize>) -> Answer {
    let begun = m.count;
    for _ in 0..begun / k {
        let k = black_box(k);
        m.count = back(&mut m.state, &mut m.vram, &mut m.tape, m.count, k).count;
    }
    Answer {
        number: DONE,
        result: (begun - m.count) as u32,
    }
}

fn our_script(m: &mut Machine) -> Answer {
    let (vram, ram, pixels) = (&mut m.vram[..], &m.ram[..], &mut m.screen.pixels[0]);
    items(exports::run_script(
        &mut m.state,
        vram,
        ram,
        pixels,
        &m.script,
    ))
}

fn plain_script(m: &mut Machine) -> Answer {
    items(plain_script::run(
        &mut m.state,
        &mut m.vram,
        black_box(&m.script),
    ))
}

// The items that were done.
fn items(answer: ScriptAnswer) -> Answer {
    Answer {
        number: answer.number,
        result: answer.place as u32,
    }
}

// All the bytes, call after call.
fn our_delivery(m: &mut Machine) -> Answer {
    let (vram, ram, pixels) = (&mut m.vram[..], &m.ram[..], &mut m.screen.pixels[0]);
    let mut reader = exports::start_reader();
    let mut bytes = &m.script[..];
    let mut calls = 0;
    loop {
        let d = exports::deliver(&mut m.state, vram, ram, pixels, reader, bytes);
        reader = d.reader;
        bytes = &bytes[d.taken..];
        calls += u32::from(d.called);
        if d.taken == 0 || bytes.is_empty() {
            return Answer {
                number: d.number,
                result: calls,
            };
        }
    }
}

fn plain_delivery(m: &mut Machine) -> Answer {
    plain_reader::deliver(&mut m.state, &mut m.vram, black_box(&m.script))
}
