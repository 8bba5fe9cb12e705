//! What a push, a pop and an `n_codes` of the crate cost with a number of codes waiting. A line for each says code, call, how
//! many wait before it, and nanoseconds, the loop around the call included; what the loop costs alone is the call `nothing`.

use cea608_types::tables::{
    Channel, Code, Control, ControlCode, Field, PreambleAddressCode, PreambleType,
};
use cea608_types::Cea608Writer;
use std::hint::black_box;
use std::time::{Duration, Instant};

/// Reading the clock takes as long as some calls, so that a call is timed on many writers at once.
const WRITERS: usize = 64;
const ROUNDS: usize = 2000;

fn main() {
    let preamble = PreambleAddressCode::new(5, false, PreambleType::Indent0);
    let preamble = Control::PreambleAddress(preamble);
    let preamble = ControlCode::new(Field::ONE, Channel::ONE, preamble);
    for waiting in [0, 32, 63] {
        time_calls("letters", Code::LatinCapitalA, waiting);
        time_calls("preambles", Code::Control(preamble), waiting);
    }
}

fn time_calls(name: &str, code: Code, waiting: usize) {
    let nothing = nanoseconds(code, waiting, |_| ());
    let push = nanoseconds(code, waiting, |writer| writer.push(black_box(code)));
    let pop = nanoseconds(code, waiting, |writer| {
        black_box(writer.pop());
    });
    let n_codes = nanoseconds(code, waiting, |writer| {
        black_box(writer.n_codes());
    });
    println!("{name} nothing {waiting} {nothing:.1}");
    println!("{name} push {waiting} {push:.1}");
    println!("{name} pop {waiting} {pop:.1}");
    println!("{name} n_codes {waiting} {n_codes:.1}");
}

fn nanoseconds(code: Code, waiting: usize, call: impl Fn(&mut Cea608Writer)) -> f64 {
    let mut writers: Vec<Cea608Writer> = (0..WRITERS).map(|_| Cea608Writer::default()).collect();
    // A writer that once held as many never asks for memory in a call that is timed.
    bring(&mut writers, code, 64);
    let mut spent = Duration::ZERO;
    for _ in 0..ROUNDS {
        bring(&mut writers, code, waiting);
        let before = Instant::now();
        for writer in &mut writers {
            call(black_box(writer));
        }
        spent += before.elapsed();
    }
    spent.as_nanos() as f64 / (ROUNDS * WRITERS) as f64
}

/// Brings each writer to so many codes that wait.
fn bring(writers: &mut [Cea608Writer], code: Code, waiting: usize) {
    for writer in writers {
        while writer.n_codes() > waiting {
            writer.pop();
        }
        while writer.n_codes() < waiting {
            writer.push(code);
        }
    }
}
