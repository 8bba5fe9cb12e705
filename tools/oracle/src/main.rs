//! The oracle: what the crate cea608-types says to the queries of docs/TESTING.md, and of extended data, which the crate
//! does not read, a model that is written from the specification.
//!
//!     oracle sets                          the names of the sets
//!     oracle make SET QUERIES ANSWERS      writes a set's queries and the crate's answers
//!     oracle compare QUERIES ANSWERS GOT   compares what `replay` wrote with the crate's answers
//!
//! And streams of pairs with the text that a program must write of each: `listing`, made of the crate's events, or `packets`,
//! made by the model of extended data:
//!
//!     oracle streams                       the names of the sets of streams, each with its program
//!     oracle streams SET FOLDER            writes a set's streams and the text of each
//!     oracle packets                       the text of `packets` of the stream on standard input
//!     oracle captions                      the caption text in it, by the same model
//!
//! A set that is chosen at random is made from a seed, which is printed; SEED names another one.
//! A layer above adds its queries and sets in a module of its own, and the sets to `SETS`.

mod agreement;
mod any_code;
mod code;
mod code_sets;
mod differences;
mod event;
mod extended;
mod extended_feed;
mod extended_met;
mod extended_query;
mod extended_sets;
mod line;
mod listing;
mod names;
mod number;
mod packet_lines;
mod packet_streams;
mod padding;
mod panics;
mod queue;
mod queue_sets;
mod random;
mod receiver;
mod rounds;
mod sample;
mod sender;
mod sender_sets;
mod shown;
mod streams;
mod transcript;
mod tried_by_hand;
mod values;
mod zvbi;

use random::Fill::{self, FromSeed, Whole};
use random::{Random, SEED};
use std::fs::{read, write};
use std::io::{stdin, stdout, Read, Write};
use std::process::exit;
use streams::Streams;
use transcript::Transcript;

const USAGE: &str = "usage: oracle sets | make SET QUERIES ANSWERS | compare QUERIES ANSWERS GOT \
    | streams [SET FOLDER] | packets | captions";

type Asks = Fill<fn(&mut Transcript), fn(&mut Transcript, &mut Random)>;

const SETS: [(&str, Asks); 18] = [
    ("sample", Whole(sample::sample)),
    ("pairs", Whole(code_sets::pairs)),
    ("singles", Whole(code_sets::singles)),
    ("controls", Whole(code_sets::controls)),
    ("from_char", Whole(code_sets::from_char)),
    ("constructors", Whole(code_sets::constructors)),
    ("events", Whole(event::events)),
    ("texts", Whole(event::texts)),
    ("modes_and_ids", Whole(event::modes_and_ids)),
    ("after_every_pair", Whole(receiver::after_every_pair)),
    ("sequences", FromSeed(receiver::sequences)),
    ("queue", FromSeed(queue_sets::calls)),
    ("queue_ill_formed", FromSeed(queue_sets::ill_formed)),
    ("sender", FromSeed(sender_sets::calls)),
    ("sender_ill_formed", FromSeed(sender_sets::ill_formed)),
    ("agreement", FromSeed(agreement::sessions)),
    ("extended", FromSeed(extended_sets::streams)),
    ("extended_pairs", Whole(extended_sets::pairs)),
];

fn main() {
    panics::silence_while_asking();
    let words: Vec<String> = std::env::args().skip(1).collect();
    let words: Vec<&str> = words.iter().map(String::as_str).collect();
    let done = match words[..] {
        ["sets"] => list_sets(),
        ["make", set, queries, answers] => make(set, queries, answers),
        ["compare", queries, answers, got] => compare(queries, answers, got),
        ["streams"] => list_streams(),
        ["streams", set, folder] => make_streams(set, folder),
        ["packets"] => say_of_stream(packet_lines::text),
        ["captions"] => say_of_stream(packet_lines::captions),
        _ => Err(USAGE.into()),
    };
    if let Err(text) = done {
        println!("{text}");
        exit(1);
    }
}

fn list_sets() -> Result<(), String> {
    for (name, _) in SETS {
        println!("{name}");
    }
    Ok(())
}

fn make(set: &str, queries: &str, answers: &str) -> Result<(), String> {
    let (_, fill) = SETS
        .iter()
        .find(|(name, _)| *name == set)
        .ok_or_else(|| format!("there is no set {set}"))?;
    let mut transcript = Transcript::default();
    match fill {
        Whole(fill) => fill(&mut transcript),
        FromSeed(fill) => {
            let seed = seed()?;
            print!("from seed {seed}: ");
            fill(&mut transcript, &mut Random::from_seed(seed));
        }
    }
    save(queries, &transcript.queries)?;
    save(answers, &transcript.answers)
}

fn seed() -> Result<u64, String> {
    match std::env::var("SEED") {
        Ok(text) => text.parse().map_err(|error| format!("SEED: {error}")),
        Err(_) => Ok(SEED),
    }
}

fn compare(queries: &str, answers: &str, got: &str) -> Result<(), String> {
    let transcript = Transcript {
        queries: load(queries)?,
        answers: load(answers)?,
    };
    let count = transcript.compare(&load(got)?)?;
    println!("{count} queries, no difference");
    Ok(())
}

/// A program that lists streams: its sets, and the text that it must write of a stream.
struct Program {
    name: &'static str,
    sets: &'static [(&'static str, Streams)],
    text: fn(&[u8]) -> Vec<u8>,
}

const PROGRAMS: [Program; 2] = [
    Program {
        name: "listing",
        sets: &streams::SETS,
        text: streams::text,
    },
    Program {
        name: "packets",
        sets: &packet_streams::SETS,
        text: packet_lines::text,
    },
];

fn list_streams() -> Result<(), String> {
    for program in PROGRAMS {
        for (name, _) in program.sets {
            println!("{name} {}", program.name);
        }
    }
    Ok(())
}

/// A stream's bytes and its text have the same name but for what follows the dot.
fn make_streams(set: &str, folder: &str) -> Result<(), String> {
    streams::assert_worked_case();
    packet_streams::assert_worked_cases();
    let (fill, text) = PROGRAMS
        .iter()
        .flat_map(|program| {
            program
                .sets
                .iter()
                .map(|(name, fill)| (name, fill, program.text))
        })
        .find_map(|(name, fill, text)| (*name == set).then_some((fill, text)))
        .ok_or_else(|| format!("there is no set of streams {set}"))?;
    let streams = match fill {
        Whole(fill) => fill(),
        FromSeed(fill) => {
            let seed = seed()?;
            print!("from seed {seed}: ");
            fill(&mut Random::from_seed(seed))
        }
    };
    for (number, stream) in streams.iter().enumerate() {
        save(&format!("{folder}/{number:04}.pairs"), stream)?;
        save(&format!("{folder}/{number:04}.text"), &text(stream))?;
    }
    Ok(())
}

fn say_of_stream(said: fn(&[u8]) -> Vec<u8>) -> Result<(), String> {
    let mut stream = vec![];
    stdin()
        .read_to_end(&mut stream)
        .and_then(|_| stdout().write_all(&said(&stream)))
        .map_err(|error| error.to_string())
}

fn load(path: &str) -> Result<Vec<u8>, String> {
    read(path).map_err(|error| format!("{path}: {error}"))
}

fn save(path: &str, bytes: &[u8]) -> Result<(), String> {
    write(path, bytes).map_err(|error| format!("{path}: {error}"))
}
