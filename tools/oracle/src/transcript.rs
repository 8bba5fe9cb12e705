//! Queries with their answers, as the two byte strings that `replay` reads and should write, and
//! the comparison of what it did write.

use std::fmt::Write;

/// The length of every query and of every answer in docs/TESTING.md.
const LENGTH: usize = 16;

#[derive(Default)]
pub struct Transcript {
    pub queries: Vec<u8>,
    pub answers: Vec<u8>,
}

impl Transcript {
    /// Adds a query and the crate's answer to it, with zeros after each.
    pub fn add(&mut self, kind: u8, arguments: &[u8], answer: &[u8]) {
        let query = [&[kind], arguments].concat();
        self.queries.extend_from_slice(&padded(&query));
        self.answers.extend_from_slice(&padded(answer));
    }

    /// Whether the crate's answers from this place on are these.
    pub fn answered_since(&self, place: usize, answers: &[&[u8]]) -> bool {
        let all: Vec<u8> = answers.iter().flat_map(|answer| padded(answer)).collect();
        self.answers[place..] == all
    }

    /// The number of queries to which `got` has the same answers, or a text on the first other one.
    pub fn compare(&self, got: &[u8]) -> Result<usize, String> {
        let count = self.queries.len() / LENGTH;
        if self.queries.len() != self.answers.len() || self.queries.len() % LENGTH != 0 {
            return Err("queries and the crate's answers do not fit each other".into());
        }
        for index in 0..count {
            let place = index * LENGTH..(index + 1) * LENGTH;
            let expected = &self.answers[place.clone()];
            let found = &got[place.start.min(got.len())..place.end.min(got.len())];
            if found != expected {
                return Err(difference(index, &self.queries[place], expected, found));
            }
        }
        match got.get(count * LENGTH..) {
            None | Some([]) => Ok(count),
            Some(more) => Err(format!(
                "after all {count} answers more was written: {}",
                hex(more)
            )),
        }
    }
}

fn padded(bytes: &[u8]) -> [u8; LENGTH] {
    let mut all = [0; LENGTH];
    all[..bytes.len()].copy_from_slice(bytes);
    all
}

fn difference(index: usize, query: &[u8], expected: &[u8], found: &[u8]) -> String {
    format!(
        "query {index} differs\n  query:  {}\n  oracle: {}\n  replay: {}",
        hex(query),
        hex(expected),
        hex(found)
    )
}

/// The first bytes in hex; no answer is longer than what is shown.
fn hex(bytes: &[u8]) -> String {
    let mut text = String::new();
    for byte in bytes.iter().take(64) {
        write!(text, "{byte:02X} ").expect("a string takes what is written");
    }
    if bytes.is_empty() {
        text.push_str("nothing");
    }
    text.trim_end().to_string()
}
