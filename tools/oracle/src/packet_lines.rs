//! The text of the program `packets`, made by the model of `extended`: a line for each packet and each refusal, with the
//! number of the pair from 0 on, and a last line that counts. The comparison holds it against what that program writes.

use crate::extended::{Model, Packet, Report};
use crate::listing::MOST_PAIRS;
use cea608_types::Cea608;

mod refusal {
    pub const HALF_A_PAIR: u8 = 9;
    pub const TOO_MANY_PAIRS: u8 = 10;
}

/// The text of a stream. 10 is tested before 9, and half a pair counts as one.
pub fn text(stream: &[u8]) -> Vec<u8> {
    let most = MOST_PAIRS as usize;
    let mut lines = Lines::default();
    for pair in stream.chunks_exact(2).take(most) {
        lines.read([pair[0], pair[1]]);
    }
    if stream.len() > 2 * most {
        lines.refuse(refusal::TOO_MANY_PAIRS);
    } else if stream.len() % 2 == 1 {
        lines.refuse(refusal::HALF_A_PAIR);
    }
    lines.end()
}

/// The characters of the text events without the spaces around them, as one line, or nothing where there are none.
pub fn captions(stream: &[u8]) -> Vec<u8> {
    let mut model = Model::default();
    let mut said = String::new();
    for pair in stream.chunks_exact(2) {
        if let Ok(Report::Event(Cea608::Text(text))) = model.decode([pair[0], pair[1]]) {
            said.extend([text.char1, text.char2].into_iter().flatten());
        }
    }
    match said.trim() {
        "" => vec![],
        line => format!("{line}\n").into_bytes(),
    }
}

#[derive(Default)]
struct Lines {
    model: Model,
    /// Whole pairs read, which is also the number of the next one.
    pairs: usize,
    packets: usize,
    refused: usize,
    text: String,
}

impl Lines {
    fn read(&mut self, pair: [u8; 2]) {
        match self.model.decode(pair) {
            Ok(Report::Finished(class, packet)) => self.packet(class, &packet),
            Ok(Report::Event(_) | Report::Nothing) => {}
            Err(number) => self.refuse(number),
        }
        self.pairs += 1;
    }

    fn packet(&mut self, class: u8, packet: &Packet) {
        let (number, kind) = (self.pairs, packet.kind);
        let bytes = || packet.contents.iter().copied();
        let hex: String = bytes().map(|byte| format!("{byte:02X}")).collect();
        let characters: String = bytes().map(character).collect();
        self.packets += 1;
        self.text += &format!("{number} packet {class} {kind:02X} {hex} \"{characters}\"\n");
    }

    fn refuse(&mut self, number: u8) {
        self.refused += 1;
        self.text += &format!("{} refused {number}\n", self.pairs);
    }

    fn end(self) -> Vec<u8> {
        let (pairs, packets, refused) = (self.pairs, self.packets, self.refused);
        let last = format!("pairs {pairs} packets {packets} refused {refused}\n");
        (self.text + &last).into_bytes()
    }
}

fn character(byte: u8) -> char {
    match byte {
        0x20..=0x7E => byte.into(),
        _ => '.',
    }
}
