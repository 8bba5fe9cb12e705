//! The queries of the receiver, and its sets. `replay` keeps one receiver from query to query, so
//! the crate's is asked in the same order.

use crate::code::{refusal, with_parity};
use crate::random::Random;
use crate::transcript::Transcript;
use crate::values::{event_bytes, field_byte, EVENT};
use cea608_types::tables::Field;
use cea608_types::{Cea608, Cea608State, ParserError};

/// What the crate says to a pair.
#[derive(Clone, Copy, Debug, PartialEq)]
pub enum Heard {
    Event(Cea608),
    Nothing,
    InvalidParity,
}

pub fn heard(state: &mut Cea608State, pair: [u8; 2]) -> Heard {
    match state.decode(pair) {
        Ok(Some(event)) => Heard::Event(event),
        Ok(None) => Heard::Nothing,
        Err(ParserError::InvalidParity) => Heard::InvalidParity,
        Err(other) => panic!("the crate refuses pair {pair:02X?} by {other:?}"),
    }
}

pub struct Receiver<'a> {
    to: &'a mut Transcript,
    state: Cea608State,
}

impl<'a> Receiver<'a> {
    /// Starts with a reset, since `replay` may have read pairs before.
    pub fn fresh(to: &'a mut Transcript) -> Self {
        let state = Cea608State::default();
        let mut receiver = Receiver { to, state };
        receiver.reset();
        receiver
    }

    pub fn reset(&mut self) {
        self.state.reset();
        self.to.add(0x28, &[], &[]);
    }

    pub fn decode(&mut self, pair: [u8; 2]) -> Heard {
        let mut answer = [0; 3 + EVENT];
        let heard = heard(&mut self.state, pair);
        match heard {
            Heard::Event(event) => {
                answer[1] = 1;
                answer[2..2 + EVENT].copy_from_slice(&event_bytes(event));
            }
            Heard::Nothing => {}
            Heard::InvalidParity => answer[0] = refusal::PARITY,
        }
        answer[2 + EVENT] = field_byte(self.field());
        self.to.add(0x29, &pair, &answer);
        heard
    }

    pub fn field(&self) -> Option<Field> {
        self.state.last_received_field()
    }

    pub fn decode_all(&mut self, pairs: &[[u8; 2]]) {
        for &pair in pairs {
            self.decode(pair);
        }
    }
}

pub const PADDING: [u8; 2] = [0x80, 0x80];

pub const ROLL_UP_2: [u8; 2] = [0x94, 0x25];
pub const HI: [u8; 2] = [0xC8, 0xE9];

/// Each pair of odd parity twice, read by a fresh receiver and by one that has read a command; and once by a fresh one,
/// with text after it, which shows the channel.
pub fn after_every_pair(to: &mut Transcript) {
    let bytes = good_bytes();
    let mut receiver = Receiver::fresh(to);
    for first in bytes {
        for second in bytes {
            let pair = [first, second];
            receiver.reset();
            receiver.decode_all(&[pair, pair]);
            receiver.reset();
            receiver.decode_all(&[ROLL_UP_2, pair, pair]);
            receiver.reset();
            receiver.decode_all(&[pair, HI]);
        }
    }
}

/// The 128 bytes of odd parity, in the order of their data.
fn good_bytes() -> [u8; 128] {
    std::array::from_fn(|data| with_parity(data as u8))
}

const SEQUENCES_OF_EACH_LENGTH: usize = 300;
const LONGEST: usize = 64;
const LONG_SEQUENCES: usize = 3;
const LONG: usize = 100_000;

/// Sequences of each length from 1 to 64, each from a reset on, and some long ones.
pub fn sequences(to: &mut Transcript, random: &mut Random) {
    let mut receiver = Receiver::fresh(to);
    for length in 1..=LONGEST {
        for _ in 0..SEQUENCES_OF_EACH_LENGTH {
            sequence(&mut receiver, random, length);
        }
    }
    for _ in 0..LONG_SEQUENCES {
        sequence(&mut receiver, random, LONG);
    }
}

pub fn sequence(receiver: &mut Receiver, random: &mut Random, length: usize) {
    receiver.reset();
    let mut line = Line::new(random);
    for _ in 0..length {
        let pair = line.next_pair();
        receiver.decode(pair);
    }
}

/// What a line brings: commands and their copies, text, padding, and now and then a hit.
pub struct Line<'a> {
    bytes: [u8; 128],
    random: &'a mut Random,
    /// The pair sent last, as it was before a hit.
    sent: [u8; 2],
}

impl<'a> Line<'a> {
    pub fn new(random: &'a mut Random) -> Self {
        Line {
            bytes: good_bytes(),
            random,
            sent: PADDING,
        }
    }

    pub fn next_pair(&mut self) -> [u8; 2] {
        self.sent = match self.random.below(20) {
            0..=6 => self.sent,
            7..=9 => self.with_field(),
            10 => self.on_the_other_channel(),
            11 => self.for_the_other_field(),
            12..=13 => self.command(),
            14..=16 => self.text(),
            17..=18 => PADDING,
            _ => [self.byte(0, 0x80), self.byte(0, 0x80)],
        };
        if self.random.below(10) == 0 {
            self.hit(self.sent)
        } else {
            self.sent
        }
    }

    /// A byte of odd parity whose data lies from `low` up to below `high`.
    fn byte(&mut self, low: u8, high: u8) -> u8 {
        let data = low + self.random.byte_below(high - low);
        self.bytes[usize::from(data)]
    }

    /// One of the sixteen commands, on field one.
    fn with_field(&mut self) -> [u8; 2] {
        let first = self.random.pick(&[0x14, 0x1C]);
        [self.byte(first, first + 1), self.byte(0x20, 0x30)]
    }

    /// Bits 0x08 and 0x01 of the first byte tell the channel and the field; the bit of parity
    /// changes with either.
    fn on_the_other_channel(&self) -> [u8; 2] {
        [self.sent[0] ^ 0x88, self.sent[1]]
    }

    fn for_the_other_field(&self) -> [u8; 2] {
        [self.sent[0] ^ 0x81, self.sent[1]]
    }

    fn command(&mut self) -> [u8; 2] {
        [self.byte(0x10, 0x20), self.byte(0, 0x80)]
    }

    fn text(&mut self) -> [u8; 2] {
        [self.byte(0x20, 0x80), self.byte(0x20, 0x80)]
    }

    /// One bit is flipped.
    fn hit(&mut self, [first, second]: [u8; 2]) -> [u8; 2] {
        let bit = 1 << self.random.below(8);
        self.random
            .pick(&[[first ^ bit, second], [first, second ^ bit]])
    }
}
