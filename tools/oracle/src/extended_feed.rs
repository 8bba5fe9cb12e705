//! Pairs of extended data by their parts, and what a line with extended data brings.

use crate::code::with_parity;
use crate::extended::{continuation_byte, start_byte, Model, Packet, CLASSES, END, FILLER};
use crate::random::Random;
use crate::receiver::{PADDING, ROLL_UP_2};
use crate::streams::Pair;

/// A pair of odd parity by its two bytes without parity.
pub fn good(first: u8, second: u8) -> Pair {
    [with_parity(first), with_parity(second)]
}

pub fn start(class: u8, kind: u8) -> Pair {
    good(start_byte(class), kind)
}

pub fn continuation(class: u8, kind: u8) -> Pair {
    good(continuation_byte(class), kind)
}

pub fn end(sum: u8) -> Pair {
    good(END, sum)
}

/// What a line with extended data brings: starts, continuations and ends, right ones and wrong ones, contents, captions,
/// padding, and now and then a corrupted pair. What is right is known of the model that has read all pairs before.
pub struct Feed<'a> {
    pub random: &'a mut Random,
    /// Of eight pairs so many are contents or text, whatever else comes.
    contents: u32,
    sent: Pair,
    command: Pair,
}

/// Few types, so that a continuation often has the right one, and now and then any.
pub const TYPES: [u8; 5] = [0x01, 0x02, 0x03, 0x10, 0x40];

impl<'a> Feed<'a> {
    pub fn new(random: &'a mut Random) -> Self {
        Feed {
            random,
            contents: 0,
            sent: PADDING,
            command: ROLL_UP_2,
        }
    }

    pub fn next_pair(&mut self, model: &Model) -> Pair {
        if self.random.below(32) == 0 {
            self.contents = self.random.pick(&[0, 0, 3, 6, 7]);
        }
        self.sent = if self.random.below(8) < self.contents {
            self.contents()
        } else {
            self.any_pair(model)
        };
        if self.random.below(24) == 0 {
            self.corrupted(self.sent)
        } else {
            self.sent
        }
    }

    fn any_pair(&mut self, model: &Model) -> Pair {
        match self.random.below(20) {
            0..=4 => self.contents(),
            5..=6 => start(self.class(), self.kind()),
            7..=9 => self.right_continuation(model),
            10 => continuation(self.class(), self.kind()),
            11..=13 => self.right_end(model),
            14 => self.interrupted_end(model),
            15 => end(self.random.byte_below(0x80)),
            16 => self.command(),
            17 => self.command,
            18 => self.sent,
            _ => good(self.random.byte_below(0x80), self.random.byte_below(0x80)),
        }
    }

    fn class(&mut self) -> u8 {
        1 + self.random.byte_below(*CLASSES.end())
    }

    fn kind(&mut self) -> u8 {
        match self.random.below(8) {
            0 => self.random.byte_below(0x80),
            _ => self.random.pick(&TYPES),
        }
    }

    /// A byte that is text where captions run.
    fn letter(&mut self) -> u8 {
        0x20 + self.random.byte_below(0x60)
    }

    fn contents(&mut self) -> Pair {
        let letter = self.letter();
        match self.random.below(12) {
            0 => good(letter, FILLER),
            1 => good(FILLER, self.random.byte_below(0x80)),
            2 => good(letter, self.random.byte_below(0x20)),
            3 => PADDING,
            _ => good(letter, self.letter()),
        }
    }

    /// An unfinished packet of any class.
    fn unfinished(&mut self, model: &Model) -> Option<(u8, Packet)> {
        let count = model.unfinished.len();
        let place = self.random.below(count.max(1) as u32) as usize;
        let (&class, packet) = model.unfinished.iter().nth(place)?;
        Some((class, packet.clone()))
    }

    fn right_continuation(&mut self, model: &Model) -> Pair {
        match self.unfinished(model) {
            Some((class, packet)) => continuation(class, packet.kind & 0x7F),
            None => continuation(self.class(), self.kind()),
        }
    }

    fn right_end(&mut self, model: &Model) -> Pair {
        match model.open() {
            Some((class, packet)) => end(packet.right_sum(class)),
            None => self.interrupted_end(model),
        }
    }

    /// An end that would be right if the packet were open.
    fn interrupted_end(&mut self, model: &Model) -> Pair {
        match self.unfinished(model) {
            Some((class, packet)) => end(packet.right_sum(class)),
            None => end(self.random.byte_below(0x80)),
        }
    }

    /// A command of either channel and either field, or any other.
    fn command(&mut self) -> Pair {
        self.command = match self.random.below(4) {
            0 => good(
                0x10 + self.random.byte_below(0x10),
                self.random.byte_below(0x80),
            ),
            _ => good(
                self.random.pick(&[0x14, 0x15, 0x1C, 0x1D]),
                0x20 + self.random.byte_below(0x10),
            ),
        };
        self.command
    }

    /// One bit is flipped.
    fn corrupted(&mut self, [first, second]: Pair) -> Pair {
        let bit = 1 << self.random.below(8);
        self.random
            .pick(&[[first ^ bit, second], [first, second ^ bit]])
    }
}
