//! A model of T-01's reading mode, written from that request and not from the proved code: a map from class to its
//! unfinished packet, and the captions by the crate's own receiver, which every pair that is not refused goes through.

use crate::receiver::{heard, Heard};
use crate::sender::is_odd;
use cea608_types::{Cea608, Cea608State};
use std::collections::BTreeMap;

/// The numbers of the refusals.
pub mod refusal {
    pub const PARITY: u8 = 1;
    pub const NOT_OPEN: u8 = 13;
    pub const TOO_LONG: u8 = 14;
    pub const WRONG_SUM: u8 = 15;
}

pub const CLASSES: std::ops::RangeInclusive<u8> = 1..=7;
pub const MOST_CONTENTS: usize = 32;
pub const FILLER: u8 = 0x00;
pub const END: u8 = 0x0F;

/// The first byte of a class's starts.
pub fn start_byte(class: u8) -> u8 {
    2 * class - 1
}

pub fn continuation_byte(class: u8) -> u8 {
    2 * class
}

/// A packet of some class, finished or not.
#[derive(Clone, Debug, PartialEq)]
pub struct Packet {
    pub kind: u8,
    pub contents: Vec<u8>,
}

impl Packet {
    /// The sum byte that makes start, type, contents, 0F and itself add to 0 modulo 128.
    pub fn right_sum(&self, class: u8) -> u8 {
        let contents: u32 = self.contents.iter().copied().map(u32::from).sum();
        let before =
            u32::from(start_byte(class)) + u32::from(self.kind) + contents + u32::from(END);
        (before.next_multiple_of(128) - before) as u8
    }
}

/// What a pair gives that is not refused.
#[derive(Clone, Debug, PartialEq)]
pub enum Report {
    Nothing,
    Event(Cea608),
    /// A class and its packet.
    Finished(u8, Packet),
}

/// Who takes a pair.
enum Taken {
    ByCaptions,
    ByPacket,
    AsEnd(u8, Packet),
}

#[derive(Debug, Default)]
pub struct Model {
    pub captions: Cea608State,
    /// The class of the last start or continuation, or none after a command, when captions run.
    pub running: Option<u8>,
    pub unfinished: BTreeMap<u8, Packet>,
}

impl Model {
    /// The class and the packet that are open to contents and to an end.
    pub fn open(&self) -> Option<(u8, &Packet)> {
        let class = self.running?;
        Some((class, self.unfinished.get(&class)?))
    }

    /// What a pair gives, or the number of its refusal.
    pub fn decode(&mut self, pair: [u8; 2]) -> Result<Report, u8> {
        if !is_odd(pair) {
            return Err(refusal::PARITY);
        }
        let taken = self.take(pair.map(|byte| byte & 0x7F))?;
        let heard = heard(&mut self.captions, pair);
        Ok(match (taken, heard) {
            (Taken::AsEnd(class, packet), _) => Report::Finished(class, packet),
            (Taken::ByCaptions, Heard::Event(event)) => Report::Event(event),
            _ => Report::Nothing,
        })
    }

    fn take(&mut self, [first, second]: [u8; 2]) -> Result<Taken, u8> {
        match first {
            0x01 | 0x03 | 0x05 | 0x07 | 0x09 | 0x0B | 0x0D => self.start(first.div_ceil(2), second),
            0x02 | 0x04 | 0x06 | 0x08 | 0x0A | 0x0C | 0x0E => self.go_on(first / 2, second),
            END => self.end(second),
            0x10..=0x1F => {
                self.running = None;
                Ok(Taken::ByCaptions)
            }
            _ => match self.running {
                None => Ok(Taken::ByCaptions),
                Some(class) => self.fill(class, [first, second]),
            },
        }
    }

    fn start(&mut self, class: u8, kind: u8) -> Result<Taken, u8> {
        self.running = Some(class);
        let contents = vec![];
        self.unfinished.insert(class, Packet { kind, contents });
        Ok(Taken::ByPacket)
    }

    fn go_on(&mut self, class: u8, kind: u8) -> Result<Taken, u8> {
        let own = self.unfinished.get(&class);
        if !own.is_some_and(|packet| packet.kind == kind) {
            return Err(refusal::NOT_OPEN);
        }
        self.running = Some(class);
        Ok(Taken::ByPacket)
    }

    fn end(&mut self, sum: u8) -> Result<Taken, u8> {
        let class = self.running.ok_or(refusal::NOT_OPEN)?;
        let packet = self.unfinished.remove(&class).ok_or(refusal::NOT_OPEN)?;
        if sum != packet.right_sum(class) {
            return Err(refusal::WRONG_SUM);
        }
        Ok(Taken::AsEnd(class, packet))
    }

    /// After an end, 14 or 15 there is no packet to fill, and the pair is dropped.
    fn fill(&mut self, class: u8, bytes: [u8; 2]) -> Result<Taken, u8> {
        if let Some(packet) = self.unfinished.get_mut(&class) {
            packet
                .contents
                .extend(bytes.iter().filter(|&&byte| byte != FILLER));
            if packet.contents.len() > MOST_CONTENTS {
                self.unfinished.remove(&class);
                return Err(refusal::TOO_LONG);
            }
        }
        Ok(Taken::ByPacket)
    }
}
