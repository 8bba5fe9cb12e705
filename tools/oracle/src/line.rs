//! The line of demand 3: it corrupts no pair that is not a command, and at most one copy in each
//! unbroken stretch of one command pair.

use crate::queue::is_command;
use crate::random::Random;
use crate::sender::is_odd;

pub type Pair = [u8; 2];

/// A pair as it came.
#[derive(Clone, Copy)]
pub struct Arrived {
    pub pair: Pair,
    pub corrupted: bool,
}

/// What a line did, all sessions together.
#[derive(Default)]
pub struct Hits {
    pub corrupted: usize,
    /// By how many bits of the first byte and of the second are turned.
    by_bits: [[usize; 9]; 9],
    first_copies: usize,
    last_copies: usize,
    longest_stretch: usize,
}

impl Hits {
    /// A comparison that never came to a case would say nothing of it.
    pub fn reached_everything(&self) {
        for (first, row) in self.by_bits.iter().enumerate() {
            for (second, &count) in row.iter().enumerate() {
                let shows = first % 2 == 1 || second % 2 == 1;
                assert_eq!(
                    count > 0,
                    shows,
                    "hits of {first} and {second} bits: {count}"
                );
            }
        }
        assert!(self.first_copies > 1000, "too few hits on a first copy");
        assert!(self.last_copies > 1000, "too few hits on a last copy");
        assert!(self.longest_stretch >= 8, "no long stretch");
    }
}

/// Carries pairs, and hits one stretch of a command in so many; 0 is none.
pub fn carry(sent: &[Pair], random: &mut Random, one_in: u32, hits: &mut Hits) -> Vec<Arrived> {
    let mut arrived = vec![];
    let mut rest = sent;
    while let Some(&pair) = rest.first() {
        let length = rest.iter().take_while(|&&other| other == pair).count();
        let hit = is_command(pair) && one_in != 0 && random.below(one_in) == 0;
        let place = hit.then(|| random.below(length as u32) as usize);
        if let Some(place) = place {
            hits.first_copies += usize::from(place == 0);
            hits.last_copies += usize::from(place + 1 == length);
            hits.longest_stretch = hits.longest_stretch.max(length);
        }
        for copy in 0..length {
            let corrupted = place == Some(copy);
            arrived.push(Arrived {
                pair: if corrupted {
                    corrupt(pair, random, hits)
                } else {
                    pair
                },
                corrupted,
            });
        }
        rest = &rest[length..];
    }
    arrived
}

/// A command pair with some bits turned, an odd number of them in one byte at least.
fn corrupt([first, second]: Pair, random: &mut Random, hits: &mut Hits) -> Pair {
    let bits = loop {
        let bits = [random.below(9), random.below(9)];
        if bits.iter().any(|bits| bits % 2 == 1) {
            break bits;
        }
    };
    let pair = [
        turned(first, bits[0], random),
        turned(second, bits[1], random),
    ];
    assert!(!is_odd(pair), "parity does not show {pair:02X?}");
    hits.by_bits[bits[0] as usize][bits[1] as usize] += 1;
    hits.corrupted += 1;
    pair
}

/// A byte with so many of its bits turned.
fn turned(byte: u8, bits: u32, random: &mut Random) -> u8 {
    let mut mask: u8 = 0;
    while mask.count_ones() < bits {
        mask |= 1 << random.below(8);
    }
    byte ^ mask
}
