//! The sets of extended data: pairs at random, from a reset on and from states set piece by piece, and every pair from
//! chosen states.

use crate::extended::{Model, Packet, CLASSES, FILLER, MOST_CONTENTS};
use crate::extended_feed::{continuation, end, good, start, Feed, TYPES};
use crate::extended_query::{Asked, Stored};
use crate::random::{Random, SEED};
use crate::receiver::{HI, PADDING, ROLL_UP_2};
use crate::sender::is_odd;
use crate::streams::Pair;
use crate::transcript::Transcript;

const ROUNDS: usize = 3000;
const STEPS: usize = 60;
const LONG_ROUNDS: usize = 3;
const LONG: usize = 20_000;

/// Rounds of pairs, each from a reset on or from a state set piece by piece, and some long ones.
pub fn streams(to: &mut Transcript, random: &mut Random) {
    let mut asked = Asked::new(to);
    for round in 0..ROUNDS {
        match round % 3 {
            0 => asked.reset(),
            _ => asked.set(any_state(random)),
        }
        read(&mut asked, random, STEPS);
    }
    for _ in 0..LONG_ROUNDS {
        asked.reset();
        read(&mut asked, random, LONG);
    }
    asked.met.reached_everything(5);
    print!("{}: ", asked.met.counted());
}

/// Pairs that a line brings; the state is read back before them, after one of them in five, and at the end.
fn read(asked: &mut Asked, random: &mut Random, steps: usize) {
    asked.read_back();
    let mut feed = Feed::new(random);
    for _ in 0..steps {
        let pair = feed.next_pair(&asked.model);
        asked.decode(pair);
        if feed.random.below(5) == 0 {
            asked.read_given();
            asked.read_back();
        }
    }
    asked.read_back();
}

/// Lengths next to where a packet is full.
const LENGTHS: [u32; 8] = [0, 1, 2, 20, 29, 30, 31, 32];

/// A packet of each class or none, anything running, and a receiver that has read a few pairs. One state in four has
/// contents and types that no pair brings, of any bytes.
fn any_state(random: &mut Random) -> Model {
    let mut model = Model::default();
    for _ in 0..random.below(4) {
        let pair = good(0x10 + random.byte_below(0x70), random.byte_below(0x80));
        let _ = model.decode(pair);
    }
    let most = random.pick(&[0x7F, 0x7F, 0x7F, 0xFF]);
    for class in CLASSES {
        if random.below(2) == 0 {
            let length = random.pick(&LENGTHS);
            let contents = (0..length).map(|_| any_byte(random, most)).collect();
            let kind = match most {
                0x7F => random.pick(&TYPES),
                _ => any_byte(random, most),
            };
            model.unfinished.insert(class, Packet { kind, contents });
        }
    }
    let class = 1 + random.byte_below(*CLASSES.end());
    model.running = random.pick(&[None, Some(class), Some(class)]);
    model
}

fn any_byte(random: &mut Random, most: u8) -> u8 {
    random.below(u32::from(most) + 1) as u8
}

/// A state to read every pair from: the pairs that lead to it, and a length that is stored besides.
struct Chosen {
    pairs: Vec<Pair>,
    stored: Option<Stored>,
}

impl Chosen {
    fn model(&self) -> Model {
        let mut model = Model::default();
        for &pair in &self.pairs {
            let _ = model.decode(pair);
        }
        model
    }
}

/// Resume direct captioning on channel two of field two.
const ON_CHANNEL_TWO: Pair = [0x9D, 0x29];
pub const KIND: u8 = 0x03;
pub const AB: Pair = [0xC1, 0xC2];

/// Captions on channel one, a start of class 1, and so many contents.
pub fn open_with(length: u8) -> Vec<Pair> {
    let bytes: Vec<u8> = (0..length).map(|place| 0x41 + place).collect();
    let contents = bytes
        .chunks(2)
        .map(|bytes| good(bytes[0], bytes.get(1).copied().unwrap_or(FILLER)));
    [ROLL_UP_2, start(1, KIND)]
        .into_iter()
        .chain(contents)
        .collect()
}

/// A packet of two bytes and then some pairs.
pub fn after_two(pairs: &[Pair]) -> Vec<Pair> {
    [&open_with(2), pairs].concat()
}

/// The sum byte of that packet: 01, 03, 41, 42 and 0F add to 96 hex.
pub const SUM_OF_TWO: u8 = 0x6A;

/// Captions with no channel, after a command, and on the other channel; a packet without contents, with 31 and with 32;
/// interrupted by a command and by another class; after an end, 14 and 15; and all classes' packets unfinished.
fn states_by_pairs() -> Vec<Vec<Pair>> {
    vec![
        vec![],
        vec![ROLL_UP_2],
        vec![ON_CHANNEL_TWO, HI],
        open_with(0),
        open_with(31),
        open_with(32),
        after_two(&[ROLL_UP_2]),
        after_two(&[start(2, KIND), AB]),
        after_two(&[end(SUM_OF_TWO)]),
        open_with(33),
        after_two(&[end(SUM_OF_TWO + 1)]),
        CLASSES
            .flat_map(|class| [start(class, KIND), good(0x40 + class, FILLER)])
            .collect(),
    ]
}

/// Those, and two that no pairs lead to: a length of 200, which means 32, and a length where there is no packet.
fn chosen() -> Vec<Chosen> {
    let by_pairs = states_by_pairs().into_iter().map(|pairs| Chosen {
        pairs,
        stored: None,
    });
    let above = Stored {
        class: 1,
        model: Some(MOST_CONTENTS),
        length: 200,
    };
    let beside = Stored {
        class: 1,
        model: None,
        length: 5,
    };
    let by_hand = [
        (open_with(32), above),
        (after_two(&[end(SUM_OF_TWO)]), beside),
    ];
    let by_hand = by_hand.into_iter().map(|(pairs, stored)| Chosen {
        pairs,
        stored: Some(stored),
    });
    by_pairs.chain(by_hand).collect()
}

fn choose(asked: &mut Asked, chosen: &Chosen) {
    asked.set(chosen.model());
    if let Some(stored) = chosen.stored {
        asked.store_length(stored);
    }
}

/// Every pair from each chosen state. The state is read back after every pair of odd parity, and before it where it is
/// what pairs of even parity have left.
pub fn pairs(to: &mut Transcript) {
    let mut asked = Asked::new(to);
    for chosen in chosen() {
        choose(&mut asked, &chosen);
        asked.read_back();
        for pair in (0..=u16::MAX).map(u16::to_be_bytes) {
            if is_odd(pair) {
                from_chosen(&mut asked, &chosen, pair);
            } else {
                asked.decode(pair);
            }
        }
        asked.read_back();
    }
    asked.met.reached_by_one_pair(1);
    print!("{}: ", asked.met.counted());
}

fn from_chosen(asked: &mut Asked, chosen: &Chosen, pair: Pair) {
    if asked.is_unread {
        asked.read_back();
    }
    asked.decode(pair);
    asked.read_back();
    choose(asked, chosen);
}

/// From each state that pairs lead to one pair of each kind, and then pairs from a fixed seed.
pub fn sample(to: &mut Transcript) {
    let mut asked = Asked::new(to);
    for chosen in chosen().iter().filter(|chosen| chosen.stored.is_none()) {
        for pair in one_of_each_kind(&chosen.model()) {
            choose(&mut asked, chosen);
            asked.decode(pair);
            asked.read_given();
            asked.read_back();
        }
    }
    asked.reset();
    read(&mut asked, &mut Random::from_seed(SEED), 2 * STEPS);
    asked.reset();
    asked.read_back();
}

/// A start, two continuations, two ends, contents, filler, a command, and a corrupted pair.
fn one_of_each_kind(model: &Model) -> Vec<Pair> {
    let sum = model
        .open()
        .map_or(0x00, |(class, packet)| packet.right_sum(class));
    vec![
        start(1, KIND + 1),
        continuation(1, KIND),
        continuation(1, KIND + 1),
        end(sum),
        end(sum ^ 1),
        AB,
        good(FILLER, 0x01),
        PADDING,
        ROLL_UP_2,
        [AB[0], AB[1] ^ 1],
    ]
}
