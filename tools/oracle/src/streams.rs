//! Sets of streams of raw bytes, each with the listing's text that the crate's events give of it, for the comparison
//! with the proved program `listing`. A run of that program lists one stream.

use crate::code::with_parity;
use crate::listing::{list, MOST_PAIRS};
use crate::random::Fill::{self, FromSeed, Whole};
use crate::random::Random;
use crate::receiver::{Line, PADDING};

pub type Stream = Vec<u8>;

pub type Streams = Fill<fn() -> Vec<Stream>, fn(&mut Random) -> Vec<Stream>>;

pub const SETS: [(&str, Streams); 7] = [
    ("worked", Whole(worked)),
    ("every_pair", Whole(every_pair)),
    ("short", FromSeed(short)),
    ("edges", FromSeed(edges)),
    ("pieces", FromSeed(pieces)),
    ("long", FromSeed(long)),
    ("limit", Whole(limit)),
];

pub fn text(stream: &[u8]) -> Vec<u8> {
    let mut text = Vec::new();
    list(stream, &mut text).expect("memory takes all that is written");
    text
}

/// 01's worked case, whose text is known by hand.
const WORKED: [u8; 23] = [
    0x94, 0x25, 0x94, 0x25, 0x94, 0xAD, 0x94, 0xAD, 0x94, 0x70, 0xC8, 0xE9, 0x48, 0xE9, 0x80, 0x80,
    0x91, 0x37, 0x92, 0x20, 0x9D, 0x20, 0xC1,
];
const WORKED_TEXT: &str = "\
0 mode 1 roll2
2 return 1
4 row 1 14 8 0
5 text 1 0 0048 0069
6 refused 1
8 text 1 0 266A -
9 text 1 1 00C1 -
10 mode 2 pop
11 refused 9
pairs 11 refused 2
";

/// The text that is made here is itself held against the one that is known.
pub fn assert_worked_case() {
    assert_eq!(String::from_utf8_lossy(&text(&WORKED)), WORKED_TEXT);
}

/// The worked case, cut off after each of its bytes.
fn worked() -> Vec<Stream> {
    (0..=WORKED.len())
        .map(|length| WORKED[..length].to_vec())
        .collect()
}

pub type Pair = [u8; 2];

/// Roll-up 2 on channel one and on channel two, so that text has a channel to go to.
const ON_CHANNEL_ONE: Pair = [0x94, 0x25];
const ON_CHANNEL_TWO: Pair = [0x1C, 0x25];

/// All 65,536 pairs: in order and in reverse, before and after a channel is known; each two and three times; and each
/// after a command on either channel.
fn every_pair() -> Vec<Stream> {
    let rising = || (0..=u16::MAX).map(u16::to_be_bytes);
    let falling = || rising().rev();
    let on_one = || std::iter::once(ON_CHANNEL_ONE);
    vec![
        rising().flatten().collect(),
        falling().flatten().collect(),
        on_one().chain(rising()).flatten().collect(),
        on_one().chain(falling()).flatten().collect(),
        rising().flat_map(|pair| [pair; 2]).flatten().collect(),
        rising().flat_map(|pair| [pair; 3]).flatten().collect(),
        each_after(ON_CHANNEL_ONE),
        each_after(ON_CHANNEL_TWO),
    ]
}

fn each_after(command: Pair) -> Stream {
    (0..=u16::MAX)
        .flat_map(|pair| [command, pair.to_be_bytes()])
        .flatten()
        .collect()
}

/// What a line brings, cut off at a length in bytes.
fn of_a_line(random: &mut Random, length: usize) -> Stream {
    let mut line = Line::new(random);
    let pairs = std::iter::repeat_with(|| line.next_pair());
    pairs.flatten().take(length).collect()
}

/// Any bytes; three pairs in four are refused.
pub fn of_any_bytes(random: &mut Random, length: usize) -> Stream {
    (0..length).map(|_| random.below(0x100) as u8).collect()
}

const LONGEST_SHORT: usize = 200;
const LINES_OF_EACH_LENGTH: usize = 4;

/// Streams of each length from 0 to 200 bytes; those of an odd length end with half a pair.
fn short(random: &mut Random) -> Vec<Stream> {
    let mut streams = Vec::new();
    for length in 0..=LONGEST_SHORT {
        for _ in 0..LINES_OF_EACH_LENGTH {
            streams.push(of_a_line(random, length));
        }
        streams.push(of_any_bytes(random, length));
    }
    streams
}

fn edges(random: &mut Random) -> Vec<Stream> {
    edge_lengths()
        .map(|length| of_a_line(random, length))
        .collect()
}

/// Lengths next to the powers of two, which a buffer's length is likely to be; even ones, and odd ones, which end with
/// half a pair.
pub fn edge_lengths() -> impl Iterator<Item = usize> {
    (8..=17).flat_map(|power| (1 << power) - 1..=(1 << power) + 2)
}

/// Streams that come to the program a few bytes at a time, for which tools/compare sees.
fn pieces(random: &mut Random) -> Vec<Stream> {
    [999, 1000, 1001]
        .map(|length| of_a_line(random, length))
        .into()
}

const LONG: usize = 100_000;

/// Long streams, of a whole number of pairs and with half a pair at the end.
fn long(random: &mut Random) -> Vec<Stream> {
    vec![
        of_a_line(random, 2 * LONG),
        of_a_line(random, 2 * LONG + 1),
        of_any_bytes(random, 2 * LONG),
        of_any_bytes(random, 2 * LONG + 1),
        mix(random, LONG),
        mix(random, 10 * LONG),
    ]
}

fn limit() -> Vec<Stream> {
    up_to_the_limit(&ON_CHANNEL_ONE)
}

/// Padding up to the limit of pairs but for these last ones: half a pair too few, as many as may be, a byte too many, and a
/// pair too many.
pub fn up_to_the_limit(last: &[u8]) -> Vec<Stream> {
    let most = MOST_PAIRS as usize * 2;
    let mut all = PADDING.repeat(MOST_PAIRS as usize + 1);
    all[most - last.len()..most].copy_from_slice(last);
    (most - 1..=most + 2)
        .map(|length| all[..length].to_vec())
        .collect()
}

/// What a caption line brings undisturbed: of ten pairs six are text, two are padding and two are a command and its copy.
fn mix(random: &mut Random, pairs: usize) -> Stream {
    let mut stream = Vec::with_capacity(2 * pairs + 2);
    while stream.len() < 2 * pairs {
        // A command is two pairs, so that it is drawn half as often as its share.
        match random.below(9) {
            0..=5 => stream.extend([letter(random), letter(random)]),
            6..=7 => stream.extend(PADDING),
            _ => stream.extend([command(random); 2].concat()),
        }
    }
    stream.truncate(2 * pairs);
    stream
}

fn letter(random: &mut Random) -> u8 {
    with_parity(0x20 + random.byte_below(0x60))
}

/// A command that gives an event, on channel one: of the sixteen those that captions are made of, or a preamble.
fn command(random: &mut Random) -> Pair {
    let [first, second] = match random.below(2) {
        0 => [
            0x14,
            random.pick(&[0x20, 0x25, 0x29, 0x2C, 0x2D, 0x2E, 0x2F]),
        ],
        _ => [
            random.pick(&[0x11, 0x12, 0x13, 0x14, 0x15, 0x16, 0x17]),
            0x40 + random.byte_below(0x40),
        ],
    };
    [with_parity(first), with_parity(second)]
}
