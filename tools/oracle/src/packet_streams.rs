//! Sets of streams of raw bytes, each with the text of `packets` that the model gives of it, for the comparison with that
//! program. A run of it lists one stream.

use crate::extended::Model;
use crate::extended_feed::{end, start, Feed};
use crate::extended_sets::{after_two, open_with, AB, KIND, SUM_OF_TWO};
use crate::packet_lines::text;
use crate::random::Fill::{FromSeed, Whole};
use crate::random::Random;
use crate::receiver::ROLL_UP_2;
use crate::streams::{edge_lengths, of_any_bytes, up_to_the_limit, Pair, Stream, Streams};
use crate::zvbi;

pub const SETS: [(&str, Streams); 8] = [
    ("packets_worked", Whole(worked)),
    ("packets_every_pair", Whole(every_pair)),
    ("packets_short", FromSeed(short)),
    ("packets_edges", FromSeed(edges)),
    ("packets_pieces", FromSeed(pieces)),
    ("packets_long", FromSeed(long)),
    ("packets_limit", Whole(limit)),
    ("packets_zvbi", FromSeed(zvbi::streams)),
];

/// A stream and its text, both worked out by hand.
struct Worked {
    stream: &'static [u8],
    text: &'static str,
}

/// Every kind of line: a packet interrupted by a command and continued, an end in captions, a corrupted pair, an end after
/// an end, no contents, bytes that are no characters, a wrong sum, 33 bytes, a continuation of nothing, half a pair.
const EVERY_LINE: Worked = Worked {
    stream: &[
        0x94, 0x25, 0x01, 0x83, 0xD3, 0x54, 0x94, 0x2C, 0xC8, 0xE9, 0x8F, 0x46, 0x02, 0x83, 0xC1,
        0x80, 0x8F, 0x85, 0x48, 0xE9, 0x8F, 0x85, 0x0D, 0x7F, 0x8F, 0xE5, 0x83, 0x80, 0xA2, 0x01,
        0x80, 0x7F, 0x8F, 0x4C, 0x85, 0x01, 0x8F, 0x80, 0x8F, 0x6B, 0x07, 0x02, 0xC1, 0xC2, 0xC1,
        0xC2, 0xC1, 0xC2, 0xC1, 0xC2, 0xC1, 0xC2, 0xC1, 0xC2, 0xC1, 0xC2, 0xC1, 0xC2, 0xC1, 0xC2,
        0xC1, 0xC2, 0xC1, 0xC2, 0xC1, 0xC2, 0xC1, 0xC2, 0xC1, 0xC2, 0xC1, 0xC2, 0xC1, 0xC2, 0x43,
        0x80, 0x8F, 0x38, 0x86, 0x02, 0xC1,
    ],
    text: "\
5 refused 13
8 packet 1 03 535441 \"STA\"
9 refused 1
10 refused 13
12 packet 7 7F  \"\"
16 packet 2 00 22017F \"\"..\"
18 refused 15
19 refused 13
37 refused 14
38 refused 13
39 refused 13
40 refused 9
pairs 40 packets 3 refused 9
",
};

/// A packet interrupted by another class's, both finished; a continuation after an end; and a start that replaces the
/// packet of its class.
const TWO_CLASSES: Worked = Worked {
    stream: &[
        0x01, 0x01, 0xC1, 0xC2, 0x83, 0x01, 0x43, 0x80, 0x02, 0x01, 0xC4, 0x45, 0x8F, 0xE3, 0x04,
        0x01, 0x8F, 0x2A, 0x04, 0x01, 0x01, 0x85, 0xC1, 0x80, 0x01, 0x85, 0x8F, 0x6B,
    ],
    text: "\
6 packet 1 01 41424445 \"ABDE\"
8 packet 2 01 43 \"C\"
9 refused 13
13 packet 1 05  \"\"
pairs 14 packets 3 refused 1
",
};

/// The text that is made here is itself held against the ones that are known.
pub fn assert_worked_cases() {
    for case in [EVERY_LINE, TWO_CLASSES] {
        assert_eq!(String::from_utf8_lossy(&text(case.stream)), case.text);
    }
}

/// The worked cases, cut off after each of their bytes.
fn worked() -> Vec<Stream> {
    let cut_off = |stream: &'static [u8]| (0..=stream.len()).map(|length| stream[..length].into());
    [EVERY_LINE, TWO_CLASSES]
        .into_iter()
        .flat_map(|case| cut_off(case.stream))
        .collect()
}

/// All 65,536 pairs: in order and in reverse; each after a start, in a packet, in one that is full but for one byte and for
/// none, in captions that interrupt a packet and in another class's packet, an end after it; and each before contents and
/// the end that is right if it was a start.
fn every_pair() -> Vec<Stream> {
    let rising = || (0..=u16::MAX).map(u16::to_be_bytes);
    let ends = [end(SUM_OF_TWO)];
    vec![
        rising().flatten().collect(),
        rising().rev().flatten().collect(),
        each_between(&open_with(0), &[end(0x6D)]),
        each_between(&open_with(2), &ends),
        each_between(&open_with(31), &ends),
        each_between(&open_with(32), &ends),
        each_between(&after_two(&[ROLL_UP_2]), &ends),
        each_between(&after_two(&[start(2, KIND)]), &ends),
        rising().flat_map(as_start).flatten().collect(),
    ]
}

fn each_between(before: &[Pair], after: &[Pair]) -> Stream {
    (0..=u16::MAX)
        .map(u16::to_be_bytes)
        .flat_map(|pair| [before, &[pair], after].concat())
        .flatten()
        .collect()
}

fn as_start(pair: Pair) -> [Pair; 3] {
    let mut model = Model::default();
    for pair in [pair, AB] {
        let _ = model.decode(pair);
    }
    let sum = model
        .open()
        .map_or(0, |(class, packet)| packet.right_sum(class));
    [pair, AB, end(sum)]
}

/// What a line with extended data brings, cut off at a length in bytes.
fn of_a_feed(random: &mut Random, length: usize) -> Stream {
    let mut model = Model::default();
    let mut feed = Feed::new(random);
    let mut stream = vec![];
    while stream.len() < length {
        let pair = feed.next_pair(&model);
        let _ = model.decode(pair);
        stream.extend(pair);
    }
    stream.truncate(length);
    stream
}

const LONGEST_SHORT: usize = 200;

/// Streams of each length from 0 to 200 bytes; those of an odd length end with half a pair.
fn short(random: &mut Random) -> Vec<Stream> {
    let mut streams = vec![];
    for length in 0..=LONGEST_SHORT {
        streams.push(of_a_feed(random, length));
        streams.push(of_a_feed(random, length));
        streams.push(of_any_bytes(random, length));
    }
    streams
}

fn edges(random: &mut Random) -> Vec<Stream> {
    edge_lengths()
        .map(|length| of_a_feed(random, length))
        .collect()
}

/// Streams that come to the program a few bytes at a time, for which tools/compare sees.
fn pieces(random: &mut Random) -> Vec<Stream> {
    [1999, 2000, 2001]
        .map(|length| of_a_feed(random, length))
        .into()
}

const LONG: usize = 100_000;

/// Long streams, of a whole number of pairs and with half a pair at the end.
fn long(random: &mut Random) -> Vec<Stream> {
    vec![
        of_a_feed(random, 2 * LONG),
        of_a_feed(random, 2 * LONG + 1),
        of_any_bytes(random, 2 * LONG),
        of_any_bytes(random, 2 * LONG + 1),
        of_a_feed(random, 20 * LONG),
    ]
}

/// The end of a packet is the last pair.
fn limit() -> Vec<Stream> {
    up_to_the_limit(&[start(1, KIND), AB, end(SUM_OF_TWO)].concat())
}
