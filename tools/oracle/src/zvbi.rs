//! Streams on which libzvbi and T-01 agree. zvbi has some rules of its own (tools/zvbi/differences.txt), and a pair with
//! which a stream would come to one of them is left out.

use crate::extended::{refusal, Model, Report, END};
use crate::extended_feed::Feed;
use crate::random::Random;
use crate::sender::is_odd;
use std::collections::BTreeSet;

/// The last class and the last type that zvbi keeps apart from all others.
const LAST_CLASS: u8 = 4;
const LAST_TYPE: u8 = 0x17;

/// The model, and what zvbi has besides.
#[derive(Default)]
pub struct Agreed {
    pub model: Model,
    /// Packets that a start of another type replaced. zvbi has one of each class and type, and goes on with them.
    replaced: BTreeSet<(u8, u8)>,
}

impl Agreed {
    /// Whether zvbi does what the text says with a pair.
    pub fn allows(&self, pair: [u8; 2]) -> bool {
        let open = self.model.open().map(|(_, packet)| packet);
        if !is_odd(pair) {
            return open.is_none();
        }
        let [first, second] = pair.map(|byte| byte & 0x7F);
        let class = first.div_ceil(2);
        match first {
            0x00 => second == 0x00 || open.is_none(),
            0x01..=0x0E if class > LAST_CLASS || second > LAST_TYPE => false,
            0x01..=0x0E if first % 2 == 1 => true,
            0x01..=0x0E => {
                let own = self.model.unfinished.get(&class);
                let is_taken = own.is_some_and(|packet| packet.kind == second);
                is_taken || open.is_none() && !self.replaced.contains(&(class, second))
            }
            END => open.is_none_or(|packet| !packet.contents.is_empty()),
            0x10..=0x1F => true,
            _ => open.is_none_or(|packet| packet.contents.len() != 31 || second == 0x00),
        }
    }

    pub fn read(&mut self, pair: [u8; 2]) -> Result<Report, u8> {
        let [first, second] = pair.map(|byte| byte & 0x7F);
        let class = first.div_ceil(2);
        if is_odd(pair) && matches!(first, 0x01 | 0x03 | 0x05 | 0x07) {
            if let Some(before) = self.model.unfinished.get(&class) {
                self.replaced.insert((class, before.kind));
            }
            self.replaced.remove(&(class, second));
        }
        self.model.decode(pair)
    }
}

const STREAMS: usize = 100;
const PAIRS: usize = 5000;

/// What a line with extended data brings, the pairs left out of which zvbi has a rule of its own.
pub fn streams(random: &mut Random) -> Vec<Vec<u8>> {
    let mut met = Met::default();
    let streams = (0..STREAMS).map(|_| stream(random, &mut met)).collect();
    met.reached_everything();
    streams
}

fn stream(random: &mut Random, met: &mut Met) -> Vec<u8> {
    let mut agreed = Agreed::default();
    let mut feed = Feed::new(random);
    let mut bytes = vec![];
    while bytes.len() < 2 * PAIRS {
        let pair = feed.next_pair(&agreed.model);
        if agreed.allows(pair) {
            met.note(agreed.read(pair));
            bytes.extend(pair);
        }
    }
    bytes
}

#[derive(Default)]
struct Met {
    finished: usize,
    refused: [usize; 16],
}

impl Met {
    fn note(&mut self, answer: Result<Report, u8>) {
        match answer {
            Ok(Report::Finished(..)) => self.finished += 1,
            Ok(_) => {}
            Err(number) => self.refused[usize::from(number)] += 1,
        }
    }

    /// A comparison that never came to a case would say nothing of it.
    fn reached_everything(&self) {
        assert!(self.finished > 1000, "too few packets");
        for number in [
            refusal::PARITY,
            refusal::NOT_OPEN,
            refusal::TOO_LONG,
            refusal::WRONG_SUM,
        ] {
            let count = self.refused[usize::from(number)];
            assert!(count > 100, "too few refusals {number}: {count}");
        }
    }
}
