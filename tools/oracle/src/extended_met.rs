//! What pairs with extended data came upon, by the model, so that a set can show that it reached every case.

use crate::extended::{refusal, Model, Packet, Report, END, FILLER, MOST_CONTENTS};
use crate::queue::is_command;
use crate::sender::is_odd;
use std::collections::BTreeMap;

/// A set that never came to one of these would say nothing of it. The first are what one pair from a chosen state can come
/// upon; for the others it takes several pairs.
const BY_ONE_PAIR: [&str; 22] = [
    "1",
    "1 in a packet",
    "13: an end, and no packet",
    "13: an end of an interrupted packet, its sum right",
    "13: an end of an interrupted packet, its sum wrong",
    "13: a continuation, no packet of its class, none open",
    "13: a continuation, no packet of its class, another open",
    "13: a continuation with another type, none open",
    "13: a continuation with another type, in a packet",
    "13: a continuation with another type, in a packet that is full",
    "14: the second byte of a pair",
    "14: one byte",
    "14: both bytes",
    "15: no contents",
    "15: full",
    "15: contents",
    "contents: 00 and a byte",
    "contents: a second byte of 01 to 1F",
    "start in captions",
    "start in another class's packet",
    "start over a packet of another type",
    "event: text while a packet is interrupted",
];
const BY_SEVERAL: [&str; 20] = [
    "13: an end after an end",
    "13: an end after 14",
    "13: an end after 15",
    "packet: no contents",
    "packet: full",
    "packet: contents",
    "packet: continued after a command",
    "packet: continued after another class",
    "packet: continued while open",
    "contents: a byte and 00",
    "contents: filler alone",
    "contents: filler alone, in a packet that is full",
    "dropped after an end",
    "dropped after 14",
    "dropped after 15",
    "start over a packet of its type",
    "event: a command in a packet",
    "event: text after a refused continuation",
    "event: a command again after a packet's pair",
    "nothing: a command again after a refusal",
];

/// How the packet went that was open last.
#[derive(Clone, Copy)]
enum Gone {
    ByEnd,
    TooLong,
    WrongSum,
}

/// What the model had before a pair.
pub struct Before {
    pair: [u8; 2],
    running: Option<u8>,
    /// How many contents the open packet has.
    open: Option<usize>,
    /// The unfinished packet of the class that a start or a continuation names.
    own: Option<Packet>,
    /// Whether an end with this sum would finish one of the packets that are not open, if it were; none where there are none.
    interrupted: Option<bool>,
}

impl Before {
    fn bytes(&self) -> [u8; 2] {
        self.pair.map(|byte| byte & 0x7F)
    }

    fn is_full(&self) -> bool {
        self.open == Some(MOST_CONTENTS)
    }

    fn is_continuation(&self) -> bool {
        let [first, _] = self.bytes();
        is_odd(self.pair) && (0x01..=0x0E).contains(&first) && first % 2 == 0
    }
}

#[derive(Default)]
pub struct Met {
    counts: BTreeMap<&'static str, usize>,
    packets: usize,
    gone: Option<Gone>,
    /// How each class's packet was continued last.
    continued: BTreeMap<u8, &'static str>,
    /// The last command, and what came after it.
    command: Option<[u8; 2]>,
    packet_since: bool,
    refusal_since: bool,
    after_refused_continuation: bool,
}

impl Met {
    /// Every case was met so often.
    pub fn reached_everything(&self, least: usize) {
        self.reached_by_one_pair(least);
        self.reached(&BY_SEVERAL, least);
    }

    pub fn reached_by_one_pair(&self, least: usize) {
        self.reached(&BY_ONE_PAIR, least);
    }

    fn reached(&self, cases: &[&str], least: usize) {
        for case in cases {
            let count = self.counts.get(case).copied().unwrap_or(0);
            assert!(count >= least, "too few of {case}: {count}");
        }
    }

    /// How many pairs finished a packet, and how many were refused by which number.
    pub fn counted(&self) -> String {
        let of = |kind: &str| -> usize {
            let own = self
                .counts
                .iter()
                .filter(|(case, _)| case.starts_with(kind));
            own.map(|(_, count)| count).sum()
        };
        format!(
            "{} packets, refused {} times by 1, {} by 13, {} by 14, {} by 15",
            self.packets,
            self.counts["1"],
            of("13: "),
            of("14: "),
            of("15: ")
        )
    }

    /// A state was set, and what came before is not known.
    pub fn set_state(&mut self) {
        *self = Met {
            counts: std::mem::take(&mut self.counts),
            packets: self.packets,
            ..Met::default()
        };
    }

    pub fn before(&self, model: &Model, pair: [u8; 2]) -> Before {
        let [first, second] = pair.map(|byte| byte & 0x7F);
        let open = model.open().map(|(class, _)| class);
        let others = || {
            let unfinished = model.unfinished.iter();
            unfinished.filter(|(&class, _)| Some(class) != open)
        };
        let finishes = others().any(|(&class, packet)| packet.right_sum(class) == second);
        Before {
            pair,
            running: model.running,
            open: model.open().map(|(_, packet)| packet.contents.len()),
            own: model.unfinished.get(&first.div_ceil(2)).cloned(),
            interrupted: others().next().map(|_| finishes),
        }
    }

    pub fn note(&mut self, before: Before, answer: &Result<Report, u8>) {
        let cases = match answer {
            Err(refusal) => self.refused(&before, *refusal),
            Ok(Report::Finished(class, packet)) => self.finished(*class, packet),
            Ok(Report::Event(_)) => self.event(&before),
            Ok(Report::Nothing) => self.silent(&before),
        };
        for case in cases {
            let is_listed = BY_ONE_PAIR.contains(&case) || BY_SEVERAL.contains(&case);
            assert!(is_listed, "{case} is not in the lists");
            *self.counts.entry(case).or_default() += 1;
        }
        self.packets += usize::from(matches!(answer, Ok(Report::Finished(..))));
        self.remember(&before, answer);
    }

    fn refused(&self, before: &Before, refusal: u8) -> Vec<&'static str> {
        match refusal {
            refusal::PARITY if before.open.is_some() => vec!["1", "1 in a packet"],
            refusal::PARITY => vec!["1"],
            refusal::NOT_OPEN if before.is_continuation() => refused_continuation(before),
            refusal::NOT_OPEN => vec![self.refused_end(before)],
            refusal::TOO_LONG => vec![match (before.open, before.bytes()) {
                (Some(31), _) => "14: the second byte of a pair",
                (_, [FILLER, _] | [_, FILLER]) => "14: one byte",
                _ => "14: both bytes",
            }],
            _ => vec![match before.open {
                Some(0) => "15: no contents",
                Some(MOST_CONTENTS) => "15: full",
                _ => "15: contents",
            }],
        }
    }

    fn refused_end(&self, before: &Before) -> &'static str {
        match (before.running, self.gone, before.interrupted) {
            (None, _, Some(true)) => "13: an end of an interrupted packet, its sum right",
            (None, _, Some(false)) => "13: an end of an interrupted packet, its sum wrong",
            (Some(_), Some(Gone::ByEnd), _) => "13: an end after an end",
            (Some(_), Some(Gone::TooLong), _) => "13: an end after 14",
            (Some(_), Some(Gone::WrongSum), _) => "13: an end after 15",
            _ => "13: an end, and no packet",
        }
    }

    fn finished(&self, class: u8, packet: &Packet) -> Vec<&'static str> {
        let length = match packet.contents.len() {
            0 => "packet: no contents",
            MOST_CONTENTS => "packet: full",
            _ => "packet: contents",
        };
        let continued = self.continued.get(&class).copied();
        [length].into_iter().chain(continued).collect()
    }

    fn event(&self, before: &Before) -> Vec<&'static str> {
        let mut cases = vec![];
        if is_command(before.pair) {
            if before.open.is_some() {
                cases.push("event: a command in a packet");
            }
            if self.command == Some(before.pair) && self.packet_since {
                cases.push("event: a command again after a packet's pair");
            }
            return cases;
        }
        if before.interrupted.is_some() {
            cases.push("event: text while a packet is interrupted");
        }
        if self.after_refused_continuation {
            cases.push("event: text after a refused continuation");
        }
        cases
    }

    fn silent(&self, before: &Before) -> Vec<&'static str> {
        let [first, second] = before.bytes();
        match first {
            0x01..=0x0E if first % 2 == 1 => start(before, first.div_ceil(2)),
            0x01..=0x0E => vec![],
            0x10..=0x1F => {
                let again = self.is_repeat(before.pair) && self.refusal_since;
                let case = again.then_some("nothing: a command again after a refusal");
                case.into_iter().collect()
            }
            _ if before.open.is_some() => contents(before, [first, second]),
            _ if before.running.is_some() => self.gone.map(dropped).into_iter().collect(),
            _ => vec![],
        }
    }

    /// Whether a command is the captions' receiver's last pair.
    fn is_repeat(&self, pair: [u8; 2]) -> bool {
        self.command == Some(pair) && !self.packet_since
    }

    fn remember(&mut self, before: &Before, answer: &Result<Report, u8>) {
        self.after_refused_continuation = before.is_continuation() && answer.is_err();
        if let Err(refusal) = answer {
            self.refusal_since = true;
            match *refusal {
                refusal::TOO_LONG => self.gone = Some(Gone::TooLong),
                refusal::WRONG_SUM => self.gone = Some(Gone::WrongSum),
                _ => {}
            }
            return;
        }
        let [first, _] = before.bytes();
        let class = first.div_ceil(2);
        match first {
            END => self.gone = Some(Gone::ByEnd),
            0x01..=0x0E if first % 2 == 1 => {
                self.continued.remove(&class);
            }
            0x01..=0x0E => {
                self.continued.insert(class, continued(before, class));
            }
            0x10..=0x1F => {
                let skipped = self.is_repeat(before.pair);
                self.command = Some(before.pair).filter(|_| !skipped);
                self.packet_since = false;
                self.refusal_since = false;
                return;
            }
            _ => {}
        }
        self.packet_since = before.running.is_some() || first <= END && first != FILLER;
        self.command = self.command.filter(|_| self.packet_since);
    }
}

fn refused_continuation(before: &Before) -> Vec<&'static str> {
    match (&before.own, before.open) {
        (None, None) => vec!["13: a continuation, no packet of its class, none open"],
        (None, Some(_)) => vec!["13: a continuation, no packet of its class, another open"],
        (Some(_), None) => vec!["13: a continuation with another type, none open"],
        (Some(_), Some(_)) if before.is_full() => {
            vec!["13: a continuation with another type, in a packet that is full"]
        }
        (Some(_), Some(_)) => vec!["13: a continuation with another type, in a packet"],
    }
}

fn start(before: &Before, class: u8) -> Vec<&'static str> {
    let [_, kind] = before.bytes();
    let place = match before.running {
        None => Some("start in captions"),
        Some(other) if other != class => Some("start in another class's packet"),
        Some(_) => None,
    };
    let over = before.own.as_ref().map(|packet| match packet.kind == kind {
        true => "start over a packet of its type",
        false => "start over a packet of another type",
    });
    place.into_iter().chain(over).collect()
}

fn continued(before: &Before, class: u8) -> &'static str {
    match before.running {
        None => "packet: continued after a command",
        Some(other) if other != class => "packet: continued after another class",
        Some(_) => "packet: continued while open",
    }
}

fn contents(before: &Before, bytes: [u8; 2]) -> Vec<&'static str> {
    match bytes {
        [FILLER, FILLER] if before.is_full() => {
            vec!["contents: filler alone, in a packet that is full"]
        }
        [FILLER, FILLER] => vec!["contents: filler alone"],
        [FILLER, _] => vec!["contents: 00 and a byte"],
        [_, FILLER] => vec!["contents: a byte and 00"],
        [_, 0x01..=0x1F] => vec!["contents: a second byte of 01 to 1F"],
        _ => vec![],
    }
}

fn dropped(gone: Gone) -> &'static str {
    match gone {
        Gone::ByEnd => "dropped after an end",
        Gone::TooLong => "dropped after 14",
        Gone::WrongSum => "dropped after 15",
    }
}
