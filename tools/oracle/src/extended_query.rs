//! The queries of extended data. Each call is put to the model at the same time, and its answer is what the model says.

use crate::extended::{Model, Packet, Report, CLASSES, MOST_CONTENTS};
use crate::extended_met::Met;
use crate::transcript::Transcript;
use crate::values::{channel_byte, event_bytes, field_byte, EVENT};
use cea608_types::tables::Channel;
use cea608_types::Cea608State;

/// How many bytes of contents an answer has room for, and how many a query that sets them.
const ANSWERED: usize = 14;
const SET: usize = 13;

/// A length that is stored where the model does not have it: one above 32, which means 32 and is stored so with the next
/// contents, filler too, or one beside a packet that is not there.
#[derive(Clone, Copy)]
pub struct Stored {
    pub class: u8,
    /// The model's length, none where it has no packet.
    pub model: Option<usize>,
    pub length: u8,
}

pub struct Asked<'a> {
    to: &'a mut Transcript,
    pub model: Model,
    /// The contents that the last pair gave.
    given: Vec<u8>,
    stored: Option<Stored>,
    /// Whether pairs were decoded since the state was set or read back.
    pub is_unread: bool,
    pub met: Met,
}

impl<'a> Asked<'a> {
    /// Starts with a reset, since `replay` may have read pairs before.
    pub fn new(to: &'a mut Transcript) -> Self {
        let mut asked = Asked {
            to,
            model: Model::default(),
            given: vec![],
            stored: None,
            is_unread: false,
            met: Met::default(),
        };
        asked.reset();
        asked
    }

    pub fn reset(&mut self) {
        self.model = Model::default();
        self.stored = None;
        self.met.set_state();
        self.to.add(0x50, &[], &[]);
    }

    pub fn decode(&mut self, pair: [u8; 2]) {
        let before = self.met.before(&self.model, pair);
        let open = self.model.open().map(|(class, _)| class);
        let answer = self.model.decode(pair);
        if answer.is_ok() && is_contents(pair) && self.stored.map(|stored| stored.class) == open {
            self.stored = None;
        }
        self.met.note(before, &answer);
        self.is_unread = true;
        self.to.add(0x51, &pair, &answer_bytes(&answer));
        self.given.clear();
        if let Ok(Report::Finished(_, packet)) = answer {
            self.given = packet.contents;
            self.read_given();
        }
    }

    /// Asks for the contents that the last pair gave.
    pub fn read_given(&mut self) {
        for (place, answer) in parts(&self.given) {
            self.to.add(0x52, &[place], &answer);
        }
    }

    /// Puts the state of a model in place of the kept one, piece by piece.
    pub fn set(&mut self, model: Model) {
        self.to.add(0x53, &[], &[]);
        self.to.add(0x54, &[model.running.unwrap_or(0)], &[]);
        for (&class, packet) in &model.unfinished {
            self.to.add(0x55, &[class, 1, packet.kind], &[]);
            self.set_contents(class, packet.contents.len() as u8, &packet.contents);
        }
        self.to.add(0x58, &captions_bytes(&model.captions), &[]);
        self.model = model;
        self.stored = None;
        self.is_unread = false;
        self.met.set_state();
    }

    /// Stores a length that the model does not have. Beside a packet that is not there stand bytes, too.
    pub fn store_length(&mut self, stored: Stored) {
        let bytes: &[u8] = match stored.model {
            Some(_) => &[],
            None => b"ABCDE",
        };
        self.set_contents(stored.class, stored.length, bytes);
        self.stored = Some(stored);
    }

    fn set_contents(&mut self, class: u8, length: u8, bytes: &[u8]) {
        self.to.add(0x56, &[class, length], &[]);
        for (number, part) in bytes.chunks(SET).enumerate() {
            let place = (number * SET) as u8;
            self.to.add(0x57, &[&[class, place], part].concat(), &[]);
        }
    }

    /// Asks for every piece of the state.
    pub fn read_back(&mut self) {
        self.is_unread = false;
        self.to.add(0x59, &[], &self.types());
        self.to.add(0x5A, &[], &self.lengths_and_captions());
        for (&class, packet) in &self.model.unfinished {
            for (place, answer) in parts(&packet.contents) {
                self.to.add(0x5B, &[class, place], &answer);
            }
        }
    }

    fn types(&self) -> Vec<u8> {
        let mut bytes = vec![self.model.running.unwrap_or(0)];
        for class in CLASSES {
            let packet = self.model.unfinished.get(&class);
            bytes.extend(packet.map_or([0, 0], |packet| [1, packet.kind]));
        }
        bytes
    }

    fn lengths_and_captions(&self) -> Vec<u8> {
        let mut bytes: Vec<u8> = CLASSES.map(|class| self.length(class)).collect();
        bytes.extend(captions_bytes(&self.model.captions));
        bytes
    }

    fn length(&self, class: u8) -> u8 {
        let packet = self.model.unfinished.get(&class);
        let length = packet.map(|packet| packet.contents.len());
        match self.stored {
            Some(stored) if stored.class == class && stored.model == length => stored.length,
            _ => length.unwrap_or(0) as u8,
        }
    }
}

/// Whether a pair is contents where a packet is open.
fn is_contents(pair: [u8; 2]) -> bool {
    matches!(pair[0] & 0x7F, 0x00 | 0x20..=0x7F)
}

fn answer_bytes(answer: &Result<Report, u8>) -> Vec<u8> {
    match answer {
        Err(refusal) => vec![*refusal],
        Ok(Report::Nothing) => vec![0],
        Ok(Report::Event(event)) => {
            let bytes: [u8; EVENT] = event_bytes(*event);
            [&[0, 1], &bytes[..]].concat()
        }
        Ok(Report::Finished(class, Packet { kind, contents })) => {
            vec![0, 2, *class, *kind, contents.len() as u8]
        }
    }
}

/// The places from which contents are asked for and the answers: how many there are from there on, at most fourteen, and
/// these. The first place is asked for where there are none, too.
fn parts(contents: &[u8]) -> Vec<(u8, Vec<u8>)> {
    assert!(contents.len() <= MOST_CONTENTS);
    let places = (0..contents.len().max(1)).step_by(ANSWERED);
    let part = |place: usize| {
        let bytes = &contents[place..contents.len().min(place + ANSWERED)];
        [&[bytes.len() as u8], bytes].concat()
    };
    places.map(|place| (place as u8, part(place))).collect()
}

/// Whether there is a last pair, the pair, the channel and the field. The crate's receiver does not tell its last pair
/// and its channel, but its debug text does.
fn captions_bytes(state: &Cea608State) -> [u8; 5] {
    let text = format!("{state:?}");
    let pair = text
        .strip_prefix("Cea608State { last_data: ")
        .expect("the debug text begins with the last pair");
    let pair = pair
        .strip_prefix("Some([")
        .and_then(|rest| rest.split_once("])"))
        .map(|(pair, _)| bytes_of(pair));
    let channel = [Channel::ONE, Channel::TWO]
        .into_iter()
        .find(|channel| text.contains(&format!("last_channel: Some({channel:?})")));
    let [first, second] = pair.unwrap_or_default();
    let field = field_byte(state.last_received_field());
    [
        pair.is_some().into(),
        first,
        second,
        channel.map_or(0, channel_byte),
        field,
    ]
}

/// Two bytes as the debug text has them.
fn bytes_of(text: &str) -> [u8; 2] {
    let (first, second) = text.split_once(", ").expect("a pair has two bytes");
    [first, second].map(|byte| byte.parse().expect("a byte in decimal"))
}
