//! The queries of the sender. The crate has no sender, nor a drain: its writer gives the pairs, and
//! what is sent a second time is said here, from 01. An owed repeat goes first; else a pair is
//! popped, and is owed again where its first byte, stripped, is 0x10 to 0x1F. Refusal 11 is due where
//! a drain starts past the end of its output, and 12 as for the queue.

use crate::queue::{self, count_answer, is_command, Writer, ILL_FORMED};
use crate::rounds::Beside;
use crate::transcript::Transcript;
use crate::values::code_bytes;
use cea608_types::tables::Code;

const PAST_END: u8 = 11;

/// The bytes before a drain. The output is as many of them as a query says.
const BYTES: [u8; 14] = [
    0xE0, 0xE1, 0xE2, 0xE3, 0xE4, 0xE5, 0xE6, 0xE7, 0xE8, 0xE9, 0xEA, 0xEB, 0xEC, 0xED,
];

pub const LONGEST_OUTPUT: usize = BYTES.len();

pub fn is_odd(pair: [u8; 2]) -> bool {
    pair.iter().all(|byte| byte.count_ones() % 2 == 1)
}

/// A pair that was sent, and the codes that the queue took for it, unless it is a repeat.
#[derive(Clone)]
pub struct Sent {
    pub pair: [u8; 2],
    pub taken: Option<Vec<Code>>,
}

/// 01's sender over the crate's writer.
#[derive(Default)]
pub struct Model {
    pub writer: Writer,
    pub owed: Option<[u8; 2]>,
}

impl Model {
    pub fn send(&mut self) -> Sent {
        if let Some(pair) = self.owed.take() {
            return Sent { pair, taken: None };
        }
        let pair = self.writer.pop();
        self.owed = is_command(pair).then_some(pair);
        let taken = Some(self.writer.taken.clone());
        Sent { pair, taken }
    }

    pub fn is_idle(&self) -> bool {
        self.writer.n_codes() == 0 && self.owed.is_none()
    }

    fn drain(&mut self, output: &mut [u8], start: usize, limit: usize) -> Result<Vec<Sent>, u8> {
        let part = output.get_mut(start..).ok_or(PAST_END)?;
        let mut all = vec![];
        for room in part.chunks_exact_mut(2).take(limit) {
            if self.is_idle() {
                break;
            }
            let sent = self.send();
            room.copy_from_slice(&sent.pair);
            all.push(sent);
        }
        Ok(all)
    }
}

/// A state of the sender, piece by piece.
#[derive(Clone)]
pub struct Pieces {
    pub queue: queue::Pieces,
    pub owed: Option<[u8; 2]>,
}

impl Pieces {
    pub fn fresh() -> Self {
        Pieces {
            queue: queue::Pieces::fresh(),
            owed: None,
        }
    }
}

/// What a drain is asked.
#[derive(Clone, Copy)]
pub struct Drain {
    pub length: usize,
    pub start: usize,
    pub limit: usize,
}

impl Drain {
    /// How many pairs there is room for.
    pub fn room(&self) -> usize {
        self.length.saturating_sub(self.start) / 2
    }

    fn query(&self) -> Vec<u8> {
        let length = [self.length as u8];
        [&length[..], &seven(self.start), &seven(self.limit)].concat()
    }
}

/// A number in the seven bytes that the query has for it.
fn seven(number: usize) -> [u8; 7] {
    let [low @ .., high] = number.to_le_bytes();
    assert_eq!(low[6], high, "{number} cannot be put to a drain");
    low
}

fn owed_bytes(owed: Option<[u8; 2]>) -> [u8; 3] {
    let [first, second] = owed.unwrap_or_default();
    [owed.is_some().into(), first, second]
}

/// How often a call came upon what it should come upon.
#[derive(Default)]
pub struct Met {
    pub pushes_while_owed: usize,
    pub drains_while_owed: usize,
    pub drains_past_end: usize,
    pub drains_at_limit: usize,
    pub drains_out_of_room: usize,
    pub drains_to_idle: usize,
}

/// The model, beside the sender that `replay` keeps.
pub struct Asked<'a> {
    to: &'a mut Transcript,
    pub model: Model,
    pub met: Met,
}

impl<'a> Asked<'a> {
    /// Begins with a fresh sender.
    pub fn new(to: &'a mut Transcript) -> Self {
        to.add(0x45, &[], &[]);
        Asked {
            to,
            model: Model::default(),
            met: Met::default(),
        }
    }

    pub fn send(&mut self) -> Sent {
        let sent = self.model.send();
        let [first, second] = sent.pair;
        self.to.add(0x41, &[], &[0, first, second]);
        sent
    }

    pub fn count(&mut self) {
        let answer = count_answer(self.n_codes());
        self.to.add(0x42, &[], &answer);
    }

    pub fn ask_idle(&mut self) -> bool {
        let idle = self.model.is_idle();
        self.to.add(0x43, &[], &[0, idle.into()]);
        idle
    }

    /// What the drain sends, which is in its output from the start on.
    pub fn drain(&mut self, drain: Drain) -> Vec<Sent> {
        self.met.drains_while_owed += usize::from(self.model.owed.is_some());
        let mut bytes = BYTES;
        let output = &mut bytes[..drain.length];
        let drained = self.model.drain(output, drain.start, drain.limit);
        let (refusal, sent) = match drained {
            Ok(sent) => (0, sent),
            Err(refusal) => (refusal, vec![]),
        };
        self.note(drain, refusal, sent.len());
        let answer = [&[refusal, sent.len() as u8], &bytes[..]].concat();
        self.to.add(0x48, &drain.query(), &answer);
        sent
    }

    fn note(&mut self, drain: Drain, refusal: u8, sends: usize) {
        if refusal == PAST_END {
            self.met.drains_past_end += 1;
            return;
        }
        self.met.drains_at_limit += usize::from(sends == drain.limit);
        self.met.drains_out_of_room += usize::from(sends == drain.room());
        let stopped_early = sends < drain.limit.min(drain.room());
        self.met.drains_to_idle += usize::from(stopped_early);
    }

    /// Sets the sender to any state.
    pub fn set(&mut self, pieces: &Pieces) {
        pieces.queue.set(self.to);
        self.set_owed(pieces.owed);
    }

    fn set_owed(&mut self, owed: Option<[u8; 2]>) {
        self.to.add(0x46, &owed_bytes(owed), &[]);
    }

    fn read_owed(&mut self, owed: Option<[u8; 2]>) {
        self.to.add(0x47, &[], &owed_bytes(owed));
    }

    /// Reads the whole state, which shall be these pieces.
    pub fn read_back(&mut self, pieces: &Pieces) {
        pieces.queue.read_back(self.to);
        self.read_owed(pieces.owed);
    }

    /// Every call that tests the state, on one that is not well formed.
    pub fn refused_as_ill_formed(&mut self, pushed: &[Code], drains: &[Drain]) {
        for &code in pushed {
            self.to.add(0x40, &code_bytes(code), &[ILL_FORMED]);
        }
        for kind in [0x41, 0x42, 0x43] {
            self.to.add(kind, &[], &[ILL_FORMED]);
        }
        for drain in drains {
            let answer = [&[ILL_FORMED, 0], &BYTES[..]].concat();
            self.to.add(0x48, &drain.query(), &answer);
        }
    }

    /// An owed pair beside an empty queue, which is refused unless the pair may be owed.
    pub fn owing(&mut self, pair: [u8; 2]) {
        self.set_owed(Some(pair));
        if is_odd(pair) && is_command(pair) {
            self.to.add(0x43, &[], &[0, 0]);
            self.to.add(0x41, &[], &[0, pair[0], pair[1]]);
        } else {
            self.to.add(0x43, &[], &[ILL_FORMED]);
        }
    }
}

impl Beside for Asked<'_> {
    type Pieces = Pieces;

    fn push(&mut self, code: Code) {
        self.met.pushes_while_owed += usize::from(self.model.owed.is_some());
        let refusal = self.model.writer.push(code);
        self.to.add(0x40, &code_bytes(code), &[refusal]);
    }

    fn reset(&mut self) {
        self.model.writer.reset();
        self.model.owed = None;
        self.to.add(0x44, &[], &[]);
    }

    fn set_well_formed(&mut self, pieces: &Pieces) {
        self.set(pieces);
        self.model.writer.bring_to(&pieces.queue);
        self.model.owed = pieces.owed;
    }

    fn look(&mut self) {
        self.count();
        self.ask_idle();
        self.read_owed(self.model.owed);
    }

    fn n_codes(&self) -> usize {
        self.model.writer.n_codes()
    }
}
