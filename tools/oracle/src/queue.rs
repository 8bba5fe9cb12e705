//! The queries of the queue. Each call is put to the crate's writer at the same time, and its answer
//! is what the writer says. What the crate does not have is said here: refusals 2 and 3 are those of
//! writing the code, 18 is due to text dressed as a command, 7 where 64 codes wait and the crate would
//! grow, and 12 is the answer of a push, a pop and a count to a state that its clauses rule out. What
//! is refused is not put to the writer.

use crate::code::{control, written};
use crate::names::LETTERS;
use crate::number::code_of;
use crate::rounds::Beside;
use crate::transcript::Transcript;
use crate::values::code_bytes;
use cea608_types::tables::{Channel, Code, Control, ControlCode};
use cea608_types::Cea608Writer;
use std::collections::VecDeque;

pub const PLACES: usize = 64;

const FULL: u8 = 7;
pub const ILL_FORMED: u8 = 12;
pub const NOT_A_COMMAND: u8 = 18;

/// What pushes and pops came upon.
#[derive(Default)]
pub struct Met {
    /// How often each refusal was due, by its number, and 0 for accepted pushes.
    pub answered: [usize; 19],
    nul_while_full: usize,
    text_while_full: usize,
    /// How many pairs were made of each kind of codes, in the order of `Made`.
    made: [usize; KINDS],
}

impl Met {
    pub fn add(&mut self, others: &Met) {
        for (count, other) in self.answered.iter_mut().zip(others.answered) {
            *count += other;
        }
        for (count, other) in self.made.iter_mut().zip(others.made) {
            *count += other;
        }
        self.nul_while_full += others.nul_while_full;
        self.text_while_full += others.text_while_full;
    }

    /// A comparison that never came to a case would say nothing of it.
    pub fn reached_everything(&self) {
        for refusal in [0, 2, 3, 7, usize::from(NOT_A_COMMAND)] {
            assert!(self.answered[refusal] > 100, "too few answers {refusal}");
        }
        assert!(self.nul_while_full > 10, "too few NULs into a full queue");
        assert!(self.text_while_full > 10, "too few 18s of a full queue");
        let every_kind = self.made.iter().all(|&count| count > 100);
        assert!(every_kind, "too few pairs of a kind: {:?}", self.made);
    }
}

/// What a pair can be made of.
#[derive(Clone, Copy)]
enum Made {
    OfNoCode,
    OfSingles,
    WithHalfACommandFirst,
    OfAnUnknownOfTwoBytes,
    OfAnotherOfTwoBytes,
}

const KINDS: usize = Made::OfAnotherOfTwoBytes as usize + 1;

fn kind_of(taken: &[Code]) -> Made {
    match taken.first() {
        None => Made::OfNoCode,
        Some(&code) if is_half_command(code) => Made::WithHalfACommandFirst,
        Some(Code::Control(ControlCode {
            control: Control::Unknown(_),
            ..
        })) => Made::OfAnUnknownOfTwoBytes,
        Some(Code::Control(_)) => Made::OfAnotherOfTwoBytes,
        Some(_) => Made::OfSingles,
    }
}

/// A one-byte `Unknown` of 0x10 to 0x1F.
pub fn is_half_command(code: Code) -> bool {
    matches!(code, Code::Unknown(byte) if is_first_of_command(byte))
}

/// Text dressed as a command: a two-byte `Unknown` whose first byte, as it is stored, is not 0x10 to
/// 0x1F.
fn is_dressed(code: Code) -> bool {
    match code {
        Code::Control(ControlCode {
            control: Control::Unknown([first, _]),
            ..
        }) => !is_first_of_command(first),
        _ => false,
    }
}

fn is_first_of_command(byte: u8) -> bool {
    (0x10..=0x1F).contains(&byte)
}

/// Whether a pair is sent twice.
pub fn is_command(pair: [u8; 2]) -> bool {
    is_first_of_command(pair[0] & 0x7F)
}

/// The crate's writer, with a push refused where 01 and T-04 refuse it.
#[derive(Default)]
pub struct Writer {
    writer: Cea608Writer,
    /// The codes that are in the writer, in order.
    inside: VecDeque<Code>,
    /// The codes that the last pop took.
    pub taken: Vec<Code>,
    pub met: Met,
}

impl Writer {
    pub fn n_codes(&self) -> usize {
        self.writer.n_codes()
    }

    /// The writer does not tell which of its codes is held, but its debug text does.
    fn is_full(&self) -> bool {
        let codes = self.writer.n_codes();
        let holds = || !format!("{:?}", self.writer).ends_with("pending_code: None }");
        codes > PLACES || codes == PLACES && !holds()
    }

    /// The number of the refusal, or 0.
    pub fn push(&mut self, code: Code) -> u8 {
        let refusal = self.refusal_of(code);
        if refusal == 0 {
            self.put(code);
        }
        self.met.answered[usize::from(refusal)] += 1;
        refusal
    }

    fn put(&mut self, code: Code) {
        self.writer.push(code);
        if code != Code::NUL {
            self.inside.push_back(code);
        }
    }

    fn refusal_of(&mut self, code: Code) -> u8 {
        let full = self.is_full();
        if code == Code::NUL {
            self.met.nul_while_full += usize::from(full);
            return 0;
        }
        let (pair, length) = match written(code) {
            Err(refusal) => return refusal,
            Ok(written) => written,
        };
        // The crate judges too: it reads the pair as single codes.
        assert_eq!(is_dressed(code), length == 2 && is_read_as_singles(pair));
        if is_dressed(code) {
            self.met.text_while_full += usize::from(full);
            return NOT_A_COMMAND;
        }
        if full {
            FULL
        } else {
            0
        }
    }

    pub fn pop(&mut self) -> [u8; 2] {
        let before = self.n_codes();
        let pair = self.writer.pop();
        self.taken = self.inside.drain(..before - self.n_codes()).collect();
        self.met.made[kind_of(&self.taken) as usize] += 1;
        check_made(pair, &self.taken, self.inside.front().copied());
        pair
    }

    pub fn reset(&mut self) {
        self.writer.reset();
        self.inside.clear();
    }

    /// Brings the writer into a well-formed state.
    pub fn bring_to(&mut self, pieces: &Pieces) {
        self.reset();
        if let Some(held) = pieces.held {
            // A single code first: the pop sends it and holds the command.
            self.writer.push(LETTERS[0]);
            self.put(code_of(held));
            self.writer.pop();
        }
        for place in 0..pieces.waiting {
            self.put(code_of(pieces.places[(pieces.start + place) % PLACES]));
        }
    }
}

fn is_read_as_singles(pair: [u8; 2]) -> bool {
    Code::from_data(pair).is_ok_and(|[first, _]| first.byte_len() == 1)
}

/// Whether a pair is to be a command pair, by the codes that it is made of: a two-byte code is among
/// them, or half a command is the first.
pub fn made_as_command(taken: &[Code]) -> bool {
    let half_first = taken.first().is_some_and(|&code| is_half_command(code));
    half_first || taken.iter().any(|code| code.byte_len() == 2)
}

/// T-04's law, of the crate's own pair: it is what its codes are written as, before the code that is
/// next, and a command pair exactly where they make it one.
fn check_made(pair: [u8; 2], taken: &[Code], next: Option<Code>) {
    let of = |code| written(code).expect("what was accepted can be written").0;
    let made = match *taken {
        [] if next.is_none() => [0x80, 0x80],
        [] => [0x20, 0x80],
        [code] if code.byte_len() == 2 => of(code),
        [code] if next.is_some_and(|next| next.needs_backspace()) => [of(code)[0], 0x20],
        [code] => [of(code)[0], 0x80],
        [first, second] => [of(first)[0], of(second)[0]],
        _ => panic!("{taken:?} in one pair"),
    };
    assert_eq!(pair, made, "of {taken:?} before {next:?}");
    assert_eq!(is_command(pair), made_as_command(taken), "of {taken:?}");
}

/// A state of the queue, piece by piece, which a caller may hand in. A code is there by its number.
#[derive(Clone)]
pub struct Pieces {
    pub places: [u16; PLACES],
    pub start: usize,
    pub waiting: usize,
    pub held: Option<u16>,
}

impl Pieces {
    pub fn fresh() -> Self {
        Pieces {
            places: [0; PLACES],
            start: 0,
            waiting: 0,
            held: None,
        }
    }

    /// Sets the queue that `replay` keeps to these pieces.
    pub fn set(&self, to: &mut Transcript) {
        to.add(0x34, &[], &[]);
        to.add(0x35, &self.start.to_le_bytes(), &[]);
        to.add(0x36, &self.waiting.to_le_bytes(), &[]);
        for (place, number) in self.places.into_iter().enumerate() {
            if number != 0 {
                set_place(to, place as u8, number);
            }
        }
        let [low, high] = self.held.unwrap_or(0).to_le_bytes();
        to.add(0x38, &[low, high, self.held.is_some().into()], &[]);
    }

    /// Reads the whole queue, which shall be these pieces.
    pub fn read_back(&self, to: &mut Transcript) {
        let numbers = [self.start.to_le_bytes(), self.waiting.to_le_bytes()].concat();
        to.add(0x39, &[], &numbers);
        for (place, number) in self.places.into_iter().enumerate() {
            read_place(to, place as u8, number);
        }
        let [low, high] = self.held.unwrap_or(0).to_le_bytes();
        to.add(0x3B, &[], &[self.held.is_some().into(), low, high]);
    }
}

fn set_place(to: &mut Transcript, place: u8, number: u16) {
    let [low, high] = number.to_le_bytes();
    to.add(0x37, &[low, high, place], &[]);
}

fn read_place(to: &mut Transcript, place: u8, number: u16) {
    let [low, high] = number.to_le_bytes();
    to.add(0x3A, &[place], &[0, low, high]);
}

/// The answer of a count: no refusal, and the number.
pub fn count_answer(codes: usize) -> [u8; 9] {
    let mut answer = [0; 9];
    answer[1..].copy_from_slice(&codes.to_le_bytes());
    answer
}

/// The crate's writer, beside the queue that `replay` keeps.
pub struct Asked<'a> {
    to: &'a mut Transcript,
    pub writer: Writer,
}

impl<'a> Asked<'a> {
    /// Begins with a fresh queue.
    pub fn new(to: &'a mut Transcript) -> Self {
        to.add(0x34, &[], &[]);
        let writer = Writer::default();
        Asked { to, writer }
    }

    pub fn pop(&mut self) {
        let [first, second] = self.writer.pop();
        self.to.add(0x31, &[], &[0, first, second]);
    }

    /// One number waits in a fresh queue, as a caller may have it.
    pub fn one_number(&mut self, number: u16) {
        self.writer.reset();
        self.writer.put(code_of(number));
        self.to.add(0x34, &[], &[]);
        set_place(self.to, 0, number);
        self.to.add(0x36, &1_u64.to_le_bytes(), &[]);
    }

    /// The number at the first place, once a code was pushed into a fresh queue.
    pub fn number_of_first(&mut self, number: u16) {
        read_place(self.to, 0, number);
    }

    /// Sets the queue to any state.
    pub fn set(&mut self, pieces: &Pieces) {
        pieces.set(self.to);
    }

    /// Every call that tests the state, on one that is not well formed.
    pub fn refused_as_ill_formed(&mut self, pushed: &[Code]) {
        for &code in pushed {
            self.to.add(0x30, &code_bytes(code), &[ILL_FORMED]);
        }
        self.to.add(0x31, &[], &[ILL_FORMED]);
        self.to.add(0x32, &[], &[ILL_FORMED]);
    }

    pub fn read_back(&mut self, pieces: &Pieces) {
        pieces.read_back(self.to);
    }
}

impl Beside for Asked<'_> {
    type Pieces = Pieces;

    fn push(&mut self, code: Code) {
        let refusal = self.writer.push(code);
        self.to.add(0x30, &code_bytes(code), &[refusal]);
    }

    fn reset(&mut self) {
        self.writer.reset();
        self.to.add(0x33, &[], &[]);
    }

    fn set_well_formed(&mut self, pieces: &Pieces) {
        self.set(pieces);
        self.writer.bring_to(pieces);
    }

    fn look(&mut self) {
        let answer = count_answer(self.n_codes());
        self.to.add(0x32, &[], &answer);
    }

    fn n_codes(&self) -> usize {
        self.writer.n_codes()
    }
}

/// A control code of channel one with no field.
pub fn plain(code: Control) -> Code {
    control(None, Channel::ONE, code)
}
