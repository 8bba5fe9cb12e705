//! The sets of the queue: calls in random order beside the crate's writer, and states that are not
//! well formed, each clause of refusal 12 that a state can break broken alone.

use crate::any_code::{any_control, needs_backspace, needs_none, waiting_code};
use crate::code::{control, mid_row_code, preamble_code};
use crate::code_sets::{CHANNELS, FIELDS_OR_NONE, FLAGS};
use crate::names::{COMMANDS, LETTERS, MID_ROW_COLOURS, STYLES, SYMBOLS};
use crate::number::{code_of, number_of};
use crate::queue::{plain, Asked, Pieces, PLACES};
use crate::random::{Random, SEED};
use crate::rounds::{rounds, stretch, Beside, Steps};
use crate::transcript::Transcript;
use cea608_types::tables::{Channel, Code, Control, Field};

const ROUNDS: usize = 300;

/// Rounds of calls, each from a fresh queue or from a state set piece by piece with its start
/// anywhere, so that the codes cross the ring's seam; the count is asked after every call.
pub fn calls(to: &mut Transcript, random: &mut Random) {
    let mut asked = Asked::new(to);
    for codes in short_sequences() {
        push_all_and_pop(&mut asked, &codes);
    }
    every_number(&mut asked);
    every_code_that_may_wait(&mut asked);
    refusals_change_nothing(&mut asked, random);
    rounds(&mut asked, random, ROUNDS);
    asked.writer.met.reached_everything();
}

/// Sequences of a few codes, in which every case of a pop is met.
pub fn short_sequences() -> Vec<Vec<Code>> {
    [
        every_unknown(),
        every_unknown_of_two_bytes(),
        every_command_that_needs_a_backspace(),
        every_three_kinds(),
    ]
    .concat()
}

/// Each `Unknown` of one byte, by itself and on either side of a letter.
fn every_unknown() -> Vec<Vec<Code>> {
    let mut all = vec![];
    for byte in 0..=0xFF {
        let (unknown, letter) = (Code::Unknown(byte), LETTERS[33]);
        all.extend([vec![unknown], vec![letter, unknown], vec![unknown, letter]]);
    }
    all
}

/// Each first byte of an `Unknown` of two bytes, before second bytes on either side of the ends of
/// 0x20 to 0x2F and of 0x80, on every channel and field, with a letter before it and one after it.
fn every_unknown_of_two_bytes() -> Vec<Vec<Code>> {
    let mut all = vec![];
    for first in 0..=0xFF {
        for second in [0x1F, 0x20, 0x2F, 0x30, 0x7F, 0x80] {
            for (field, channel) in every_field_and_channel() {
                let unknown = control(field, channel, Control::Unknown([first, second]));
                all.push(vec![LETTERS[33], unknown, LETTERS[33]]);
            }
        }
    }
    all
}

fn every_field_and_channel() -> impl Iterator<Item = (Option<Field>, Channel)> {
    FIELDS_OR_NONE
        .into_iter()
        .flat_map(|field| CHANNELS.map(|channel| (field, channel)))
}

/// By itself, after one single code and after two, on both channels.
fn every_command_that_needs_a_backspace() -> Vec<Vec<Code>> {
    let mut commands = SYMBOLS[16..].to_vec();
    for underline in FLAGS {
        commands.extend((0..MID_ROW_COLOURS).map(|colour| mid_row_code(colour, underline)));
    }
    let mut all = vec![];
    for channel in CHANNELS {
        for &code in &commands {
            let (command, letter) = (control(None, channel, code), LETTERS[33]);
            all.extend([
                vec![command],
                vec![letter, command],
                vec![letter, letter, command],
            ]);
        }
    }
    all
}

/// Every sequence of three codes of these kinds.
fn every_three_kinds() -> Vec<Vec<Code>> {
    let kinds = [
        Code::NUL,
        LETTERS[33],
        Code::Unknown(0x14),
        Code::Unknown(0x80),
        plain(mid_row_code(0, false)),
        plain(SYMBOLS[16]),
        plain(SYMBOLS[0]),
        plain(COMMANDS[5]),
        plain(preamble_code(14, STYLES[8], false)),
        plain(preamble_code(15, STYLES[8], false)),
        plain(Control::Unknown([0x41, 0x42])),
        plain(Control::Unknown([0x1F, 0x42])),
        plain(Control::Unknown([0x14, 0x80])),
    ];
    let mut all = vec![];
    for first in kinds {
        for second in kinds {
            all.extend(kinds.map(|third| vec![first, second, third]));
        }
    }
    all
}

fn push_all_and_pop(asked: &mut Asked, codes: &[Code]) {
    for &code in codes {
        asked.push(code);
        asked.look();
    }
    asked.run_out();
}

/// Each of the 65,536 numbers, alone in the ring: what is sent is what the crate sends of its code.
fn every_number(asked: &mut Asked) {
    for number in 0..=u16::MAX {
        asked.one_number(number);
        asked.look();
        asked.run_out();
    }
}

/// Each code that may wait, pushed into a fresh queue: it is kept by its own number.
fn every_code_that_may_wait(asked: &mut Asked) {
    let codes: Vec<Code> = (0..=u16::MAX).map(code_of).collect();
    let mut seen = 0;
    for (number, &code) in codes.iter().enumerate() {
        if usize::from(number_of(code)) == number {
            asked.reset();
            asked.push(code);
            asked.number_of_first(number as u16);
            seen += 1;
        }
        assert_eq!(code_of(number_of(code)), code);
    }
    assert_eq!(seen, MAY_WAIT);
}

/// 96 letters, 128 `Unknown`s of one byte, and 2,643 controls on three fields and two channels.
const MAY_WAIT: usize = 96 + 128 + 2643 * 6;

/// A push that is refused, NUL and a count leave the state the same in every piece.
fn refusals_change_nothing(asked: &mut Asked, random: &mut Random) {
    for waiting in [0, 1, 63, 64] {
        for start in [0, 1, 63] {
            let pieces = Pieces {
                start,
                waiting,
                ..well_formed(random)
            };
            asked.set_well_formed(&pieces);
            asked.push(Code::NUL);
            for code in not_to_queue() {
                asked.push(code);
            }
            if waiting == PLACES {
                asked.push(LETTERS[33]);
            }
            asked.look();
            asked.read_back(&pieces);
        }
    }
}

impl Steps for Asked<'_> {
    fn any_well_formed(random: &mut Random) -> Pieces {
        well_formed(random)
    }

    fn take(&mut self, _: &mut Random) {
        self.pop();
    }

    /// Pops twice for each code and three times more, which is to the last code and beyond.
    fn run_out(&mut self) {
        for _ in 0..=2 * self.n_codes() + 2 {
            self.pop();
            self.look();
        }
    }
}

/// A well-formed state. Every place has the number of a code that may wait, or any number at all.
pub fn well_formed(random: &mut Random) -> Pieces {
    let any = random.below(4) == 0;
    let held = match random.below(3) {
        0 => None,
        1 => Some(number_of(any_control(random, needs_backspace))),
        _ => Some(number_of(any_control(random, needs_none))),
    };
    Pieces {
        places: [(); PLACES].map(|()| match any {
            true => random.below(0x1_0000) as u16,
            false => number_of(waiting_code(random)),
        }),
        start: random.pick(&[0, 1, 31, 60, 61, 62, 63]),
        waiting: random.pick(&[0, 1, 2, 3, 40, 62, 63, 64]),
        held,
    }
}

/// Every clause that a state can break, in several states each: each call refuses, and the
/// state that comes back is the same in every piece. A good state in its place works, and a reset
/// takes it to a fresh one.
pub fn ill_formed(to: &mut Transcript, random: &mut Random) {
    let mut asked = Asked::new(to);
    for _ in 0..2 {
        for broken_by in every_break() {
            break_and_reset(&mut asked, random, broken_by);
        }
    }
}

/// What breaks a well-formed state.
pub type Break = Box<dyn Fn(&mut Pieces)>;

/// Each clause that a state can break, broken alone in several ways, and at last two at once.
pub fn every_break() -> Vec<Break> {
    let mut all: Vec<Break> = vec![];
    for start in NUMBERS {
        all.push(Box::new(move |pieces| pieces.start = start));
    }
    for waiting in NUMBERS.into_iter().filter(|&number| number > PLACES) {
        all.push(Box::new(move |pieces| pieces.waiting = waiting));
    }
    for number in NOT_TO_HOLD {
        all.push(Box::new(move |pieces| pieces.held = Some(number)));
    }
    all.push(Box::new(|pieces| {
        pieces.start = usize::MAX;
        pieces.waiting = usize::MAX;
    }));
    all
}

const NUMBERS: [usize; 14] = [
    64,
    65,
    66,
    100,
    127,
    128,
    255,
    256,
    1 << 31,
    1 << 32,
    1 << 63,
    (1 << 63) + 5,
    usize::MAX - 63,
    usize::MAX,
];

/// What refusals 2, 3 and 18 are about. 2 is tested before 18.
pub fn not_to_queue() -> Vec<Code> {
    let mut codes: Vec<Code> = [0x80, 0xC1, 0xFF].map(Code::Unknown).into();
    for bytes in [[0x80, 0x20], [0x14, 0x80], [0x41, 0x80], [0xFF, 0xFF]] {
        codes.push(plain(Control::Unknown(bytes)));
    }
    for bytes in [
        [0x00, 0x00],
        [0x0F, 0x41],
        [0x20, 0x20],
        [0x41, 0x42],
        [0x7F, 0x7F],
    ] {
        codes.extend(CHANNELS.map(|channel| control(None, channel, Control::Unknown(bytes))));
    }
    for row in [15, 16, 255] {
        codes.push(plain(preamble_code(row, STYLES[0], false)));
    }
    codes
}

/// The numbers of single codes. Each other number is that of a code that may be held.
const NOT_TO_HOLD: [u16; 14] = [
    0x8000, 0x8001, 0x801F, 0x8020, 0x8041, 0x807F, 0x8080, 0x8094, 0x80FF, 0x9000, 0xA000, 0xC000,
    0xFFFE, 0xFFFF,
];

/// What is pushed into a state that is not well formed: 12 is tested before all else.
pub fn pushed_when_ill_formed() -> [Code; 5] {
    [
        Code::NUL,
        LETTERS[33],
        Code::Unknown(0x80),
        plain(preamble_code(15, STYLES[0], false)),
        plain(Control::Unknown([0x41, 0x42])),
    ]
}

/// Breaks a well-formed state in one way.
fn break_alone(asked: &mut Asked, random: &mut Random, broken_by: impl Fn(&mut Pieces)) {
    let good = well_formed(random);
    let mut broken = good.clone();
    broken_by(&mut broken);
    asked.set(&broken);
    asked.refused_as_ill_formed(&pushed_when_ill_formed());
    asked.read_back(&broken);
    asked.set_well_formed(&good);
    asked.read_back(&good);
    asked.look();
    asked.pop();
    asked.look();
}

/// The same, and then a reset of such a state, which no clause refuses.
fn break_and_reset(asked: &mut Asked, random: &mut Random, broken_by: impl Fn(&mut Pieces)) {
    break_alone(asked, random, &broken_by);
    let mut broken = well_formed(random);
    broken_by(&mut broken);
    asked.set(&broken);
    asked.reset();
    asked.read_back(&Pieces::fresh());
    asked.look();
    asked.pop();
}

/// A few calls from a fixed seed.
pub fn sample(to: &mut Transcript) {
    let mut asked = Asked::new(to);
    let mut random = Random::from_seed(SEED);
    for level in [3, 64] {
        asked.set_well_formed(&well_formed(&mut random));
        stretch(&mut asked, &mut random, level);
        asked.run_out();
    }
    break_alone(&mut asked, &mut random, |pieces| pieces.start = 64);
}
