//! The sets of the sender: calls in random order beside the model, and states that are not well
//! formed, each clause of refusal 12 that a state can break broken alone.

use crate::code::with_parity;
use crate::names::{COMMANDS, LETTERS, SYMBOLS};
use crate::queue::{is_command, plain, PLACES};
use crate::queue_sets::{self, every_break, short_sequences};
use crate::random::{Random, SEED};
use crate::rounds::{rounds, stretch, Beside, Steps};
use crate::sender::{is_odd, Asked, Drain, Model, Pieces, LONGEST_OUTPUT};
use crate::transcript::Transcript;
use cea608_types::tables::Code;

const ROUNDS: usize = 200;

const LETTER: Code = LETTERS[33];

/// Rounds of calls, each from a fresh sender or from a state set piece by piece with its start
/// anywhere and a pair owed or none; what can be asked of the state is asked after every call.
pub fn calls(to: &mut Transcript, random: &mut Random) {
    let mut asked = Asked::new(to);
    for codes in short_sequences() {
        for &code in &codes {
            asked.push(code);
            asked.look();
        }
        asked.run_out();
    }
    every_drain(&mut asked);
    refusals_change_nothing(&mut asked, random);
    rounds(&mut asked, random, ROUNDS);
    reached_everything(&asked);
}

impl Steps for Asked<'_> {
    fn any_well_formed(random: &mut Random) -> Pieces {
        well_formed(random)
    }

    /// A send, or now and then a drain.
    fn take(&mut self, random: &mut Random) {
        if random.below(6) == 0 {
            self.drain(any_drain(random));
        } else {
            self.send();
        }
    }

    /// Sends until idle and twice more. By 01 a sender with n codes is idle after at most 3n + 1
    /// sends.
    fn run_out(&mut self) {
        let bound = 3 * self.n_codes() + 1;
        let mut sends = 0;
        while !self.model.is_idle() {
            self.send();
            self.look();
            sends += 1;
        }
        assert!(
            sends <= bound,
            "{sends} sends, where 01 has at most {bound}"
        );
        for _ in 0..2 {
            self.send();
            self.look();
        }
    }
}

/// Numbers past the end of any output, and past what fewer bytes than a `usize` has would hold.
const LARGE: [usize; 7] = [
    LONGEST_OUTPUT + 1,
    0xFF,
    0x100,
    0x10000,
    1 << 32,
    usize::MAX - 1,
    usize::MAX,
];

pub fn any_drain(random: &mut Random) -> Drain {
    let length = random.below(1 + LONGEST_OUTPUT as u32);
    let start = random.below(2 + length);
    let mut drain = Drain {
        length: length as usize,
        start: start as usize,
        limit: random.below(9) as usize,
    };
    if random.below(10) == 0 {
        drain.start = random.pick(&LARGE);
    }
    if random.below(2) == 0 {
        drain.limit = random.pick(&LARGE);
    }
    drain
}

/// Codes that are pushed into a fresh sender, and how many sends follow.
type Before = (Vec<Code>, usize);

/// A fresh sender; one and three letters; a command, its first copy sent or not, also with a code
/// after it; a command that needs a backspace, held or not; two single codes that make a command
/// pair; a full queue of letters and of commands.
fn before_drains() -> Vec<Before> {
    let (scroll, a_acute) = (plain(COMMANDS[13]), plain(SYMBOLS[16]));
    let like_a_command = Code::Unknown(0x14);
    vec![
        (vec![], 0),
        (vec![LETTER], 0),
        (vec![LETTER; 3], 0),
        (vec![scroll], 0),
        (vec![scroll], 1),
        (vec![scroll, LETTER], 1),
        (vec![a_acute], 0),
        (vec![a_acute], 1),
        (vec![LETTER, a_acute, scroll], 0),
        (vec![LETTER, scroll], 1),
        (vec![like_a_command], 0),
        (vec![like_a_command, LETTER, LETTER], 1),
        (vec![LETTER; PLACES], 0),
        (vec![scroll; PLACES], 1),
    ]
}

/// From each such state a drain with every length of output, every start up to past the end, and
/// limits on either side of the sends that there are.
fn every_drain(asked: &mut Asked) {
    for before in before_drains() {
        for length in 0..=LONGEST_OUTPUT {
            for start in (0..=length + 2).chain([usize::MAX]) {
                let unlimited = Drain {
                    length,
                    start,
                    limit: usize::MAX,
                };
                let exact = sends_until_idle(&before).min(unlimited.room());
                for limit in [0, 1, 2, exact, exact + 1, usize::MAX] {
                    drain_after(asked, &before, Drain { limit, ..unlimited });
                }
            }
        }
    }
}

fn drain_after(asked: &mut Asked, (codes, sends): &Before, drain: Drain) {
    asked.reset();
    for &code in codes {
        asked.push(code);
    }
    for _ in 0..*sends {
        asked.send();
    }
    asked.drain(drain);
    asked.look();
    asked.send();
}

fn sends_until_idle((codes, sends): &Before) -> usize {
    let mut model = Model::default();
    for &code in codes {
        model.writer.push(code);
    }
    for _ in 0..*sends {
        model.send();
    }
    let mut left = 0;
    while !model.is_idle() {
        model.send();
        left += 1;
    }
    left
}

/// A push or a drain that is refused, NUL, and what is asked of the state leave it the same in
/// every piece, and so does a drain without room or with a limit of 0.
fn refusals_change_nothing(asked: &mut Asked, random: &mut Random) {
    for waiting in [0, 1, 63, PLACES] {
        for start in [0, 1, 63] {
            let mut pieces = well_formed(random);
            pieces.queue.start = start;
            pieces.queue.waiting = waiting;
            asked.set_well_formed(&pieces);
            asked.push(Code::NUL);
            for code in queue_sets::not_to_queue() {
                asked.push(code);
            }
            if waiting == PLACES {
                asked.push(LETTER);
            }
            for (length, start, limit) in [(14, 0, 0), (0, 0, 7), (1, 0, 7), (9, 8, 7)] {
                asked.drain(Drain {
                    length,
                    start,
                    limit,
                });
            }
            for start in LARGE {
                asked.drain(Drain {
                    length: LONGEST_OUTPUT,
                    start,
                    limit: usize::MAX,
                });
            }
            asked.look();
            asked.read_back(&pieces);
        }
    }
}

/// A comparison that never came to a case would say nothing of it.
fn reached_everything(asked: &Asked) {
    asked.model.writer.met.reached_everything();
    let met = &asked.met;
    for (count, what) in [
        (met.pushes_while_owed, "pushes while a repeat is owed"),
        (met.drains_while_owed, "drains while a repeat is owed"),
        (met.drains_past_end, "drains from past the end"),
        (met.drains_at_limit, "drains to their limit"),
        (met.drains_out_of_room, "drains to the end of their room"),
        (met.drains_to_idle, "drains until idle"),
    ] {
        assert!(count > 100, "too few {what}");
    }
}

/// A pair that may be owed: any command pair of odd parity.
fn any_command_pair(random: &mut Random) -> [u8; 2] {
    let first = 0x10 + random.byte_below(0x10);
    [with_parity(first), with_parity(random.byte_below(0x80))]
}

fn any_owed(random: &mut Random) -> Option<[u8; 2]> {
    match random.below(2) {
        0 => None,
        _ => Some(any_command_pair(random)),
    }
}

fn well_formed(random: &mut Random) -> Pieces {
    Pieces {
        queue: queue_sets::well_formed(random),
        owed: any_owed(random),
    }
}

/// Every clause that a state can break, broken alone, those of the queue and those of the owed pair: each
/// call refuses, and the state that comes back is the same in every piece. A good state in its
/// place works, and a reset takes it to a fresh one.
pub fn ill_formed(to: &mut Transcript, random: &mut Random) {
    let mut asked = Asked::new(to);
    for [first, second] in (0..=0xFFFF).map(u16::to_be_bytes) {
        asked.owing([first, second]);
    }
    for broken_by in every_break() {
        break_and_reset(&mut asked, random, |pieces| broken_by(&mut pieces.queue));
    }
    for pair in not_to_owe() {
        assert!(
            !is_odd(pair) || !is_command(pair),
            "{pair:02X?} may be owed"
        );
        break_and_reset(&mut asked, random, |pieces| pieces.owed = Some(pair));
    }
}

/// The bit of parity turned.
const PARITY: u8 = 0x80;

/// Command pairs whose first byte alone or whose second byte alone is even, with every such byte,
/// and pairs of odd parity with every first byte that is no command's.
fn not_to_owe() -> Vec<[u8; 2]> {
    let mut pairs = vec![];
    for data in 0..0x80 {
        let byte = with_parity(data);
        for (first, second) in [(0x94, 0x25), (0x1F, 0x80)] {
            pairs.push([first, byte ^ PARITY]);
            if is_command([byte, second]) {
                pairs.push([byte ^ PARITY, second]);
            } else {
                pairs.push([byte, second]);
            }
        }
    }
    pairs
}

const DRAINS: [Drain; 4] = [
    Drain {
        length: 14,
        start: 0,
        limit: usize::MAX,
    },
    Drain {
        length: 14,
        start: 3,
        limit: 0,
    },
    // 12 is tested before 11.
    Drain {
        length: 12,
        start: 13,
        limit: 1,
    },
    Drain {
        length: 0,
        start: usize::MAX,
        limit: usize::MAX,
    },
];

/// Every call refuses the state, and leaves it the same in every piece.
fn refuse_everything(asked: &mut Asked, broken: &Pieces) {
    asked.set(broken);
    asked.refused_as_ill_formed(&queue_sets::pushed_when_ill_formed(), &DRAINS);
    asked.read_back(broken);
}

/// Breaks a well-formed state in one way, and puts the good state in its place again.
fn break_alone(asked: &mut Asked, random: &mut Random, broken_by: impl Fn(&mut Pieces)) {
    let good = well_formed(random);
    let mut broken = good.clone();
    broken_by(&mut broken);
    refuse_everything(asked, &broken);
    asked.set_well_formed(&good);
    asked.read_back(&good);
    asked.look();
    asked.send();
    asked.drain(any_drain(random));
    asked.look();
}

/// The same, and then a reset of such a state, which no clause refuses.
fn break_and_reset(asked: &mut Asked, random: &mut Random, broken_by: impl Fn(&mut Pieces)) {
    break_alone(asked, random, &broken_by);
    let mut broken = well_formed(random);
    broken_by(&mut broken);
    asked.set(&broken);
    asked.reset();
    asked.read_back(&Pieces::fresh());
    asked.look();
    asked.drain(DRAINS[0]);
    asked.send();
    asked.read_back(&Pieces::fresh());
}

/// What 01 tried by hand, sent: each command twice.
fn tried_by_hand() -> Vec<(Vec<Code>, Vec<[u8; 2]>)> {
    let (h, i, exclamation) = (LETTERS[0x28], LETTERS[0x49], LETTERS[0x01]);
    let a_acute = plain(SYMBOLS[16]);
    vec![
        (vec![], vec![[0x80, 0x80]]),
        (
            vec![h, a_acute],
            vec![[0xC8, 0x20], [0x92, 0x20], [0x92, 0x20]],
        ),
        (
            vec![a_acute],
            vec![[0x20, 0x80], [0x92, 0x20], [0x92, 0x20]],
        ),
        (vec![h, i, exclamation], vec![[0xC8, 0xE9], [0xA1, 0x80]]),
    ]
}

/// 01's pairs tried by hand, some drains, a few calls from a fixed seed, and a state broken in each
/// of the ways that an owed pair can be wrong.
pub fn sample(to: &mut Transcript) {
    let mut asked = Asked::new(to);
    for (codes, pairs) in tried_by_hand() {
        for code in codes {
            asked.push(code);
        }
        for pair in pairs {
            assert_eq!(asked.send().pair, pair, "01 says so");
        }
        asked.look();
        assert!(asked.model.is_idle());
    }
    full(&mut asked);
    for before in before_drains().into_iter().take(12) {
        for (length, start, limit) in [(14, 0, usize::MAX), (7, 2, 2), (3, 4, 1)] {
            let drain = Drain {
                length,
                start,
                limit,
            };
            drain_after(&mut asked, &before, drain);
        }
    }
    let mut random = Random::from_seed(SEED);
    asked.set_well_formed(&well_formed(&mut random));
    stretch(&mut asked, &mut random, 3);
    for owed in [[0x14, 0x25], [0x94, 0xA5], [0xC8, 0xE9]] {
        let broken = Pieces {
            owed: Some(owed),
            ..Pieces::fresh()
        };
        refuse_everything(&mut asked, &broken);
    }
    asked.reset();
    asked.look();
}

/// Code 65 waiting is refused 7; NUL then is accepted.
fn full(asked: &mut Asked) {
    for _ in 0..=PLACES {
        asked.push(LETTER);
    }
    asked.push(Code::NUL);
    asked.look();
    let [accepted, refused] = [0, 7].map(|answer| asked.model.writer.met.answered[answer]);
    assert_eq!((accepted, refused), (6 + PLACES + 1, 1));
    asked.reset();
    asked.look();
}
