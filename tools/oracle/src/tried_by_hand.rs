//! 01's pairs tried by hand, all of them, in its order. Those marked P are computed by a proof too;
//! the others are run here. What 01 says of each stands beside it, as answers of docs/TESTING.md, and
//! the crate's answers are those.

use crate::code::{preamble_code, read_pair, write_code};
use crate::names::{LETTERS, STYLES, SYMBOLS};
use crate::queue::{plain, Asked, PLACES};
use crate::receiver::{Receiver, HI, PADDING, ROLL_UP_2};
use crate::rounds::Beside;
use crate::transcript::Transcript;
use cea608_types::tables::Code;

const H: Code = LETTERS[0x28];
const I: Code = LETTERS[0x49];
const EXCLAMATION: Code = LETTERS[0x01];

const ACCEPTED: &[u8] = &[0];
const FULL: &[u8] = &[7];

/// The event of 94 25 on channel one, and none; field one was named last.
const TWO_ROWS: &[u8] = &[0, 1, 1, 1, 2, 0, 0, 0, 0, 0, 0, 0, 0, 0, 0, 1];
const NONE_AFTER_IT: &[u8] = &[0, 0, 0, 0, 0, 0, 0, 0, 0, 0, 0, 0, 0, 0, 0, 1];

/// What a reset and a new queue answer.
const NOTHING: &[u8] = &[];

pub fn tried_by_hand(to: &mut Transcript) {
    pairs_read(to);
    pairs_heard(to);
    codes_queued(to);
    rows_written(to);
    code_65(to);
}

/// Asks, and holds the crate's answers against 01's.
fn tried(to: &mut Transcript, ask: impl FnOnce(&mut Transcript), says: &[&[u8]]) {
    let before = to.answers.len();
    ask(to);
    assert!(to.answered_since(before, says), "not {says:02X?}");
}

/// P: row 10 white; `Unknown`; erase for field two and for field one; tab 1; italics.
fn pairs_read(to: &mut Transcript) {
    for (pair, code) in [
        ([0x10, 0x40], [7, 0, 1, 10, 0, 0]),
        ([0x10, 0xE0], [8, 0, 1, 0x10, 0x60, 0]),
        ([0x15, 0x2C], [5, 2, 1, 12, 0, 0]),
        ([0x94, 0x2C], [5, 1, 1, 12, 0, 0]),
        ([0x97, 0xA1], [6, 0, 1, 1, 0, 0]),
        ([0x91, 0xAE], [3, 0, 1, 7, 0, 0]),
    ] {
        let answer = [&[0], &code[..]].concat();
        tried(to, |to| read_pair(to, pair), &[&answer]);
    }
}

/// P: a command three times is an event, none and an event; with padding between, two events; text
/// for a fresh receiver is none.
fn pairs_heard(to: &mut Transcript) {
    for (pairs, says) in [
        (
            &[ROLL_UP_2, ROLL_UP_2, ROLL_UP_2][..],
            &[NOTHING, TWO_ROWS, NONE_AFTER_IT, TWO_ROWS][..],
        ),
        (
            &[ROLL_UP_2, PADDING, ROLL_UP_2],
            &[NOTHING, TWO_ROWS, NONE_AFTER_IT, TWO_ROWS],
        ),
        (&[HI], &[NOTHING, &[0]]),
    ] {
        tried(to, |to| Receiver::fresh(to).decode_all(pairs), says);
    }
}

/// P: an empty queue, H before Á, Á alone. Then H i !, which is not marked.
fn codes_queued(to: &mut Transcript) {
    let a_acute = plain(SYMBOLS[16]);
    for (codes, pairs) in [
        (&[][..], &[PADDING][..]),
        (&[H, a_acute], &[[0xC8, 0x20], [0x92, 0x20]]),
        (&[a_acute], &[[0x20, 0x80], [0x92, 0x20]]),
        (&[H, I, EXCLAMATION], &[[0xC8, 0xE9], [0xA1, 0x80]]),
    ] {
        queued(to, codes, pairs);
    }
}

/// Codes that are pushed into a fresh queue, and the pairs that are popped.
pub fn queued(to: &mut Transcript, codes: &[Code], pairs: &[[u8; 2]]) {
    let sent: Vec<[u8; 3]> = pairs.iter().map(|&[a, b]| [0, a, b]).collect();
    let mut says = vec![NOTHING];
    says.extend(codes.iter().map(|_| ACCEPTED));
    says.extend(sent.iter().map(|answer| &answer[..]));
    let ask = |to: &mut Transcript| {
        let mut asked = Asked::new(to);
        codes.iter().for_each(|&code| asked.push(code));
        pairs.iter().for_each(|_| asked.pop());
    };
    tried(to, ask, &says);
}

/// Row 14 is written, 15 refused 3.
fn rows_written(to: &mut Transcript) {
    for (row, says) in [(14, &[0, 0x94, 0xE0, 2][..]), (15, &[3])] {
        let white = plain(preamble_code(row, STYLES[0], false));
        tried(to, |to| write_code(to, white), &[says]);
    }
}

/// Code 65 waiting is refused 7; NUL then is accepted, and 64 wait.
fn code_65(to: &mut Transcript) {
    let mut says = vec![NOTHING];
    says.extend([ACCEPTED; PLACES]);
    says.extend([FULL, ACCEPTED, &[0, PLACES as u8]]);
    let ask = |to: &mut Transcript| {
        let mut asked = Asked::new(to);
        for _ in 0..=PLACES {
            asked.push(H);
        }
        asked.push(Code::NUL);
        asked.look();
    };
    tried(to, ask, &says);
}
