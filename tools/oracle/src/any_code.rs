//! Codes chosen at random, of every kind.

use crate::code::{control, mid_row_code, preamble_code};
use crate::code_sets::{CHANNELS, FIELDS_OR_NONE, FLAGS};
use crate::names::{COMMANDS, LETTERS, MID_ROW_COLOURS, STYLES, SYMBOLS, TABS};
use crate::random::Random;
use cea608_types::tables::{Code, Control};

/// Any code, NUL and codes that may not be queued among them.
pub fn any_code(random: &mut Random) -> Code {
    match random.below(13) {
        0 => Code::NUL,
        1 => Code::Unknown(random.below(0x100) as u8),
        2..=5 => random.pick(&LETTERS),
        6 | 7 => any_control(random, needs_backspace),
        8 | 9 => any_control(random, needs_none),
        10 => any_control(random, |random| {
            preamble_code(
                random.byte_below(17),
                random.pick(&STYLES),
                random.pick(&FLAGS),
            )
        }),
        11 => any_control(random, |random| {
            let [first, second, ..] = random.below(0x1_0000).to_le_bytes();
            let mask = random.pick(&[0x7F, 0xFF]);
            Control::Unknown([first & mask, second & mask])
        }),
        _ => any_control(random, unknown_command),
    }
}

pub fn any_control(random: &mut Random, made: fn(&mut Random) -> Control) -> Code {
    let (field, channel) = (random.pick(&FIELDS_OR_NONE), random.pick(&CHANNELS));
    control(field, channel, made(random))
}

/// A mid-row code, or a symbol of 12 and 13.
pub fn needs_backspace(random: &mut Random) -> Control {
    if random.below(2) == 0 {
        mid_row_code(random.byte_below(MID_ROW_COLOURS), random.pick(&FLAGS))
    } else {
        random.pick(&SYMBOLS[16..])
    }
}

pub fn needs_none(random: &mut Random) -> Control {
    match random.below(4) {
        0 => random.pick(&SYMBOLS[..16]),
        1 => random.pick(&TABS),
        2 => random.pick(&COMMANDS),
        _ => unknown_command(random),
    }
}

/// An `Unknown` of two bytes that begins as a command does.
fn unknown_command(random: &mut Random) -> Control {
    Control::Unknown([0x10 + random.byte_below(0x10), random.byte_below(0x80)])
}

/// A code that may wait.
pub fn waiting_code(random: &mut Random) -> Code {
    match random.below(4) {
        0 => Code::Unknown(random.byte_below(0x80)),
        1 => random.pick(&LETTERS),
        2 => any_control(random, needs_backspace),
        _ => any_control(random, needs_none),
    }
}
