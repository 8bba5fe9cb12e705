//! The sets of the code layer. Each goes through the whole of what it asks about.

use crate::code::*;
use crate::names::{COLOURS, COMMANDS, LETTERS, MID_ROW_COLOURS, STYLES, SYMBOLS, TABS};
use crate::transcript::Transcript;
use cea608_types::tables::{Channel, Code, Control, Field};

pub const CHANNELS: [Channel; 2] = [Channel::ONE, Channel::TWO];
pub const FIELDS: [Field; 2] = [Field::ONE, Field::TWO];
pub const FIELDS_OR_NONE: [Option<Field>; 3] = [None, Some(Field::ONE), Some(Field::TWO)];
pub const FLAGS: [bool; 2] = [false, true];

/// Every pair of bytes.
pub fn pairs(to: &mut Transcript) {
    for first in 0..=0xFF {
        for second in 0..=0xFF {
            read_pair(to, [first, second]);
        }
    }
}

/// Every code of one byte: NUL, the letters and each `Unknown`.
pub fn singles(to: &mut Transcript) {
    ask_of_code(to, Code::NUL);
    for letter in LETTERS {
        ask_of_code(to, letter);
    }
    for byte in 0..=0xFF {
        ask_of_code(to, Code::Unknown(byte));
    }
}

/// Every control code; of the `Unknown`s with a byte of 0x80 or more, which are all refused, those
/// of one channel and no field.
pub fn controls(to: &mut Transcript) {
    for field in FIELDS_OR_NONE {
        for channel in CHANNELS {
            for code in named_controls().chain(preambles()).chain(low_unknowns()) {
                ask_of_code(to, control(field, channel, code));
            }
        }
    }
    for code in high_unknowns() {
        ask_of_code(to, control(None, Channel::ONE, code));
    }
}

fn named_controls() -> impl Iterator<Item = Control> {
    mid_rows().chain(SYMBOLS).chain(COMMANDS).chain(TABS)
}

fn mid_rows() -> impl Iterator<Item = Control> {
    (0..MID_ROW_COLOURS).flat_map(|colour| FLAGS.map(|underline| mid_row_code(colour, underline)))
}

/// The preambles of all rows, those above 14 too.
fn preambles() -> impl Iterator<Item = Control> {
    (0..=0xFF).flat_map(|row| {
        STYLES
            .into_iter()
            .flat_map(move |style| FLAGS.map(|underline| preamble_code(row, style, underline)))
    })
}

fn low_unknowns() -> impl Iterator<Item = Control> {
    all_unknowns()
        .filter(|bytes| bytes.is_ascii())
        .map(Control::Unknown)
}

fn high_unknowns() -> impl Iterator<Item = Control> {
    all_unknowns()
        .filter(|bytes| !bytes.is_ascii())
        .map(Control::Unknown)
}

fn all_unknowns() -> impl Iterator<Item = [u8; 2]> {
    (0..=0xFFFF).map(u16::to_be_bytes)
}

/// Every code point, and such numbers above them as would be taken for a character of the tables by
/// a look-up that drops high bits.
pub fn from_char(to: &mut Transcript) {
    for channel in CHANNELS {
        for code_point in 0..=LAST_CODE_POINT {
            code_of_character(to, code_point, channel);
        }
        for number in numbers_above() {
            code_of_character(to, number, channel);
        }
    }
}

const LAST_CODE_POINT: u32 = 0x10FFFF;

fn numbers_above() -> impl Iterator<Item = u32> {
    let next = LAST_CODE_POINT + 1..=LAST_CODE_POINT + 0x1000;
    let last = 0xFFFF_F000..=0xFFFF_FFFF;
    let high_bits = (21..32).map(|bit| 1 << bit).chain([0xFFE0_0000]);
    let disguised = high_bits.flat_map(|bits| table_characters().map(move |low| low | bits));
    next.chain(disguised).chain(last)
}

/// The characters that some code has, as the crate tells them.
pub fn table_characters() -> impl Iterator<Item = u32> {
    let symbols = SYMBOLS.map(|symbol| control(None, Channel::ONE, symbol));
    LETTERS
        .into_iter()
        .chain(symbols)
        .filter_map(|code| code.char())
        .map(u32::from)
}

/// Every call of a constructor, and each byte's parity.
pub fn constructors(to: &mut Transcript) {
    for underline in FLAGS {
        for colour in COLOURS {
            mid_row_of_colour(to, colour, underline);
        }
        mid_row_of_italics(to, underline);
    }
    for colour in COLOURS {
        style_of_colour(to, colour);
    }
    ids(to);
    for byte in 0..=0xFF {
        style_of_indent(to, byte);
        tab_of_count(to, byte);
        parity(to, byte);
        for style in STYLES {
            for underline in FLAGS {
                preamble(to, byte, underline, style);
            }
        }
    }
    control_codes(to);
}

fn control_codes(to: &mut Transcript) {
    for field in FIELDS {
        for channel in CHANNELS {
            for code in named_controls().chain(preambles()).chain(some_unknowns()) {
                control_code(to, field, channel, code);
            }
        }
    }
}

/// Bytes on both sides of each edge at which a reader of pairs tells cases apart.
fn some_unknowns() -> impl Iterator<Item = Control> {
    const EDGES: [u8; 20] = [
        0x00, 0x0F, 0x10, 0x11, 0x14, 0x15, 0x17, 0x18, 0x1C, 0x1D, 0x1F, 0x20, 0x2F, 0x30, 0x3F,
        0x40, 0x60, 0x7F, 0x80, 0xFF,
    ];
    EDGES
        .into_iter()
        .flat_map(|first| EDGES.map(|second| Control::Unknown([first, second])))
}
