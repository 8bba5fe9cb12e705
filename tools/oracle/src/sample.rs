//! The sample that is stored beside `replay`: 01's pairs tried by hand, the inputs of
//! docs/DIFFERENCES.md, the places where one case of the text ends and the next begins, each refusal,
//! and some more of everything from a fixed seed.

use crate::agreement;
use crate::code::*;
use crate::code_sets::{table_characters, CHANNELS, FIELDS, FIELDS_OR_NONE, FLAGS};
use crate::differences::differences;
use crate::event::{
    ask_of_event, codes_of_numbers, commands, control_event, id_of_field_and_channel, id_of_value,
    mode, mode_of_command, parts, text, without_code,
};
use crate::extended_sets;
use crate::names::{COLOURS, COMMANDS, LETTERS, MID_ROW_COLOURS, MODES, STYLES, SYMBOLS, TABS};
use crate::queue_sets;
use crate::random::{Random, SEED};
use crate::receiver::{sequence, Receiver, PADDING};
use crate::sender_sets;
use crate::transcript::Transcript;
use crate::tried_by_hand::tried_by_hand;
use cea608_types::tables::{Channel, Code, Control, Field};
use cea608_types::Cea608;

pub fn sample(to: &mut Transcript) {
    let mut random = Random::from_seed(SEED);
    tried_by_hand(to);
    differences(to);
    command_pairs(to);
    other_pairs(to);
    random_pairs(to, &mut random);
    single_codes(to);
    named_controls(to);
    preambles(to);
    unknowns(to);
    random_controls(to, &mut random);
    characters(to);
    no_characters(to, &mut random);
    constructors_of_styles(to);
    constructors_of_controls(to);
    ids(to);
    for byte in [
        0x00, 0x01, 0x03, 0x07, 0x20, 0x41, 0x7F, 0x80, 0x81, 0x94, 0xC1, 0xFE, 0xFF,
    ] {
        parity(to, byte);
    }
    events(to);
    texts(to);
    modes_and_services(to);
    pairs_received(to, &mut random);
    queue_sets::sample(to);
    sender_sets::sample(to);
    agreement::sample(to);
    extended_sets::sample(to);
}

/// Adds parity to two stripped bytes and asks for the pair.
fn read_stripped(to: &mut Transcript, [first, second]: [u8; 2]) {
    read_pair(to, [with_parity(first), with_parity(second)]);
}

/// Each first byte of a command, in both channels, with the edges of each case of the second.
fn command_pairs(to: &mut Transcript) {
    for first in 0x10..=0x1F {
        for second in [0x00, 0x1F, 0x20, 0x2F, 0x30, 0x3F, 0x40, 0x5F, 0x60, 0x7F] {
            read_stripped(to, [first, second]);
        }
    }
    for second in 0x20..=0x24 {
        read_stripped(to, [0x17, second]);
    }
}

const OF_ODD_PARITY: [[u8; 2]; 5] = [
    [0x94, 0x25],
    [0x94, 0x70],
    [0xC8, 0xE9],
    [0xA1, 0x80],
    [0x80, 0x80],
];

const OF_EVEN_PARITY: [[u8; 2]; 6] = [
    [0x48, 0xE9],
    [0xC8, 0x69],
    [0x48, 0x69],
    [0x14, 0x25],
    [0x00, 0x80],
    [0xFF, 0xFF],
];

const STRIPPED_AND_NO_COMMAND: [[u8; 2]; 8] = [
    [0x00, 0x41],
    [0x41, 0x00],
    [0x01, 0x0F],
    [0x0F, 0x20],
    [0x20, 0x10],
    [0x20, 0x1F],
    [0x27, 0x2A],
    [0x5C, 0x7F],
];

fn other_pairs(to: &mut Transcript) {
    for pair in OF_ODD_PARITY.into_iter().chain(OF_EVEN_PARITY) {
        read_pair(to, pair);
    }
    for stripped in STRIPPED_AND_NO_COMMAND {
        read_stripped(to, stripped);
    }
}

fn random_pairs(to: &mut Transcript, random: &mut Random) {
    for _ in 0..60 {
        let (first, second) = (random.byte_below(0x80), random.byte_below(0x80));
        read_stripped(to, [first, second]);
        read_stripped(to, [0x10 | first & 0x0F, second]);
    }
    for _ in 0..20 {
        let [first, second, ..] = random.below(0x1_0000).to_le_bytes();
        read_pair(to, [first, second]);
    }
}

/// NUL, the letters that are not ASCII's or stand beside those, and `Unknown`s, one of which is
/// 0x41 and yet no A.
fn single_codes(to: &mut Transcript) {
    ask_of_code(to, Code::NUL);
    for place in [0, 1, 7, 10, 33, 60, 62, 63, 64, 65, 91, 92, 93, 94, 95] {
        ask_of_code(to, LETTERS[place]);
    }
    for byte in [0x00, 0x01, 0x0F, 0x10, 0x1F, 0x20, 0x41, 0x7F, 0x80, 0xFF] {
        ask_of_code(to, Code::Unknown(byte));
    }
}

/// The first and last symbol of each row and those that one could take for others, some commands
/// with all that a field does to them, and the tabs.
fn named_controls(to: &mut Transcript) {
    for place in [
        0, 9, 15, 16, 22, 25, 26, 31, 32, 47, 48, 62, 63, 64, 71, 76, 77, 78, 79,
    ] {
        ask_of_code(to, control(None, Channel::ONE, SYMBOLS[place]));
    }
    for command in [COMMANDS[0], COMMANDS[12], COMMANDS[15]] {
        for field in FIELDS_OR_NONE {
            ask_of_code(to, control(field, Channel::TWO, command));
        }
    }
    for tab in TABS {
        ask_of_code(to, control(None, Channel::TWO, tab));
    }
}

/// Every row, the first that is refused and the last one; field two must not change row 13 or 14.
fn preambles(to: &mut Transcript) {
    for row in (0..=16).chain([0xFF]) {
        let style = STYLES[usize::from(row) % STYLES.len()];
        let code = preamble_code(row, style, row % 2 == 1);
        ask_of_code(to, control(Some(Field::TWO), Channel::ONE, code));
    }
}

/// `Unknown`s with bit 0x08 and without, on both sides of the one range that a field changes, which
/// is 0x14 before 0x20 to 0x2F, and those that are refused.
const UNKNOWNS: [[u8; 2]; 14] = [
    [0x10, 0x60],
    [0x18, 0x60],
    [0x14, 0x1F],
    [0x14, 0x20],
    [0x14, 0x2F],
    [0x14, 0x30],
    [0x15, 0x20],
    [0x1C, 0x20],
    [0x41, 0x42],
    [0x00, 0x00],
    [0x7F, 0x7F],
    [0x80, 0x00],
    [0x00, 0x80],
    [0xFF, 0xFF],
];

fn unknowns(to: &mut Transcript) {
    for bytes in UNKNOWNS {
        for channel in CHANNELS {
            let code = control(Some(Field::TWO), channel, Control::Unknown(bytes));
            ask_of_code(to, code);
        }
    }
}

fn random_controls(to: &mut Transcript, random: &mut Random) {
    for _ in 0..40 {
        let (field, channel) = (random.pick(&FIELDS_OR_NONE), random.pick(&CHANNELS));
        let code = random_control(random);
        ask_of_code(to, control(field, channel, code));
    }
}

fn random_control(random: &mut Random) -> Control {
    let underline = random.pick(&FLAGS);
    match random.below(5) {
        0 => mid_row_code(random.byte_below(MID_ROW_COLOURS), underline),
        1 => random.pick(&SYMBOLS),
        2 => random.pick(&COMMANDS),
        3 => preamble_code(random.byte_below(15), random.pick(&STYLES), underline),
        _ => Control::Unknown([random.byte_below(0x80), random.byte_below(0x80)]),
    }
}

/// Every character of the tables, from its code and back.
fn characters(to: &mut Transcript) {
    for letter in LETTERS {
        character_of_code(to, letter);
    }
    for symbol in SYMBOLS {
        character_of_code(to, control(None, Channel::ONE, symbol));
    }
    for (character, channel) in table_characters().zip(CHANNELS.into_iter().cycle()) {
        code_of_character(to, character, channel);
    }
}

/// What looks like a character of the tables, or would be one with its high bits dropped, and
/// numbers that are no character at all.
fn no_characters(to: &mut Transcript, random: &mut Random) {
    for code_point in without_code() {
        for channel in CHANNELS {
            code_of_character(to, code_point, channel);
        }
    }
    for _ in 0..20 {
        code_of_character(to, random.below(0x11_0000), random.pick(&CHANNELS));
    }
}

fn constructors_of_styles(to: &mut Transcript) {
    for colour in COLOURS {
        mid_row_of_colour(to, colour, colour == COLOURS[1]);
        style_of_colour(to, colour);
    }
    for underline in FLAGS {
        mid_row_of_italics(to, underline);
    }
    for indent in (0..=33).chain([0x80, 0xFF]) {
        style_of_indent(to, indent);
    }
    for style in STYLES {
        preamble(to, 14, true, style);
    }
    for row in (0..=16).chain([0x80, 0xFF]) {
        preamble(to, row, false, STYLES[8]);
    }
}

fn constructors_of_controls(to: &mut Transcript) {
    let one_of_each_kind = [
        mid_row_code(7, true),
        SYMBOLS[79],
        COMMANDS[5],
        TABS[2],
        preamble_code(14, STYLES[15], true),
        preamble_code(15, STYLES[0], false),
        Control::Unknown([0x18, 0x60]),
    ];
    for code in one_of_each_kind {
        for field in FIELDS {
            for channel in CHANNELS {
                control_code(to, field, channel, code);
            }
        }
    }
    for count in (0..=4).chain([0xFF]) {
        tab_of_count(to, count);
    }
}

/// One of each event, the edges of tabs and rows, and those that are refused.
fn events(to: &mut Transcript) {
    for event in commands(Channel::TWO) {
        ask_of_event(to, event);
    }
    for count in [0, 1, 2, 3, 4, 0xFF] {
        ask_of_event(to, Cea608::TabOffset(Channel::ONE, count));
    }
    for row in [0, 4, 14, 15, 0xFF] {
        let code = preamble_code(row, STYLES[7], true);
        ask_of_event(to, control_event(Channel::TWO, code));
    }
    for colour in [0, 6, 7] {
        let code = mid_row_code(colour, true);
        ask_of_event(to, control_event(Channel::ONE, code));
    }
}

/// Characters of both tables in either place, and characters without a code in either and in both.
fn texts(to: &mut Transcript) {
    const GOOD: [Option<char>; 3] = [None, Some('’'), Some('┘')];
    for (first, part) in GOOD.into_iter().zip(parts()) {
        for second in GOOD {
            ask_of_event(to, text([first, second], part));
        }
    }
    for (bad, part) in without_code().zip(parts().cycle()) {
        codes_of_numbers(to, [Some(bad), Some('A'.into())], part);
        codes_of_numbers(to, [Some('A'.into()), Some(bad)], part);
    }
    for part in parts() {
        codes_of_numbers(to, [Some('`'.into()), Some('€'.into())], part);
    }
}

fn modes_and_services(to: &mut Transcript) {
    for value in MODES {
        mode(to, value);
    }
    for command in COMMANDS {
        mode_of_command(to, command);
    }
    for value in [0x00, 0x01, 0x02, 0x03, 0x04, 0x05, 0x7F, 0x80, 0x81, 0xFF] {
        id_of_value(to, value);
    }
    for field in FIELDS {
        for channel in CHANNELS {
            id_of_field_and_channel(to, field, channel);
        }
    }
}

/// The listing's case of the papers.
const LISTED: [[u8; 2]; 11] = [
    [0x94, 0x25],
    [0x94, 0x25],
    [0x94, 0xAD],
    [0x94, 0xAD],
    [0x94, 0x70],
    [0xC8, 0xE9],
    [0x48, 0xE9],
    [0x80, 0x80],
    [0x91, 0x37],
    [0x92, 0x20],
    [0x9D, 0x20],
];

/// What stands between two copies of a command decides whether the second acts: nothing, a copy,
/// padding, text, a hit on a copy, a hit on text, the other channel's and the other field's.
const BETWEEN: [&[[u8; 2]]; 8] = [
    &[],
    &[[0x94, 0x25]],
    &[PADDING],
    &[[0xC8, 0xE9]],
    &[[0x14, 0x25]],
    &[[0x48, 0xE9]],
    &[[0x1C, 0x25]],
    &[[0x15, 0x25]],
];

/// Pairs that give no event: alarms, flash, the text commands, `Unknown`, the transparent space,
/// and single codes without a character.
const SILENT: [[u8; 2]; 8] = [
    [0x94, 0xA2],
    [0x94, 0x23],
    [0x94, 0xA8],
    [0x94, 0x2A],
    [0x94, 0xAB],
    [0x10, 0xE0],
    [0x91, 0xB9],
    [0x01, 0x02],
];

fn pairs_received(to: &mut Transcript, random: &mut Random) {
    let mut receiver = Receiver::fresh(to);
    receiver.decode_all(&[[0xC8, 0xE9], PADDING]);
    receiver.reset();
    receiver.decode_all(&LISTED);
    for between in BETWEEN {
        receiver.reset();
        receiver.decode([0x94, 0x25]);
        receiver.decode_all(between);
        receiver.decode([0x94, 0x25]);
    }
    receiver.reset();
    receiver.decode_all(&SILENT);
    for length in [1, 2, 3, 60] {
        sequence(&mut receiver, random, length);
    }
}
