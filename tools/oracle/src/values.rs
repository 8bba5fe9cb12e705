//! The crate's values as the bytes of docs/TESTING.md, found by comparing with the lists of names.

use crate::names::{
    mid_row, COLOURS, COMMANDS, IDS, LETTERS, MID_ROW_COLOURS, MODES, STYLES, SYMBOLS, TABS,
};
use cea608_types::tables::{Channel, Code, Color, Control, Field, MidRow, PreambleType};
use cea608_types::{Cea608, Id, Mode, Text};

pub fn channel_byte(channel: Channel) -> u8 {
    match channel {
        Channel::ONE => 1,
        Channel::TWO => 2,
    }
}

/// A field that may be absent, as a control code has it.
pub fn field_byte(field: Option<Field>) -> u8 {
    match field {
        None => 0,
        Some(Field::ONE) => 1,
        Some(Field::TWO) => 2,
    }
}

pub fn colour_byte(colour: Color) -> u8 {
    place(&COLOURS, colour).expect("every colour has a name here")
}

pub fn mid_row_colour_byte(code: MidRow) -> u8 {
    (0..MID_ROW_COLOURS)
        .find(|&colour| mid_row(colour, code.underline()) == code)
        .expect("every mid-row code has a colour or is italic")
}

pub fn style_byte(style: PreambleType) -> u8 {
    place(&STYLES, style).expect("every style has a name here")
}

pub fn command_byte(command: Control) -> u8 {
    place(&COMMANDS, command).expect("every command has a name here")
}

pub fn mode_byte(mode: Mode) -> u8 {
    place(&MODES, mode).expect("every mode has a name here")
}

pub fn id_byte(id: Id) -> u8 {
    1 + place(&IDS, id).expect("every service has a name here")
}

pub fn tab_byte(tab: Control) -> u8 {
    1 + place(&TABS, tab).expect("every tab has a name here")
}

/// Kind, x, y and z of a control code.
pub fn control_bytes(control: Control) -> [u8; 4] {
    match control {
        Control::MidRow(code) => [3, mid_row_colour_byte(code), code.underline().into(), 0],
        Control::PreambleAddress(code) => [
            7,
            code.row(),
            style_byte(code.code()),
            code.underline().into(),
        ],
        Control::Unknown([first, second]) => [8, first, second, 0],
        named => named_control_bytes(named),
    }
}

fn named_control_bytes(control: Control) -> [u8; 4] {
    if let Some(symbol) = place(&SYMBOLS, control) {
        [4, symbol, 0, 0]
    } else if let Some(command) = place(&COMMANDS, control) {
        [5, command, 0, 0]
    } else {
        [6, tab_byte(control), 0, 0]
    }
}

pub fn code_bytes(code: Code) -> [u8; 6] {
    match code {
        Code::NUL => [0; 6],
        Code::Unknown(byte) => [2, 0, 0, byte, 0, 0],
        Code::Control(code) => {
            let [kind, x, y, z] = control_bytes(code.control);
            [
                kind,
                field_byte(code.field),
                channel_byte(code.channel),
                x,
                y,
                z,
            ]
        }
        letter => {
            let place = place(&LETTERS, letter).expect("every letter has a name here");
            [1, 0, 0, place, 0, 0]
        }
    }
}

/// The length of an event.
pub const EVENT: usize = 13;

pub fn event_bytes(event: Cea608) -> [u8; EVENT] {
    match event {
        Cea608::Text(Text {
            needs_backspace,
            char1,
            char2,
            channel,
        }) => {
            let characters = [char1.map(u32::from), char2.map(u32::from)];
            text_bytes(needs_backspace, characters, channel)
        }
        Cea608::NewMode(channel, mode) => short_event(1, channel, [mode_byte(mode), 0, 0]),
        Cea608::EraseDisplay(channel) => short_event(2, channel, [0; 3]),
        Cea608::EraseNonDisplay(channel) => short_event(3, channel, [0; 3]),
        Cea608::CarriageReturn(channel) => short_event(4, channel, [0; 3]),
        Cea608::Backspace(channel) => short_event(5, channel, [0; 3]),
        Cea608::EndOfCaption(channel) => short_event(6, channel, [0; 3]),
        Cea608::TabOffset(channel, count) => short_event(7, channel, [count, 0, 0]),
        Cea608::DeleteToEndOfRow(channel) => short_event(8, channel, [0; 3]),
        Cea608::Preamble(channel, code) => {
            let style = style_byte(code.code());
            short_event(9, channel, [code.row(), style, code.underline().into()])
        }
        Cea608::MidRowChange(channel, code) => {
            let colour = mid_row_colour_byte(code);
            short_event(10, channel, [colour, code.underline().into(), 0])
        }
    }
}

fn short_event(kind: u8, channel: Channel, rest: [u8; 3]) -> [u8; EVENT] {
    let mut bytes = [0; EVENT];
    bytes[0] = kind;
    bytes[1] = channel_byte(channel);
    bytes[2..5].copy_from_slice(&rest);
    bytes
}

/// A text event of any two numbers, also of those that are no `char` of Rust.
pub fn text_bytes(
    needs_backspace: bool,
    characters: [Option<u32>; 2],
    channel: Channel,
) -> [u8; EVENT] {
    let mut bytes = short_event(0, channel, [needs_backspace.into(), 0, 0]);
    for (character, at) in characters.into_iter().zip([3, 8]) {
        if let Some(point) = character {
            bytes[at] = 1;
            bytes[at + 1..at + 5].copy_from_slice(&point.to_le_bytes());
        }
    }
    bytes
}

fn place<T: PartialEq>(list: &[T], value: T) -> Option<u8> {
    let place = list.iter().position(|named| *named == value)?;
    Some(place as u8)
}
