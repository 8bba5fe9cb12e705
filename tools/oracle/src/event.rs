//! The queries of the event layer, and its sets: events turned into codes, modes and services. As
//! in `code`, an answer is what the crate says; a refusal's number is put to its panic.

use crate::code::{control, mid_row_code, preamble_code, refusal, written};
use crate::code_sets::{table_characters, CHANNELS, FIELDS, FLAGS};
use crate::names::{COMMANDS, MID_ROW_COLOURS, MODES, STYLES};
use crate::panics::{ask, UNREACHABLE, UNWRAPPED};
use crate::transcript::Transcript;
use crate::values::{
    channel_byte, code_bytes, command_byte, event_bytes, field_byte, id_byte, mode_byte,
    text_bytes, EVENT,
};
use cea608_types::tables::{Channel, Code, Control, Field};
use cea608_types::{Cea608, Cea608State, Id, Mode, Text};

/// An event's codes; of refusal 5 also whether it is the first or the second character's.
type Turned = Result<[Code; 2], (u8, u8)>;

/// What the crate turns an event into. It makes the code of any row and panics when that is
/// written; we refuse to make it.
fn turned(event: Cea608, field: Field) -> Turned {
    let codes = ask(|| event.into_code(field)).map_err(|panic| refusal_of_event(event, &panic))?;
    for code in codes {
        written(code).map_err(|refusal| (refusal, 0))?;
    }
    Ok(codes)
}

fn refusal_of_event(event: Cea608, panic: &str) -> (u8, u8) {
    match (event, panic) {
        (Cea608::TabOffset(..), UNREACHABLE) => (refusal::TAB, 0),
        (Cea608::Text(text), UNWRAPPED) => {
            let characters = [text.char1.map(u32::from), text.char2.map(u32::from)];
            (refusal::CHARACTER, place_without_code(characters))
        }
        _ => panic!("of {event:?} the crate makes no code and panics: {panic}"),
    }
}

/// 1 or 2 for the first character that the crate has no code for. A number that is no `char` of
/// Rust cannot be put to the crate, and no code has it.
fn place_without_code(characters: [Option<u32>; 2]) -> u8 {
    let has_code = |point| char::from_u32(point).and_then(|c| Code::from_char(c, Channel::ONE));
    let place = characters
        .into_iter()
        .position(|character| character.is_some_and(|point| has_code(point).is_none()));
    1 + place.expect("one of the two has no code") as u8
}

fn add_codes(to: &mut Transcript, field: Field, event: [u8; EVENT], codes: Turned) {
    let mut query = [0; 1 + EVENT];
    query[0] = field_byte(Some(field));
    query[1..].copy_from_slice(&event);
    let mut answer = [0; 14];
    match codes {
        Ok([first, second]) => {
            answer[1..7].copy_from_slice(&code_bytes(first));
            answer[7..13].copy_from_slice(&code_bytes(second));
        }
        Err((refusal, place)) => {
            answer[0] = refusal;
            answer[13] = place;
        }
    }
    to.add(0x20, &query, &answer);
}

pub fn codes_of_event(to: &mut Transcript, field: Field, event: Cea608) {
    add_codes(to, field, event_bytes(event), turned(event, field));
}

pub fn channel_of_event(to: &mut Transcript, event: Cea608) {
    to.add(0x21, &event_bytes(event), &[channel_byte(event.channel())]);
}

/// All that can be asked of an event.
pub fn ask_of_event(to: &mut Transcript, event: Cea608) {
    channel_of_event(to, event);
    for field in FIELDS {
        codes_of_event(to, field, event);
    }
}

/// A text event of two numbers, either of which may be no `char`.
pub fn codes_of_numbers(to: &mut Transcript, numbers: [Option<u32>; 2], part: Part) {
    let codes = match chars(numbers) {
        Some(characters) => turned(text(characters, part), part.field),
        None => Err((refusal::CHARACTER, place_without_code(numbers))),
    };
    let event = text_bytes(part.needs_backspace, numbers, part.channel);
    add_codes(to, part.field, event, codes);
}

fn chars(numbers: [Option<u32>; 2]) -> Option<[Option<char>; 2]> {
    let mut characters = [None; 2];
    for (character, number) in characters.iter_mut().zip(numbers) {
        if let Some(point) = number {
            *character = Some(char::from_u32(point)?);
        }
    }
    Some(characters)
}

/// What a text event has beside its characters, and the field that it is turned for.
#[derive(Clone, Copy)]
pub struct Part {
    needs_backspace: bool,
    channel: Channel,
    field: Field,
}

pub fn parts() -> impl Iterator<Item = Part> + Clone {
    FLAGS.into_iter().flat_map(|needs_backspace| {
        CHANNELS.into_iter().flat_map(move |channel| {
            FIELDS.map(|field| Part {
                needs_backspace,
                channel,
                field,
            })
        })
    })
}

pub fn text([char1, char2]: [Option<char>; 2], part: Part) -> Cea608 {
    Cea608::Text(Text {
        needs_backspace: part.needs_backspace,
        char1,
        char2,
        channel: part.channel,
    })
}

/// The command that begins a mode is the one that the crate turns the mode's event into.
pub fn mode(to: &mut Transcript, mode: Mode) {
    let [code, _] = Cea608::NewMode(Channel::ONE, mode).into_code(Field::ONE);
    let Code::Control(code) = code else {
        panic!("{mode:?} begins by no command but by {code:?}");
    };
    let rows = mode.rollup_rows();
    let answer = [
        mode.is_rollup().into(),
        rows.is_some().into(),
        rows.unwrap_or(0),
        command_byte(code.control),
    ];
    to.add(0x22, &[mode_byte(mode)], &answer);
}

/// The mode that a command begins is the one of the event that the crate's receiver makes of it.
pub fn mode_of_command(to: &mut Transcript, command: Control) {
    let code = control(Some(Field::ONE), Channel::ONE, command);
    let (pair, _) = written(code).expect("a command is written");
    let event = Cea608State::default().decode(pair);
    let answer = match event.expect("what is written is read") {
        Some(Cea608::NewMode(_, mode)) => [1, mode_byte(mode)],
        _ => [0, 0],
    };
    to.add(0x23, &[command_byte(command)], &answer);
}

pub fn id_of_value(to: &mut Transcript, value: u8) {
    let answer = match ask(|| Id::from_value(value as i8)) {
        Ok(id) => [0, id_byte(id)],
        Err(panic) if panic == UNREACHABLE => [refusal::ID, 0],
        Err(panic) => panic!("of id {value} the crate panics: {panic}"),
    };
    to.add(0x24, &[value], &answer);
}

pub fn id_of_field_and_channel(to: &mut Transcript, field: Field, channel: Channel) {
    let id = Id::from_caption_field_channel(field, channel);
    let query = [field_byte(Some(field)), channel_byte(channel)];
    let answer = [
        id_byte(id),
        field_byte(Some(id.field())),
        channel_byte(id.channel()),
    ];
    to.add(0x25, &query, &answer);
}

/// Every event that is no text, also of tabs and rows that are refused.
pub fn events(to: &mut Transcript) {
    for channel in CHANNELS {
        for event in commands(channel).chain(tabs(channel)) {
            ask_of_event(to, event);
        }
        for event in preambles(channel).chain(mid_rows(channel)) {
            ask_of_event(to, event);
        }
    }
}

pub fn commands(channel: Channel) -> impl Iterator<Item = Cea608> {
    let modes = MODES.map(|mode| Cea608::NewMode(channel, mode));
    let others = [
        Cea608::EraseDisplay(channel),
        Cea608::EraseNonDisplay(channel),
        Cea608::CarriageReturn(channel),
        Cea608::Backspace(channel),
        Cea608::EndOfCaption(channel),
        Cea608::DeleteToEndOfRow(channel),
    ];
    modes.into_iter().chain(others)
}

fn tabs(channel: Channel) -> impl Iterator<Item = Cea608> {
    (0..=0xFF).map(move |count| Cea608::TabOffset(channel, count))
}

fn preambles(channel: Channel) -> impl Iterator<Item = Cea608> {
    (0..=0xFF).flat_map(move |row| {
        STYLES.into_iter().flat_map(move |style| {
            FLAGS.map(|underline| control_event(channel, preamble_code(row, style, underline)))
        })
    })
}

fn mid_rows(channel: Channel) -> impl Iterator<Item = Cea608> {
    (0..MID_ROW_COLOURS).flat_map(move |colour| {
        FLAGS.map(|underline| control_event(channel, mid_row_code(colour, underline)))
    })
}

/// The event of a preamble or a mid-row code.
pub fn control_event(channel: Channel, control: Control) -> Cea608 {
    match control {
        Control::PreambleAddress(code) => Cea608::Preamble(channel, code),
        Control::MidRow(code) => Cea608::MidRowChange(channel, code),
        other => panic!("{other:?} is neither"),
    }
}

/// Text events: each character of the tables alone, in either place; every two of them; and
/// characters without a code in either place and in both.
pub fn texts(to: &mut Transcript) {
    let characters: Vec<char> = table_characters().filter_map(char::from_u32).collect();
    for part in parts().filter(|part| part.field == Field::ONE) {
        ask_of_event(to, text([None, None], part));
        for &character in &characters {
            ask_of_event(to, text([Some(character), None], part));
            ask_of_event(to, text([None, Some(character)], part));
        }
    }
    let mut parts_in_turn = parts().cycle();
    for &first in &characters {
        for (&second, part) in characters.iter().zip(&mut parts_in_turn) {
            codes_of_event(to, part.field, text([Some(first), Some(second)], part));
        }
    }
    texts_without_codes(to);
}

/// Characters that no code has, and numbers that are no character.
pub fn without_code() -> impl Iterator<Item = u32> {
    const LIKE: &str = "\0\u{A0}`´¦■⌜ⓇⒸÿЖ€\u{FFFD}🎵\u{10041}";
    const NUMBERS: [u32; 5] = [0xD800, 0xDFFF, 0x11_0000, 0x8000_0041, 0xFFFF_FFFF];
    LIKE.chars().map(u32::from).chain(NUMBERS)
}

fn texts_without_codes(to: &mut Transcript) {
    for part in parts() {
        for bad in without_code() {
            for good in [None, Some('A'.into()), Some('®'.into())] {
                codes_of_numbers(to, [Some(bad), good], part);
                codes_of_numbers(to, [good, Some(bad)], part);
            }
            for other in without_code() {
                codes_of_numbers(to, [Some(bad), Some(other)], part);
            }
        }
    }
}

/// Every mode, every command, every value of an id, and every field with every channel.
pub fn modes_and_ids(to: &mut Transcript) {
    for value in MODES {
        mode(to, value);
    }
    for command in COMMANDS {
        mode_of_command(to, command);
    }
    for value in 0..=0xFF {
        id_of_value(to, value);
    }
    for field in FIELDS {
        for channel in CHANNELS {
            id_of_field_and_channel(to, field, channel);
        }
    }
}
