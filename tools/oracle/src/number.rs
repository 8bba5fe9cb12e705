//! The number by which the ring keeps a code, as docs/ARCHITECTURE.md has it, and the code of each
//! number. What two bytes mean is what the crate reads them as.

use crate::code::{control, with_parity, written};
use crate::names::LETTERS;
use cea608_types::tables::{Channel, Code, Control, ControlCode, Field};

const SINGLE: u16 = 0x8000;
const SINGLE_UNKNOWN: u16 = 0x0080;
const FIELD_ONE: u16 = 0x2000;
const FIELD_TWO: u16 = 0x4000;
const CHANNEL_TWO: u16 = 0x1000;
const UNKNOWN: u16 = 0x0800;

/// Every number has a code that may wait.
pub fn code_of(number: u16) -> Code {
    let byte = (number & 0x7F) as u8;
    if number & SINGLE != 0 {
        return match byte {
            0x20.. if number & SINGLE_UNKNOWN == 0 => LETTERS[usize::from(byte - 0x20)],
            _ => Code::Unknown(byte),
        };
    }
    let first = 0x10 + (number >> 7 & 0xF) as u8;
    let field = match number & (FIELD_ONE | FIELD_TWO) {
        FIELD_ONE => Some(Field::ONE),
        FIELD_TWO => Some(Field::TWO),
        _ => None,
    };
    let channel = match number & CHANNEL_TWO {
        0 => Channel::ONE,
        _ => Channel::TWO,
    };
    let code = match number & UNKNOWN {
        0 => meant_by(first, byte),
        _ => Control::Unknown([first, byte]),
    };
    control(field, channel, code)
}

/// What the crate reads two bytes as, where they name neither channel two nor field two.
fn meant_by(first: u8, second: u8) -> Control {
    let names_field_two = first == 0x15 && (0x20..=0x2F).contains(&second);
    if first >= 0x18 || names_field_two {
        return Control::Unknown([first, second]);
    }
    match Code::from_data([first, second].map(with_parity)) {
        Ok([Code::Control(ControlCode { control, .. }), _]) => control,
        read => panic!("{first:02X} {second:02X} is read as {read:?}"),
    }
}

/// The number that a push stores, of a code that may wait.
pub fn number_of(code: Code) -> u16 {
    match code {
        Code::Unknown(byte) => SINGLE | SINGLE_UNKNOWN | u16::from(byte),
        Code::Control(of) => number_of_control(of),
        letter => match LETTERS.iter().position(|&other| other == letter) {
            Some(place) => SINGLE | (0x20 + place as u16),
            None => panic!("{letter:?} never waits"),
        },
    }
}

fn number_of_control(code: ControlCode) -> u16 {
    let field = match code.field {
        None => 0,
        Some(Field::ONE) => FIELD_ONE,
        Some(_) => FIELD_TWO,
    };
    let channel = match code.channel {
        Channel::ONE => 0,
        _ => CHANNEL_TWO,
    };
    field | channel | number_of_bytes(code.control)
}

/// The two bytes are those that the crate writes on channel one with no field.
fn number_of_bytes(code: Control) -> u16 {
    let (bytes, unknown) = match code {
        Control::Unknown(bytes) => (bytes, UNKNOWN),
        _ => {
            let (pair, _) = written(control(None, Channel::ONE, code)).expect("it may wait");
            (pair.map(|byte| byte & 0x7F), 0)
        }
    };
    unknown | u16::from(bytes[0] - 0x10) << 7 | u16::from(bytes[1])
}
