//! The inputs of docs/DIFFERENCES.md that pairs and calls show. What the page says of the crate is held
//! against the crate here, and `replay` is asked the same.

use crate::code::{control, mid_row_code, read_pair, write_code, written};
use crate::names::{COMMANDS, LETTERS, SYMBOLS, TABS};
use crate::queue::{plain, NOT_A_COMMAND};
use crate::receiver::Receiver;
use crate::rounds::Beside;
use crate::sender::Asked;
use crate::streams;
use crate::transcript::Transcript;
use crate::tried_by_hand::queued;
use cea608_types::tables::{Channel, Code, Control, ControlCode, Field};
use cea608_types::Cea608Writer;

type Pair = [u8; 2];

const A: Code = LETTERS[0x21];

pub fn differences(to: &mut Transcript) {
    for (pairs, lines) in HEARD {
        heard(to, pairs, lines);
    }
    for (codes, pairs) in to_be_queued() {
        queued(to, &codes, &pairs);
    }
    for (codes, pairs) in to_be_sent() {
        sent(to, &codes, &pairs);
    }
    text_as_a_command(to);
    for (code, pair) in not_read_back() {
        written_and_read(to, code, pair);
    }
    count_unknowns();
}

/// What a fresh receiver decodes of pairs, as lines of the listing.
const HEARD: [(&[Pair], &str); 29] = [
    (&[[0x48, 0xE9]], "0 refused 1\n"),
    (
        &[[0x14, 0x25], [0x94, 0x25]],
        "0 refused 1\n1 mode 1 roll2\n",
    ),
    (
        &[[0x94, 0xA5], [0x94, 0x25]],
        "0 refused 1\n1 mode 1 roll2\n",
    ),
    (
        &[[0x94, 0x25], [0x14, 0x25], [0x94, 0x25]],
        "0 mode 1 roll2\n1 refused 1\n",
    ),
    (
        &[[0x94, 0x25], [0x48, 0xE9], [0x94, 0x25]],
        "0 mode 1 roll2\n1 refused 1\n",
    ),
    (
        &[[0x94, 0x25], [0xC8, 0xE9], [0x94, 0x25]],
        "0 mode 1 roll2\n1 text 1 0 0048 0069\n2 mode 1 roll2\n",
    ),
    (
        &[[0x94, 0x25], [0x94, 0x25], [0x94, 0x25]],
        "0 mode 1 roll2\n2 mode 1 roll2\n",
    ),
    (&[[0x1C, 0x80], [0xC8, 0xE9]], "1 text 2 0 0048 0069\n"),
    (&[[0x15, 0x2C], [0x9D, 0x2C]], "0 erase 1\n1 erase 2\n"),
    (&[[0x10, 0xE0], [0xC8, 0xE9]], "1 text 1 0 0048 0069\n"),
    (
        &[[0x94, 0x20], [0x1C, 0x20], [0xC8, 0xE9]],
        "0 mode 1 pop\n1 mode 2 pop\n2 text 2 0 0048 0069\n",
    ),
    (
        &[[0x94, 0x20], [0x01, 0x20]],
        "0 mode 1 pop\n1 text 1 0 - 0020\n",
    ),
    (
        &[[0x15, 0x20], [0x01, 0x83], [0xC8, 0xE9]],
        "0 mode 1 pop\n2 text 1 0 0048 0069\n",
    ),
    (
        &[[0x94, 0x20], [0xA7, 0x80]],
        "0 mode 1 pop\n1 text 1 0 2019 -\n",
    ),
    (&[[0x91, 0xB9]], ""),
    (&[[0x92, 0x20]], "0 text 1 1 00C1 -\n"),
    (
        &[[0x94, 0x20], [0xC1, 0x80], [0x92, 0x20]],
        "0 mode 1 pop\n1 text 1 0 0041 -\n2 text 1 1 00C1 -\n",
    ),
    (&[[0x91, 0x20]], "0 mid 1 0 0\n"),
    (&[[0x94, 0xAD], [0x94, 0xAD]], "0 return 1\n"),
    (&[[0x10, 0x20], [0x10, 0x2F], [0x97, 0xAD]], ""),
    (&[[0x97, 0x2F], [0x97, 0xA4], [0x97, 0x2A]], ""),
    (&[[0x94, 0xA2], [0x94, 0x23], [0x94, 0xA8]], ""),
    (&[[0x94, 0x29]], "0 mode 1 paint\n"),
    (&[[0x94, 0x2F]], "0 end 1\n"),
    (&[[0x94, 0x2A], [0xC8, 0xE9]], "1 text 1 0 0048 0069\n"),
    (&[[0x94, 0x70]], "0 row 1 14 8 0\n"),
    (
        &[[0x13, 0x37], [0x13, 0xAE]],
        "0 text 1 1 2502 -\n1 text 1 1 007C -\n",
    ),
    (
        &[[0x13, 0xBC], [0x13, 0x3D], [0x13, 0x3E], [0x13, 0xBF]],
        "0 text 1 1 250C -\n1 text 1 1 2510 -\n2 text 1 1 2514 -\n3 text 1 1 2518 -\n",
    ),
    (&[[0x92, 0x29]], "0 text 1 1 0027 -\n"),
];

/// The crate's events have these lines, and the last line after them.
fn heard(to: &mut Transcript, pairs: &[Pair], lines: &str) {
    let text = streams::text(&pairs.concat());
    let text = String::from_utf8_lossy(&text);
    let (said, _) = text.split_at(text.rfind("pairs").expect("there is a last line"));
    assert_eq!(said, lines, "of {pairs:02X?}");
    Receiver::fresh(to).decode_all(pairs);
}

/// What is pushed into a fresh queue, and the pairs that are popped.
fn to_be_queued() -> Vec<(Vec<Code>, Vec<Pair>)> {
    let scroll = plain(COMMANDS[13]);
    vec![
        (
            vec![A, plain(SYMBOLS[16])],
            vec![[0xC1, 0x20], [0x92, 0x20]],
        ),
        (
            vec![plain(mid_row_code(0, false))],
            vec![[0x20, 0x80], [0x91, 0x20]],
        ),
        (vec![scroll, scroll], vec![[0x94, 0xAD], [0x94, 0xAD]]),
        (vec![Code::Unknown(0x14), A], vec![[0x94, 0xC1]]),
        (vec![Code::Unknown(0x14)], vec![[0x94, 0x80]]),
        (
            vec![Code::Unknown(0x01), Code::Unknown(0x03)],
            vec![[0x01, 0x83]],
        ),
        (
            vec![Code::Unknown(0x14), scroll],
            vec![[0x94, 0x80], [0x94, 0xAD]],
        ),
        (
            vec![Code::Unknown(0x14), plain(SYMBOLS[16])],
            vec![[0x94, 0x20], [0x92, 0x20]],
        ),
        (
            [[0xC1, 0x80], [0xC1, 0x94], [0xC2, 0x80]]
                .map(read)
                .concat(),
            vec![[0xC1, 0xC1], [0x94, 0xC2]],
        ),
        (
            vec![A, unknown([0x10, 0x20])],
            vec![[0xC1, 0x80], [0x10, 0x20]],
        ),
    ]
}

/// What is pushed into a fresh sender, and the pairs that are sent until it is idle.
fn to_be_sent() -> Vec<(Vec<Code>, Vec<Pair>)> {
    let scroll = plain(COMMANDS[13]);
    vec![
        (vec![plain(COMMANDS[5])], vec![[0x94, 0x25]; 2]),
        (vec![scroll, scroll], vec![[0x94, 0xAD]; 4]),
        (vec![Code::Unknown(0x14), A], vec![[0x94, 0xC1]; 2]),
    ]
}

fn sent(to: &mut Transcript, codes: &[Code], pairs: &[Pair]) {
    let mut asked = Asked::new(to);
    codes.iter().for_each(|&code| asked.push(code));
    for &pair in pairs {
        assert!(!asked.ask_idle());
        assert_eq!(asked.send().pair, pair, "of {codes:?}");
    }
    assert!(asked.ask_idle());
}

/// The crate holds text dressed as a command after a letter, as a command, and sends it as what it
/// is; the port refuses it, and has nothing to send.
fn text_as_a_command(to: &mut Transcript) {
    for (bytes, pair) in [([0x41, 0x42], [0xC1, 0xC2]), ([0x01, 0x03], [0x01, 0x83])] {
        let mut writer = Cea608Writer::default();
        writer.push(A);
        writer.push(unknown(bytes));
        assert_eq!([writer.pop(), writer.pop()], [[0xC1, 0x80], pair]);
        let mut asked = Asked::new(to);
        asked.push(unknown(bytes));
        let refused = asked.model.writer.met.answered[usize::from(NOT_A_COMMAND)];
        assert_eq!(refused, 1);
        assert!(asked.ask_idle());
    }
}

/// The codes of a pair, NUL left out.
fn read(pair: Pair) -> Vec<Code> {
    let codes = Code::from_data(pair).expect("the pair has odd parity");
    codes
        .into_iter()
        .filter(|&code| code != Code::NUL)
        .collect()
}

fn unknown(bytes: [u8; 2]) -> Code {
    plain(Control::Unknown(bytes))
}

/// The codes that do not read back, and the pair that each is written as.
fn not_read_back() -> [(Code, Pair); 9] {
    let of_field_one = |code| Code::Control(ControlCode::new(Field::ONE, Channel::ONE, code));
    [
        (of_field_one(TABS[0]), [0x97, 0xA1]),
        (plain(COMMANDS[0]), [0x94, 0x20]),
        (Code::Unknown(0x00), [0x80, 0x80]),
        (Code::Unknown(0x14), [0x94, 0x80]),
        (Code::Unknown(0x41), [0xC1, 0x80]),
        (of_field_one(Control::Unknown([0x10, 0x60])), [0x10, 0xE0]),
        (unknown([0x41, 0x42]), [0xC1, 0xC2]),
        (unknown([0x14, 0x20]), [0x94, 0x20]),
        (unknown([0x18, 0x60]), [0x98, 0xE0]),
    ]
}

fn written_and_read(to: &mut Transcript, code: Code, pair: Pair) {
    assert_eq!(written(code).map(|(pair, _)| pair), Ok(pair));
    assert!(!reads_back(code), "{code:?} reads back");
    write_code(to, code);
    read_pair(to, pair);
}

fn reads_back(code: Code) -> bool {
    written(code).is_ok_and(|(pair, _)| Code::from_data(pair) == Ok([code, Code::NUL]))
}

/// How many `Unknown`s read back, of one byte and of two.
fn count_unknowns() {
    let data = || 0..0x80;
    let of_one_byte = data().filter(|&byte| reads_back(Code::Unknown(byte)));
    assert!(of_one_byte.eq(0x01..=0x0F));
    let of_two_bytes = data().flat_map(|first| data().map(move |second| [first, second]));
    let read_back = of_two_bytes
        .flat_map(|bytes| [Channel::ONE, Channel::TWO].map(|channel| (channel, bytes)))
        .filter(|&(channel, bytes)| reads_back(control(None, channel, Control::Unknown(bytes))));
    assert_eq!(read_back.count(), 826);
}
