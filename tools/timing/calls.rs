//! Makes one call of the crate for each pair of the input, over and over, as calls.rattle makes ours. The first byte of the
//! input says which call, the second how often all of the input is gone through.

use cea608_types::tables::{Channel, Code};
use cea608_types::{Cea608State, Cea608Writer};
use std::hint::black_box;
use std::io::{stdin, Read};

type Pairs = [[u8; 2]];

fn main() {
    let mut input = Vec::new();
    stdin()
        .read_to_end(&mut input)
        .expect("the input can be read");
    let (asked, turns) = (input[0], input[1]);
    let pairs: Vec<[u8; 2]> = input[2..]
        .chunks_exact(2)
        .map(|pair| [pair[0], pair[1]])
        .collect();
    let pass = match asked {
        0 => pass_nothing,
        1 => pass_read,
        2 => pass_decode,
        3 => pass_write,
        4 => pass_from_char,
        _ => pass_queue,
    };
    for _ in 0..turns {
        pass(&pairs);
    }
}

fn pass_nothing(pairs: &Pairs) {
    for pair in pairs {
        black_box(*pair);
    }
}

fn pass_read(pairs: &Pairs) {
    for pair in pairs {
        let _ = black_box(Code::from_data(*pair));
    }
}

fn pass_decode(pairs: &Pairs) {
    let mut state = Cea608State::default();
    for pair in pairs {
        let _ = black_box(state.decode(*pair));
    }
}

/// The codes that are written and pushed are those of the first 64 pairs, over and over.
fn pass_write(pairs: &Pairs) {
    let codes = first_codes(pairs);
    for i in 0..pairs.len() {
        let mut bytes = [0; 2];
        black_box(codes[i % 64].write_into(&mut bytes));
        black_box(bytes);
    }
}

/// A pair is a code point here, its lower byte first.
fn pass_from_char(pairs: &Pairs) {
    for pair in pairs {
        let point = char::from_u32(u16::from_le_bytes(*pair).into()).unwrap_or_default();
        black_box(Code::from_char(point, Channel::ONE));
    }
}

/// Codes are pushed, and 32 of them popped until nothing is left.
fn pass_queue(pairs: &Pairs) {
    let codes = first_codes(pairs);
    let mut out = [[0; 2]; 128];
    let mut writer = Cea608Writer::default();
    for i in 0..pairs.len() {
        writer.push(codes[i % 64]);
        if i % 32 == 31 {
            pop_all(&mut writer, &mut out);
        }
    }
    black_box(out);
}

fn pop_all(writer: &mut Cea608Writer, out: &mut Pairs) {
    for pair in out {
        if writer.n_codes() == 0 {
            return;
        }
        *pair = writer.pop();
    }
}

fn first_codes(pairs: &Pairs) -> [Code; 64] {
    let mut codes = [Code::NUL; 64];
    for (code, pair) in codes.iter_mut().zip(pairs) {
        if let Ok([first, _]) = Code::from_data(*pair) {
            *code = first;
        }
    }
    codes
}
