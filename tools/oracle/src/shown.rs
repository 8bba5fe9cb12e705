//! What is shown, of events and of codes. How letters fall into pairs depends on when they are sent; the
//! characters one by one do not.

use crate::line::Pair;
use cea608_types::tables::Code;
use cea608_types::{Cea608, Cea608Writer, Text};

/// The characters of texts one by one, and all other events, in order.
pub fn shown(events: &[Cea608]) -> Vec<Cea608> {
    let by_character = |&event: &Cea608| match event {
        Cea608::Text(text) => characters(text),
        other => vec![other],
    };
    events.iter().flat_map(by_character).collect()
}

/// The first character has the text's mark, that it takes the place of the one before it.
fn characters(text: Text) -> Vec<Cea608> {
    let there = [text.char1, text.char2].into_iter().flatten();
    let of_one = |(place, character)| {
        Cea608::Text(Text {
            needs_backspace: text.needs_backspace && place == 0,
            char1: Some(character),
            char2: None,
            channel: text.channel,
        })
    };
    there.enumerate().map(of_one).collect()
}

/// The pairs of codes that are sent alone: the crate's writer gets each when it is empty.
pub fn each_alone(codes: &[Code]) -> Vec<Pair> {
    let mut writer = Cea608Writer::default();
    let mut pairs = vec![];
    for &code in codes {
        writer.push(code);
        while writer.n_codes() > 0 {
            pairs.push(writer.pop());
        }
    }
    pairs
}
