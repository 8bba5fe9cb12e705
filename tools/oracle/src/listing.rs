//! The listing's text made of the crate's events, written plainly from 01's section "The listing". The comparison holds
//! it against what the proved program `listing` writes, and the benchmark times it beside that program.

use crate::values::{channel_byte, mid_row_colour_byte, style_byte};
use cea608_types::{Cea608, Cea608State, Mode, ParserError};
use std::fmt::{Display, Formatter};
use std::io::{BufReader, BufWriter, Read, Result, Write};

/// The most pairs that a stream may have.
pub const MOST_PAIRS: u32 = 16_777_216;

/// 01's numbers of the refusals that a listing can have.
mod refusal {
    pub const PARITY: u8 = 1;
    pub const HALF_A_PAIR: u8 = 9;
    pub const TOO_MANY_PAIRS: u8 = 10;
}

/// Writes the listing of the raw bytes that are read.
pub fn list(input: impl Read, output: impl Write) -> Result<()> {
    let mut bytes = BufReader::new(input).bytes();
    let mut listing = Listing {
        receiver: Cea608State::default(),
        pairs: 0,
        refused: 0,
        output: BufWriter::new(output),
    };
    while let Some(first) = bytes.next().transpose()? {
        // Half a pair counts as one, so a single byte is too many here, and what follows does not matter.
        if listing.pairs == MOST_PAIRS {
            listing.refuse(refusal::TOO_MANY_PAIRS)?;
            break;
        }
        let Some(second) = bytes.next().transpose()? else {
            listing.refuse(refusal::HALF_A_PAIR)?;
            break;
        };
        listing.read([first, second])?;
    }
    listing.end()
}

struct Listing<W: Write> {
    receiver: Cea608State,
    /// Whole pairs read, which is also the number of the next one.
    pairs: u32,
    refused: u32,
    output: BufWriter<W>,
}

impl<W: Write> Listing<W> {
    fn read(&mut self, pair: [u8; 2]) -> Result<()> {
        match self.receiver.decode(pair) {
            Ok(Some(event)) => write_event(&mut self.output, self.pairs, event)?,
            Ok(None) => {}
            Err(ParserError::InvalidParity) => self.refuse(refusal::PARITY)?,
            Err(other) => panic!("the crate refuses pair {pair:02X?} by {other:?}"),
        }
        self.pairs += 1;
        Ok(())
    }

    fn refuse(&mut self, number: u8) -> Result<()> {
        self.refused += 1;
        writeln!(self.output, "{} refused {number}", self.pairs)
    }

    fn end(mut self) -> Result<()> {
        writeln!(self.output, "pairs {} refused {}", self.pairs, self.refused)?;
        self.output.flush()
    }
}

fn write_event(to: &mut impl Write, number: u32, event: Cea608) -> Result<()> {
    let channel = channel_byte(event.channel());
    match event {
        Cea608::Text(text) => {
            let backspace = u8::from(text.needs_backspace);
            let (first, second) = (Character(text.char1), Character(text.char2));
            writeln!(to, "{number} text {channel} {backspace} {first} {second}")
        }
        Cea608::NewMode(_, mode) => writeln!(to, "{number} mode {channel} {}", mode_word(mode)),
        Cea608::EraseDisplay(_) => writeln!(to, "{number} erase {channel}"),
        Cea608::EraseNonDisplay(_) => writeln!(to, "{number} erasehidden {channel}"),
        Cea608::CarriageReturn(_) => writeln!(to, "{number} return {channel}"),
        Cea608::Backspace(_) => writeln!(to, "{number} back {channel}"),
        Cea608::EndOfCaption(_) => writeln!(to, "{number} end {channel}"),
        Cea608::TabOffset(_, columns) => writeln!(to, "{number} tab {channel} {columns}"),
        Cea608::DeleteToEndOfRow(_) => writeln!(to, "{number} delete {channel}"),
        Cea608::Preamble(_, code) => {
            let (row, style) = (code.row(), style_byte(code.code()));
            let underline = u8::from(code.underline());
            writeln!(to, "{number} row {channel} {row} {style} {underline}")
        }
        Cea608::MidRowChange(_, code) => {
            let colour = mid_row_colour_byte(code);
            let underline = u8::from(code.underline());
            writeln!(to, "{number} mid {channel} {colour} {underline}")
        }
    }
}

fn mode_word(mode: Mode) -> &'static str {
    match mode {
        Mode::PopOn => "pop",
        Mode::PaintOn => "paint",
        Mode::RollUp2 => "roll2",
        Mode::RollUp3 => "roll3",
        Mode::RollUp4 => "roll4",
    }
}

/// A character as its code point, or as the mark that there is none.
struct Character(Option<char>);

impl Display for Character {
    fn fmt(&self, to: &mut Formatter) -> std::fmt::Result {
        match self.0 {
            Some(character) => write!(to, "{:04X}", u32::from(character)),
            None => to.write_str("-"),
        }
    }
}
