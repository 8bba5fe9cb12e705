//! The crate's codes by name, in the order of the standard's tables. A code's place in a list is
//! its number in docs/TESTING.md. The lists are written out and not read off the crate, so that a
//! code at the wrong bytes in the crate is seen as a difference.

use cea608_types::tables::{Code, Color, Control, MidRow, PreambleType};
use cea608_types::{Id, Mode};

pub const COLOURS: [Color; 7] = [
    Color::White,
    Color::Green,
    Color::Blue,
    Color::Cyan,
    Color::Red,
    Color::Yellow,
    Color::Magenta,
];

/// The number of mid-row colours: the seven colours, then italics.
pub const MID_ROW_COLOURS: u8 = 8;

/// The mid-row code of a mid-row colour's number.
pub fn mid_row(colour: u8, underline: bool) -> MidRow {
    match COLOURS.get(usize::from(colour)) {
        Some(&colour) => MidRow::new_color(colour, underline),
        None => MidRow::new_italics(underline),
    }
}

pub const STYLES: [PreambleType; 16] = [
    PreambleType::Color(Color::White),
    PreambleType::Color(Color::Green),
    PreambleType::Color(Color::Blue),
    PreambleType::Color(Color::Cyan),
    PreambleType::Color(Color::Red),
    PreambleType::Color(Color::Yellow),
    PreambleType::Color(Color::Magenta),
    PreambleType::WhiteItalics,
    PreambleType::Indent0,
    PreambleType::Indent4,
    PreambleType::Indent8,
    PreambleType::Indent12,
    PreambleType::Indent16,
    PreambleType::Indent20,
    PreambleType::Indent24,
    PreambleType::Indent28,
];

/// The standard characters, 0x20 to 0x7F.
pub const LETTERS: [Code; 96] = [
    // 0x20: space ! " # $ % & ’
    Code::Space,
    Code::ExclamationMark,
    Code::QuotationMark,
    Code::NumberSign,
    Code::DollarSign,
    Code::PercentSign,
    Code::Ampersand,
    Code::Apostrophe,
    // 0x28: ( ) á + , - . /
    Code::LeftParenthesis,
    Code::RightParenthesis,
    Code::LatinLowerAWithAcute,
    Code::PlusSign,
    Code::Comma,
    Code::HyphenMinus,
    Code::FullStop,
    Code::Solidus,
    // 0x30: 0 1 2 3 4 5 6 7
    Code::Zero,
    Code::One,
    Code::Two,
    Code::Three,
    Code::Four,
    Code::Five,
    Code::Six,
    Code::Seven,
    // 0x38: 8 9 : ; < = > ?
    Code::Eight,
    Code::Nine,
    Code::Colon,
    Code::SemiColon,
    Code::LessThan,
    Code::Equals,
    Code::GreaterThan,
    Code::QuestionMark,
    // 0x40: @ A B C D E F G
    Code::CommercialAt,
    Code::LatinCapitalA,
    Code::LatinCapitalB,
    Code::LatinCapitalC,
    Code::LatinCapitalD,
    Code::LatinCapitalE,
    Code::LatinCapitalF,
    Code::LatinCapitalG,
    // 0x48: H I J K L M N O
    Code::LatinCapitalH,
    Code::LatinCapitalI,
    Code::LatinCapitalJ,
    Code::LatinCapitalK,
    Code::LatinCapitalL,
    Code::LatinCapitalM,
    Code::LatinCapitalN,
    Code::LatinCapitalO,
    // 0x50: P Q R S T U V W
    Code::LatinCapitalP,
    Code::LatinCapitalQ,
    Code::LatinCapitalR,
    Code::LatinCapitalS,
    Code::LatinCapitalT,
    Code::LatinCapitalU,
    Code::LatinCapitalV,
    Code::LatinCapitalW,
    // 0x58: X Y Z [ é ] í ó
    Code::LatinCapitalX,
    Code::LatinCapitalY,
    Code::LatinCapitalZ,
    Code::LeftSquareBracket,
    Code::LatinLowerEWithAcute,
    Code::RightSquareBracket,
    Code::LatinLowerIWithAcute,
    Code::LatinLowerOWithAcute,
    // 0x60: ú a b c d e f g
    Code::LatinLowerUWithAcute,
    Code::LatinLowerA,
    Code::LatinLowerB,
    Code::LatinLowerC,
    Code::LatinLowerD,
    Code::LatinLowerE,
    Code::LatinLowerF,
    Code::LatinLowerG,
    // 0x68: h i j k l m n o
    Code::LatinLowerH,
    Code::LatinLowerI,
    Code::LatinLowerJ,
    Code::LatinLowerK,
    Code::LatinLowerL,
    Code::LatinLowerM,
    Code::LatinLowerN,
    Code::LatinLowerO,
    // 0x70: p q r s t u v w
    Code::LatinLowerP,
    Code::LatinLowerQ,
    Code::LatinLowerR,
    Code::LatinLowerS,
    Code::LatinLowerT,
    Code::LatinLowerU,
    Code::LatinLowerV,
    Code::LatinLowerW,
    // 0x78: x y z ç ÷ Ñ ñ (solid block)
    Code::LatinLowerX,
    Code::LatinLowerY,
    Code::LatinLowerZ,
    Code::LatinLowerCWithCedilla,
    Code::DivisionSign,
    Code::LatinCapitalNWithTilde,
    Code::LatinLowerNWithTilde,
    Code::SolidBlock,
];

/// The special characters and the extended ones, sixteen after each of five pairs.
pub const SYMBOLS: [Control; 80] = [
    // 11 30: ® ° ½ ¿ ™ ¢ £ ♪
    Control::RegisteredTrademarkSign,
    Control::DegreeSign,
    Control::Fraction12,
    Control::InvertedQuestionMark,
    Control::TradeMarkSign,
    Control::CentSign,
    Control::PoundSign,
    Control::MusicalNote,
    // 11 38: à (transparent space) è â ê î ô û
    Control::LatinLowerAWithGrave,
    Control::TransparentSpace,
    Control::LatinLowerEWithGrave,
    Control::LatinLowerAWithCircumflex,
    Control::LatinLowerEWithCircumflex,
    Control::LatinLowerIWithCircumflex,
    Control::LatinLowerOWithCircumflex,
    Control::LatinLowerUWithCircumflex,
    // 12 20: Á É Ó Ú Ü ü ‘ ¡
    Control::LatinCapitalAWithAcute,
    Control::LatinCapitalEWithAcute,
    Control::LatinCapitalOWithAcute,
    Control::LatinCapitalUWithAcute,
    Control::LatinCapitalUWithDiaeseresis,
    Control::LatinLowerUWithDiaeseresis,
    Control::OpeningSingleQuote,
    Control::InvertedExclamationMark,
    // 12 28: * (single quote) (em dash) © ℠ • “ ”
    Control::Asterisk,
    Control::SingleOpenQuote,
    Control::EmDash,
    Control::CopyrightSign,
    Control::ServiceMarkSign,
    Control::RoundBullet,
    Control::DoubleOpenQuote,
    Control::DoubleCloseQuote,
    // 12 30: À Â Ç È Ê Ë ë Î
    Control::LatinCapitalAWithGrave,
    Control::LatinCapitalAWithCircumflex,
    Control::LatinCapitalCWithCedilla,
    Control::LatinCapitalEWithGrave,
    Control::LatinCapitalEWithCircumflex,
    Control::LatinCapitalEWithDiaeresis,
    Control::LatinLowerEWithDiaeresis,
    Control::LatinCapitalIWithCircumflex,
    // 12 38: Ï ï Ô Ù ù Û « »
    Control::LatinCapitalIWithDiaeresis,
    Control::LatinLowerIWithDiaeresis,
    Control::LatinCapitalOWithCircumflex,
    Control::LatinCapitalUWithGrave,
    Control::LatinLowerUWithGrave,
    Control::LatinCapitalUWithCircumflex,
    Control::OpeningGuillemets,
    Control::ClosingGuillemets,
    // 13 20: Ã ã Í Ì ì Ò ò Õ
    Control::LatinCapitalAWithTilde,
    Control::LatinLowerAWithTilde,
    Control::LatinCapitalIWithAcute,
    Control::LatinCapitalIWithGrave,
    Control::LatinLowerIWithGrave,
    Control::LatinCapitalOWithGrave,
    Control::LatinLowerOWithGrave,
    Control::LatinCapitalOWithTilde,
    // 13 28: õ { } \ ^ _ | ~
    Control::LatinLowerOWithTilde,
    Control::OpeningBrace,
    Control::ClosingBrace,
    Control::ReverseSolidus,
    Control::Caret,
    Control::Underbar,
    Control::Pipe,
    Control::Tilde,
    // 13 30: Ä ä Ö ö ß ¥ ¤ (vertical bar)
    Control::LatinCapitalAWithDiaeresis,
    Control::LatinLowerAWithDiaeresis,
    Control::LatinCapitalOWithDiaeresis,
    Control::LatinLowerOWithDiaeresis,
    Control::LatinLowerSharpS,
    Control::YenSign,
    Control::GeneralCurrencySign,
    Control::VerticalBar,
    // 13 38: Å å Ø ø ┌ ┐ └ ┘
    Control::LatinCapitalAWithRingAbove,
    Control::LatinLowerAWithRingAbove,
    Control::LatinCapitalOWithStroke,
    Control::LatinLowerOWithStroke,
    Control::UpperLeftBorder,
    Control::UpperRightBorder,
    Control::LowerLeftBorder,
    Control::LowerRightBorder,
];

/// The commands, 14 20 to 14 2F.
pub const COMMANDS: [Control; 16] = [
    Control::ResumeCaptionLoading,
    Control::Backspace,
    Control::AlarmOff,
    Control::AlarmOn,
    Control::DeleteToEndOfRow,
    Control::RollUp2,
    Control::RollUp3,
    Control::RollUp4,
    Control::FlashOn,
    Control::ResumeDirectionCaptioning,
    Control::TextRestart,
    Control::ResumeTextDisplay,
    Control::EraseDisplayedMemory,
    Control::CarriageReturn,
    Control::EraseNonDisplayedMemory,
    Control::EndOfCaption,
];

/// The tabs, 17 21 to 17 23: one, two and three columns.
pub const TABS: [Control; 3] = [
    Control::TabOffset1,
    Control::TabOffset2,
    Control::TabOffset3,
];

pub const MODES: [Mode; 5] = [
    Mode::PopOn,
    Mode::PaintOn,
    Mode::RollUp2,
    Mode::RollUp3,
    Mode::RollUp4,
];

/// The services, 1 to 4.
pub const IDS: [Id; 4] = [Id::CC1, Id::CC2, Id::CC3, Id::CC4];
