//! The texts that calls met, with their widths and the blank edge at their end, as the reference reads them.
//! Answers to the rules S15 to S18.

use crate::bodies::FONTS;
use crate::case::{After, Case, Function};
use reference::image::{AT_LENGTH, AT_PLACE, AT_ROOM};
use reference::machine::COLUMNS;
use reference::program::{Command, Kind, Reader, Widths};

/// A text that a call performed or priced.
pub struct Measured {
    pub widths: Widths,
    /// Whether its command is an `I`.
    pub centred: bool,
    /// The last byte that is shown, and the font in force there.
    last: Option<(u8, u8)>,
    /// The font in force at the end.
    font: u8,
}

impl Measured {
    fn new(body: &[u8], command: &Command) -> Measured {
        let (mut last, mut font) = (None, b'D');
        let mut bytes = body[command.text.place.into()..command.end.into()].iter();
        while let Some(&byte) = bytes.next() {
            match byte {
                b'~' => font = bytes.next().copied().filter(|&letter| letter != b'G').unwrap_or(font),
                _ => last = Some((byte, font)),
            }
        }
        Measured { widths: command.text.widths, centred: command.kind != Kind::S, last, font }
    }

    /// The blank columns at the end, 0 to 3.
    pub fn edge(&self) -> u32 {
        (self.widths.whole - self.widths.lit).into()
    }

    /// Whether the text is shown at once or comes in from above or below.
    pub fn is_shown(&self) -> bool {
        self.centred && self.widths.lit <= COLUMNS
    }

    /// Whether it scrolls because it does not fit, by a single column.
    pub fn just_scrolls(&self) -> bool {
        self.centred && self.widths.lit == COLUMNS + 1
    }

    /// Whether it is wider than the sign by blank columns alone.
    pub fn is_over_by_edge(&self) -> bool {
        self.widths.whole > COLUMNS && self.widths.lit <= COLUMNS
    }

    /// Whether it is shown in another column than by its whole width, which would fit too.
    pub fn starts_elsewhere(&self) -> bool {
        let Widths { whole, lit } = self.widths;
        self.is_shown() && whole <= COLUMNS && (COLUMNS - lit) / 2 != (COLUMNS - whole) / 2
    }

    /// Whether the last byte that is shown is a character of this font.
    pub fn ends_in(&self, letter: u8) -> bool {
        self.last.is_some_and(|(byte, font)| byte < 0x80 && font == letter)
    }

    /// Whether the last byte that is shown is this one.
    pub fn ends_with(&self, shown: u8) -> bool {
        self.last.is_some_and(|(byte, _)| byte == shown)
    }

    /// Whether the last byte that is shown is a column.
    pub fn ends_in_column(&self) -> bool {
        self.last.is_some_and(|(byte, _)| byte >= 0x80)
    }

    /// Whether a pair after the last byte that is shown leaves a font of another blank edge.
    pub fn has_other_edge_after(&self) -> bool {
        let changed = self.last.is_some_and(|(_, font)| font != self.font);
        changed && FONTS.iter().any(|&(letter, _, blank)| letter == self.font && blank as u32 != self.edge())
    }
}

/// The text that a step performed, or those that a forecast priced, if it priced any.
pub fn texts_of(case: &Case, after: &After) -> Vec<Measured> {
    if after.result & 0xFF != 0 {
        return Vec::new();
    }
    match case.function {
        Function::Step if (1..=4).contains(&after.word(0)) => {
            let (room, place) = (&case.image[AT_ROOM..AT_LENGTH], case.image[AT_PLACE]);
            texts_at(&room[..case.image[AT_LENGTH].into()], |at| at == usize::from(place))
        }
        Function::Forecast if after.word(0) == 0 => texts_at(&case.bytes, |_| true),
        _ => Vec::new(),
    }
}

/// The texts of a program's commands at such places.
fn texts_at(body: &[u8], such: impl Fn(usize) -> bool) -> Vec<Measured> {
    let mut texts = Vec::new();
    let Ok(mut reader) = Reader::begin(body) else {
        return texts;
    };
    let mut at = reader.place();
    while let Ok(Some(command)) = reader.next_command() {
        if such(at) && command.text.place > 0 {
            texts.push(Measured::new(body, &command));
        }
        at = reader.place();
    }
    texts
}
