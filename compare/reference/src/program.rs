//! The program: one command read at a place, the widths of its text, and a whole body judged.
//! Answers to 01, "The program", and to the numbers 21 to 28.

use crate::no::{No, Refusal};
use crate::packet::BODY_MOST;
use std::ops::RangeInclusive;

const CARET: u8 = b'^';
const TILDE: u8 = b'~';

/// What a command does, by the number that the C interface gives it.
#[derive(Clone, Copy, Debug, PartialEq, Eq)]
#[repr(u8)]
pub enum Kind {
    II = 1,
    IA = 2,
    IB = 3,
    S = 4,
    L = 5,
    E = 6,
    F = 7,
    R = 8,
    XS = 9,
    XF = 10,
    P = 11,
    Equals = 12,
    W = 13,
    XD = 14,
    XB = 15,
    Y = 16,
}

/// A command as it stands in a body; what it lacks is 0.
#[derive(Clone, Copy, Debug, PartialEq, Eq)]
pub struct Command {
    pub kind: Kind,
    pub number: u8,
    pub text: Text,
    /// The place behind the command.
    pub end: u8,
}

/// Where a text stands and how many columns it takes.
#[derive(Clone, Copy, Debug, Default, PartialEq, Eq)]
pub struct Text {
    pub place: u8,
    pub length: u8,
    pub widths: Widths,
}

/// The columns of a text: all of them, and all but the blank ones of its last character.
#[derive(Clone, Copy, Debug, Default, PartialEq, Eq)]
pub struct Widths {
    /// What a scroll goes by.
    pub whole: u16,
    /// What fitting and centring go by.
    pub lit: u16,
}

impl Widths {
    /// Adds what is shown next. Until more follows, its blank columns are the edge of the text.
    fn add(&mut self, shown: Shown) {
        self.whole += shown.columns;
        self.lit = self.whole - shown.blank;
    }
}

/// The command whose caret stands at this place of a body of at most 84 bytes, or the no that it earns by itself.
pub(crate) fn read_command(body: &[u8], at: usize) -> Result<Command, Refusal> {
    let letter = |place: usize| body.get(place).copied().unwrap_or(CARET);
    let unknown = Err(Refusal::at(No::Unknown, at));
    let (kind, start) = match letter(at + 1) {
        b'I' => match letter(at + 2) {
            b'I' => (Kind::II, at + 3),
            b'A' => (Kind::IA, at + 3),
            b'B' => (Kind::IB, at + 3),
            _ => return unknown,
        },
        b'X' => match letter(at + 2) {
            b'S' => return alone(Kind::XS, body, at + 3),
            b'F' => return alone(Kind::XF, body, at + 3),
            b'D' => return with_number(Kind::XD, body, at, 3, 3, 1..=255),
            b'B' => return with_number(Kind::XB, body, at, 3, 3, 0..=255),
            _ => return unknown,
        },
        b'S' => (Kind::S, at + 2),
        b'L' => return with_number(Kind::L, body, at, 2, 2, 1..=99),
        b'E' => return alone(Kind::E, body, at + 2),
        b'F' => return alone(Kind::F, body, at + 2),
        b'R' => return alone(Kind::R, body, at + 2),
        b'P' => return with_number(Kind::P, body, at, 2, 2, 1..=20),
        b'=' => return with_number(Kind::Equals, body, at, 2, 1, 1..=6),
        b'W' => return with_number(Kind::W, body, at, 2, 2, 1..=99),
        b'Y' => return with_number(Kind::Y, body, at, 2, 2, 0..=17),
        _ => return unknown,
    };
    let (text, end) = read_text(body, start)?;
    Ok(Command { kind, number: 0, text, end: end as u8 })
}

/// A command behind whose letters nothing may stand.
fn alone(kind: Kind, body: &[u8], start: usize) -> Result<Command, Refusal> {
    match body.get(start) {
        None | Some(&CARET) => Ok(Command { kind, number: 0, text: Text::default(), end: start as u8 }),
        Some(_) => Err(Refusal::at(No::Forbidden, start)),
    }
}

/// A command whose number stands so many bytes behind its caret and has at most so many digits.
fn with_number(
    kind: Kind,
    body: &[u8],
    at: usize,
    letters: usize,
    digits: usize,
    range: RangeInclusive<u16>,
) -> Result<Command, Refusal> {
    let read = read_number(body, at + letters, digits).filter(|(value, _)| range.contains(value));
    let (value, end) = read.ok_or(Refusal::at(No::Number, at))?;
    Ok(Command { kind, number: value as u8, text: Text::default(), end: end as u8 })
}

/// The number up to the next caret or the end, and the place behind it; none if it is no number of so many digits.
fn read_number(body: &[u8], start: usize, digits: usize) -> Option<(u16, usize)> {
    let mut value = 0;
    let mut at = start;
    while let Some(&byte) = body.get(at).filter(|&&byte| byte != CARET) {
        if !byte.is_ascii_digit() || at - start == digits {
            return None;
        }
        value = 10 * value + u16::from(byte - b'0');
        at += 1;
    }
    (at > start).then_some((value, at))
}

/// The text up to the next caret or the end with its widths, and the place behind it; or the no of its first wrong byte.
fn read_text(body: &[u8], place: usize) -> Result<(Text, usize), Refusal> {
    let mut font = FONT_D;
    let mut graphic = false;
    let mut widths = Widths::default();
    let mut at = place;
    while let Some(&byte) = body.get(at).filter(|&&byte| byte != CARET) {
        match byte {
            TILDE => {
                let letter = body.get(at + 1).copied().unwrap_or(CARET);
                graphic = letter == b'G';
                if !graphic {
                    font = font_of(letter).ok_or(Refusal::at(No::Tilde, at))?;
                }
                at += 1;
            }
            0x20..TILDE => {
                graphic = false;
                widths.add(font);
            }
            0x80.. if graphic => widths.add(GRAPHIC),
            _ => return Err(Refusal::at(No::Forbidden, at)),
        }
        at += 1;
    }
    Ok((Text { place: place as u8, length: (at - place) as u8, widths }, at))
}

/// The columns of one byte that is shown, and how many of them are blank, on its right.
#[derive(Clone, Copy)]
struct Shown {
    columns: u16,
    blank: u16,
}

const GRAPHIC: Shown = Shown { columns: 1, blank: 0 };

/// A character in the font that each text begins in.
const FONT_D: Shown = Shown { columns: 6, blank: 1 };

/// A character in the font of this letter.
fn font_of(letter: u8) -> Option<Shown> {
    match letter {
        b'D' => Some(FONT_D),
        b'd' => Some(Shown { columns: 7, blank: 2 }),
        b'B' => Some(Shown { columns: 8, blank: 2 }),
        b'b' => Some(Shown { columns: 9, blank: 3 }),
        b'C' => Some(Shown { columns: 5, blank: 1 }),
        b'c' => Some(Shown { columns: 6, blank: 2 }),
        _ => None,
    }
}

/// An `L` that waits for its closing command.
#[derive(Clone, Copy, Debug, PartialEq, Eq)]
pub struct Loop {
    pub caret: u8,
    pub behind: u8,
    pub number: u8,
}

/// A body read from the left, each command judged in its turn.
pub struct Reader<'a> {
    body: &'a [u8],
    place: usize,
    open: Option<Loop>,
    endless: bool,
}

impl<'a> Reader<'a> {
    /// Begins at the first caret, unless the body is no body at all.
    pub fn begin(body: &'a [u8]) -> Result<Self, Refusal> {
        if body.len() > BODY_MOST {
            return Err(Refusal::at(No::Over84, BODY_MOST));
        }
        if body.first() != Some(&CARET) {
            return Err(Refusal::at(No::Caret, 0));
        }
        Ok(Reader { body, place: 0, open: None, endless: false })
    }

    /// The place of the next command.
    pub fn place(&self) -> usize {
        self.place
    }

    /// The loop that the next command stands in.
    pub fn open(&self) -> Option<Loop> {
        self.open
    }

    /// Whether an `F` or `R` was read.
    pub fn endless(&self) -> bool {
        self.endless
    }

    /// The next command, or none behind the last one of an accepted body.
    pub fn next_command(&mut self) -> Result<Option<Command>, Refusal> {
        if self.place >= self.body.len() {
            return match self.open {
                Some(open) => Err(Refusal { no: No::Loop, place: open.caret }),
                None => Ok(None),
            };
        }
        if self.endless {
            return Err(Refusal::at(No::AfterEnd, self.place));
        }
        let command = read_command(self.body, self.place)?;
        if !self.enter(&command) {
            return Err(Refusal::at(No::Loop, self.place));
        }
        self.place = command.end.into();
        Ok(Some(command))
    }

    /// Opens or closes what the command opens or closes, and tells whether it may stand here.
    fn enter(&mut self, command: &Command) -> bool {
        let inside = self.open.is_some();
        match command.kind {
            Kind::L => {
                let opened = Loop { caret: self.place as u8, behind: command.end, number: command.number };
                self.open = Some(opened);
                !inside
            }
            Kind::E => self.open.take().is_some(),
            Kind::F => {
                self.endless = true;
                self.open.take().is_some()
            }
            Kind::R => {
                self.endless = true;
                !inside
            }
            _ => true,
        }
    }
}

/// Whether an accepted body is endless, or why it is not accepted.
pub fn judge(body: &[u8]) -> Result<bool, Refusal> {
    let mut reader = Reader::begin(body)?;
    while reader.next_command()?.is_some() {}
    Ok(reader.endless())
}
