//! Bytes and widths of a text.
//! Answers to 01 on texts and to the rules S15 to S18.

use super::{Ground, ground, is_no};
use crate::case::{After, Case, Function};
use crate::measured::{Measured, texts_of};
use Function::{Forecast, Judge, Step};

const JUDGES: &[Function] = &[Judge];
const STEPS: &[Function] = &[Step];
const PRICES: &[Function] = &[Forecast, Step];

/// The bytes of a text, then its two widths.
#[rustfmt::skip]
pub const GROUNDS: [Ground; 16] = [
    ground("a column right after `~G`, a program", JUDGES,
        |case, after| is_no(after, 0) && case.bytes.windows(3).any(|run| run.starts_with(b"~G") && is_column(run[2]))),
    ground("a column right after another, a program", JUDGES,
        |case, after| is_no(after, 0) && case.bytes.windows(2).any(|run| is_column(run[0]) && is_column(run[1]))),
    ground("a column after neither (24)", JUDGES, |case, after| wrong_in_text(case, after, 24, is_column)),
    ground("a byte below 20h in a text (24)", JUDGES, |case, after| wrong_in_text(case, after, 24, |byte| byte < 0x20)),
    ground("7Fh in a text (24)", JUDGES, |case, after| wrong_in_text(case, after, 24, |byte| byte == 0x7F)),
    ground("a tilde before none of its letters (25)", JUDGES,
        |case, after| wrong_in_text(case, after, 25, |byte| byte == b'~')),

    ground("shown elsewhere than by its whole width, `D` last", STEPS, |case, after| shown_elsewhere(case, after, b'D')),
    ground("shown elsewhere than by its whole width, `d` last", STEPS, |case, after| shown_elsewhere(case, after, b'd')),
    ground("shown elsewhere than by its whole width, `B` last", STEPS, |case, after| shown_elsewhere(case, after, b'B')),
    ground("shown elsewhere than by its whole width, `b` last", STEPS, |case, after| shown_elsewhere(case, after, b'b')),
    ground("shown elsewhere than by its whole width, `C` last", STEPS, |case, after| shown_elsewhere(case, after, b'C')),
    ground("shown elsewhere than by its whole width, `c` last", STEPS, |case, after| shown_elsewhere(case, after, b'c')),
    ground("over 96 whole and shown, a space last", PRICES,
        |case, after| meets(case, after, |text| text.is_shown() && text.is_over_by_edge() && text.ends_with(b' '))),
    ground("over 96 whole and shown, a pair of another blank edge after its last character", PRICES,
        |case, after| meets(case, after,
            |text| text.is_shown() && text.is_over_by_edge() && text.has_other_edge_after())),
    ground("97 lit and scrolls, a pair of another blank edge after its last character", PRICES,
        |case, after| meets(case, after,
            |text| text.just_scrolls() && !text.ends_in_column() && text.has_other_edge_after())),
    ground("97 lit and scrolls, a font pair after its last column", PRICES,
        |case, after| meets(case, after,
            |text| text.just_scrolls() && text.ends_in_column() && text.has_other_edge_after())),
];

fn is_column(byte: u8) -> bool {
    byte >= 0x80
}

/// Whether a body is refused with this number for such a byte of a text; a command without a parameter earns 24 too.
fn wrong_in_text(case: &Case, after: &After, no: u32, such: fn(u8) -> bool) -> bool {
    let place = (after.result >> 8) as usize;
    is_no(after, no) && in_text(&case.bytes, place) && case.bytes.get(place).is_some_and(|&byte| such(byte))
}

/// Whether this place of a body is in a text: the last caret before it begins an `I` command or an `S`.
fn in_text(body: &[u8], place: usize) -> bool {
    let caret = body.get(..place).and_then(|before| before.iter().rposition(|&byte| byte == b'^'));
    caret.is_some_and(|caret| matches!(body.get(caret + 1), Some(b'I' | b'S')))
}

/// Whether a call performed or priced such a text.
fn meets(case: &Case, after: &After, such: fn(&Measured) -> bool) -> bool {
    texts_of(case, after).iter().any(such)
}

/// Whether a step shows a text that ends in this font where its whole width would not put it.
fn shown_elsewhere(case: &Case, after: &After, font: u8) -> bool {
    texts_of(case, after).iter().any(|text| text.ends_in(font) && text.starts_elsewhere())
}
