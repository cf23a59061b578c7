//! The two widths of a text, and what goes by which: fitting and centring by the lit one, a scroll by the whole one.
//! Answers to the rules S15 to S19. The numbers were counted by hand from their table; where a text has characters in the order of
//! `0123456789ABC` and so on, the last one tells how many there are.

use reference::machine::{Forecast, Step, Totals, forecast};
use reference::program::{Command, Kind, Reader, Widths};
use reference::sign::Sign;

/// The commands that show a text, and the kind of each.
const CENTRED: [(&[u8], Kind); 3] = [(b"^II", Kind::II), (b"^IA", Kind::IA), (b"^IB", Kind::IB)];

/// 97 columns whole and 95 lit: shown, though it is wider than the sign.
const OVER: &[u8] = b"0123456789ABCDE~dF";

/// 100 columns whole and 97 lit: one too wide.
const WIDE: &[u8] = b"~G\x80~b0123456789A";

fn first_command(body: &[u8]) -> Command {
    Reader::begin(body).unwrap().next_command().unwrap().unwrap()
}

#[track_caller]
fn check_widths(text: &[u8], whole: u16, lit: u16) {
    for letters in [b"^II".as_slice(), b"^IA", b"^IB", b"^S"] {
        let body = [letters, text].concat();
        assert_eq!(first_command(&body).text.widths, Widths { whole, lit }, "{}", body.escape_ascii());
    }
}

/// The first step of a sign that runs this body from these settings.
fn step(body: &[u8], pace: u8, scans: u8) -> Step {
    let mut sign = Sign::power_on();
    sign.body[..body.len()].copy_from_slice(body);
    sign.length = body.len() as u8;
    (sign.settings.pace, sign.settings.scans) = (pace, scans);
    sign.step().unwrap()
}

#[test]
fn pairs_after_the_last_character_change_nothing() {
    let lasts: [(&[u8], u16, u16); 7] =
        [(b"A", 6, 5), (b"~DA", 6, 5), (b"~dA", 7, 5), (b"~BA", 8, 6), (b"~bA", 9, 6), (b"~CA", 5, 4), (b"~cA", 6, 4)];
    let pairs: [&[u8]; 11] = [b"", b"~D", b"~d", b"~B", b"~b", b"~C", b"~c", b"~G", b"~b~C", b"~G~b", b"~b~G"];
    for (last, whole, lit) in lasts {
        for pair in pairs {
            check_widths(&[last, pair].concat(), whole, lit);
        }
    }
}

#[test]
fn both_widths() {
    let cases: [(&[u8], u16, u16); 36] = [
        // Nothing is shown.
        (b"", 0, 0),
        (b"^SA", 0, 0),
        (b"~b", 0, 0),
        (b"~G", 0, 0),
        (b"~D~d~B~b~C~c~G", 0, 0),
        // Only the last character's blank columns are the edge.
        (b"AA", 12, 11),
        (b"~bAA", 18, 15),
        (b"~bAA^SA", 18, 15),
        (b"~bA~CA", 14, 13),
        (b"~CA~bA", 14, 11),
        (b"~dA~DA", 13, 12),
        (b"~BA~c~dA~b", 15, 13),
        (b"0123456789ABCDE~dF", 97, 95),
        (b"~b0123456789A", 99, 96),
        // A space is a character.
        (b" ", 6, 5),
        (b"A ", 12, 11),
        (b"~b ~D", 9, 6),
        (b"~bA ~D", 18, 15),
        (b"~bA~D ", 15, 14),
        (b"A~b ", 15, 12),
        (b"A~b   ", 33, 30),
        (b"0123456789ABCDEF ", 102, 101),
        // A graphic byte that comes last has no edge, and pairs after it change nothing.
        (b"~G\x80", 1, 1),
        (b"~G\x80\xFF", 2, 2),
        (b"A~G\x80", 7, 7),
        (b"~bA~G\x80", 10, 10),
        (b"A~G\xFF~b", 7, 7),
        (b"~G\x80~b~G", 1, 1),
        (b"~bA~G\x80~G\xFF~D", 11, 11),
        // A character after graphic bytes has one, in the font before them unless a pair comes between.
        (b"~G\x80A", 7, 6),
        (b"~bA~G\x80A", 19, 16),
        (b"~bA~G\x80~CA", 15, 14),
        (b"~c~G\x80\x80A", 8, 6),
        // `~G` alone shows nothing.
        (b"~bA~G~D", 9, 6),
        (b"~bA~GA", 18, 15),
        (b"~G\x80~G~bA~G", 10, 7),
    ];
    for (text, whole, lit) in cases {
        check_widths(text, whole, lit);
    }
}

#[test]
fn up_to_96_lit_a_text_is_shown() {
    let cases: [(&[u8], u16, u16); 18] = [
        // One blank column: D and C.
        (b"0123456789ABCDEF", 96, 95),
        (b"~G\x80~D0123456789ABCDEF", 97, 96),
        (b"~C0123456789ABCDEFG~DHI", 97, 96),
        (b"01~C23456789ABCDEFGHI", 97, 96),
        // Two: d, B and c.
        (b"0123456789ABCDE~dF", 97, 95),
        (b"~d0123456789ABCD", 98, 96),
        (b"0123456789ABCDE~BF", 98, 96),
        (b"~B0~c123456789ABCDEF", 98, 96),
        // Three: b.
        (b"~b0123456789A", 99, 96),
        (b"~C0123456789ABCDEFGH~bI", 99, 96),
        // None: graphic bytes.
        (b"~b0123456789~G\x80\x80\x80\x80\x80\x80", 96, 96),
        (b"~C0123456789ABCDEFGHI~G\xFF", 96, 96),
        // Spaces at the end.
        (b"0123456789ABCDE ", 96, 95),
        (b"0123456789ABCDE~d ", 97, 95),
        (b"~b0123456789 ", 99, 96),
        (b"~b0123456789~D ", 96, 95),
        (b"~b0123456789~d ", 97, 95),
        (b"               ~B ", 98, 96),
    ];
    for (text, whole, lit) in cases {
        for pair in [b"".as_slice(), b"~D", b"~c", b"~b", b"~G"] {
            let text = [text, pair].concat();
            check_widths(&text, whole, lit);
            for ((letters, kind), scans) in CENTRED.into_iter().zip([0, 7, 7]) {
                let step = step(&[letters, &text].concat(), 4, 1);
                assert_eq!((step.kind, step.column, step.scans), (Some(kind), 0, scans), "{}", text.escape_ascii());
            }
        }
    }
}

#[test]
fn from_97_lit_on_a_text_scrolls_by_its_whole_width() {
    let cases: [(&[u8], u16, u16, u32, u32); 14] = [
        // One blank column: D and C.
        (b"~G\x80\x80~D0123456789ABCDEF", 98, 97, 194, 4312),
        (b"~C0123456789ABCDEF~DGHI", 98, 97, 194, 4312),
        (b"012~C3456789ABCDEFGHI", 98, 97, 194, 4312),
        (b"0123456789ABCDEFG", 102, 101, 198, 4400),
        // Two: d, B and c.
        (b"~B0~d123456789ABCD", 99, 97, 195, 4334),
        (b"~C0123456789ABCDE~BFGH", 99, 97, 195, 4334),
        (b"~b0~c123456789ABCDEF", 99, 97, 195, 4334),
        // Three: b.
        (b"~G\x80~b0123456789A", 100, 97, 196, 4356),
        (b"~C0123456789A~bBCDEF", 100, 97, 196, 4356),
        // None: graphic bytes.
        (b"~b0123456789~G\x80\x80\x80\x80\x80\x80\x80", 97, 97, 193, 4289),
        (b"0123456789ABCDEF~G\xFF", 97, 97, 193, 4289),
        // Spaces at the end.
        (b"0123456789ABCDEF ", 102, 101, 198, 4400),
        (b"~b0123456789~D  ", 102, 101, 198, 4400),
        (b"~b0123456789~C  ", 100, 99, 196, 4356),
    ];
    for (text, whole, lit, scans, milliseconds) in cases {
        for pair in [b"".as_slice(), b"~D", b"~c", b"~b", b"~G"] {
            let text = [text, pair].concat();
            check_widths(&text, whole, lit);
            let length = text.len() as u32;
            for (letters, place) in [(b"^II".as_slice(), 3), (b"^IA", 3), (b"^IB", 3), (b"^S", 2)] {
                let scroll = Step { kind: Some(Kind::S), number: 0, place, length, column: 0, scans, milliseconds };
                assert_eq!(step(&[letters, &text].concat(), 4, 1), scroll, "{}", text.escape_ascii());
            }
        }
    }
}

#[test]
fn a_text_starts_by_its_lit_width() {
    let cases: [(&[u8], u32); 30] = [
        (b"", 48),
        (b"~b", 48),
        (b"~b~G", 48),
        (b"A", 45),
        (b"A~b", 45),
        (b"~dA", 45),
        (b"~BA", 45),
        (b"~bA", 45),
        (b"~bA~D", 45),
        (b"~CA", 46),
        (b"~CA~G", 46),
        (b"~cA", 46),
        (b"AA", 42),
        (b"~dAA", 42),
        (b"~BAA", 41),
        (b"~bAA", 40),
        (b"~CAA", 43),
        (b"~cAA", 43),
        (b"~CA~bA", 42),
        (b"~bA~CA", 41),
        (b"~G\x80", 47),
        (b"A~G\x80", 44),
        (b"~G\x80A", 45),
        (b"~bA~G\x80~b", 43),
        (b" ", 45),
        (b"   ", 39),
        (b"0123456789ABCDE", 3),
        (b"0123456789ABCD~dE", 3),
        (b"~b0123456789", 4),
        (b"0123456789ABCDE~dF", 0),
    ];
    for (text, column) in cases {
        for (letters, kind) in CENTRED {
            let step = step(&[letters, text].concat(), 4, 1);
            assert_eq!((step.kind, step.column), (Some(kind), column), "{}", text.escape_ascii());
        }
    }
}

/// A step of a text alone in its body, and the forecast of that body.
#[track_caller]
fn check_price(letters: &[u8], text: &[u8], (pace, setting): (u8, u8), kind: Kind, scans: u32, milliseconds: u32) {
    let body = [letters, text].concat();
    let (place, length) = (letters.len() as u32, text.len() as u32);
    let expected = Step { kind: Some(kind), number: 0, place, length, column: 0, scans, milliseconds };
    assert_eq!(step(&body, pace, setting), expected);
    let totals = Totals { steps: 1, scans, milliseconds };
    assert_eq!(forecast(&body, pace, setting), Ok(Forecast::Ends { totals, pace, scans: setting }));
}

#[test]
fn prices_of_a_text_over_96_whole_and_not_lit() {
    for (settings, milliseconds, scroll) in [
        ((4, 1), 156, (193, 4289)),
        ((20, 3), 56, (579, 4632)),
        ((1, 6), 234, (1158, 38_600)),
        ((19, 4), 59, (772, 6434)),
    ] {
        check_price(b"^II", OVER, settings, Kind::II, 0, 0);
        check_price(b"^IA", OVER, settings, Kind::IA, 7, milliseconds);
        check_price(b"^IB", OVER, settings, Kind::IB, 7, milliseconds);
        check_price(b"^S", OVER, settings, Kind::S, scroll.0, scroll.1);
    }
}

#[test]
fn prices_of_a_text_of_97_lit() {
    for (settings, scans, milliseconds) in
        [((4, 1), 196, 4356), ((20, 3), 588, 4704), ((1, 6), 1176, 39_200), ((19, 4), 784, 6534)]
    {
        for letters in [b"^II".as_slice(), b"^IA", b"^IB", b"^S"] {
            check_price(letters, WIDE, settings, Kind::S, scans, milliseconds);
        }
    }
}

#[test]
fn prices_of_programs_with_such_texts() {
    let cases: [(&[&[u8]], Totals, (u8, u8)); 4] = [
        (&[b"^IA", OVER, b"^IB", OVER], Totals { steps: 2, scans: 14, milliseconds: 312 }, (4, 1)),
        (&[b"^L2^II", OVER, b"^S", OVER, b"^E"], Totals { steps: 7, scans: 2 * 193, milliseconds: 2 * 4289 }, (4, 1)),
        (&[b"^L3^S", OVER, b"^P20^E"], Totals { steps: 10, scans: 3 * 193, milliseconds: 4289 + 2 * 1544 }, (20, 1)),
        (&[b"^=2^IA", OVER, b"^IA", WIDE], Totals { steps: 3, scans: 7 + 392, milliseconds: 156 + 8712 }, (4, 2)),
    ];
    for (parts, totals, (pace, scans)) in cases {
        assert_eq!(forecast(&parts.concat(), 4, 1), Ok(Forecast::Ends { totals, pace, scans }));
    }
}
