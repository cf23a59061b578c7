//! Bytes in a text, once in each race: each of the 256 after every front and before every back of two short lists.
//! Answers to 01, "The program" (L4 to L6), and to the numbers 24 and 25.

use crate::case::{Case, Function};
use crate::racer::Racer;

/// What a byte can stand after: nothing, a character, `~G`, columns, a character or pair after which no column may be, or a tilde alone.
const FRONTS: [&[u8]; 9] = [b"", b"A", b"~G", b"~G\x80", b"~G\xFF", b"~G\x80A", b"~D", b"~", b"~G~D"];

/// What a byte can stand before: nothing, a character, a letter that a tilde takes, columns, a pair, a command, or a letter and a column,
/// with which a tilde makes a pair that ends a run.
const BACKS: [&[u8]; 8] = [b"", b"A", b"G", b"\x80", b"\xFF", b"~B", b"^S", b"D\x80"];

/// Each byte among its neighbours after `^S`, judged: its kind decides the answer and the place.
pub fn texts(racer: &mut Racer) -> Option<()> {
    for byte in 0..=u8::MAX {
        for front in FRONTS {
            for back in BACKS {
                let body = [b"^S", front, &[byte], back].concat();
                racer.call(Case::new(Function::Judge, &[]).bytes(body))?;
            }
        }
    }
    Some(())
}
