//! Texts about as wide as the sign, once in each race: a last character of each font, after each font and before each ending.
//! Answers to the rules S15 to S19: two widths, fitting, the start column, and the price of a scroll.

use crate::bodies::{FONTS, graphic, letter};
use crate::case::{Case, Function};
use crate::packets::transmission;
use crate::racer::Racer;
use crate::random::Random;
use crate::records::power_on_image;
use reference::calls::{FORECAST_ANSWER_SIZE, RECEIVE_ANSWER_SIZE, STEP_ANSWER_SIZE};
use reference::image::{AT_PACE, AT_SCANS};

/// The lit widths: some well under the sign's 96 columns, and those around it.
const LIT: [usize; 10] = [12, 46, 47, 93, 94, 95, 96, 97, 98, 99];

/// What comes after the last character: nothing, each pair, columns, or columns and a pair.
const ENDINGS: [&[u8]; 11] =
    [b"", b"~D", b"~d", b"~B", b"~b", b"~C", b"~c", b"~G", b"~G\x80", b"~G\xFF\x80", b"~G\x80\xFF\x81~b"];

const MID: u8 = 0x80;
const ID: u8 = 5;

/// Each text after the letters of each command that takes one.
pub fn widths(racer: &mut Racer) -> Option<()> {
    for first in FONTS {
        for last in FONTS {
            for ending in ENDINGS {
                for lit in LIT {
                    let text = text(&mut racer.random, first, last, ending, lit);
                    for letters in [b"^II".as_slice(), b"^IA", b"^IB", b"^S"] {
                        perform(racer, [letters, &text].concat())?;
                    }
                }
            }
        }
    }
    Some(())
}

type Font = (u8, usize, usize);

/// A text of this lit width: characters of the first font, columns for what they lack, a character of the last font, the ending.
/// Each text begins in font `D`, and a pair that would change nothing is left out.
fn text(random: &mut Random, first: Font, last: Font, ending: &[u8], lit: usize) -> Vec<u8> {
    let columns = ending.iter().filter(|&&byte| byte >= 0x80).count();
    let edge = if columns > 0 { 0 } else { last.2 };
    let rest = lit + edge - columns - last.1;
    let (characters, lacking) = (rest / first.1, rest % first.1);
    let mut text = pair(b'D', first.0);
    text.extend((0..characters).map(|_| letter(random)));
    if lacking > 0 {
        text.extend(b"~G");
        text.extend((0..lacking).map(|_| graphic(random)));
    }
    text.extend(pair(first.0, last.0));
    text.push(letter(random));
    text.extend(ending);
    text
}

/// What changes one font to another.
fn pair(from: u8, to: u8) -> Vec<u8> {
    if from == to { Vec::new() } else { vec![b'~', to] }
}

/// A body of one command, received and stepped by a sign of some pace and scan setting, and forecast from the same two.
fn perform(racer: &mut Racer, body: Vec<u8>) -> Option<()> {
    let (pace, scans) = (racer.random.within(1, 20), racer.random.within(1, 6));
    let mut image = power_on_image().to_vec();
    (image[AT_PACE], image[AT_SCANS]) = (pace as u8, scans as u8);
    for packet in transmission(MID, ID, &body) {
        let answer = racer.random.bytes(RECEIVE_ANSWER_SIZE);
        let receive = Case::new(Function::Receive, &[MID.into()]).image(&image).bytes(packet).out(answer);
        image = racer.call(receive)?.image().to_vec();
    }
    let answer = racer.random.bytes(STEP_ANSWER_SIZE);
    racer.call(Case::new(Function::Step, &[]).image(&image).out(answer))?;
    let answer = racer.random.bytes(FORECAST_ANSWER_SIZE);
    racer.call(Case::new(Function::Forecast, &[pace, scans]).bytes(body).out(answer)).map(drop)
}
