//! How often calls came up on ground where they can easily go wrong. Each part of it has a list of its own.
//! Answers to what the lists answer to.

mod completed;
mod forecasts;
mod images;
mod mids;
mod texts;

use crate::by_mid::with_allowed_mid;
use crate::case::{After, Case, Function, SHAPES};
use crate::records::is_sound;
use Function::{CopyBody, Receive, Reply, Reset, Step};
use reference::calls::{RECEIVE_ANSWER_SIZE, STEP_ANSWER_SIZE};
use reference::image::{AT_LENGTH, AT_TOTAL, IMAGE_SIZE};
use reference::packet::{REPLY, read_packet};

type Met = fn(&Case, &After) -> bool;

/// Something that a call can meet, and the calls that should meet it in each race.
struct Ground {
    name: &'static str,
    functions: &'static [Function],
    met: Met,
}

const fn ground(name: &'static str, functions: &'static [Function], met: Met) -> Ground {
    Ground { name, functions, met }
}

const ALL: &[Function] = &[Reset, Receive, Step, Reply, CopyBody];
const RESETS: &[Function] = &[Reset, Receive];
const PACKETS: &[Function] = &[Receive];

const LISTS: [&[Ground]; 5] =
    [&images::GROUNDS, &completed::GROUNDS, &mids::GROUNDS, &texts::GROUNDS, &forecasts::GROUNDS];

fn grounds() -> impl Iterator<Item = &'static Ground> {
    LISTS.into_iter().flatten()
}

pub fn is_no(after: &After, no: u32) -> bool {
    after.result & 0xFF == no
}

/// Whether a packet had this outcome, or a step was of this kind.
pub fn did(after: &After, word: u32) -> bool {
    is_no(after, 0) && after.word(0) == word
}

pub fn did_reset(case: &Case, after: &After) -> bool {
    if case.function == Reset { is_no(after, 0) } else { did(after, 2) }
}

pub fn is_busy(case: &Case) -> bool {
    case.image.len() == IMAGE_SIZE && case.image[AT_LENGTH] != 0
}

pub fn collects(case: &Case) -> bool {
    case.image.len() == IMAGE_SIZE && case.image[AT_TOTAL] != 0
}

/// Whether the call would be refused for what it was lent to write in.
fn is_short(case: &Case) -> bool {
    let needed = match case.function {
        Receive => RECEIVE_ANSWER_SIZE,
        Step => STEP_ANSWER_SIZE,
        Reply => REPLY,
        _ => case.image.get(AT_LENGTH).map_or(0, |&length| length.into()),
    };
    case.out.len() < needed
}

/// Whether a packet would be refused for what it is, its MID being allowed.
fn is_wrong_packet(case: &Case) -> bool {
    let case = with_allowed_mid(case);
    read_packet(case.numbers[0] as u8, &case.bytes).is_err()
}

/// Whether this is all that is wrong with the image: it is unsound, and sound once mended.
fn faulty(case: &Case, mend: fn(&mut [u8])) -> bool {
    if case.image.len() != IMAGE_SIZE || is_sound(&case.image) {
        return false;
    }
    let mut mended = case.image.clone();
    mend(&mut mended);
    is_sound(&mended)
}

/// The counts of each ground by call.
pub struct Grounds(Vec<[u64; SHAPES.len()]>);

impl Grounds {
    pub fn new() -> Self {
        Grounds(grounds().map(|_| [0; SHAPES.len()]).collect())
    }

    /// Counts the grounds that a case met.
    pub fn count(&mut self, case: &Case, after: &After) {
        for (ground, counts) in grounds().zip(&mut self.0) {
            if ground.functions.contains(&case.function) && (ground.met)(case, after) {
                counts[case.function as usize] += 1;
            }
        }
    }

    pub fn print(&self) {
        println!("calls by what they met:");
        for (ground, counts) in grounds().zip(&self.0) {
            let of = |function: &Function| format!("{} {}", function.shape().name, counts[*function as usize]);
            println!("  {}: {}", ground.name, ground.functions.iter().map(of).collect::<Vec<_>>().join(", "));
        }
    }

    /// The grounds that a call should have met and never did.
    pub fn faults(&self) -> Vec<String> {
        let mut faults = Vec::new();
        for (ground, counts) in grounds().zip(&self.0) {
            let never = ground.functions.iter().filter(|&&function| counts[function as usize] == 0);
            faults.extend(never.map(|function| format!("{} never met: {}", function.shape().name, ground.name)));
        }
        faults
    }
}
