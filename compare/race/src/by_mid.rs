//! Which MIDs the calls were given: each that is forbidden must have come up with 19 in each call, and each other one with yes.
//! Answers to the rules W8 and N19 (C-15).

use crate::case::{After, Case, SHAPES, Shape, by_reference};
use crate::mids::NEIGHBOURS;
use crate::tally::{VALUES, check};
use reference::no::No;
use reference::packet::FORBIDDEN_MIDS;

const FORBIDDEN: u32 = No::MidForbidden as u32;

/// The number that a call refused with 19 would have given to an allowed MID, all else being as right or wrong as it was.
pub fn in_place_of(case: &Case, after: &After) -> Option<u32> {
    (after.result & 0xFF == FORBIDDEN).then(|| by_reference(&with_allowed_mid(case)).result & 0xFF)
}

/// The same call with an allowed MID: its own, or one that its packet or reply does not bear unless it bore the forbidden one.
pub fn with_allowed_mid(case: &Case) -> Case {
    if !has_forbidden_mid(case) {
        return case.clone();
    }
    let of_80 = case.bytes.first().is_some_and(|first| [0x80, 0x81].contains(first));
    case.readdressed(if of_80 { 0x82 } else { 0x80 })
}

/// Whether a call is given a MID that is forbidden.
pub fn has_forbidden_mid(case: &Case) -> bool {
    case.mid().is_some_and(|mid| FORBIDDEN_MIDS.contains(&mid))
}

/// How often each call said 19, and yes, by MID.
pub struct ByMid {
    refused: Vec<[u64; VALUES]>,
    taken: Vec<[u64; VALUES]>,
}

impl ByMid {
    pub fn new() -> Self {
        let none = vec![[0; VALUES]; SHAPES.len()];
        ByMid { refused: none.clone(), taken: none }
    }

    /// Counts a call that took a MID.
    pub fn count(&mut self, case: &Case, after: &After) {
        let counts = match after.result & 0xFF {
            0 => &mut self.taken,
            FORBIDDEN => &mut self.refused,
            _ => return,
        };
        if let Some(mid) = case.mid() {
            counts[case.function as usize][usize::from(mid)] += 1;
        }
    }

    /// The calls that take a MID, with their counts of 19 and of yes.
    fn calls(&self) -> impl Iterator<Item = (&Shape, &[u64; VALUES], &[u64; VALUES])> {
        let counts = self.refused.iter().zip(&self.taken);
        let calls = SHAPES.iter().zip(counts).filter(|(shape, _)| shape.takes_mid());
        calls.map(|(shape, (refused, taken))| (shape, refused, taken))
    }

    pub fn print(&self) {
        println!("calls by MID:");
        for (shape, refused, taken) in self.calls() {
            let least = allowed().map(|mid| taken[mid as usize]).min().unwrap_or(0);
            let (refused, taken) = (told(&FORBIDDEN_MIDS, refused), told(&NEIGHBOURS, taken));
            println!("  {}: 19 to {refused}; yes to {taken}, to each allowed one at least {least} times", shape.name);
        }
    }

    /// The MIDs that never came up with the number that is theirs, or came up with the other one.
    pub fn faults(&self) -> Vec<String> {
        let mut faults = Vec::new();
        for (shape, refused, taken) in self.calls() {
            check(&format!("{}: 19 to MID", shape.name), &FORBIDDEN_MIDS.map(u32::from), refused, &mut faults);
            check(&format!("{}: yes to MID", shape.name), &allowed().collect::<Vec<_>>(), taken, &mut faults);
        }
        faults
    }
}

fn allowed() -> impl Iterator<Item = u32> {
    (0..=u8::MAX).filter(|mid| !FORBIDDEN_MIDS.contains(mid)).map(u32::from)
}

fn told(mids: &[u8], counts: &[u64; VALUES]) -> String {
    let told = mids.iter().map(|&mid| format!("{mid:02X}h: {}", counts[usize::from(mid)]));
    told.collect::<Vec<_>>().join(", ")
}
