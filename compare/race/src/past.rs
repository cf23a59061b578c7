//! A sign that is followed through its calls, with the IDs that it once completed and must not know any more.
//! Answers to the rules J4, J10 and J14 (C-23): these IDs are new again, which no image tells.

use crate::case::{After, Case, Function};
use crate::ground::{did, did_reset, is_no};
use crate::racer::Racer;
use crate::remembered::{id_of, known};
use reference::completed::COMPLETED_MOST;
use reference::image::IMAGE_SIZE;
use reference::packet::ID_MOST;

/// The IDs that a sign completed and forgot, one bit for each: pushed out by others, or by a reset.
#[derive(Clone, Copy, Debug, Default)]
pub struct Past {
    pushed_out: u64,
    before_reset: u64,
}

fn bit(id: u8) -> u64 {
    if id <= ID_MOST { 1 << id } else { 0 }
}

impl Past {
    pub fn pushed_out(self, id: u8) -> bool {
        self.pushed_out & bit(id) != 0
    }

    pub fn before_reset(self, id: u8) -> bool {
        self.before_reset & bit(id) != 0
    }

    /// The IDs that were forgotten in one way or the other.
    pub fn forgotten(self) -> Vec<u8> {
        (0..=ID_MOST).filter(|&id| self.pushed_out(id) || self.before_reset(id)).collect()
    }

    /// What was forgotten after this call too.
    fn and(self, case: &Case, after: &After) -> Past {
        let completed = known(&case.image);
        match case.function {
            Function::PowerOn if is_no(after, 0) => Past::default(),
            Function::Reset | Function::Receive if did_reset(case, after) => {
                let known = completed.iter().fold(0, |bits, &id| bits | bit(id));
                Past { pushed_out: 0, before_reset: self.before_reset | known }
            }
            Function::Receive if did(after, 5) => {
                let known_again = !id_of(case).map_or(0, bit);
                let oldest = completed.get(COMPLETED_MOST - 1).map_or(0, |&id| bit(id));
                Past {
                    pushed_out: self.pushed_out & known_again | oldest,
                    before_reset: self.before_reset & known_again,
                }
            }
            _ => self,
        }
    }
}

/// A sign that is followed.
#[derive(Clone)]
pub struct Followed {
    pub image: Vec<u8>,
    pub past: Past,
}

impl Followed {
    /// A sign just switched on, whatever its image held.
    pub fn power_on(racer: &mut Racer) -> Option<Self> {
        let image = racer.random.bytes(IMAGE_SIZE);
        let image = racer.call(Case::new(Function::PowerOn, &[]).image(&image))?.image().to_vec();
        Some(Followed { image, past: Past::default() })
    }

    /// The case on this sign's image.
    pub fn case(&self, case: Case) -> Case {
        Case { past: self.past, ..case.image(&self.image) }
    }

    /// Has the sign answer, and leaves it as it was before.
    pub fn ask(&self, racer: &mut Racer, case: Case) -> Option<After> {
        racer.call(self.case(case))
    }

    /// Has the sign answer, and goes on with the image that it left.
    pub fn call(&mut self, racer: &mut Racer, case: Case) -> Option<After> {
        let case = self.case(case);
        let after = racer.call(case.clone())?;
        self.image = after.image().to_vec();
        self.past = self.past.and(&case, &after);
        Some(after)
    }
}
