//! The completed IDs: the last four that a sign completed since its reset, the newest first.
//! Answers to the rules J1, J4, J10, R2 and R5 (C-23).

use crate::packet::{ID_MOST, ID_RESET};

/// The most IDs that a sign remembers.
pub const COMPLETED_MOST: usize = 4;

/// The completed IDs and how many there are, as a record holds them, sound or not.
#[derive(Clone, Copy, Debug, Default, PartialEq, Eq)]
pub struct Completed {
    pub count: u8,
    pub ids: [u8; COMPLETED_MOST],
}

impl Completed {
    /// Whether this ID is one of them.
    pub fn contains(&self, id: u8) -> bool {
        self.known().contains(&id)
    }

    /// The last completed ID, or that of a reset if there is none.
    pub fn last(&self) -> u8 {
        self.known().first().copied().unwrap_or(ID_RESET)
    }

    /// Puts an ID in front, which forgets the oldest if there were four.
    pub fn add(&mut self, id: u8) {
        self.ids.rotate_right(1);
        self.ids[0] = id;
        self.count = COMPLETED_MOST.min(usize::from(self.count) + 1) as u8;
    }

    /// Whether there are four at most, each a message number and none twice, with zeros after them.
    pub fn is_sound(&self) -> bool {
        let Some((ids, unused)) = self.ids.split_at_checked(self.count.into()) else {
            return false;
        };
        let new = |(place, &id): (usize, &u8)| id <= ID_MOST && !ids[..place].contains(&id);
        ids.iter().enumerate().all(new) && unused.iter().all(|&byte| byte == 0)
    }

    /// The IDs that there are; a count that is too large means all of the room.
    fn known(&self) -> &[u8] {
        &self.ids[..COMPLETED_MOST.min(self.count.into())]
    }
}
