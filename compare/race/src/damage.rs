//! Records with one byte changed: every place of reached images, set to every value that a rule could be about.
//! Answers to 01, the paragraph on sound records, and to the number 16.

use crate::case::{Case, Function};
use crate::mids;
use crate::packets;
use crate::racer::Racer;
use crate::records::{packet_for, record};
use crate::remembered::known;
use crate::sizes::SIZE_BEFORE;
use reference::completed::COMPLETED_MOST;
use reference::image::{AT_LENGTH, AT_LOOP_PLACE, AT_ROOM, AT_TOTAL, IMAGE_SIZE};

/// The states that images are swept in.
const STATES: [&str; 8] = [
    "Ready, collecting nothing, under four completed IDs",
    "Ready, collecting, under four completed IDs",
    "Busy outside loops, under four completed IDs",
    "Busy in a loop, under four completed IDs",
    "Ready, collecting nothing, four completed IDs",
    "Ready, collecting, four completed IDs",
    "Busy outside loops, four completed IDs",
    "Busy in a loop, four completed IDs",
];

fn state(image: &[u8]) -> usize {
    let state = match (image[AT_LENGTH], image[AT_TOTAL], image[AT_LOOP_PLACE]) {
        (0, 0, _) => 0,
        (0, ..) => 1,
        (_, _, 0) => 2,
        _ => 3,
    };
    if known(image).len() == COMPLETED_MOST { state + 4 } else { state }
}

/// How far the sweep is.
#[derive(Default)]
pub struct Damage {
    image: Vec<u8>,
    place: usize,
    /// Images swept from end to end, by state.
    swept: [u64; STATES.len()],
}

impl Damage {
    /// Goes on with the sweep by some places of the present image.
    pub fn sweep(&mut self, racer: &mut Racer, reached: &mut Vec<Vec<u8>>) -> Option<()> {
        for _ in 0..12 {
            if self.image.is_empty() && !self.choose(racer, reached) {
                return Some(());
            }
            self.sweep_place(racer)?;
            self.place += 1;
            if self.place == IMAGE_SIZE {
                self.swept[state(&self.image)] += 1;
                self.image.clear();
            }
        }
        Some(())
    }

    /// Takes a reached image of the state that was swept least.
    fn choose(&mut self, racer: &mut Racer, reached: &mut Vec<Vec<u8>>) -> bool {
        let Some(least) = (0..STATES.len()).min_by_key(|&state| self.swept[state]) else {
            return false;
        };
        let fitting: Vec<usize> = (0..reached.len()).filter(|&index| state(&reached[index]) == least).collect();
        if fitting.is_empty() {
            return false;
        }
        self.image = reached.swap_remove(racer.random.pick(&fitting));
        self.place = 0;
        true
    }

    fn sweep_place(&mut self, racer: &mut Racer) -> Option<()> {
        let mut image = self.image.clone();
        for value in telling_values(self.place, self.image[self.place]) {
            image[self.place] = value;
            let function =
                racer.random.pick(&[Function::Reset, Function::Receive, Function::Reply, Function::CopyBody]);
            call_on(racer, Function::Step, &image)?;
            call_on(racer, function, &image)?;
        }
        Some(())
    }

    pub fn print(&self) {
        println!("images swept with one byte changed, at each of {IMAGE_SIZE} places:");
        for (state, swept) in STATES.iter().zip(self.swept) {
            println!("  {state}: {swept}");
        }
    }

    /// The states of which no image was swept from end to end.
    pub fn faults(&self) -> Vec<String> {
        let unswept = STATES.iter().zip(self.swept).filter(|(_, swept)| *swept == 0);
        unswept.map(|(state, _)| format!("no image swept: {state}")).collect()
    }
}

/// The values that a byte at this place is set to: every one in the small fields, the telling ones in the room.
fn telling_values(place: usize, present: u8) -> Vec<u8> {
    const TELLING: [u8; 24] = [
        0, 1, 2, 6, 13, 14, 15, 0x1F, 0x20, 0x30, 0x31, 0x39, 0x3F, 0x41, 0x45, 0x46, 0x4C, 0x52, 0x5E, 0x7E, 0x7F,
        0x80, 0xFE, 0xFF,
    ];
    if !(AT_ROOM..AT_LENGTH).contains(&place) {
        return (0..=255).collect();
    }
    let beside = [present.wrapping_sub(1), present.wrapping_add(1), present ^ 0x20];
    TELLING.into_iter().chain(beside).collect()
}

/// A call on an image, its other inputs right for it more often than not.
fn call_on(racer: &mut Racer, function: Function, image: &[u8]) -> Option<()> {
    let mid = mids::any(&mut racer.random);
    let mut case = Case::new(function, &[mid.into(), racer.random.below(3)]).image(image);
    case.out = match function {
        Function::Receive | Function::Step => racer.answer(function),
        Function::Reply => racer.buffer(8),
        Function::CopyBody => racer.buffer(image.get(AT_LENGTH).map_or(0, |&length| length.into())),
        _ => Vec::new(),
    };
    if function == Function::Receive {
        case.bytes = match racer.random.below(10) {
            0 => packets::packet(&mut racer.random, mid),
            1 => packets::whole(&mut racer.random, mid),
            _ => packet_for(&mut racer.random, image, mid),
        };
    }
    racer.call(case).map(drop)
}

/// Records made up, each through every call that takes one.
pub fn made_up(racer: &mut Racer) -> Option<()> {
    for _ in 0..40 {
        let image = record(&mut racer.random);
        for function in [Function::Step, Function::Receive, Function::Reset, Function::Reply, Function::CopyBody] {
            call_on(racer, function, &image)?;
        }
    }
    for _ in 0..4 {
        let size = racer.random.pick(&[IMAGE_SIZE, IMAGE_SIZE, 0, SIZE_BEFORE, IMAGE_SIZE - 1, IMAGE_SIZE + 1]);
        let image = racer.random.bytes(size);
        racer.call(Case::new(Function::PowerOn, &[]).image(&image))?;
    }
    Some(())
}
