//! The sign: its record, when that is sound, and what each call does to it; and the driver's repeater.
//! Answers to 01, "Joining", the rules of a step and of soundness, the numbers 12, 13 and 16, and to C-23.

use crate::completed::Completed;
use crate::machine::{Course, Settings, Step, perform};
use crate::no::{No, Refusal};
use crate::packet::{BODY_MOST, DATA_MOST, ID_MOST, Normal, Packet, Reply, TOTAL_MOST, read_packet, write_reply};
use crate::program::{Command, Reader, judge};

/// All that a sign remembers.
#[derive(Clone, Debug, PartialEq, Eq)]
pub struct Sign {
    /// The IDs that it completed since its reset, four at most.
    pub completed: Completed,
    /// What is being collected, all zeros if nothing is.
    pub id: u8,
    pub total: u8,
    pub lens: [u8; TOTAL_MOST],
    pub room: [u8; BODY_MOST],
    /// The running body, all zeros if the sign is Ready.
    pub body: [u8; BODY_MOST],
    pub length: u8,
    pub course: Course,
    pub settings: Settings,
}

/// What a packet did.
#[derive(Clone, Debug, PartialEq, Eq)]
pub enum Received {
    Query,
    Reset,
    Repeat,
    Stored,
    Released(Released),
}

/// A body that came together, with its program's no if it is not accepted.
#[derive(Clone, Debug, PartialEq, Eq)]
pub struct Released {
    pub body: [u8; BODY_MOST],
    pub length: u8,
    pub refusal: Option<Refusal>,
}

impl Sign {
    /// A sign just switched on.
    pub fn power_on() -> Sign {
        Sign {
            completed: Completed::default(),
            id: 0,
            total: 0,
            lens: [0; TOTAL_MOST],
            room: [0; BODY_MOST],
            body: [0; BODY_MOST],
            length: 0,
            course: Course::default(),
            settings: Settings::POWER_ON,
        }
    }

    /// Whether a program runs.
    pub fn is_busy(&self) -> bool {
        self.length != 0
    }

    /// Whether the record is one that 01 calls sound.
    pub fn is_sound(&self) -> bool {
        self.standing().is_ok()
    }

    /// Sets the sign back, whatever it does.
    pub fn reset(&mut self) -> Result<(), No> {
        self.standing()?;
        self.set_back();
        Ok(())
    }

    /// Takes bytes off the line; the record is judged first, then the MID, then the bytes.
    pub fn receive(&mut self, mid: u8, bytes: &[u8]) -> Result<Received, No> {
        self.standing()?;
        match read_packet(mid, bytes)? {
            Packet::Query => Ok(Received::Query),
            Packet::Reset => {
                self.set_back();
                Ok(Received::Reset)
            }
            Packet::Normal(packet) => self.join(packet),
        }
    }

    /// Performs the next command of the running body.
    pub fn step(&mut self) -> Result<Step, No> {
        let Some(command) = self.standing()? else {
            return Ok(Step::default());
        };
        let step = perform(&command, &mut self.settings);
        self.course.follow(&command);
        if self.course.place == self.length {
            self.end_program();
        }
        Ok(step)
    }

    /// Lays the reply to a query at the front of `out` and tells its length; the record is judged before the MID.
    pub fn reply(&self, mid: u8, aux_sinks: bool, out: &mut [u8]) -> Result<usize, No> {
        self.standing()?;
        write_reply(mid, Reply { last: self.completed.last(), busy: self.is_busy(), sink: aux_sinks }, out)
    }

    /// Copies the running body to the front of `out` and tells its length.
    pub fn copy_body(&self, out: &mut [u8]) -> Result<usize, No> {
        self.standing()?;
        let length = usize::from(self.length);
        let copy = out.get_mut(..length).ok_or(No::OutShort)?;
        copy.copy_from_slice(&self.body[..length]);
        Ok(length)
    }

    fn set_back(&mut self) {
        *self = Sign { settings: self.settings.after_reset(), ..Sign::power_on() };
    }

    fn end_program(&mut self) {
        self.body = [0; BODY_MOST];
        self.length = 0;
        self.course = Course::default();
    }
}

/// The joining of packets.
impl Sign {
    fn join(&mut self, packet: Normal) -> Result<Received, No> {
        if self.completed.contains(packet.id) {
            return Ok(Received::Repeat);
        }
        if self.is_busy() {
            return Err(No::Busy);
        }
        if self.total == 0 || self.id != packet.id {
            self.drop_collected();
            (self.id, self.total) = (packet.id, packet.total);
        } else if self.total != packet.total {
            return Err(No::Other);
        }
        let position = usize::from(packet.position);
        let slot = &mut self.room[DATA_MOST * position..][..DATA_MOST];
        match usize::from(self.lens[position]) {
            0 => {
                slot[..packet.data.len()].copy_from_slice(packet.data);
                self.lens[position] = packet.data.len() as u8;
                Ok(self.stored())
            }
            held if slot[..held] == *packet.data => Ok(Received::Repeat),
            _ => Err(No::Other),
        }
    }

    /// The outcome of a packet that found room: the body, if it was the last one missing.
    fn stored(&mut self) -> Received {
        if self.lens[..usize::from(self.total)].contains(&0) {
            return Received::Stored;
        }
        let body = self.room;
        let length: u8 = self.lens.iter().sum();
        self.completed.add(self.id);
        self.drop_collected();
        let refusal = judge(&body[..usize::from(length)]).err();
        if refusal.is_none() {
            self.body = body;
            self.length = length;
        }
        Received::Released(Released { body, length, refusal })
    }

    fn drop_collected(&mut self) {
        self.id = 0;
        self.total = 0;
        self.lens = [0; TOTAL_MOST];
        self.room = [0; BODY_MOST];
    }
}

/// Soundness.
impl Sign {
    /// The command that a sound sign performs next, none if it is Ready.
    pub(crate) fn standing(&self) -> Result<Option<Command>, No> {
        if !self.completed.is_sound() || !self.settings.are_sound() {
            return Err(No::Unsound);
        }
        if !self.is_busy() {
            let ready = self.body == [0; BODY_MOST] && self.course == Course::default();
            let sound = ready && (self.collects_nothing() || self.collects_soundly());
            return if sound { Ok(None) } else { Err(No::Unsound) };
        }
        let next = self.next_of_accepted().filter(|_| self.collects_nothing());
        next.ok_or(No::Unsound).map(Some)
    }

    /// Whether the room for packets is all unused.
    fn collects_nothing(&self) -> bool {
        self.id == 0 && self.total == 0 && self.lens == [0; TOTAL_MOST] && self.room == [0; BODY_MOST]
    }

    /// Whether what is collected could have come in as packets and still lacks some.
    fn collects_soundly(&self) -> bool {
        let total = usize::from(self.total);
        if !(2..=TOTAL_MOST).contains(&total) || self.id > ID_MOST || self.completed.contains(self.id) {
            return false;
        }
        let held = self.lens.iter().filter(|&&length| length != 0).count();
        let slots = self.lens.iter().zip(self.room.chunks_exact(DATA_MOST));
        let mut placed = slots.enumerate();
        (1..total).contains(&held) && placed.all(|(position, (&length, data))| is_slot(position, total, length, data))
    }

    /// The command at the record's place, if body, place and loop are those of an accepted program.
    fn next_of_accepted(&self) -> Option<Command> {
        let (body, unused) = self.body.split_at_checked(usize::from(self.length))?;
        let mut reader = Reader::begin(body).ok()?;
        let mut next = None;
        loop {
            let (place, around) = (reader.place(), reader.open());
            let Some(command) = reader.next_command().ok()? else {
                break;
            };
            if place == usize::from(self.course.place) {
                next = self.course.fits(around).then_some(command);
            }
        }
        next.filter(|_| all_zero(unused))
    }
}

/// Whether a slot of the room is empty or holds a right packet's data, with zeros behind.
fn is_slot(position: usize, total: usize, length: u8, data: &[u8]) -> bool {
    let length = usize::from(length);
    let right = match length {
        0 | DATA_MOST => length == 0 || position < total,
        _ => length < DATA_MOST && position + 1 == total,
    };
    right && all_zero(&data[length..])
}

fn all_zero(bytes: &[u8]) -> bool {
    bytes.iter().fold(0, |seen, byte| seen | byte) == 0
}

/// The stretch of the body that a step's text names, none where the driver goes on with its standing line.
pub fn stretch(body: &[u8], place: usize, length: usize) -> Option<&[u8]> {
    if place == 0 {
        return None;
    }
    body.get(place..)?.get(..length)
}

/// What the driver's repeater shows.
pub fn repeat<'a>(body: &'a [u8], place: usize, length: usize, standing_line: &'a [u8]) -> &'a [u8] {
    stretch(body, place, length).unwrap_or(standing_line)
}
