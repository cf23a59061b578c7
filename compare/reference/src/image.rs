//! The record as an image of 106 bytes, and back.
//! Answers to the part of the C interface that names the places of an image; any image is some record. The record has room
//! for the packets and room for the running body, the image has one for both: a sound sign never needs them at once.

use crate::completed::Completed;
use crate::machine::{Course, Settings};
use crate::packet::BODY_MOST;
use crate::sign::Sign;

/// The size of an image, and where its parts stand.
pub const IMAGE_SIZE: usize = 106;
pub const AT_COUNT: usize = 0;
pub const AT_COMPLETED: usize = 1;
pub const AT_ID: usize = 5;
pub const AT_TOTAL: usize = 6;
pub const AT_LENS: usize = 7;
pub const AT_ROOM: usize = 13;
pub const AT_LENGTH: usize = 97;
pub const AT_PLACE: usize = 98;
pub const AT_LOOP_PLACE: usize = 99;
pub const AT_LOOP_LEFT: usize = 100;
pub const AT_PACE: usize = 101;
pub const AT_SCANS: usize = 102;
pub const AT_SINK: usize = 103;
pub const AT_DIM: usize = 104;
pub const AT_BRIGHT: usize = 105;

/// The `COUNT` bytes of an image that stand at this place.
fn part<const COUNT: usize>(image: &[u8; IMAGE_SIZE], at: usize) -> [u8; COUNT] {
    std::array::from_fn(|index| image[at + index])
}

impl Sign {
    /// The record that an image shows, sound or not.
    pub fn from_image(image: &[u8; IMAGE_SIZE]) -> Sign {
        let mut sign = Sign {
            completed: Completed { count: image[AT_COUNT], ids: part(image, AT_COMPLETED) },
            id: image[AT_ID],
            total: image[AT_TOTAL],
            lens: part(image, AT_LENS),
            room: [0; BODY_MOST],
            body: [0; BODY_MOST],
            length: image[AT_LENGTH],
            course: Course { place: image[AT_PLACE], loop_place: image[AT_LOOP_PLACE], loop_left: image[AT_LOOP_LEFT] },
            settings: Settings {
                pace: image[AT_PACE],
                scans: image[AT_SCANS],
                sink: image[AT_SINK],
                dim: image[AT_DIM],
                bright: image[AT_BRIGHT],
            },
        };
        let held = if sign.is_busy() { &mut sign.body } else { &mut sign.room };
        *held = part(image, AT_ROOM);
        sign
    }

    /// Writes the image of a sound record, whose room holds the body of a Busy sign or the packets of a Ready one.
    pub fn write_image(&self, image: &mut [u8; IMAGE_SIZE]) {
        image[AT_COUNT] = self.completed.count;
        image[AT_COMPLETED..AT_ID].copy_from_slice(&self.completed.ids);
        image[AT_ID] = self.id;
        image[AT_TOTAL] = self.total;
        image[AT_LENS..AT_ROOM].copy_from_slice(&self.lens);
        image[AT_ROOM..AT_LENGTH].copy_from_slice(if self.is_busy() { &self.body } else { &self.room });
        image[AT_LENGTH] = self.length;
        image[AT_PLACE] = self.course.place;
        image[AT_LOOP_PLACE] = self.course.loop_place;
        image[AT_LOOP_LEFT] = self.course.loop_left;
        image[AT_PACE] = self.settings.pace;
        image[AT_SCANS] = self.settings.scans;
        image[AT_SINK] = self.settings.sink;
        image[AT_DIM] = self.settings.dim;
        image[AT_BRIGHT] = self.settings.bright;
    }
}
