//! One function for each call of the C interface, over lent slices, with the reference behind it.
//! Answers to that interface: its results, its answers in words, and its numbers 251 and 252. A call says the first that
//! applies: 251 and then 16 if it takes an image, 19 if it takes a MID, 252 if it has an answer, then the rest.

use crate::image::IMAGE_SIZE;
use crate::machine::{Forecast, Step, forecast as forecast_of};
use crate::no::{No, Refusal};
use crate::packet::{self, Packet, Reply, check_mid};
use crate::program;
use crate::sign::{Received, Released, Sign, stretch};

/// The sizes of the answers.
pub const PACKET_ANSWER_SIZE: usize = 20;
pub const REPLY_ANSWER_SIZE: usize = 12;
pub const FORECAST_ANSWER_SIZE: usize = 24;
pub const RECEIVE_ANSWER_SIZE: usize = 100;
pub const STEP_ANSWER_SIZE: usize = 28;

/// Where a released body stands in its answer.
pub const RECEIVE_BODY_OFFSET: usize = 16;

/// The version of the interface: major, minor, patch.
const VERSION: [usize; 3] = [1, 3, 0];

/// The numbers that only this interface has.
pub const NO_IMAGE_SIZE: u32 = 251;
pub const NO_ANSWER_SHORT: u32 = 252;

const YES: u32 = 0;

fn yes(value: usize) -> u32 {
    (value as u32) << 8
}

fn refused(refusal: Refusal) -> u32 {
    yes(refusal.place.into()) | refusal.no as u32
}

/// The result of a call whose yes is a length.
fn written(result: Result<usize, No>) -> u32 {
    match result {
        Ok(length) => yes(length),
        Err(no) => no as u32,
    }
}

/// The no to an answer that is too short, unless the record or the MID, which are judged before it, have a no of their own.
fn too_short<T>(judged_before: Result<T, No>) -> u32 {
    match judged_before {
        Ok(_) => NO_ANSWER_SHORT,
        Err(no) => no as u32,
    }
}

/// Lays words at the front of an answer, lowest byte first.
fn lay_words(words: &[u32], answer: &mut [u8]) {
    for (word, bytes) in words.iter().zip(answer.chunks_exact_mut(4)) {
        bytes.copy_from_slice(&word.to_le_bytes());
    }
}

pub fn read_packet(mid: u8, bytes: &[u8], answer: &mut [u8]) -> u32 {
    let Some(answer) = answer.first_chunk_mut::<PACKET_ANSWER_SIZE>() else {
        return too_short(check_mid(mid));
    };
    let words = match packet::read_packet(mid, bytes) {
        Err(no) => return no as u32,
        Ok(Packet::Query) => [1, 0, 0, 0, 0],
        Ok(Packet::Reset) => [2, 0, 0, 0, 0],
        Ok(Packet::Normal(normal)) => {
            let length = normal.data.len() as u32;
            [3, normal.id.into(), normal.total.into(), normal.position.into(), length]
        }
    };
    lay_words(&words, answer);
    YES
}

pub fn write_query(mid: u8, out: &mut [u8]) -> u32 {
    written(packet::write_query(mid, out))
}

pub fn write_reset(mid: u8, out: &mut [u8]) -> u32 {
    written(packet::write_reset(mid, out))
}

pub fn write_packet(mid: u8, id: u8, body: &[u8], position: u8, out: &mut [u8]) -> u32 {
    written(packet::write_packet(mid, id, body, position, out))
}

pub fn write_transmission(mid: u8, id: u8, body: &[u8], out: &mut [u8]) -> u32 {
    written(packet::write_transmission(mid, id, body, out))
}

pub fn write_reply(mid: u8, last: u8, busy: u8, aux: u8, out: &mut [u8]) -> u32 {
    let reply = Reply { last, busy: busy != 0, sink: aux != 0 };
    written(packet::write_reply(mid, reply, out))
}

pub fn read_reply(mid: u8, bytes: &[u8], answer: &mut [u8]) -> u32 {
    let Some(answer) = answer.first_chunk_mut::<REPLY_ANSWER_SIZE>() else {
        return too_short(check_mid(mid));
    };
    match packet::read_reply(mid, bytes) {
        Err(no) => no as u32,
        Ok(reply) => {
            lay_words(&[reply.last.into(), reply.busy.into(), reply.sink.into()], answer);
            YES
        }
    }
}

pub fn judge(body: &[u8]) -> u32 {
    match program::judge(body) {
        Ok(endless) => yes(endless.into()),
        Err(refusal) => refused(refusal),
    }
}

pub fn forecast(body: &[u8], pace: u8, scan_setting: u8, answer: &mut [u8]) -> u32 {
    let Some(answer) = answer.first_chunk_mut::<FORECAST_ANSWER_SIZE>() else {
        return NO_ANSWER_SHORT;
    };
    let words = match forecast_of(body, pace, scan_setting) {
        Err(refusal) => return refused(refusal),
        Ok(Forecast::Endless) => [1, 0, 0, 0, 0, 0],
        Ok(Forecast::Ends { totals, pace, scans }) => {
            [0, totals.steps, totals.scans, totals.milliseconds, pace.into(), scans.into()]
        }
    };
    lay_words(&words, answer);
    YES
}

pub fn power_on(image: &mut [u8]) -> u32 {
    let Ok(image) = <&mut [u8; IMAGE_SIZE]>::try_from(image) else {
        return NO_IMAGE_SIZE;
    };
    Sign::power_on().write_image(image);
    YES
}

pub fn reset(image: &mut [u8]) -> u32 {
    let Ok(image) = <&mut [u8; IMAGE_SIZE]>::try_from(image) else {
        return NO_IMAGE_SIZE;
    };
    let mut sign = Sign::from_image(image);
    match sign.reset() {
        Err(no) => no as u32,
        Ok(()) => {
            sign.write_image(image);
            YES
        }
    }
}

pub fn receive(image: &mut [u8], mid: u8, bytes: &[u8], answer: &mut [u8]) -> u32 {
    let Ok(image) = <&mut [u8; IMAGE_SIZE]>::try_from(image) else {
        return NO_IMAGE_SIZE;
    };
    let mut sign = Sign::from_image(image);
    let Some(answer) = answer.first_chunk_mut::<RECEIVE_ANSWER_SIZE>() else {
        return too_short(sign.standing().and_then(|_| check_mid(mid)));
    };
    match sign.receive(mid, bytes) {
        Err(no) => no as u32,
        Ok(received) => {
            sign.write_image(image);
            lay_received(&received, answer);
            YES
        }
    }
}

fn lay_received(received: &Received, answer: &mut [u8; RECEIVE_ANSWER_SIZE]) {
    let outcome = match received {
        Received::Query => 1,
        Received::Reset => 2,
        Received::Repeat => 3,
        Received::Stored => 4,
        Received::Released(released) => return lay_released(released, answer),
    };
    *answer = [0; RECEIVE_ANSWER_SIZE];
    answer[0] = outcome;
}

fn lay_released(released: &Released, answer: &mut [u8; RECEIVE_ANSWER_SIZE]) {
    let (no, place) = match released.refusal {
        None => (0, 0),
        Some(refusal) => (refusal.no as u32, refusal.place.into()),
    };
    lay_words(&[5, no, place, released.length.into()], answer);
    answer[RECEIVE_BODY_OFFSET..].copy_from_slice(&released.body);
}

pub fn step(image: &mut [u8], answer: &mut [u8]) -> u32 {
    let Ok(image) = <&mut [u8; IMAGE_SIZE]>::try_from(image) else {
        return NO_IMAGE_SIZE;
    };
    let mut sign = Sign::from_image(image);
    let Some(answer) = answer.first_chunk_mut::<STEP_ANSWER_SIZE>() else {
        return too_short(sign.standing());
    };
    match sign.step() {
        Err(no) => no as u32,
        Ok(step) => {
            sign.write_image(image);
            lay_words(&step_words(&step), answer);
            YES
        }
    }
}

fn step_words(step: &Step) -> [u32; 7] {
    let kind = step.kind.map_or(0, |kind| kind as u32);
    [kind, step.number, step.place, step.length, step.column, step.scans, step.milliseconds]
}

pub fn reply(image: &[u8], mid: u8, aux: u8, out: &mut [u8]) -> u32 {
    match <&[u8; IMAGE_SIZE]>::try_from(image) {
        Err(_) => NO_IMAGE_SIZE,
        Ok(image) => written(Sign::from_image(image).reply(mid, aux != 0, out)),
    }
}

pub fn copy_body(image: &[u8], out: &mut [u8]) -> u32 {
    match <&[u8; IMAGE_SIZE]>::try_from(image) {
        Err(_) => NO_IMAGE_SIZE,
        Ok(image) => written(Sign::from_image(image).copy_body(out)),
    }
}

pub fn repeat(body: &[u8], place: usize, length: usize) -> u32 {
    yes(stretch(body, place, length).is_some().into())
}

pub fn version() -> u32 {
    let [major, minor, patch] = VERSION;
    yes(major * 65536 + minor * 256 + patch)
}
