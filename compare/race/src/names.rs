//! What the header names, as the race and the reference have it.
//! Answers to the C interface's sizes, numbers and places; header/src/names.c has them in the same order.

use reference::calls::{
    self, FORECAST_ANSWER_SIZE, NO_ANSWER_SHORT, NO_IMAGE_SIZE, PACKET_ANSWER_SIZE, RECEIVE_ANSWER_SIZE,
    RECEIVE_BODY_OFFSET, REPLY_ANSWER_SIZE, STEP_ANSWER_SIZE,
};
use reference::image::{
    AT_BRIGHT, AT_COMPLETED, AT_COUNT, AT_DIM, AT_ID, AT_LENGTH, AT_LENS, AT_LOOP_LEFT, AT_LOOP_PLACE, AT_PACE,
    AT_PLACE, AT_ROOM, AT_SCANS, AT_SINK, AT_TOTAL, IMAGE_SIZE,
};
use reference::no::No;
use reference::packet::{BODY_MOST, DATA_MOST, FRAME, PACKET_MOST, REPLY, TOTAL_MOST};
use reference::program::Kind;

/// Where the data of a packet stand in it.
const PACKET_DATA: usize = 5;

const SIZES: [usize; 15] = [
    BODY_MOST,
    FRAME,
    FRAME,
    DATA_MOST,
    PACKET_MOST,
    TOTAL_MOST * PACKET_MOST,
    REPLY,
    IMAGE_SIZE,
    PACKET_ANSWER_SIZE,
    REPLY_ANSWER_SIZE,
    FORECAST_ANSWER_SIZE,
    RECEIVE_ANSWER_SIZE,
    STEP_ANSWER_SIZE,
    PACKET_DATA,
    RECEIVE_BODY_OFFSET,
];

#[rustfmt::skip]
const NOES: [No; 29] = [
    No::Under7, No::Over21, No::Count, No::Sum, No::Mid, No::Second, No::Zero, No::IdOver, No::IdLength, No::Position,
    No::NotFull, No::Busy, No::Other, No::Unsound, No::Settings, No::MidForbidden, No::Caret, No::Unknown, No::Number,
    No::Forbidden, No::Tilde, No::Loop, No::AfterEnd, No::Over84, No::Body, No::WriteId, No::WritePosition,
    No::OutShort, No::Reply,
];

#[rustfmt::skip]
const PLACES: [usize; 15] = [
    AT_COUNT, AT_COMPLETED, AT_ID, AT_TOTAL, AT_LENS, AT_ROOM, AT_LENGTH, AT_PLACE, AT_LOOP_PLACE, AT_LOOP_LEFT, AT_PACE, AT_SCANS,
    AT_SINK, AT_DIM, AT_BRIGHT,
];

#[rustfmt::skip]
const KINDS: [Kind; 16] = [
    Kind::II, Kind::IA, Kind::IB, Kind::S, Kind::L, Kind::E, Kind::F, Kind::R, Kind::XS, Kind::XF, Kind::P,
    Kind::Equals, Kind::W, Kind::XD, Kind::XB, Kind::Y,
];

/// What a packet is and does, and how the AUX pin reads, which the reference has as plain numbers.
const READ: [u32; 3] = [1, 2, 3];
const DID: [u32; 5] = [1, 2, 3, 4, 5];
const AUX: [u32; 2] = [0, 1];

/// All that the header names, in its order.
pub fn named() -> Vec<u32> {
    let mut named = vec![calls::version() >> 8];
    named.extend(SIZES.map(|size| size as u32));
    named.push(0);
    named.extend(NOES.map(|no| no as u32));
    named.extend([NO_IMAGE_SIZE, NO_ANSWER_SHORT]);
    named.extend(PLACES.map(|place| place as u32));
    named.push(0);
    named.extend(KINDS.map(|kind| kind as u32));
    named.extend(READ.iter().chain(&DID).chain(&AUX));
    named
}
