//! Images with one fault only, refusals that must come in their order, and changes of what the one room holds.
//! Answers to the C interface's layout of an image and its order of refusals.

use super::{
    ALL, Ground, PACKETS, RESETS, collects, did, did_reset, faulty, ground, is_busy, is_no, is_short, is_wrong_packet,
};
use crate::case::{After, Case, Function};
use crate::remembered::known;
use Function::{CopyBody, Receive, Reply, Step};
use reference::image::{AT_ID, AT_LENGTH, AT_LENS, AT_LOOP_LEFT, AT_PLACE, AT_ROOM, AT_SINK};
use reference::packet::DATA_MOST;

const ANSWERS: &[Function] = &[Receive, Step];
const BUFFERS: &[Function] = &[Reply, CopyBody];
const STEPS: &[Function] = &[Step];

/// What makes an image unsound by itself, then the order of refusals, then what changes the room or must leave it.
#[rustfmt::skip]
pub const GROUNDS: [Ground; 23] = [
    ground("AUX byte over 1, all else sound", ALL, |case, _| faulty(case, right_aux)),
    ground("Busy with stray collection bytes, all else sound", ALL,
        |case, _| is_busy(case) && faulty(case, no_collection)),
    ground("Busy with a stray room after the body, all else sound", ALL,
        |case, _| is_busy(case) && faulty(case, no_room_after_body)),
    ground("Ready with a stray room, nothing collected, all else sound", ALL,
        |case, _| !is_busy(case) && !collects(case) && faulty(case, no_room)),
    ground("Ready with a stray room beside the packets, all else sound", ALL,
        |case, _| !is_busy(case) && collects(case) && faulty(case, no_room_beside_packets)),
    ground("Ready with a whole program in the room, all else sound", ALL,
        |case, _| !is_busy(case) && !collects(case) && faulty(case, start_program)),

    ground("short answer, image of another size (251)", ANSWERS, |case, after| is_short(case) && is_no(after, 251)),
    ground("short answer, unsound record (16)", ANSWERS, |case, after| is_short(case) && is_no(after, 16)),
    ground("short answer, AUX byte over 1, all else sound (16)", ANSWERS,
        |case, after| is_short(case) && is_no(after, 16) && faulty(case, right_aux)),
    ground("short answer, sound record (252)", ANSWERS, |_, after| is_no(after, 252)),
    ground("short answer, sound record, wrong packet (252)", PACKETS,
        |case, after| is_no(after, 252) && is_wrong_packet(case)),
    ground("unsound record, wrong packet (16)", PACKETS, |case, after| is_no(after, 16) && is_wrong_packet(case)),
    ground("short buffer, unsound record (16)", BUFFERS, |case, after| is_short(case) && is_no(after, 16)),

    ground("query to a Busy sign", PACKETS, |case, after| is_busy(case) && did(after, 1)),
    ground("Repeat at a Busy sign", PACKETS, |case, after| is_busy(case) && did(after, 3)),
    ground("Repeat at a sign that collects", PACKETS, |case, after| collects(case) && did(after, 3)),
    ground("Idle step of a sign that collects", STEPS, |case, after| collects(case) && did(after, 0)),
    ground("reset of a Busy sign", RESETS, |case, after| is_busy(case) && did_reset(case, after)),
    ground("reset of a sign that collects", RESETS, |case, after| collects(case) && did_reset(case, after)),
    ground("packets dropped for those of another message", PACKETS,
        |case, after| collects(case) && did(after, 4) && after.image()[AT_ID] != case.image[AT_ID]),
    ground("program of several packets released", PACKETS,
        |case, after| did_release_collected(case, after) && after.image()[AT_LENGTH] != 0),
    ground("body of several packets released that is no program", PACKETS,
        |case, after| did_release_collected(case, after) && after.image()[AT_LENGTH] == 0),
    ground("last step of a program", STEPS,
        |case, after| is_busy(case) && is_no(after, 0) && after.image()[AT_LENGTH] == 0),
];

/// Whether the packets that a sign held are in the body that it released.
fn did_release_collected(case: &Case, after: &After) -> bool {
    collects(case) && did(after, 5) && known(after.image()).first() == Some(&case.image[AT_ID])
}

pub fn right_aux(image: &mut [u8]) {
    image[AT_SINK] = 1;
}

fn no_collection(image: &mut [u8]) {
    image[AT_ID..AT_ROOM].fill(0);
}

fn no_room(image: &mut [u8]) {
    image[AT_ROOM..AT_LENGTH].fill(0);
}

fn no_room_after_body(image: &mut [u8]) {
    let end = AT_ROOM + usize::from(image[AT_LENGTH]);
    image[end.min(AT_LENGTH)..AT_LENGTH].fill(0);
}

fn no_room_beside_packets(image: &mut [u8]) {
    let (front, room) = image.split_at_mut(AT_ROOM);
    for (&length, slot) in front[AT_LENS..].iter().zip(room.chunks_mut(DATA_MOST)) {
        slot[DATA_MOST.min(length.into())..].fill(0);
    }
}

/// Makes what stands in the room the running body.
fn start_program(image: &mut [u8]) {
    let used = image[AT_ROOM..AT_LENGTH].iter().rposition(|&byte| byte != 0).map_or(0, |last| last + 1);
    image[AT_LENGTH] = used as u8;
    image[AT_PLACE..=AT_LOOP_LEFT].fill(0);
}
