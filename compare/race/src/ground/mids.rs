//! Forbidden MIDs, beside all else that is refused, and in bytes off the line.
//! Answers to the rules W8 and N19 (C-15).

use super::images::right_aux;
use super::{Ground, PACKETS, faulty, ground, is_no, is_short, is_wrong_packet};
use crate::by_mid::{has_forbidden_mid, in_place_of};
use crate::case::{After, Case, Function};
use crate::packets::readdress;
use Function::{
    ReadPacket, ReadReply, Receive, Reply, WritePacket, WriteQuery, WriteReply, WriteReset, WriteTransmission,
};
use reference::packet::{FORBIDDEN_MIDS, read_packet, read_reply};

const MIDS: &[Function] =
    &[ReadPacket, WriteQuery, WriteReset, WritePacket, WriteTransmission, WriteReply, ReadReply, Receive, Reply];
const MIDS_AND_IMAGES: &[Function] = &[Receive, Reply];
const MIDS_AND_ANSWERS: &[Function] = &[ReadPacket, ReadReply, Receive];
const MIDS_AND_BUFFERS: &[Function] = &[WriteQuery, WriteReset, WritePacket, WriteTransmission, WriteReply, Reply];
const READS: &[Function] = &[ReadPacket, Receive];

#[rustfmt::skip]
pub const GROUNDS: [Ground; 19] = [
    ground("forbidden MID, all else right (19)", MIDS, |case, after| stands_for(case, after, 0)),
    ground("forbidden MID, short answer (19)", MIDS_AND_ANSWERS, |case, after| stands_for(case, after, 252)),
    ground("forbidden MID, short answer, wrong packet (19)", READS,
        |case, after| stands_for(case, after, 252) && is_wrong_packet(case)),
    ground("forbidden MID, wrong packet (19)", READS,
        |case, after| in_place_of(case, after).is_some_and(|no| (1..=11).contains(&no))),
    ground("forbidden MID, Busy sign, new number (19)", PACKETS, |case, after| stands_for(case, after, 12)),
    ground("forbidden MID, other total or data (19)", PACKETS, |case, after| stands_for(case, after, 13)),
    ground("forbidden MID, wrong reply (19)", &[ReadReply], |case, after| stands_for(case, after, 35)),
    ground("forbidden MID, wrong body (19)", &[WritePacket, WriteTransmission],
        |case, after| stands_for(case, after, 31)),
    ground("forbidden MID, wrong ID (19)", &[WritePacket, WriteTransmission, WriteReply],
        |case, after| stands_for(case, after, 32)),
    ground("forbidden MID, wrong position (19)", &[WritePacket], |case, after| stands_for(case, after, 33)),
    ground("forbidden MID, short buffer (19)", MIDS_AND_BUFFERS, |case, after| stands_for(case, after, 34)),
    ground("forbidden MID, image of another size (251)", MIDS_AND_IMAGES,
        |case, after| has_forbidden_mid(case) && is_no(after, 251)),
    ground("forbidden MID, unsound record (16)", MIDS_AND_IMAGES,
        |case, after| has_forbidden_mid(case) && is_no(after, 16)),
    ground("forbidden MID, AUX byte over 1, all else sound (16)", MIDS_AND_IMAGES,
        |case, after| has_forbidden_mid(case) && is_no(after, 16) && faulty(case, right_aux)),
    ground("forbidden MID, short answer or buffer, image of another size (251)", MIDS_AND_IMAGES,
        |case, after| has_forbidden_mid(case) && is_short(case) && is_no(after, 251)),
    ground("forbidden MID, short answer or buffer, unsound record (16)", MIDS_AND_IMAGES,
        |case, after| has_forbidden_mid(case) && is_short(case) && is_no(after, 16)),
    ground("forbidden MID, wrong packet, unsound record (16)", PACKETS,
        |case, after| has_forbidden_mid(case) && is_no(after, 16) && is_wrong_packet(case)),
    ground("right packet of a forbidden MID to another sign (5)", READS,
        |case, after| is_no(after, 5) && is_right_for_forbidden_mid(case)),
    ground("right reply of a forbidden MID, read for another sign (35)", &[ReadReply],
        |case, after| is_no(after, 35) && is_right_for_forbidden_mid(case)),
];

/// Whether a call was refused for its MID where it would else have given this number, 0 being yes.
fn stands_for(case: &Case, after: &After, no: u32) -> bool {
    in_place_of(case, after) == Some(no)
}

/// Whether a packet or reply bears a forbidden MID and has nothing else wrong.
fn is_right_for_forbidden_mid(case: &Case) -> bool {
    let Some(&mid) = case.bytes.first().filter(|first| FORBIDDEN_MIDS.contains(first)) else {
        return false;
    };
    let mut bytes = case.bytes.clone();
    readdress(&mut bytes, mid, 0x80);
    if case.function == ReadReply { read_reply(0x81, &bytes).is_ok() } else { read_packet(0x80, &bytes).is_ok() }
}
