//! Completed IDs: packets of those that a sign remembers and of those that it forgot, ID 0 beside unused room, resets of a sign
//! that remembers four, and images that are unsound by their completed IDs alone.
//! Answers to C-23; the tally also counts the places and numbers of the completed IDs.

use super::{ALL, Ground, PACKETS, RESETS, collects, did, did_reset, ground, is_busy, is_no};
use crate::case::{Case, Function};
use crate::past::Past;
use crate::remembered::{
    begins, collected_place, count_over, id_of, is_repeat, known, over_place, stray_place, twice_places,
};
use crate::sizes::SIZE_BEFORE;
use Function::{CopyBody, PowerOn, Receive, Reply, Reset, Step};
use reference::completed::COMPLETED_MOST;
use reference::image::AT_LENGTH;

const REPLIES: &[Function] = &[Reply];
const IMAGES: &[Function] = &[PowerOn, Reset, Receive, Step, Reply, CopyBody];

/// Packets of completed IDs, then of forgotten ones, then ID 0, resets and the like, then unsound images, Ready and Busy.
#[rustfmt::skip]
pub const GROUNDS: [Ground; 35] = [
    ground("Repeat of a completed ID, one of several packets", PACKETS,
        |case, after| is_repeat(case, after) && case.bytes[4] >= 0x20),
    ground("Repeat of a completed ID, not the first of its packets", PACKETS,
        |case, after| is_repeat(case, after) && case.bytes[4] & 0x0F > 0),
    ground("Repeat of what is held, with four completed IDs", PACKETS,
        |case, after| is_full(case) && did(after, 3) && !is_repeat(case, after)),
    ground("new ID to a Busy sign with four completed IDs (12)", PACKETS,
        |case, after| is_full(case) && is_no(after, 12)),
    ground("other total or data, with four completed IDs (13)", PACKETS,
        |case, after| is_full(case) && is_no(after, 13)),
    ground("fifth ID completed by one packet", PACKETS,
        |case, after| is_full(case) && !collects(case) && did(after, 5)),
    ground("fifth ID completed by the last of several packets", PACKETS,
        |case, after| is_full(case) && collects(case) && did(after, 5) && case.bytes[4] >= 0x20),
    ground("ID that was pushed out begins again", PACKETS,
        |case, after| begins(case, after) && is_of(case, Past::pushed_out)),
    ground("ID that was pushed out begins again in place of what is collected", PACKETS,
        |case, after| collects(case) && begins(case, after) && is_of(case, Past::pushed_out)),
    ground("ID that was pushed out, Busy sign (12)", PACKETS,
        |case, after| is_no(after, 12) && is_of(case, Past::pushed_out)),
    ground("ID of before a reset begins again", PACKETS,
        |case, after| begins(case, after) && is_of(case, Past::before_reset)),
    ground("ID of before a reset, Busy sign (12)", PACKETS,
        |case, after| is_no(after, 12) && is_of(case, Past::before_reset)),
    ground("Repeat of ID 0, which is completed", PACKETS,
        |case, after| is_repeat(case, after) && id_of(case) == Some(0)),
    ground("Repeat of ID 0, which is completed, beside unused room", PACKETS,
        |case, after| is_repeat(case, after) && id_of(case) == Some(0) && !is_full(case)),
    ground("new ID 0, nothing completed", PACKETS,
        |case, after| begins(case, after) && id_of(case) == Some(0) && known(&case.image).is_empty()),
    ground("new ID 0 beside unused room, some completed", PACKETS,
        |case, after| begins(case, after) && id_of(case) == Some(0) && has_some(case) && !is_full(case)),
    ground("new ID 0 beside unused room, Busy sign (12)", PACKETS,
        |case, after| is_no(after, 12) && id_of(case) == Some(0) && !is_full(case)),
    ground("new ID 0 with four completed IDs", PACKETS,
        |case, after| begins(case, after) && id_of(case) == Some(0) && is_full(case)),
    ground("reset with four completed IDs", RESETS, |case, after| is_full(case) && did_reset(case, after)),
    ground("query with four completed IDs", PACKETS, |case, after| is_full(case) && did(after, 1)),
    ground("reply with no completed ID, Ready", REPLIES,
        |case, after| is_no(after, 0) && !has_some(case) && !is_busy(case)),
    ground("reply with no completed ID, Busy", REPLIES,
        |case, after| is_no(after, 0) && !has_some(case) && is_busy(case)),
    ground("reply with four completed IDs", REPLIES, |case, after| is_no(after, 0) && is_full(case)),
    ground("last step of a program, with four completed IDs", &[Step],
        |case, after| is_full(case) && is_busy(case) && is_no(after, 0) && after.image()[AT_LENGTH] == 0),

    ground("count of completed IDs over 4, Ready, all else sound", ALL,
        |case, after| !is_busy(case) && count_over(case, after).is_some()),
    ground("count of completed IDs over 4, Busy, all else sound", ALL,
        |case, after| is_busy(case) && count_over(case, after).is_some()),
    ground("completed ID over 3Fh, Ready, all else sound", ALL,
        |case, after| !is_busy(case) && over_place(case, after).is_some()),
    ground("completed ID over 3Fh, Busy, all else sound", ALL,
        |case, after| is_busy(case) && over_place(case, after).is_some()),
    ground("completed ID twice, Ready, all else sound", ALL,
        |case, after| !is_busy(case) && twice_places(case, after).is_some()),
    ground("completed ID twice, Busy, all else sound", ALL,
        |case, after| is_busy(case) && twice_places(case, after).is_some()),
    ground("stray byte after the completed IDs, Ready, all else sound", ALL,
        |case, after| !is_busy(case) && stray_place(case, after).is_some()),
    ground("stray byte after the completed IDs, Busy, all else sound", ALL,
        |case, after| is_busy(case) && stray_place(case, after).is_some()),
    ground("collected ID is the newest completed one, all else sound", ALL,
        |case, after| collected_place(case, after) == Some(1)),
    ground("collected ID is an older completed one, all else sound", ALL,
        |case, after| collected_place(case, after).is_some_and(|place| place > 1)),

    ground("image of 102 bytes, the size before (251)", IMAGES,
        |case, after| case.image.len() == SIZE_BEFORE && is_no(after, 251)),
];

/// Whether a sign remembers as many IDs as it can.
fn is_full(case: &Case) -> bool {
    known(&case.image).len() == COMPLETED_MOST
}

fn has_some(case: &Case) -> bool {
    !known(&case.image).is_empty()
}

/// Whether the packet's ID is one that the sign forgot in this way.
fn is_of(case: &Case, forgot: fn(Past, u8) -> bool) -> bool {
    id_of(case).is_some_and(|id| forgot(case.past, id))
}
