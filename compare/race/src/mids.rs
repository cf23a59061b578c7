//! MIDs: how they are drawn, and, once in each race, every one through every call that takes one, with right and wrong inputs.
//! Answers to the rules W8 and N19 (C-15): four MIDs are forbidden, which is told after 251 and 16 and before all else.

use crate::case::{Case, Function};
use crate::packets::{frame, mend_sum};
use crate::racer::Racer;
use crate::random::Random;
use crate::records::{power_on_image, running_image, unsound};
use reference::calls::{PACKET_ANSWER_SIZE, RECEIVE_ANSWER_SIZE, REPLY_ANSWER_SIZE};
use reference::image::{AT_COMPLETED, AT_COUNT, AT_ID, AT_LENS, AT_ROOM, AT_SINK, AT_TOTAL, IMAGE_SIZE};
use reference::packet::{DATA_MOST, FORBIDDEN_MIDS, FRAME, REPLY};

/// The MIDs next to the forbidden ones, and the greatest.
pub const NEIGHBOURS: [u8; 4] = [0x02, 0x7D, 0x80, 0xFF];

/// A MID for a single call: 3 in 100 are forbidden, so that nearly all calls go on to what else they meet.
pub fn any(random: &mut Random) -> u8 {
    match random.below(100) {
        0..3 => random.pick(&FORBIDDEN_MIDS),
        3..7 => random.pick(&NEIGHBOURS),
        _ => allowed(random),
    }
}

/// A MID that is not forbidden.
pub fn allowed(random: &mut Random) -> u8 {
    loop {
        let mid = random.byte();
        if !FORBIDDEN_MIDS.contains(&mid) {
            return mid;
        }
    }
}

/// A call, and the number of bytes that it needs to write to.
type CaseAndSize = (Case, usize);

/// Each MID through each call that takes one, with nothing to write to, a byte too little and just enough.
pub fn mids(racer: &mut Racer) -> Option<()> {
    for mid in 0..=u8::MAX {
        let images = images(&mut racer.random);
        let mut cases = reading(mid);
        cases.extend(writing(mid));
        cases.extend(on_images(mid, &images));
        for (case, needed) in cases {
            for size in [0, needed - 1, needed] {
                let out = racer.random.bytes(size);
                racer.call(case.clone().out(out))?;
            }
        }
    }
    Some(())
}

/// A Ready sign, one that collects, a Busy one, one with a third AUX drive, any other unsound one, and an image of another size.
fn images(random: &mut Random) -> [Vec<u8>; 6] {
    let ready = power_on_image().to_vec();
    let mut collecting = ready.clone();
    (collecting[AT_ID], collecting[AT_TOTAL], collecting[AT_LENS]) = (ID, 2, DATA_MOST as u8);
    collecting[AT_ROOM..AT_ROOM + DATA_MOST].copy_from_slice(FIRST);
    let mut busy = running_image(b"^L2^SHI^E").to_vec();
    (busy[AT_COUNT], busy[AT_COMPLETED]) = (1, COMPLETED);
    let mut third_drive = random.pick(&[&ready, &collecting, &busy]).clone();
    third_drive[AT_SINK] = 2;
    let mut other_size = ready.clone();
    other_size.resize(random.pick(&[0, 1, IMAGE_SIZE - 1, IMAGE_SIZE + 1]), 0);
    [ready, collecting, busy, third_drive, unsound(random), other_size]
}

/// The message that is sent, the data of its first packet of two, and the message that the Busy sign completed.
const ID: u8 = 5;
const FIRST: &[u8; DATA_MOST] = b"^II0123456789 ";
const COMPLETED: u8 = 4;

/// Packets that are right for the sign of this MID, then one for each number from 1 to 11, then right ones for the forbidden MIDs.
fn packets(mid: u8) -> Vec<Vec<u8>> {
    let query = frame(mid, 0x40, 0x10, &[]);
    let one = frame(mid, ID, 0x10, b"^S");
    let mut packets = vec![query.clone(), frame(mid, 0x41, 0x10, &[]), one.clone()];
    packets.extend([frame(mid, ID, 0x20, FIRST), frame(mid, COMPLETED, 0x10, b"^S")]);
    packets.extend([
        query[..FRAME - 1].to_vec(),
        frame(mid, ID, 0x10, b"fifteen letters"),
        changed(&one, 2, 8),
        [&query[..FRAME - 1], &[query[FRAME - 1] ^ 1]].concat(),
        frame(mid ^ 0x80, ID, 0x10, b"^S"),
        changed(&one, 1, 0x7E),
        changed(&query, FRAME - 2, 1),
        frame(mid, 0x42, 0x10, &[]),
        frame(mid, ID, 0x10, &[]),
        frame(mid, ID, 0x11, b"^S"),
        frame(mid, ID, 0x20, b"^S"),
    ]);
    packets.extend(FORBIDDEN_MIDS.map(|other| frame(other, 0x40, 0x10, &[])));
    packets
}

/// These bytes with another one at this place, and the sum right.
fn changed(bytes: &[u8], place: usize, byte: u8) -> Vec<u8> {
    let mut changed = bytes.to_vec();
    changed[place] = byte;
    mend_sum(&mut changed);
    changed
}

/// Two replies of the sign of this MID, then what is nearly one, then replies of the signs of the forbidden MIDs.
fn replies(mid: u8) -> Vec<Vec<u8>> {
    let ready = frame(mid ^ 1, 0x41, b'R', b"F");
    let mut replies = vec![ready.clone(), frame(mid ^ 1, ID, b'B', b"S")];
    replies.extend([
        frame(mid, 0x41, b'R', b"F"),
        frame(mid ^ 1, 0x40, b'R', b"F"),
        frame(mid ^ 1, 0x41, b'R', b"FF"),
        [&ready[..REPLY - 1], &[ready[REPLY - 1] ^ 1]].concat(),
        ready[..REPLY - 1].to_vec(),
        Vec::new(),
    ]);
    replies.extend(FORBIDDEN_MIDS.map(|other| frame(other ^ 1, 0x41, b'R', b"F")));
    replies
}

fn reading(mid: u8) -> Vec<CaseAndSize> {
    let read = |function, needed| move |bytes| (Case::new(function, &[mid.into()]).bytes(bytes), needed);
    let mut cases: Vec<CaseAndSize> =
        packets(mid).into_iter().map(read(Function::ReadPacket, PACKET_ANSWER_SIZE)).collect();
    cases.extend(replies(mid).into_iter().map(read(Function::ReadReply, REPLY_ANSWER_SIZE)));
    cases
}

/// A query, a reset and replies, and packets of a body that is right, empty or too long, with a right and a wrong ID and position.
fn writing(mid: u8) -> Vec<CaseAndSize> {
    let mid = mid.into();
    let mut cases =
        vec![(Case::new(Function::WriteQuery, &[mid]), FRAME), (Case::new(Function::WriteReset, &[mid]), FRAME)];
    for last in [5, 0x40, 0x41, 0x42] {
        cases.push((Case::new(Function::WriteReply, &[mid, last, 1, 0]), REPLY));
    }
    for body in [&[b'A'; 15][..], &[], &[b'A'; 85]] {
        for id in [5, 0x40] {
            let needed = body.len() + FRAME * body.len().div_ceil(DATA_MOST).max(1);
            cases.push((Case::new(Function::WriteTransmission, &[mid, id]).bytes(body.to_vec()), needed));
            for position in [1, 2] {
                let needed = FRAME + body.len().saturating_sub(DATA_MOST * position).min(DATA_MOST);
                cases.push((Case::new(Function::WritePacket, &[mid, id, position]).bytes(body.to_vec()), needed));
            }
        }
    }
    cases
}

fn on_images(mid: u8, images: &[Vec<u8>]) -> Vec<CaseAndSize> {
    let mut cases = Vec::new();
    for image in images {
        for bytes in packets(mid) {
            let receive = Case::new(Function::Receive, &[mid.into()]).image(image).bytes(bytes);
            cases.push((receive, RECEIVE_ANSWER_SIZE));
        }
        cases.push((Case::new(Function::Reply, &[mid.into(), 1]).image(image), REPLY));
    }
    cases
}
