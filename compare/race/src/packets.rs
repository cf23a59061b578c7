//! Packets and replies: whole, cut, damaged with and without the sum mended, spliced, and made up.
//! Answers to 01, "The packet".

use crate::bodies;
use crate::random::Random;
use reference::packet::DATA_MOST;

/// A frame around these fields, with count and sum right whatever they are.
pub fn frame(mid: u8, id: u8, fifth: u8, data: &[u8]) -> Vec<u8> {
    let mut bytes = vec![mid, 0x7F, 0, id, fifth];
    bytes.extend_from_slice(data);
    bytes.extend([0, 0]);
    mend(&mut bytes);
    bytes
}

/// Sets the count byte and the sum right.
pub fn mend(bytes: &mut [u8]) {
    if bytes.len() > 2 {
        bytes[2] = bytes.len() as u8;
    }
    mend_sum(bytes);
}

/// Sets the sum right.
pub fn mend_sum(bytes: &mut [u8]) {
    if let Some((last, front)) = bytes.split_last_mut() {
        *last = front.iter().fold(0u8, |sum, &byte| sum.wrapping_sub(byte));
    }
}

/// Has bytes with this MID bear another one, their sum being as right or wrong as it was.
pub fn readdress(bytes: &mut [u8], from: u8, to: u8) {
    if let [first, .., last] = bytes
        && *first == from
    {
        *first = to;
        *last = last.wrapping_add(from).wrapping_sub(to);
    }
}

/// The packets of a body, in order.
pub fn transmission(mid: u8, id: u8, body: &[u8]) -> Vec<Vec<u8>> {
    let total = body.len().div_ceil(DATA_MOST);
    let packet = |(position, data)| frame(mid, id, (total << 4 | position) as u8, data);
    body.chunks(DATA_MOST).enumerate().map(packet).collect()
}

/// A number of a message, often the greatest, the least, or a special one.
pub fn any_id(random: &mut Random) -> u8 {
    let normal = random.below(0x40) as u8;
    let any = random.byte();
    random.pick(&[normal, normal, normal, 0, 1, 0x3F, 0x40, 0x41, 0x42, 0xFF, any])
}

/// A packet that the reader accepts.
pub fn whole(random: &mut Random, mid: u8) -> Vec<u8> {
    match random.below(8) {
        0 => frame(mid, 0x40, 0x10, &[]),
        1 => frame(mid, 0x41, 0x10, &[]),
        _ => {
            let id = random.below(0x40) as u8;
            let total = random.within(1, 6);
            let position = random.below(total);
            let short = random.within(1, DATA_MOST);
            let length = if position + 1 == total { short } else { DATA_MOST };
            let mut data = bodies::body(random);
            data.resize(length, b'A');
            frame(mid, id, (total << 4 | position) as u8, &data)
        }
    }
}

/// A packet of fields at or over their bounds, its sum right.
fn bounds(random: &mut Random, mid: u8) -> Vec<u8> {
    let id = any_id(random);
    let fifth = (random.below(9) << 4 | random.below(9)) as u8;
    let any = random.byte();
    let fifth = random.pick(&[0x10, 0x10, fifth, fifth, any]);
    let length = random.pick(&[0, 0, 1, 13, 14, 14, 15]);
    let data = random.bytes(length);
    let mut bytes = frame(mid, id, fifth, &data);
    if random.chance(15) {
        let zero = bytes.len() - 2;
        bytes[zero] = random.pick(&[1, 0x80, 0xFF]);
    }
    if random.chance(8) {
        bytes[1] = random.pick(&[0x7E, 0x80, 0x3F, 0xFF, 0]);
    }
    mend_sum(&mut bytes);
    bytes
}

/// A packet or what is left of one, of any sort.
pub fn packet(random: &mut Random, mid: u8) -> Vec<u8> {
    let mut bytes = whole(random, mid);
    match random.below(12) {
        0..3 => {}
        3..5 => bytes = bounds(random, mid),
        5 | 6 => flip(random, &mut bytes),
        7 => {
            flip(random, &mut bytes);
            mend_sum(&mut bytes);
        }
        8 => cut(random, &mut bytes),
        9 => {
            let other = whole(random, mid);
            bytes = splice(random, &bytes, &other);
        }
        10 => lengthen(random, &mut bytes),
        _ => {
            let length = random.below(31);
            bytes = random.bytes(length);
        }
    }
    if random.chance(6) {
        mend(&mut bytes);
    }
    bytes
}

/// Changes one byte, by one bit or altogether.
pub fn flip(random: &mut Random, bytes: &mut [u8]) {
    if bytes.is_empty() {
        return;
    }
    let at = random.below(bytes.len());
    let bit = 1 << random.below(8);
    let any = random.byte();
    bytes[at] ^= random.pick(&[bit, any]);
}

/// Drops a stretch at the end, the front or in between.
fn cut(random: &mut Random, bytes: &mut Vec<u8>) {
    let start = random.below(bytes.len() + 1);
    let end = random.within(start, bytes.len());
    bytes.drain(start..end);
}

/// The front of one packet and the end of another.
fn splice(random: &mut Random, one: &[u8], other: &[u8]) -> Vec<u8> {
    let from = random.below(one.len() + 1);
    let to = random.below(other.len() + 1);
    let mut spliced = [&one[..from], &other[to..]].concat();
    if random.chance(50) {
        mend(&mut spliced);
    }
    spliced
}

fn lengthen(random: &mut Random, bytes: &mut Vec<u8>) {
    let more = random.within(1, 8);
    let at = random.below(bytes.len() + 1);
    let extra = random.bytes(more);
    bytes.splice(at..at, extra);
}

/// A reply of the sign of this MID, right or nearly so.
pub fn reply(random: &mut Random, mid: u8) -> Vec<u8> {
    let id = any_id(random);
    let odd = random.pick(b"RBSFrbsf\0");
    let (mut state, mut aux) = (random.pick(b"RB"), random.pick(b"SF"));
    match random.below(20) {
        0 => state = odd,
        1 => aux = odd,
        _ => {}
    }
    let mut bytes = frame(mid ^ 1, id, state, &[aux]);
    match random.below(12) {
        0 => flip(random, &mut bytes),
        1 => {
            flip(random, &mut bytes);
            mend_sum(&mut bytes);
        }
        2 => cut(random, &mut bytes),
        3 => lengthen(random, &mut bytes),
        4 => bytes = packet(random, mid),
        5 => {
            bytes[0] ^= 1;
            mend_sum(&mut bytes);
        }
        _ => {}
    }
    bytes
}
