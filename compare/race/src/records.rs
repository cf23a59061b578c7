//! Records made up rather than reached: most of them sound, in states that few messages lead to, and some just not.
//! Answers to 01, the paragraph on sound records.

use crate::bodies;
use crate::completed::{self, any_known, new_id, remember};
use crate::packets::frame;
use crate::random::Random;
use reference::image::{
    AT_BRIGHT, AT_DIM, AT_ID, AT_LENGTH, AT_LENS, AT_LOOP_LEFT, AT_LOOP_PLACE, AT_PACE, AT_PLACE, AT_ROOM, AT_SCANS,
    AT_SINK, AT_TOTAL, IMAGE_SIZE,
};
use reference::packet::{BODY_MOST, DATA_MOST, TOTAL_MOST};
use reference::sign::Sign;

/// Whether an image is one of a sound record; bytes of another size are none.
pub fn is_sound(image: &[u8]) -> bool {
    let image = <&[u8; IMAGE_SIZE]>::try_from(image);
    image.is_ok_and(|image| Sign::from_image(image).is_sound())
}

/// The image of a sign just switched on.
pub fn power_on_image() -> [u8; IMAGE_SIZE] {
    let mut image = [0; IMAGE_SIZE];
    Sign::power_on().write_image(&mut image);
    image
}

/// The image of a sign just switched on, with this body at its first command.
pub fn running_image(body: &[u8]) -> [u8; IMAGE_SIZE] {
    let mut image = power_on_image();
    image[AT_ROOM..AT_ROOM + body.len()].copy_from_slice(body);
    image[AT_LENGTH] = body.len() as u8;
    image
}

/// An image of a sound record.
pub fn sound(random: &mut Random) -> Vec<u8> {
    std::iter::repeat_with(|| record(random)).find(|image| is_sound(image)).unwrap_or_default()
}

/// An image of an unsound record.
pub fn unsound(random: &mut Random) -> Vec<u8> {
    std::iter::repeat_with(|| disturbed(random)).find(|image| !is_sound(image)).unwrap_or_default()
}

fn disturbed(random: &mut Random) -> Vec<u8> {
    let mut image = record(random);
    disturb(random, &mut image);
    image
}

/// An image of a record that is sound more often than not.
pub fn record(random: &mut Random) -> Vec<u8> {
    let mut image = vec![0; IMAGE_SIZE];
    remember(random, &mut image);
    set_settings(random, &mut image);
    match random.below(8) {
        0 => {}
        1..4 => collect(random, &mut image),
        _ => run(random, &mut image),
    }
    if random.chance(25) {
        disturb(random, &mut image);
    }
    image
}

fn set_settings(random: &mut Random, image: &mut [u8]) {
    let (pace, scans) = (random.within(1, 20) as u8, random.within(1, 6) as u8);
    image[AT_PACE] = random.pick(&[1, 4, 20, pace]);
    image[AT_SCANS] = random.pick(&[1, 6, scans]);
    image[AT_SINK] = random.pick(&[0, 0, 0, 1, 1]);
    image[AT_DIM] = random.pick(&[1, 16, 255]);
    image[AT_BRIGHT] = random.pick(&[0, 0, 2, 15, 31]);
}

/// Puts some packets of one total in the room.
fn collect(random: &mut Random, image: &mut [u8]) {
    let total = random.within(2, 6);
    let missing = random.below(total);
    let held = (missing + random.within(1, total - 1)) % total;
    image[AT_ID] = new_id(random, image);
    image[AT_TOTAL] = total as u8;
    for position in 0..total {
        if position == held || (position != missing && random.chance(50)) {
            let short = random.within(1, DATA_MOST);
            let length = if position + 1 == total { short } else { DATA_MOST };
            image[AT_LENS + position] = length as u8;
            let mut data = bodies::body(random);
            data.resize(length, b' ');
            image[AT_ROOM + DATA_MOST * position..][..length].copy_from_slice(&data);
        }
    }
}

/// Puts a program in the room, and the place at one of its commands.
fn run(random: &mut Random, image: &mut [u8]) {
    let body = if random.chance(90) { bodies::program(random) } else { bodies::body(random) };
    let length = body.len().min(BODY_MOST);
    image[AT_ROOM..AT_ROOM + length].copy_from_slice(&body[..length]);
    image[AT_LENGTH] = length as u8;
    set_course(random, image);
}

/// Sets place, loop place and count to fit one of the running body's carets.
fn set_course(random: &mut Random, image: &mut [u8]) {
    let length = usize::from(image[AT_LENGTH]).min(BODY_MOST);
    let body = image[AT_ROOM..AT_ROOM + length].to_vec();
    let carets: Vec<usize> = (0..length).filter(|&place| body[place] == b'^').collect();
    if carets.is_empty() {
        return;
    }
    let chosen = random.below(carets.len());
    image[AT_PLACE] = carets[chosen] as u8;
    let (behind, times) = loop_around(&body, &carets[..chosen], carets[chosen]);
    image[AT_LOOP_PLACE] = behind;
    let left = random.within(0, usize::from(times) + 1) as u8;
    image[AT_LOOP_LEFT] = if times == 0 { 0 } else { random.pick(&[1, times, left.max(1).min(times), left]) };
}

/// The place behind the `L` that is open at this place and its number, or zeros.
fn loop_around(body: &[u8], carets: &[usize], place: usize) -> (u8, u8) {
    let is = |caret: usize, letters: &[u8]| body.get(caret + 1).is_some_and(|letter| letters.contains(letter));
    let Some(&opened) = carets.iter().rev().find(|&&caret| is(caret, b"LEF")) else {
        return (0, 0);
    };
    if !is(opened, b"L") {
        return (0, 0);
    }
    let behind = carets.iter().copied().find(|&caret| caret > opened).unwrap_or(place);
    let digits = std::str::from_utf8(&body[opened + 2..behind]).unwrap_or("");
    (behind as u8, digits.parse().unwrap_or(1))
}

/// Changes the record in a way that likely makes it unsound, often where one changed byte would not do.
fn disturb(random: &mut Random, image: &mut [u8]) {
    match random.below(12) {
        0 => collect(random, image),
        1 => image[AT_LENS..AT_ROOM].fill(DATA_MOST as u8),
        2 => {
            let length = usize::from(image[AT_LENGTH]);
            image[AT_PLACE] = random.below(length + 2) as u8;
            image[AT_LOOP_PLACE] = random.below(length + 2) as u8;
        }
        3 => disturb_collected(random, image),
        4 | 5 => stray_collection(random, image),
        6 | 7 => stray_room(random, image),
        8 | 9 => completed::disturb(random, image),
        10 => image[AT_SINK] = random.pick(&[2, 3, 0x80, 0xFE, 0xFF]),
        _ => {
            for _ in 0..2 {
                let at = random.below(IMAGE_SIZE);
                image[at] = random.byte();
            }
        }
    }
}

/// Sets bytes that tell of a collection and leaves the room: one of them, or all of one that the room could hold.
fn stray_collection(random: &mut Random, image: &mut [u8]) {
    let at = random.within(AT_ID, AT_ROOM - 1);
    if random.chance(50) {
        image[at] = random.pick(&[1, 2, 6, DATA_MOST as u8, 0xFF]);
        return;
    }
    let full = usize::from(image[AT_LENGTH]).min(BODY_MOST) / DATA_MOST;
    image[AT_ID] = new_id(random, image);
    image[AT_TOTAL] = (full + 1).clamp(2, TOTAL_MOST) as u8;
    image[AT_LENS..AT_LENS + full].fill(DATA_MOST as u8);
}

/// Sets bytes of the room that nothing accounts for, or takes away what accounted for them.
fn stray_room(random: &mut Random, image: &mut [u8]) {
    let any = random.below(BODY_MOST);
    let after = usize::from(image[AT_LENGTH]).min(BODY_MOST - 1);
    let position = random.below(TOTAL_MOST);
    let slot = AT_ROOM + DATA_MOST * position;
    match random.below(6) {
        0 => image[AT_ROOM + any] ^= random.pick(&[1, 0x5E, 0x80]),
        1 => image[AT_ROOM + after] = random.pick(&[1, b'^', b'A']),
        2 => image[slot + DATA_MOST - 1] = random.pick(&[1, b'^', b'A']),
        3 => image[slot..slot + DATA_MOST].fill(b' '),
        4 => image[AT_ID..AT_ROOM].fill(0),
        _ => image[AT_LENGTH..=AT_LOOP_LEFT].fill(0),
    }
}

/// Changes the length of one slot, and perhaps the total or a byte of the room.
fn disturb_collected(random: &mut Random, image: &mut [u8]) {
    image[AT_LENS + random.below(6)] = random.pick(&[0, 1, 13, 14, 14, 15]);
    match random.below(4) {
        0 => image[AT_TOTAL] = random.below(8) as u8,
        1 => image[AT_ROOM + random.below(BODY_MOST)] = 1,
        _ => {}
    }
}

/// A packet that has to do with what the record holds.
pub fn packet_for(random: &mut Random, image: &[u8], mid: u8) -> Vec<u8> {
    let byte = |at: usize| image.get(at).copied().unwrap_or(0);
    let other = random.below(0x42) as u8;
    let known = any_known(random, image);
    let id = random.pick(&[byte(AT_ID), byte(AT_ID), known, known, other]);
    let any = random.within(1, 6);
    let total = random.pick(&[byte(AT_TOTAL).into(), byte(AT_TOTAL).into(), byte(AT_TOTAL).into(), any]).clamp(1, 6);
    let last = total - 1;
    let any = random.below(total);
    let position = random.pick(&[any, any, last]);
    let held = usize::from(byte(AT_LENS + position));
    let length = if position == last && random.chance(50) { random.within(1, DATA_MOST) } else { held };
    let length = if position == last { length.clamp(1, DATA_MOST) } else { DATA_MOST };
    let start = AT_ROOM + DATA_MOST * position;
    let mut data = image.get(start..start + length).map_or(vec![b'A'; length], <[u8]>::to_vec);
    if random.chance(30) {
        data = bodies::program(random);
        data.resize(length, b'A');
    }
    frame(mid, id, (total << 4 | position) as u8, &data)
}
