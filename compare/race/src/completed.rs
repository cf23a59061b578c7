//! Completed IDs: how they are drawn and made wrong, and, once in each race, packets of every ID to signs that remember none to
//! four, images with one byte of them changed, and signs that are followed through many completions and resets.
//! Answers to C-23.

use crate::case::{Case, Function};
use crate::packets::{frame, transmission};
use crate::past::Followed;
use crate::racer::Racer;
use crate::random::Random;
use crate::records::{power_on_image, running_image};
use crate::remembered::{is_taken, known};
use reference::calls::{RECEIVE_ANSWER_SIZE, STEP_ANSWER_SIZE};
use reference::completed::COMPLETED_MOST;
use reference::image::{AT_COMPLETED, AT_COUNT, AT_ID, AT_LENGTH, AT_LENS, AT_ROOM, AT_TOTAL};
use reference::packet::{BODY_MOST, DATA_MOST, ID_MOST, REPLY};

const MID: u8 = 0x80;

/// Bodies of one packet and of two, each a program and not.
const BODIES: [&[u8]; 4] = [b"^S", b"A", b"^SABCDEFGHIJKLMN", b"fifteen letters"];

/// Gives an image none to four completed IDs, most often four.
pub fn remember(random: &mut Random, image: &mut [u8]) {
    let count = random.pick(&[0, 1, 2, 3, 4, 4, 4]);
    remember_some(random, image, count);
}

/// Gives an image so many completed IDs.
fn remember_some(random: &mut Random, image: &mut [u8], count: usize) {
    image[AT_COUNT..AT_ID].fill(0);
    for place in 0..count {
        image[AT_COMPLETED + place] = new_id(random, image);
        image[AT_COUNT] += 1;
    }
}

/// An ID that is neither completed nor collected, often the least or the greatest.
pub fn new_id(random: &mut Random, image: &[u8]) -> u8 {
    loop {
        let any = random.below(0x40) as u8;
        let id = random.pick(&[any, any, 0, 1, ID_MOST]);
        if !is_taken(image, id) {
            return id;
        }
    }
}

/// Any of the completed IDs, 0 if there is none.
pub fn any_known(random: &mut Random, image: &[u8]) -> u8 {
    let known = known(image);
    if known.is_empty() { 0 } else { random.pick(known) }
}

/// Changes the completed IDs in a way that likely makes them unsound.
pub fn disturb(random: &mut Random, image: &mut [u8]) {
    let count = known(image).len();
    let any = random.byte();
    let inside = AT_COMPLETED + random.below(count.max(1));
    let other = AT_COMPLETED + random.below(count.max(1));
    let after = AT_COMPLETED + random.within(count.min(COMPLETED_MOST - 1), COMPLETED_MOST - 1);
    match random.below(10) {
        0 => image[AT_COUNT] = random.pick(&[5, 6, 8, 0x80, 0xFF, any]),
        1 => image[AT_COUNT] = random.below(COMPLETED_MOST + 1) as u8,
        2 => image[inside] = random.pick(&[0x40, 0x41, 0x42, 0x80, 0xFF, any]),
        3 | 4 => image[inside] = image[other],
        5 => image[after] = random.pick(&[1, ID_MOST, 0x41, 0xFF, any]),
        _ => image[inside] = image[AT_ID],
    }
}

/// What is gone through once in each race.
pub fn completed(racer: &mut Racer) -> Option<()> {
    for count in 0..=COMPLETED_MOST {
        for image in signs(&mut racer.random, count) {
            every_id(racer, &image)?;
            every_fault(racer, &image)?;
        }
    }
    for _ in 0..8 {
        in_turn(racer)?;
    }
    Some(())
}

/// A Ready sign, one that holds the first of two packets, and a Busy one, each with so many completed IDs.
fn signs(random: &mut Random, count: usize) -> [Vec<u8>; 3] {
    let ready = power_on_image().to_vec();
    let mut collecting = ready.clone();
    (collecting[AT_ID], collecting[AT_TOTAL], collecting[AT_LENS]) = (new_id(random, &ready), 2, DATA_MOST as u8);
    collecting[AT_ROOM..AT_ROOM + DATA_MOST].fill(b'A');
    let mut signs = [ready, collecting, running_image(b"^L2^SHI^E").to_vec()];
    for image in &mut signs {
        remember_some(random, image, count);
    }
    signs
}

/// A packet of each ID to a sign with this image: a whole message, and the second of two packets.
fn every_id(racer: &mut Racer, image: &[u8]) -> Option<()> {
    for id in 0..=ID_MOST {
        for bytes in [frame(MID, id, 0x10, b"^S"), frame(MID, id, 0x21, b"^S")] {
            let answer = racer.random.bytes(RECEIVE_ANSWER_SIZE);
            racer.call(Case::new(Function::Receive, &[MID.into()]).image(image).bytes(bytes).out(answer))?;
        }
    }
    Some(())
}

/// The image with one byte changed of the count, the completed IDs and the collected one: each to what a rule could be about
/// through each call, and the count to each value.
fn every_fault(racer: &mut Racer, image: &[u8]) -> Option<()> {
    for at in AT_COUNT..=AT_ID {
        let any = racer.random.byte();
        let mut values = vec![0, 1, 2, 3, 4, 5, ID_MOST, 0x40, 0x41, 0x42, 0x7F, 0x80, 0xFE, 0xFF, any];
        values.extend(&image[AT_COMPLETED..=AT_ID]);
        for value in values {
            let mut changed = image.to_vec();
            changed[at] = value;
            for function in [Function::Step, Function::Receive, Function::Reset, Function::Reply, Function::CopyBody] {
                on_image(racer, function, &changed)?;
            }
        }
    }
    for count in 0..=u8::MAX {
        let mut changed = image.to_vec();
        changed[AT_COUNT] = count;
        on_image(racer, Function::Receive, &changed)?;
    }
    Some(())
}

/// A call on an image with all else right, a packet being of one of its IDs or a new one.
fn on_image(racer: &mut Racer, function: Function, image: &[u8]) -> Option<()> {
    let any = racer.random.below(0x40) as u8;
    let known = any_known(&mut racer.random, image) & ID_MOST;
    let id = racer.random.pick(&[any, known, image[AT_ID] & ID_MOST]);
    let bytes = if function == Function::Receive { frame(MID, id, 0x10, b"^S") } else { Vec::new() };
    let size = match function {
        Function::Receive => RECEIVE_ANSWER_SIZE,
        Function::Step => STEP_ANSWER_SIZE,
        Function::Reply => REPLY,
        Function::CopyBody => BODY_MOST,
        _ => 0,
    };
    let out = racer.random.bytes(size);
    racer.call(Case::new(function, &[MID.into(), 1]).image(image).bytes(bytes).out(out)).map(drop)
}

/// A sign that completes the messages of a few IDs over and over, asked about each of them in between, with a reset now and then.
fn in_turn(racer: &mut Racer) -> Option<()> {
    let mut sign = Followed::power_on(racer)?;
    let ids = few_ids(&mut racer.random);
    for turn in 1..=30 {
        let id = racer.random.pick(&ids);
        for bytes in transmission(MID, id, racer.random.pick(&BODIES)) {
            sign.call(racer, receive(bytes))?;
        }
        ask(racer, &sign, &ids)?;
        while sign.image[AT_LENGTH] != 0 {
            sign.call(racer, Case::new(Function::Step, &[]).out(vec![0; STEP_ANSWER_SIZE]))?;
        }
        ask(racer, &sign, &ids)?;
        let begun = new_id(&mut racer.random, &sign.image);
        sign.call(racer, receive(frame(MID, begun, 0x20, &[b'A'; DATA_MOST])))?;
        ask(racer, &sign, &ids)?;
        match turn % 20 {
            10 => drop(sign.call(racer, Case::new(Function::Reset, &[]))?),
            0 => drop(sign.call(racer, receive(frame(MID, 0x41, 0x10, &[])))?),
            _ => {}
        }
    }
    Some(())
}

/// Seven IDs, 0 among them.
pub fn few_ids(random: &mut Random) -> Vec<u8> {
    let mut ids = vec![0];
    while ids.len() < 7 {
        let id = random.below(0x40) as u8;
        if !ids.contains(&id) {
            ids.push(id);
        }
    }
    ids
}

/// Asks for the reply, sends a query, and sends the first of two packets of each ID; the sign stays.
fn ask(racer: &mut Racer, sign: &Followed, ids: &[u8]) -> Option<()> {
    sign.ask(racer, Case::new(Function::Reply, &[MID.into(), 0]).out(vec![0; REPLY]))?;
    sign.ask(racer, receive(frame(MID, 0x40, 0x10, &[])))?;
    for &id in ids {
        sign.ask(racer, receive(frame(MID, id, 0x20, &[b'A'; DATA_MOST])))?;
    }
    Some(())
}

fn receive(bytes: Vec<u8>) -> Case {
    Case::new(Function::Receive, &[MID.into()]).bytes(bytes).out(vec![0; RECEIVE_ANSWER_SIZE])
}
