//! A case on which the sides differ, made small while they still differ.
//! Answers to no part of 01; it knows how packets and images hang together, so that parts can go without the rest failing.

use crate::case::{Case, Function, differ};
use crate::packets::mend;
use crate::records::power_on_image;
use crate::remembered::known;
use reference::image::{
    AT_COMPLETED, AT_COUNT, AT_ID, AT_LENGTH, AT_LOOP_LEFT, AT_LOOP_PLACE, AT_PLACE, AT_ROOM, IMAGE_SIZE,
};

/// The smallest case that single simplifications lead to.
pub fn shrink(mut case: Case) -> Case {
    while let Some(smaller) = smaller(&case) {
        case = smaller;
    }
    case
}

fn smaller(case: &Case) -> Option<Case> {
    let bound = weight(case);
    let mut candidates = Vec::new();
    shorter_bytes(case, &mut candidates);
    shorter_out(case, &mut candidates);
    simpler_numbers(case, &mut candidates);
    simpler_image(case, &mut candidates);
    simpler_bytes(case, &mut candidates);
    candidates.into_iter().find(|candidate| weight(candidate) < bound && differ(candidate))
}

/// What must fall with each simplification, so that they come to an end.
fn weight(case: &Case) -> (usize, usize, usize, usize) {
    let power_on = power_on_image();
    let (image, bytes, out) = (&case.image, &case.bytes, &case.out);
    let lengths = image.len() + bytes.len() + case.behind.len() + out.len();
    let changed = image.iter().zip(power_on).filter(|(byte, plain)| **byte != *plain).count();
    let filled = bytes.iter().chain(out).filter(|&&byte| byte != 0).count();
    let numbers = case.numbers.iter().fold(0, |sum: usize, &number| sum.saturating_add(number));
    let sum = image.iter().chain(bytes).chain(out).map(|&byte| usize::from(byte)).sum();
    (lengths, changed + filled, numbers, sum)
}

/// The stretches to try to drop from so many bytes, long ones first.
fn stretches(length: usize) -> impl Iterator<Item = (usize, usize)> {
    let sizes = [64, 32, 16, 8, 4, 3, 2, 1].into_iter().filter(move |&size| size <= length);
    sizes.flat_map(move |size| (0..=length - size).map(move |start| (start, start + size)))
}

/// The case with other input bytes, as they are and with count and sum mended where they are a packet or reply.
fn with_bytes(case: &Case, bytes: Vec<u8>, candidates: &mut Vec<Case>) {
    if matches!(case.function, Function::ReadPacket | Function::Receive | Function::ReadReply) {
        let mut mended = bytes.clone();
        mend(&mut mended);
        candidates.push(case.clone().bytes(mended));
    }
    candidates.push(case.clone().bytes(bytes));
}

fn shorter_bytes(case: &Case, candidates: &mut Vec<Case>) {
    candidates.push(Case { behind: Vec::new(), ..case.clone() });
    candidates.push(Case { behind: case.behind.iter().take(1).copied().collect(), ..case.clone() });
    for (start, end) in stretches(case.bytes.len()) {
        let mut bytes = case.bytes.clone();
        bytes.drain(start..end);
        with_bytes(case, bytes, candidates);
    }
}

fn simpler_bytes(case: &Case, candidates: &mut Vec<Case>) {
    for index in 0..case.bytes.len() {
        for plain in [0, b' ', b'1', b'A', b'S'] {
            let mut bytes = case.bytes.clone();
            bytes[index] = plain;
            with_bytes(case, bytes, candidates);
        }
    }
}

fn shorter_out(case: &Case, candidates: &mut Vec<Case>) {
    for (start, end) in stretches(case.out.len()) {
        let mut out = case.out.clone();
        out.drain(start..end);
        candidates.push(case.clone().out(out));
    }
    candidates.push(case.clone().out(vec![0; case.out.len()]));
    for index in 0..case.out.len() {
        let mut out = case.out.clone();
        out[index] = 0;
        candidates.push(case.clone().out(out));
    }
}

fn simpler_numbers(case: &Case, candidates: &mut Vec<Case>) {
    for index in 0..case.numbers.len() {
        let number = case.numbers[index];
        for plain in [0, 1, number / 2, number.saturating_sub(1)] {
            let mut candidate = case.clone();
            candidate.numbers[index] = plain;
            candidates.push(candidate.clone());
            if let Some(first) = candidate.bytes.first_mut() {
                *first = plain as u8;
                mend(&mut candidate.bytes);
                candidates.push(candidate);
            }
        }
    }
}

fn simpler_image(case: &Case, candidates: &mut Vec<Case>) {
    if case.image.len() != IMAGE_SIZE {
        for (start, end) in stretches(case.image.len()) {
            candidates.push(case.clone().image(&[&case.image[..start], &case.image[end..]].concat()));
        }
        return;
    }
    let plain = power_on_image();
    let parts = [
        (AT_COUNT, AT_ID),
        (AT_ID, AT_LENGTH),
        (AT_ID, AT_ROOM),
        (AT_ROOM, AT_LOOP_LEFT + 1),
        (AT_PLACE, AT_LOOP_LEFT + 1),
    ];
    for (start, end) in parts {
        let mut candidate = case.clone();
        candidate.image[start..end].fill(0);
        candidates.push(candidate);
    }
    fewer_completed(case, candidates);
    shorter_running_body(case, candidates);
    for (index, &plain) in plain.iter().enumerate() {
        for simple in [plain, b' ', b'1', b'A', b'S'] {
            let mut candidate = case.clone();
            candidate.image[index] = simple;
            candidates.push(candidate);
        }
    }
}

/// Drops one of the completed IDs, with the older ones moved along.
fn fewer_completed(case: &Case, candidates: &mut Vec<Case>) {
    for place in 0..known(&case.image).len() {
        let mut candidate = case.clone();
        let image = &mut candidate.image;
        image.copy_within(AT_COMPLETED + place + 1..AT_ID, AT_COMPLETED + place);
        image[AT_ID - 1] = 0;
        image[AT_COUNT] -= 1;
        candidates.push(candidate);
    }
}

/// Drops stretches of the running body, with the places behind them moved along.
fn shorter_running_body(case: &Case, candidates: &mut Vec<Case>) {
    let length = usize::from(case.image[AT_LENGTH]).min(AT_LENGTH - AT_ROOM);
    for (start, end) in stretches(length) {
        let mut candidate = case.clone();
        let image = &mut candidate.image;
        image.copy_within(AT_ROOM + end..AT_LENGTH, AT_ROOM + start);
        image[AT_LENGTH - (end - start)..AT_LENGTH].fill(0);
        image[AT_LENGTH] = (length - (end - start)) as u8;
        for at in [AT_PLACE, AT_LOOP_PLACE] {
            if usize::from(image[at]) >= end {
                image[at] -= (end - start) as u8;
            }
        }
        candidates.push(candidate);
    }
}
