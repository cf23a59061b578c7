//! The calls of the archive, made in C by its own header.
//! Answers to that header; all that is unsafe in the race is here.

use crate::case::{Case, Function, Lent, word};
use crate::names::named;
use header::*;
use reference::calls::RECEIVE_ANSWER_SIZE;
use reference::image::IMAGE_SIZE;
use reference::packet::REPLY;

/// Ends the race unless the header names what the race counts with, and reads the words of an answer as the race does.
pub fn assert_header() {
    let names = named();
    let answer: [u8; RECEIVE_ANSWER_SIZE] = std::array::from_fn(|index| 255 - index as u8);
    let words: [u32; RECEIVE_ANSWER_SIZE / 4] = std::array::from_fn(|index| word(&answer, index));
    // SAFETY: each pointer is to what is alive, and of the length that is told or as long as the longest answer.
    unsafe {
        race_assert_names(names.as_ptr(), names.len());
        race_assert_readers(answer.as_ptr(), words.as_ptr());
    }
}

/// Ends the race unless the header's own functions read from an image what the sign of that image replied.
pub fn assert_asked(image: &[u8], reply: &[u8]) {
    assert!(image.len() == IMAGE_SIZE && reply.len() >= REPLY);
    // SAFETY: both pointers are to what is alive and as long as the header's functions and a reply need.
    unsafe { race_assert_asked(image.as_ptr(), reply.as_ptr()) }
}

/// Has the archive answer a case on these lent bytes.
pub fn call(case: &Case, lent: Lent) -> u32 {
    match case.function {
        Function::PowerOn
        | Function::Reset
        | Function::Receive
        | Function::Step
        | Function::Reply
        | Function::CopyBody => call_with_image(case, lent),
        _ => call_without_image(case, lent),
    }
}

fn call_without_image(case: &Case, lent: Lent) -> u32 {
    let [a, b, c, d] = case.numbers.map(|number| number as u8);
    let [place, length, ..] = case.numbers;
    let (bytes, bytes_len) = (lent.bytes.as_mut_ptr().cast_const(), lent.bytes.len());
    let (out, out_len) = (lent.out.as_mut_ptr(), lent.out.len());
    // SAFETY: each pointer and its length come from a slice that is alive, not null and apart from the others.
    unsafe {
        match case.function {
            Function::ReadPacket => race_read_packet(a, bytes, bytes_len, out, out_len),
            Function::WriteQuery => race_write_query(a, out, out_len),
            Function::WriteReset => race_write_reset(a, out, out_len),
            Function::WritePacket => race_write_packet(a, b, bytes, bytes_len, c, out, out_len),
            Function::WriteTransmission => race_write_transmission(a, b, bytes, bytes_len, out, out_len),
            Function::WriteReply => race_write_reply(a, b, c, d, out, out_len),
            Function::ReadReply => race_read_reply(a, bytes, bytes_len, out, out_len),
            Function::Judge => race_judge(bytes, bytes_len),
            Function::Forecast => race_forecast(bytes, bytes_len, a, b, out, out_len),
            Function::Version => race_version(),
            _ => race_repeat(bytes, bytes_len, place, length),
        }
    }
}

fn call_with_image(case: &Case, lent: Lent) -> u32 {
    let [a, b, ..] = case.numbers.map(|number| number as u8);
    let (bytes, bytes_len) = (lent.bytes.as_mut_ptr().cast_const(), lent.bytes.len());
    let (image, image_len) = (lent.image.as_mut_ptr(), lent.image.len());
    let (out, out_len) = (lent.out.as_mut_ptr(), lent.out.len());
    // SAFETY: each pointer and its length come from a slice that is alive, not null and apart from the others.
    unsafe {
        match case.function {
            Function::PowerOn => race_power_on(image, image_len),
            Function::Reset => race_reset(image, image_len),
            Function::Receive => race_receive(image, image_len, a, bytes, bytes_len, out, out_len),
            Function::Step => race_step(image, image_len, out, out_len),
            Function::Reply => race_reply(image, image_len, a, b, out, out_len),
            _ => race_copy_body(image, image_len, out, out_len),
        }
    }
}
