//! Images byte by byte: what stands where while Ready and while Busy, and which images are refused with 16.
//! Answers to the C interface's layout of an image; places and bytes here are written out from its rules, not taken from the code.

use reference::calls;
use reference::packet::{write_packet, write_query, write_reset};
use reference::sign::Sign;

type Image = [u8; 106];

const MID: u8 = 0x80;

/// Three packets: 14, 14 and 4 bytes.
const LONG: &[u8; 32] = b"^II0123456789 twenty-nine^W99^XS";

/// This image with other bytes at some places.
fn with(mut image: Image, parts: &[(usize, &[u8])]) -> Image {
    for (at, bytes) in parts {
        image[*at..][..bytes.len()].copy_from_slice(bytes);
    }
    image
}

/// A sign just switched on: no completed ID, pace 4, one scan, AUX floating, threshold 16, no forced brightness.
fn switched_on() -> Image {
    with([0; 106], &[(101, &[4, 1, 0, 16, 0])])
}

/// A sign that collects ID 9 of three packets and lacks the middle one.
fn collecting() -> Image {
    with(switched_on(), &[(5, &[9, 3, 14, 0, 4]), (13, &LONG[..14]), (41, &LONG[28..])])
}

/// A sign that runs the three packets' body from its first command.
fn running() -> Image {
    with(switched_on(), &[(0, &[1, 9]), (13, LONG), (97, &[32])])
}

fn packet(id: u8, body: &[u8], position: u8) -> Vec<u8> {
    let mut out = [0; 21];
    let length = write_packet(MID, id, body, position, &mut out).unwrap();
    out[..length].to_vec()
}

/// The outcome of a packet that is not refused.
#[track_caller]
fn receive(image: &mut Image, packet: &[u8]) -> u8 {
    let mut answer = [0xEE; 100];
    assert_eq!(calls::receive(image, MID, packet, &mut answer), 0);
    answer[0]
}

/// Each call that takes an image must refuse this one with 16 and change no byte.
#[track_caller]
fn check_unsound(image: Image) {
    let (mut kept, mut answer, mut out) = (image, [0xEE; 104], [0xEE; 104]);
    assert_eq!(calls::receive(&mut kept, MID, &packet(1, b"^S", 0), &mut answer), 16);
    assert_eq!(calls::step(&mut kept, &mut answer), 16);
    assert_eq!(calls::reset(&mut kept), 16);
    assert_eq!(calls::reply(&kept, MID, 0, &mut out), 16);
    assert_eq!(calls::copy_body(&kept, &mut out), 16);
    assert_eq!((kept, answer, out), (image, [0xEE; 104], [0xEE; 104]));
}

/// Whether an image is one of a sound record; an unsound one must be refused by all calls.
#[track_caller]
fn sound(image: Image) -> bool {
    let sound = calls::reply(&image, MID, 0, &mut [0; 8]) == 8 << 8;
    if !sound {
        check_unsound(image);
    }
    sound
}

#[test]
fn a_sign_just_switched_on() {
    let mut image = [0xEE; 106];
    assert_eq!(calls::power_on(&mut image), 0);
    assert_eq!(image, switched_on());
    assert_eq!(image[..13], [0; 13]);
    assert_eq!(image[13..97], [0; 84]);
    assert_eq!(image[97..], [0, 0, 0, 0, 4, 1, 0, 16, 0]);
}

#[test]
fn packets_stand_by_position_while_ready() {
    let mut image = switched_on();
    assert_eq!(receive(&mut image, &packet(9, LONG, 2)), 4);
    assert_eq!(image, with(switched_on(), &[(5, &[9, 3, 0, 0, 4]), (41, b"9^XS")]));
    assert_eq!(receive(&mut image, &packet(9, LONG, 0)), 4);
    assert_eq!(image, with(switched_on(), &[(5, &[9, 3, 14, 0, 4]), (13, b"^II0123456789 "), (41, b"9^XS")]));
    assert_eq!(image, collecting());
}

#[test]
fn another_message_has_the_room_for_itself() {
    let full: [u8; 84] = std::array::from_fn(|index| index as u8 + 1);
    let mut image = collecting();
    assert_eq!(receive(&mut image, &packet(8, &full, 5)), 4);
    assert_eq!(image, with(switched_on(), &[(5, &[8, 6, 0, 0, 0, 0, 0, 14]), (83, &full[70..])]));
    assert_eq!((image[12], image[96], image[97]), (14, 84, 0));
}

#[test]
fn a_released_program_stands_at_the_front_of_the_room() {
    let mut image = collecting();
    let mut answer = [0xEE; 100];
    assert_eq!(calls::receive(&mut image, MID, &packet(9, LONG, 1), &mut answer), 0);
    assert_eq!(image, running());
    assert_eq!(image[5..13], [0; 8]);
    assert_eq!((&image[13..45], &image[45..97], image[97]), (LONG.as_slice(), [0; 52].as_slice(), 32));
    assert_eq!((&answer[16..48], &answer[48..]), (LONG.as_slice(), [0; 52].as_slice()));
    let mut copy = [0xEE; 40];
    assert_eq!(calls::copy_body(&image, &mut copy), 32 << 8);
    assert_eq!((&copy[..32], &copy[32..]), (LONG.as_slice(), [0xEE; 8].as_slice()));
}

#[test]
fn the_longest_program_fills_the_room() {
    let body = [b"^S".as_slice(), &[b'A'; 81], b"}"].concat();
    let mut image = switched_on();
    for position in [5, 0, 4, 1, 3] {
        assert_eq!(receive(&mut image, &packet(0x3F, &body, position)), 4);
    }
    assert_eq!(receive(&mut image, &packet(0x3F, &body, 2)), 5);
    assert_eq!(image, with(switched_on(), &[(0, &[1, 0x3F]), (13, &body), (97, &[84])]));
    assert_eq!(image[96], b'}');
}

#[test]
fn a_released_body_that_is_no_program_leaves_zeros() {
    let refused = b"^II0123456789 twenty-nine^W99^XZ";
    let mut image = with(collecting(), &[(41, &refused[28..])]);
    let mut answer = [0xEE; 100];
    assert_eq!(calls::receive(&mut image, MID, &packet(9, refused, 1), &mut answer), 0);
    assert_eq!(answer[..16], [5, 0, 0, 0, 22, 0, 0, 0, 29, 0, 0, 0, 32, 0, 0, 0]);
    assert_eq!((&answer[16..48], &answer[48..]), (refused.as_slice(), [0; 52].as_slice()));
    assert_eq!(image, with(switched_on(), &[(0, &[1, 9])]));
    let mut image = switched_on();
    assert_eq!(receive(&mut image, &packet(0, b"no caret", 0)), 5);
    assert_eq!(image, with(switched_on(), &[(0, &[1, 0])]));
}

#[test]
fn the_end_of_a_program_leaves_zeros() {
    let mut image = running();
    for (place, sinks) in [(25, 0), (29, 0), (0, 1)] {
        assert_eq!(calls::step(&mut image, &mut [0; 28]), 0);
        assert_eq!((image[98], image[103]), (place, sinks));
    }
    assert_eq!(image, with(switched_on(), &[(0, &[1, 9]), (103, &[1])]));
}

#[test]
fn a_loop_stands_at_its_places() {
    let mut image = switched_on();
    assert_eq!(receive(&mut image, &packet(7, b"^L3^P20^E", 0)), 5);
    let expected = with(switched_on(), &[(0, &[1, 7]), (13, b"^L3^P20^E"), (97, &[9])]);
    assert_eq!(image, expected);
    for (course, pace) in [([3, 3, 3], 4), ([7, 3, 3], 20), ([3, 3, 2], 20)] {
        assert_eq!(calls::step(&mut image, &mut [0; 28]), 0);
        assert_eq!(image, with(expected, &[(98, &course), (101, &[pace])]));
    }
}

#[test]
fn settings_stand_at_their_places() {
    let mut image = switched_on();
    for (id, body) in [(7, b"^P9^=5^XS".as_slice()), (8, b"^XD200^XB30")] {
        assert_eq!(receive(&mut image, &packet(id, body, 0)), 5);
        while image[97] != 0 {
            assert_eq!(calls::step(&mut image, &mut [0; 28]), 0);
        }
    }
    assert_eq!(image, with(switched_on(), &[(0, &[2, 8, 7]), (101, &[9, 5, 1, 200, 30])]));
}

#[test]
fn a_reset_clears_the_room() {
    let mut reset = [0; 7];
    write_reset(MID, &mut reset).unwrap();
    for first in [collecting(), running()] {
        let first = with(first, &[(101, &[20, 6, 1, 99, 2])]);
        let expected = with(switched_on(), &[(104, &[99, 2])]);
        let mut image = first;
        assert_eq!(receive(&mut image, &reset), 2);
        assert_eq!(image, expected);
        let mut image = first;
        assert_eq!(calls::reset(&mut image), 0);
        assert_eq!(image, expected);
    }
}

/// Has a sign whose AUX floats, and one whose AUX sinks, take a packet that may lead only to this outcome and to no change.
#[track_caller]
fn check_stays(first: Image, packet: &[u8], outcome: u8) {
    for sinks in [0, 1] {
        let first = with(first, &[(103, &[sinks])]);
        let mut image = first;
        assert_eq!(receive(&mut image, packet), outcome);
        assert_eq!(image, first);
    }
}

#[test]
fn a_query_changes_no_byte() {
    let mut query = [0; 7];
    write_query(MID, &mut query).unwrap();
    for first in [switched_on(), collecting(), running()] {
        check_stays(first, &query, 1);
    }
}

#[test]
fn a_repeat_changes_no_byte() {
    check_stays(collecting(), &packet(9, LONG, 0), 3);
    check_stays(collecting(), &packet(9, LONG, 2), 3);
    check_stays(running(), &packet(9, LONG, 1), 3);
    check_stays(running(), &packet(9, b"^S", 0), 3);
}

#[test]
fn an_idle_step_changes_no_byte() {
    for first in [switched_on(), collecting()] {
        for sinks in [0, 1] {
            let first = with(first, &[(103, &[sinks])]);
            let (mut image, mut answer) = (first, [0xEE; 28]);
            assert_eq!(calls::step(&mut image, &mut answer), 0);
            assert_eq!((image, answer), (first, [0; 28]));
        }
    }
}

#[test]
fn an_aux_byte_over_1_is_16() {
    for first in [switched_on(), collecting(), running()] {
        assert!(sound(with(first, &[(103, &[0])])));
        assert!(sound(with(first, &[(103, &[1])])));
        for byte in 2..=255 {
            check_unsound(with(first, &[(103, &[byte])]));
        }
    }
    let mut image = with(running(), &[(103, &[2])]);
    assert_eq!(calls::power_on(&mut image), 0);
    assert_eq!(image, switched_on());
}

#[test]
fn a_busy_image_collects_nothing() {
    assert!(sound(running()));
    for place in 5..13 {
        for byte in 1..=255 {
            check_unsound(with(running(), &[(place, &[byte])]));
        }
    }
}

#[test]
fn a_busy_image_is_unsound_with_a_collection_that_would_be_sound_if_ready() {
    let body = [b"^S".as_slice(), &[b'A'; 68]].concat();
    let busy = with(switched_on(), &[(13, &body), (97, &[70])]);
    let collection: (usize, &[u8]) = (5, &[8, 6, 14, 14, 14, 14, 14]);
    assert!(sound(busy));
    assert!(sound(with(busy, &[collection, (97, &[0])])));
    check_unsound(with(busy, &[collection]));
}

#[test]
fn a_busy_room_holds_the_body_and_zeros() {
    for place in 45..97 {
        for byte in 1..=255 {
            check_unsound(with(running(), &[(place, &[byte])]));
        }
    }
    for length in 1..=255u8 {
        assert_eq!(sound(with(running(), &[(97, &[length])])), length == 32, "{length}");
    }
    check_unsound(with(switched_on(), &[(14, LONG), (97, &[32])]));
    check_unsound(with(switched_on(), &[(27, LONG), (97, &[32])]));
}

#[test]
fn a_ready_room_holds_the_packets_and_zeros() {
    for place in 13..97 {
        for byte in 1..=255 {
            check_unsound(with(switched_on(), &[(place, &[byte])]));
        }
    }
    for place in (27..41).chain(45..97) {
        for byte in 1..=255 {
            check_unsound(with(collecting(), &[(place, &[byte])]));
        }
    }
    for place in (13..27).chain(41..45) {
        for byte in 0..=255 {
            assert!(sound(with(collecting(), &[(place, &[byte])])));
        }
    }
    assert!(sound(with(collecting(), &[(13, &[0; 14]), (41, &[0; 4])])));
    check_unsound(with(running(), &[(97, &[0])]));
    check_unsound(with(collecting(), &[(97, &[32])]));
    check_unsound(with(collecting(), &[(5, &[0; 8])]));
}

/// Has a packet and a step told into an answer of this size, which must be refused with this number and change nothing.
#[track_caller]
fn check_answer(image: &[u8], bytes: &[u8], size: usize, no: u32) {
    let (mut kept, mut answer) = (image.to_vec(), vec![0xEE; size]);
    assert_eq!(calls::receive(&mut kept, MID, bytes, &mut answer), no);
    if size < 28 {
        assert_eq!(calls::step(&mut kept, &mut answer), no);
    }
    assert_eq!((kept.as_slice(), answer), (image, vec![0xEE; size]));
}

#[test]
fn size_then_soundness_then_answer() {
    let right = packet(1, b"^S", 0);
    for first in [switched_on(), collecting(), running()] {
        let unsound = [with(first, &[(103, &[2])]), with(first, &[(101, &[0])]), with(first, &[(96, &[1])])];
        for size in [0, 1, 4, 16, 27, 28, 99] {
            for bytes in [&right, &right[1..], &[]] {
                check_answer(&first, bytes, size, 252);
                for image in unsound {
                    check_answer(&image, bytes, size, 16);
                    check_answer(&image[1..], bytes, size, 251);
                    check_answer(&image[4..], bytes, size, 251);
                }
            }
        }
    }
}

#[test]
fn soundness_before_the_packet_and_the_buffer() {
    for first in [switched_on(), collecting(), running()] {
        let mut unsound = with(first, &[(103, &[2])]);
        assert_eq!(calls::receive(&mut unsound, MID, &[], &mut [0; 100]), 16);
        assert_eq!(calls::reply(&unsound, MID, 0, &mut [0; 7]), 16);
        assert_eq!(calls::copy_body(&unsound, &mut []), 16);
        assert_eq!(calls::reply(&first, MID, 0, &mut [0; 7]), 34);
    }
    assert_eq!(calls::receive(&mut running(), MID, &[], &mut [0; 100]), 1);
    assert_eq!(calls::copy_body(&running(), &mut [0; 31]), 34);
}

#[test]
fn an_image_is_a_record_and_back() {
    for (first, length) in [(0x5A, 0), (0x5A, 7), (0xA5, 0), (0xA5, 255)] {
        let mut image: Image = std::array::from_fn(|index| index as u8 ^ first);
        image[97] = length;
        let mut back = [0xEE; 106];
        Sign::from_image(&image).write_image(&mut back);
        assert_eq!(back, image);
    }
}
