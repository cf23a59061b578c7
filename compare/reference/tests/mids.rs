//! The forbidden MIDs: which they are, which calls refuse them, and what comes before 19 and after it.
//! Answers to W8, N0 and N19 of docs/RULES.md (C-15); all packets, replies and images here are written out from the rules.

use reference::calls;
use reference::no::No;
use reference::sign::Sign;

/// What passes between a sender and the sign of this MID, and is right for it but for what is said of the MID itself.
struct Line {
    mid: u8,
    query: [u8; 7],
    reset: [u8; 7],
    /// `^IIHI` as ID 5.
    packet: [u8; 12],
    /// The reply of a sign just switched on, whose AUX pin reads `F`.
    reply: [u8; 8],
}

const FORBIDDEN: [Line; 4] = [
    Line {
        mid: 0x00,
        query: [0x00, 0x7F, 0x07, 0x40, 0x10, 0x00, 0x2A],
        reset: [0x00, 0x7F, 0x07, 0x41, 0x10, 0x00, 0x29],
        packet: [0x00, 0x7F, 0x0C, 0x05, 0x10, 0x5E, 0x49, 0x49, 0x48, 0x49, 0x00, 0xDF],
        reply: [0x01, 0x7F, 0x08, 0x41, 0x52, 0x46, 0x00, 0x9F],
    },
    Line {
        mid: 0x01,
        query: [0x01, 0x7F, 0x07, 0x40, 0x10, 0x00, 0x29],
        reset: [0x01, 0x7F, 0x07, 0x41, 0x10, 0x00, 0x28],
        packet: [0x01, 0x7F, 0x0C, 0x05, 0x10, 0x5E, 0x49, 0x49, 0x48, 0x49, 0x00, 0xDE],
        reply: [0x00, 0x7F, 0x08, 0x41, 0x52, 0x46, 0x00, 0xA0],
    },
    Line {
        mid: 0x7E,
        query: [0x7E, 0x7F, 0x07, 0x40, 0x10, 0x00, 0xAC],
        reset: [0x7E, 0x7F, 0x07, 0x41, 0x10, 0x00, 0xAB],
        packet: [0x7E, 0x7F, 0x0C, 0x05, 0x10, 0x5E, 0x49, 0x49, 0x48, 0x49, 0x00, 0x61],
        reply: [0x7F, 0x7F, 0x08, 0x41, 0x52, 0x46, 0x00, 0x21],
    },
    Line {
        mid: 0x7F,
        query: [0x7F, 0x7F, 0x07, 0x40, 0x10, 0x00, 0xAB],
        reset: [0x7F, 0x7F, 0x07, 0x41, 0x10, 0x00, 0xAA],
        packet: [0x7F, 0x7F, 0x0C, 0x05, 0x10, 0x5E, 0x49, 0x49, 0x48, 0x49, 0x00, 0x60],
        reply: [0x7E, 0x7F, 0x08, 0x41, 0x52, 0x46, 0x00, 0x22],
    },
];

/// The MIDs next to these, and the greatest.
const ALLOWED: [Line; 4] = [
    Line {
        mid: 0x02,
        query: [0x02, 0x7F, 0x07, 0x40, 0x10, 0x00, 0x28],
        reset: [0x02, 0x7F, 0x07, 0x41, 0x10, 0x00, 0x27],
        packet: [0x02, 0x7F, 0x0C, 0x05, 0x10, 0x5E, 0x49, 0x49, 0x48, 0x49, 0x00, 0xDD],
        reply: [0x03, 0x7F, 0x08, 0x41, 0x52, 0x46, 0x00, 0x9D],
    },
    Line {
        mid: 0x7D,
        query: [0x7D, 0x7F, 0x07, 0x40, 0x10, 0x00, 0xAD],
        reset: [0x7D, 0x7F, 0x07, 0x41, 0x10, 0x00, 0xAC],
        packet: [0x7D, 0x7F, 0x0C, 0x05, 0x10, 0x5E, 0x49, 0x49, 0x48, 0x49, 0x00, 0x62],
        reply: [0x7C, 0x7F, 0x08, 0x41, 0x52, 0x46, 0x00, 0x24],
    },
    Line {
        mid: 0x80,
        query: [0x80, 0x7F, 0x07, 0x40, 0x10, 0x00, 0xAA],
        reset: [0x80, 0x7F, 0x07, 0x41, 0x10, 0x00, 0xA9],
        packet: [0x80, 0x7F, 0x0C, 0x05, 0x10, 0x5E, 0x49, 0x49, 0x48, 0x49, 0x00, 0x5F],
        reply: [0x81, 0x7F, 0x08, 0x41, 0x52, 0x46, 0x00, 0x1F],
    },
    Line {
        mid: 0xFF,
        query: [0xFF, 0x7F, 0x07, 0x40, 0x10, 0x00, 0x2B],
        reset: [0xFF, 0x7F, 0x07, 0x41, 0x10, 0x00, 0x2A],
        packet: [0xFF, 0x7F, 0x0C, 0x05, 0x10, 0x5E, 0x49, 0x49, 0x48, 0x49, 0x00, 0xE0],
        reply: [0xFE, 0x7F, 0x08, 0x41, 0x52, 0x46, 0x00, 0xA2],
    },
];

type Call = fn(&Line, &mut [u8], &mut [u8]) -> u32;

/// Each call that takes a sign's MID, on an image and bytes to write to, with all else right.
const CALLS: [Call; 9] = [
    |line, _, out| calls::read_packet(line.mid, &line.packet, out),
    |line, _, out| calls::write_query(line.mid, out),
    |line, _, out| calls::write_reset(line.mid, out),
    |line, _, out| calls::write_packet(line.mid, 5, b"^IIHI", 0, out),
    |line, _, out| calls::write_transmission(line.mid, 5, b"^IIHI", out),
    |line, _, out| calls::write_reply(line.mid, 0x41, 0, 0, out),
    |line, _, out| calls::read_reply(line.mid, &line.reply, out),
    |line, image, out| calls::receive(image, line.mid, &line.packet, out),
    |line, image, out| calls::reply(image, line.mid, 0, out),
];

/// For each number from 1 to 11 two packets of which it is the lowest that applies: one to MID 7Fh and one to MID 80h.
const WRONG: [(u32, &[u8], &[u8]); 11] = [
    (1, &[0x7F, 0x7F, 0x07, 0x40, 0x10, 0x00], &[0x80, 0x7F, 0x07, 0x40, 0x10, 0x00]),
    (2, &[0x7F; 22], &[0x80; 22]),
    (3, &[0x7F, 0x7F, 0x08, 0x40, 0x10, 0x00, 0xAA], &[0x80, 0x7F, 0x08, 0x40, 0x10, 0x00, 0xA9]),
    (4, &[0x7F, 0x7F, 0x07, 0x40, 0x10, 0x00, 0xAC], &[0x80, 0x7F, 0x07, 0x40, 0x10, 0x00, 0xAB]),
    (5, &[0x80, 0x7F, 0x07, 0x40, 0x10, 0x00, 0xAA], &[0x7F, 0x7F, 0x07, 0x40, 0x10, 0x00, 0xAB]),
    (6, &[0x7F, 0x7E, 0x07, 0x40, 0x10, 0x00, 0xAC], &[0x80, 0x7E, 0x07, 0x40, 0x10, 0x00, 0xAB]),
    (7, &[0x7F, 0x7F, 0x07, 0x40, 0x10, 0x01, 0xAA], &[0x80, 0x7F, 0x07, 0x40, 0x10, 0x01, 0xA9]),
    (8, &[0x7F, 0x7F, 0x07, 0x42, 0x10, 0x00, 0xA9], &[0x80, 0x7F, 0x07, 0x42, 0x10, 0x00, 0xA8]),
    (9, &[0x7F, 0x7F, 0x07, 0x05, 0x10, 0x00, 0xE6], &[0x80, 0x7F, 0x07, 0x05, 0x10, 0x00, 0xE5]),
    (10, &[0x7F, 0x7F, 0x07, 0x40, 0x11, 0x00, 0xAA], &[0x80, 0x7F, 0x07, 0x40, 0x11, 0x00, 0xA9]),
    (11, &[0x7F, 0x7F, 0x08, 0x05, 0x20, 0x41, 0x00, 0x94], &[0x80, 0x7F, 0x08, 0x05, 0x20, 0x41, 0x00, 0x93]),
];

/// Sizes around what the calls write: 7, 8, 12 and 20 bytes, and 100 for what a packet did.
const ROOMS: [usize; 13] = [0, 1, 6, 7, 8, 11, 12, 19, 20, 99, 100, 101, 130];

type Image = [u8; 106];

/// A sign just switched on.
fn switched_on() -> Image {
    let mut image = [0; 106];
    image[101..].copy_from_slice(&[4, 1, 0, 16, 0]);
    image
}

/// A sign that collects ID 5 of two packets and holds the first.
fn collecting() -> Image {
    let mut image = switched_on();
    image[5..8].copy_from_slice(&[5, 2, 14]);
    image[13..27].copy_from_slice(b"^IIHI^W5^W5^W5");
    image
}

/// A sign that runs `^W5`, the message that it completed as ID 4.
fn running() -> Image {
    let mut image = switched_on();
    image[..2].copy_from_slice(&[1, 4]);
    image[13..16].copy_from_slice(b"^W5");
    image[97] = 3;
    image
}

/// A sign whose AUX drive is neither float nor sink.
fn unsound(mut image: Image) -> Image {
    image[103] = 2;
    image
}

/// A call on this image with so many bytes to write to must be refused with this number and change no byte.
#[track_caller]
fn refused(no: u32, image: &[u8], room: usize, call: impl Fn(&mut [u8], &mut [u8]) -> u32) {
    let (mut kept, mut out) = (image.to_vec(), vec![0xEE; room]);
    assert_eq!(call(&mut kept, &mut out), no);
    assert_eq!((kept.as_slice(), out), (image, vec![0xEE; room]));
}

/// A call on a sign just switched on must say this result and leave these bytes, with those after them untouched.
#[track_caller]
fn answered(result: u32, left: &[u8], call: impl Fn(&mut [u8], &mut [u8]) -> u32) {
    let mut out = [0xEE; 130];
    assert_eq!(call(&mut switched_on(), &mut out), result);
    assert_eq!(&out[..left.len()], left);
    assert!(out[left.len()..].iter().all(|&byte| byte == 0xEE));
}

#[test]
fn each_call_refuses_each_forbidden_mid() {
    for line in &FORBIDDEN {
        for call in CALLS {
            for room in ROOMS {
                for image in [switched_on(), collecting(), running()] {
                    refused(19, &image, room, |image, out| call(line, image, out));
                }
            }
        }
    }
}

#[test]
fn each_call_takes_the_mids_next_to_them() {
    let packet = [3, 0, 0, 0, 5, 0, 0, 0, 1, 0, 0, 0, 0, 0, 0, 0, 5, 0, 0, 0];
    let reply = [0x41, 0, 0, 0, 0, 0, 0, 0, 0, 0, 0, 0];
    let mut released = [0; 100];
    (released[0], released[12]) = (5, 5);
    released[16..21].copy_from_slice(b"^IIHI");
    for line in &ALLOWED {
        let expected: [(u32, &[u8]); 9] = [
            (0, &packet),
            (7 << 8, &line.query),
            (7 << 8, &line.reset),
            (12 << 8, &line.packet),
            (12 << 8, &line.packet),
            (8 << 8, &line.reply),
            (0, &reply),
            (0, &released),
            (8 << 8, &line.reply),
        ];
        for (call, (result, left)) in CALLS.iter().zip(expected) {
            answered(result, left, |image, out| call(line, image, out));
        }
        let mut out = [0xEE; 20];
        assert_eq!((calls::read_packet(line.mid, &line.query, &mut out), out[0]), (0, 1));
        assert_eq!((calls::read_packet(line.mid, &line.reset, &mut out), out[0]), (0, 2));
    }
}

#[test]
fn of_all_256_only_these_four() {
    for mid in 0..=255 {
        let or_19 = |result: u32| if [0x00, 0x01, 0x7E, 0x7F].contains(&mid) { 19 } else { result };
        let (mut image, mut out) = (switched_on(), [0; 130]);
        assert_eq!(calls::read_packet(mid, &[], &mut out), or_19(1));
        assert_eq!(calls::write_query(mid, &mut out), or_19(7 << 8));
        assert_eq!(calls::write_reset(mid, &mut out), or_19(7 << 8));
        assert_eq!(calls::write_packet(mid, 5, b"^IIHI", 0, &mut out), or_19(12 << 8));
        assert_eq!(calls::write_transmission(mid, 5, &[b'A'; 84], &mut out), or_19(126 << 8));
        assert_eq!(calls::write_reply(mid, 5, 1, 1, &mut out), or_19(8 << 8));
        assert_eq!(calls::read_reply(mid, &[], &mut out), or_19(35));
        assert_eq!(calls::receive(&mut image, mid, &[], &mut out), or_19(1));
        assert_eq!(calls::reply(&image, mid, 1, &mut out), or_19(8 << 8));
    }
}

#[test]
fn before_whatever_is_wrong_with_a_packet() {
    for (no, to_7f, to_80) in WRONG {
        for image in [switched_on(), collecting(), running()] {
            for (mid, bytes, no) in [(0x7F, to_7f, 19), (0x7F, to_80, 19), (0x80, to_80, no)] {
                refused(no, &image, 20, |_, out| calls::read_packet(mid, bytes, out));
                refused(no, &image, 100, |image, out| calls::receive(image, mid, bytes, out));
                let short = if mid == 0x7F { 19 } else { 252 };
                refused(short, &image, 19, |_, out| calls::read_packet(mid, bytes, out));
                refused(short, &image, 99, |image, out| calls::receive(image, mid, bytes, out));
            }
        }
    }
}

#[test]
fn before_busy_and_other_and_in_place_of_each_outcome() {
    for (image, no) in [(running(), 12), (collecting(), 13)] {
        refused(no, &image, 100, |image, out| calls::receive(image, 0x80, &ALLOWED[2].packet, out));
        for line in &FORBIDDEN {
            refused(19, &image, 100, |image, out| calls::receive(image, line.mid, &line.packet, out));
            refused(19, &image, 100, |image, out| calls::receive(image, line.mid, &line.query, out));
            refused(19, &image, 100, |image, out| calls::receive(image, line.mid, &line.reset, out));
        }
    }
    // A copy of the running message, ID 4, which is a Repeat to the sign of any MID that is allowed.
    let to_80 = [0x80, 0x7F, 0x0A, 0x04, 0x10, 0x5E, 0x57, 0x35, 0x00, 0xF9];
    let to_7f = [0x7F, 0x7F, 0x0A, 0x04, 0x10, 0x5E, 0x57, 0x35, 0x00, 0xFA];
    let mut answer = [0xEE; 100];
    assert_eq!((calls::receive(&mut running(), 0x80, &to_80, &mut answer), answer[0]), (0, 3));
    refused(19, &running(), 100, |image, out| calls::receive(image, 0x7F, &to_7f, out));
    // The first packet of two, ID 6, fourteen times `A`, which is Stored.
    let to_80 = [&[0x80, 0x7F, 0x15, 0x06, 0x20], &[0x41; 14][..], &[0x00, 0x38]].concat();
    let to_7f = [&[0x7F, 0x7F, 0x15, 0x06, 0x20], &[0x41; 14][..], &[0x00, 0x39]].concat();
    assert_eq!((calls::receive(&mut switched_on(), 0x80, &to_80, &mut answer), answer[0]), (0, 4));
    refused(19, &switched_on(), 100, |image, out| calls::receive(image, 0x7F, &to_7f, out));
}

#[test]
fn before_whatever_is_wrong_with_a_writers_inputs() {
    let mids = FORBIDDEN.map(|line| (line.mid, true)).into_iter().chain([(0x02, false), (0x80, false)]);
    for (mid, forbidden) in mids {
        let wrong = |no: u32, room: usize, call: &dyn Fn(&mut [u8]) -> u32| {
            refused(if forbidden { 19 } else { no }, &[], room, |_, out| call(out));
        };
        wrong(34, 6, &|out| calls::write_query(mid, out));
        wrong(34, 6, &|out| calls::write_reset(mid, out));
        wrong(31, 130, &|out| calls::write_packet(mid, 5, &[], 0, out));
        wrong(31, 130, &|out| calls::write_packet(mid, 5, &[b'A'; 85], 0, out));
        wrong(32, 130, &|out| calls::write_packet(mid, 0x40, b"A", 0, out));
        wrong(33, 130, &|out| calls::write_packet(mid, 5, b"A", 1, out));
        wrong(34, 7, &|out| calls::write_packet(mid, 5, b"A", 0, out));
        wrong(31, 0, &|out| calls::write_packet(mid, 0x40, &[], 6, out));
        wrong(31, 130, &|out| calls::write_transmission(mid, 5, &[], out));
        wrong(31, 130, &|out| calls::write_transmission(mid, 5, &[b'A'; 85], out));
        wrong(32, 130, &|out| calls::write_transmission(mid, 0x40, b"A", out));
        wrong(34, 125, &|out| calls::write_transmission(mid, 5, &[b'A'; 84], out));
        wrong(31, 0, &|out| calls::write_transmission(mid, 0x40, &[], out));
        wrong(32, 130, &|out| calls::write_reply(mid, 0x40, 0, 0, out));
        wrong(32, 130, &|out| calls::write_reply(mid, 0x42, 1, 1, out));
        wrong(34, 7, &|out| calls::write_reply(mid, 0x41, 0, 0, out));
        wrong(32, 0, &|out| calls::write_reply(mid, 0xFF, 0, 0, out));
        wrong(34, 7, &|out| calls::reply(&running(), mid, 0, out));
        wrong(35, 12, &|out| calls::read_reply(mid, &[], out));
        wrong(252, 11, &|out| calls::read_reply(mid, &[], out));
    }
}

#[test]
fn after_the_image_size_and_the_unsound_record() {
    for line in &FORBIDDEN {
        for image in [switched_on(), collecting(), running()] {
            for room in ROOMS {
                for (no, image) in
                    [(16, &unsound(image)[..]), (251, &[]), (251, &image[1..]), (251, &image[4..]), (251, &[0; 107])]
                {
                    refused(no, image, room, |image, out| calls::receive(image, line.mid, &line.packet, out));
                    refused(no, image, room, |image, out| calls::receive(image, line.mid, &[], out));
                    refused(no, image, room, |image, out| calls::reply(image, line.mid, 0, out));
                }
            }
        }
    }
}

#[test]
fn the_given_mid_is_judged_and_no_byte_off_the_line() {
    for other in &FORBIDDEN {
        for line in &ALLOWED {
            for bytes in [&other.query[..], &other.reset, &other.packet] {
                refused(5, &[], 20, |_, out| calls::read_packet(line.mid, bytes, out));
                refused(5, &running(), 100, |image, out| calls::receive(image, line.mid, bytes, out));
            }
            refused(35, &[], 12, |_, out| calls::read_reply(line.mid, &other.reply, out));
            refused(19, &[], 20, |_, out| calls::read_packet(other.mid, &line.query, out));
            refused(19, &[], 12, |_, out| calls::read_reply(other.mid, &line.reply, out));
        }
    }
    let query = [0x7F, 0x7F, 0x07, 0x40, 0x10, 0x00, 0xAB];
    refused(19, &[], 20, |_, out| calls::read_packet(0x7F, &query, out));
    refused(5, &[], 20, |_, out| calls::read_packet(0x80, &query, out));
}

#[test]
fn a_record_is_judged_first_and_stays() {
    for image in [switched_on(), collecting(), running()] {
        for line in &FORBIDDEN {
            let mut sign = Sign::from_image(&image);
            let before = sign.clone();
            assert_eq!(sign.receive(line.mid, &line.reset), Err(No::MidForbidden));
            assert_eq!(sign.reply(line.mid, true, &mut []), Err(No::MidForbidden));
            assert_eq!(sign, before);
            let mut sign = Sign::from_image(&unsound(image));
            assert_eq!(sign.receive(line.mid, &line.reset), Err(No::Unsound));
            assert_eq!(sign.reply(line.mid, true, &mut []), Err(No::Unsound));
        }
    }
}
