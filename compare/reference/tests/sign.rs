//! Joining, resets, soundness and the repeater.
//! Answers to 01, "Joining" and the paragraph on sound records.

use reference::completed::Completed;
use reference::no::No;
use reference::packet::{write_packet, write_query, write_reset};
use reference::sign::{Received, Sign, repeat, stretch};

/// The completed IDs after ID 9 alone.
const NINE: Completed = Completed { count: 1, ids: [9, 0, 0, 0] };

const LONG: &[u8] = b"^II0123456789 twenty-nine^W99^XS";

fn packet(id: u8, body: &[u8], position: u8) -> Vec<u8> {
    let mut out = [0; 21];
    let length = write_packet(0x80, id, body, position, &mut out).unwrap();
    out[..length].to_vec()
}

/// What the sign answers to one packet of a body, as its outcome or the number for no.
fn hear(sign: &mut Sign, id: u8, body: &[u8], position: u8) -> Result<Received, No> {
    let before = sign.clone();
    let answer = sign.receive(0x80, &packet(id, body, position));
    assert!(sign.is_sound());
    if matches!(answer, Err(_) | Ok(Received::Repeat)) {
        assert_eq!(*sign, before);
    }
    answer
}

/// A sign that runs this body under ID 9.
fn busy(body: &[u8]) -> Sign {
    let mut sign = Sign::power_on();
    for position in 0..body.len().div_ceil(14) as u8 {
        hear(&mut sign, 9, body, position).unwrap();
    }
    assert!(sign.is_busy());
    sign
}

#[test]
fn packets_join_in_any_order() {
    for order in [[0, 1, 2], [0, 2, 1], [1, 0, 2], [1, 2, 0], [2, 0, 1], [2, 1, 0]] {
        let mut sign = Sign::power_on();
        assert_eq!(hear(&mut sign, 9, LONG, order[0]), Ok(Received::Stored));
        assert_eq!(hear(&mut sign, 9, LONG, order[0]), Ok(Received::Repeat));
        assert_eq!(hear(&mut sign, 9, LONG, order[1]), Ok(Received::Stored));
        let Ok(Received::Released(released)) = hear(&mut sign, 9, LONG, order[2]) else { panic!() };
        assert_eq!((&released.body[..released.length as usize], released.refusal), (LONG, None));
        assert_eq!((sign.completed, sign.total, sign.length as usize), (NINE, 0, LONG.len()));
        assert_eq!(hear(&mut sign, 9, LONG, 0), Ok(Received::Repeat));
        assert_eq!(hear(&mut sign, 10, LONG, 0), Err(No::Busy));
    }
}

#[test]
fn others_drop_or_clash() {
    let mut sign = Sign::power_on();
    hear(&mut sign, 9, LONG, 0).unwrap();
    assert_eq!(hear(&mut sign, 9, &LONG[..28], 1), Err(No::Other));
    assert_eq!(hear(&mut sign, 9, b"another body of the very same total", 0), Err(No::Other));
    assert_eq!(hear(&mut sign, 9, &LONG[..30], 2), Ok(Received::Stored));
    assert_eq!(hear(&mut sign, 9, LONG, 2), Err(No::Other));
    assert_eq!(hear(&mut sign, 8, LONG, 1), Ok(Received::Stored));
    assert_eq!((sign.id, sign.lens), (8, [0, 14, 0, 0, 0, 0]));
    assert!(matches!(hear(&mut sign, 9, b"^W1", 0), Ok(Received::Released(_))));
    assert_eq!((sign.id, sign.total, sign.completed), (0, 0, NINE));
}

#[test]
fn a_refused_body_is_released_and_leaves_the_sign_ready() {
    let mut sign = Sign::power_on();
    let Ok(Received::Released(released)) = hear(&mut sign, 0, b"^P1^P21", 0) else { panic!() };
    let refusal = released.refusal.unwrap();
    assert_eq!((refusal.no, refusal.place), (No::Number, 3));
    let zero = Completed { count: 1, ids: [0; 4] };
    assert_eq!(sign, Sign { completed: zero, ..Sign::power_on() });
    assert_eq!(hear(&mut sign, 0, b"^P1", 0), Ok(Received::Repeat));
    hear(&mut sign, 1, LONG, 0).unwrap();
    assert_eq!(hear(&mut sign, 0, b"^P1", 0), Ok(Received::Repeat));
}

#[test]
fn query_and_reset() {
    let mut sign = busy(b"^P9^XD3^L9^XS^F");
    let mut out = [0; 7];
    write_query(0x80, &mut out).unwrap();
    let before = sign.clone();
    assert_eq!(sign.receive(0x80, &out), Ok(Received::Query));
    assert_eq!(sign, before);
    for _ in 0..5 {
        sign.step().unwrap();
    }
    write_reset(0x80, &mut out).unwrap();
    assert_eq!(sign.receive(0x81, &out), Err(No::Mid));
    assert_eq!(sign.receive(0x80, &out), Ok(Received::Reset));
    let mut expected = Sign::power_on();
    expected.settings.dim = 3;
    assert_eq!(sign, expected);
    hear(&mut sign, 1, LONG, 0).unwrap();
    assert_eq!(sign.reset(), Ok(()));
    assert_eq!(sign, expected);
}

#[test]
fn bodies_are_copied_and_repeated() {
    let sign = busy(LONG);
    let mut out = [0xEE; 40];
    assert_eq!(sign.copy_body(&mut out[..31]), Err(No::OutShort));
    assert_eq!(out, [0xEE; 40]);
    assert_eq!(sign.copy_body(&mut out), Ok(32));
    assert_eq!((&out[..32], &out[32..]), (LONG, [0xEE; 8].as_slice()));
    assert_eq!(Sign::power_on().copy_body(&mut []), Ok(0));
    assert_eq!(repeat(LONG, 3, 10, b"line"), b"0123456789");
    assert_eq!(repeat(LONG, 0, 10, b"line"), b"line");
    assert_eq!(repeat(LONG, 3, 30, b"line"), b"line");
    assert_eq!(stretch(LONG, 32, 0), Some([].as_slice()));
    assert_eq!(stretch(LONG, 33, 0), None);
    assert_eq!(stretch(LONG, 1, usize::MAX), None);
    assert_eq!(stretch(LONG, usize::MAX, usize::MAX), None);
    assert_eq!(stretch(b"", 0, 0), None);
}

/// Whether the sign is still sound when one thing of it is changed.
fn sound_with(sign: &Sign, change: impl Fn(&mut Sign)) -> bool {
    let mut changed = sign.clone();
    change(&mut changed);
    let sound = changed.is_sound();
    if !sound {
        let kept = changed.clone();
        assert_eq!(changed.step(), Err(No::Unsound));
        assert_eq!(changed.reset(), Err(No::Unsound));
        assert_eq!(changed.receive(0x80, &[]), Err(No::Unsound));
        assert_eq!(changed.reply(0x80, true, &mut []), Err(No::Unsound));
        assert_eq!(changed.copy_body(&mut []), Err(No::Unsound));
        assert_eq!(changed, kept);
    }
    sound
}

#[test]
fn settings_in_range() {
    for sign in [Sign::power_on(), busy(LONG)] {
        for byte in 0..=255 {
            assert_eq!(sound_with(&sign, |sign| sign.settings.pace = byte), (1..=20).contains(&byte));
            assert_eq!(sound_with(&sign, |sign| sign.settings.scans = byte), (1..=6).contains(&byte));
            assert_eq!(sound_with(&sign, |sign| sign.settings.sink = byte), byte < 2);
            assert_eq!(sound_with(&sign, |sign| sign.settings.dim = byte), byte > 0);
            assert_eq!(sound_with(&sign, |sign| sign.settings.bright = byte), byte < 32 && byte != 1);
        }
    }
}

#[test]
fn sound_collections() {
    let mut sign = Sign::power_on();
    hear(&mut sign, 9, LONG, 0).unwrap();
    hear(&mut sign, 9, LONG, 2).unwrap();
    for byte in 0..=255 {
        assert_eq!(sound_with(&sign, |sign| sign.id = byte), byte < 0x40);
        assert_eq!(sound_with(&sign, |sign| sign.total = byte), byte == 3);
        assert_eq!(sound_with(&sign, |sign| sign.lens[0] = byte), byte == 14);
        assert_eq!(sound_with(&sign, |sign| sign.lens[1] = byte), byte == 0);
        assert_eq!(sound_with(&sign, |sign| sign.lens[2] = byte), (4..=14).contains(&byte));
        assert_eq!(sound_with(&sign, |sign| sign.lens[3] = byte), byte == 0);
        assert!(sound_with(&sign, |sign| sign.room[13] = byte));
        assert_eq!(sound_with(&sign, |sign| sign.room[14] = byte), byte == 0);
        assert!(sound_with(&sign, |sign| sign.room[31] = byte));
        assert_eq!(sound_with(&sign, |sign| sign.room[32] = byte), byte == 0);
        assert_eq!(sound_with(&sign, |sign| sign.room[83] = byte), byte == 0);
    }
    assert!(!sound_with(&sign, |sign| (sign.lens, sign.room) = ([0; 6], [0; 84])));
}

#[test]
fn unused_room_holds_zeros() {
    let ready = Sign::power_on();
    for byte in 1..=255 {
        assert!(!sound_with(&ready, |sign| sign.id = byte));
        assert!(!sound_with(&ready, |sign| sign.total = byte));
        assert!(!sound_with(&ready, |sign| sign.lens[5] = byte));
        assert!(!sound_with(&ready, |sign| sign.room[83] = byte));
        assert!(!sound_with(&ready, |sign| sign.body[0] = byte));
        assert!(!sound_with(&ready, |sign| sign.length = byte));
        assert!(!sound_with(&ready, |sign| sign.course.place = byte));
        assert!(!sound_with(&ready, |sign| sign.course.loop_place = byte));
        assert!(!sound_with(&ready, |sign| sign.course.loop_left = byte));
        assert!(!sound_with(&busy(LONG), |sign| sign.body[32] = byte));
        assert!(!sound_with(&busy(LONG), |sign| sign.id = byte));
    }
}

#[test]
fn sound_courses() {
    let sign = busy(b"^XS^L3^XF^E^L5^F");
    let inside = |place: u8| match place {
        6 | 9 => Some((6, 3)),
        14 => Some((14, 5)),
        _ => None,
    };
    for place in 0..=255u8 {
        for loop_place in [0, 1, 3, 6, 9, 14, 16] {
            for loop_left in 0..=6 {
                let expected = match inside(place) {
                    Some((behind, most)) => loop_place == behind && (1..=most).contains(&loop_left),
                    None => [0, 3, 11].contains(&place) && (loop_place, loop_left) == (0, 0),
                };
                let sound = sound_with(&sign, |sign| {
                    sign.course = reference::machine::Course { place, loop_place, loop_left };
                });
                assert_eq!(sound, expected, "{place} {loop_place} {loop_left}");
            }
        }
    }
}
