//! Images by their completed IDs: which are sound, and that each one byte away is refused with 16 by every call.
//! Answers to C-23 in the rules R2, R4 and R5 and to the numbers 16 and 251. The images are written out from the rules.

use reference::calls;

type Image = [u8; 106];

/// A query to the sign of MID 80h, which each sound sign takes.
const QUERY: [u8; 7] = [0x80, 0x7F, 0x07, 0x40, 0x10, 0x00, 0xAA];

/// The ID that the collecting sign collects.
const COLLECTED: u8 = 8;

/// A Ready sign, one that collects the first of two packets, and a Busy one, with this front: a count and four bytes.
fn signs(front: [u8; 5]) -> [Image; 3] {
    let mut ready = [0; 106];
    ready[..5].copy_from_slice(&front);
    ready[101..].copy_from_slice(&[4, 1, 0, 16, 0]);
    let (mut collecting, mut busy) = (ready, ready);
    collecting[5..8].copy_from_slice(&[COLLECTED, 2, 14]);
    collecting[13..27].fill(0x41);
    busy[13..20].copy_from_slice(b"^L2^S^E");
    busy[97] = 7;
    [ready, collecting, busy]
}

/// Each call that takes an image must say yes to this one, or refuse it with 16 and change no byte.
#[track_caller]
fn check(image: Image, sound: bool) {
    let or_16 = |yes: u32| if sound { yes } else { 16 };
    let length: u32 = image[97].into();
    let (mut kept, mut out) = (image, [0xEE; 104]);
    assert_eq!(calls::receive(&mut kept, 0x80, &QUERY, &mut out), or_16(0), "{:?}", &image[..6]);
    assert!(sound || (kept, out) == (image, [0xEE; 104]));
    let (mut kept, mut out) = (image, [0xEE; 104]);
    assert_eq!(calls::step(&mut kept, &mut out), or_16(0));
    assert!(sound || (kept, out) == (image, [0xEE; 104]));
    let (mut kept, mut out) = (image, [0xEE; 104]);
    assert_eq!(calls::reply(&kept, 0x80, 0, &mut out), or_16(8 << 8));
    assert!(sound || out == [0xEE; 104]);
    let mut out = [0xEE; 104];
    assert_eq!(calls::copy_body(&kept, &mut out), or_16(length << 8));
    assert!(sound || out == [0xEE; 104]);
    assert_eq!(calls::reset(&mut kept), or_16(0));
    assert!(sound || kept == image);
}

#[track_caller]
fn check_all(front: [u8; 5], sound: bool) {
    for image in signs(front) {
        check(image, sound);
    }
}

#[test]
fn none_to_four() {
    for front in [
        [0, 0, 0, 0, 0],
        [1, 0, 0, 0, 0],
        [1, 63, 0, 0, 0],
        [2, 1, 0, 0, 0],
        [2, 0, 1, 0, 0],
        [2, 63, 62, 0, 0],
        [3, 2, 1, 0, 0],
        [3, 0, 1, 63, 0],
        [4, 4, 3, 2, 0],
        [4, 4, 3, 2, 1],
        [4, 63, 0, 1, 62],
    ] {
        check_all(front, true);
    }
}

#[test]
fn each_count() {
    // The same four bytes with every count: zeros after it are unused room, zeros up to it are ID 0, which may come once.
    let fronts: [([u8; 4], &[u8]); 8] = [
        ([4, 3, 2, 1], &[4]),
        ([4, 3, 2, 0], &[3, 4]),
        ([4, 3, 0, 0], &[2, 3]),
        ([4, 0, 0, 0], &[1, 2]),
        ([0, 0, 0, 0], &[0, 1]),
        ([0, 3, 2, 1], &[4]),
        ([4, 0, 2, 0], &[3]),
        ([0, 3, 0, 0], &[2]),
    ];
    for ([a, b, c, d], counts) in fronts {
        for count in 0..=255 {
            check_all([count, a, b, c, d], counts.contains(&count));
        }
    }
}

#[test]
fn each_byte_at_each_place() {
    for place in 1..=4 {
        for byte in 0..=255 {
            let mut front = [4, 4, 3, 2, 1];
            front[place] = byte;
            let twice = front[1..].iter().filter(|&&id| id == byte).count() > 1;
            let sound = byte < 0x40 && !twice;
            let [ready, collecting, busy] = signs(front);
            check(ready, sound);
            check(collecting, sound && byte != COLLECTED);
            check(busy, sound);
        }
    }
}

#[test]
fn over_3fh_at_each_place() {
    for front in [
        [1, 0x40, 0, 0, 0],
        [1, 0x41, 0, 0, 0],
        [1, 0xFF, 0, 0, 0],
        [2, 0x40, 1, 0, 0],
        [2, 1, 0x40, 0, 0],
        [3, 2, 1, 0x41, 0],
        [4, 0x40, 3, 2, 1],
        [4, 4, 0x40, 2, 1],
        [4, 4, 3, 0x40, 1],
        [4, 4, 3, 2, 0x40],
        [4, 4, 3, 2, 0x41],
        [4, 4, 3, 2, 0x80],
        [4, 4, 3, 2, 0xFF],
    ] {
        check_all(front, false);
    }
}

#[test]
fn twice_at_each_pair_of_places() {
    for id in [0, 5, 63] {
        for front in [
            [2, id, id, 0, 0],
            [3, id, id, 1, 0],
            [3, id, 1, id, 0],
            [3, 1, id, id, 0],
            [4, id, id, 2, 1],
            [4, id, 2, id, 1],
            [4, id, 2, 1, id],
            [4, 2, id, id, 1],
            [4, 2, id, 1, id],
            [4, 2, 1, id, id],
            [4, id, id, id, 1],
            [4, id, id, id, id],
        ] {
            check_all(front, false);
        }
    }
}

#[test]
fn a_stray_byte_after_the_count() {
    for byte in 1..=255 {
        for front in [
            [0, byte, 0, 0, 0],
            [0, 0, byte, 0, 0],
            [0, 0, 0, byte, 0],
            [0, 0, 0, 0, byte],
            [1, 63, byte, 0, 0],
            [1, 63, 0, byte, 0],
            [1, 63, 0, 0, byte],
            [2, 63, 62, byte, 0],
            [2, 63, 62, 0, byte],
            [3, 63, 62, 61, byte],
        ] {
            check_all(front, false);
        }
    }
}

#[test]
fn the_collected_id_is_none_of_them() {
    for front in [
        [1, COLLECTED, 0, 0, 0],
        [2, COLLECTED, 1, 0, 0],
        [2, 1, COLLECTED, 0, 0],
        [3, 2, 1, COLLECTED, 0],
        [4, COLLECTED, 3, 2, 1],
        [4, 4, COLLECTED, 2, 1],
        [4, 4, 3, COLLECTED, 1],
        [4, 4, 3, 2, COLLECTED],
    ] {
        let [ready, collecting, busy] = signs(front);
        check(ready, true);
        check(collecting, false);
        check(busy, true);
    }
    for id in 0..=255 {
        let [_, mut collecting, _] = signs([4, 63, 3, 0, 1]);
        collecting[5] = id;
        check(collecting, id < 0x40 && ![63, 3, 0, 1].contains(&id));
        let [_, mut collecting, _] = signs([2, 63, 3, 0, 0]);
        collecting[5] = id;
        check(collecting, id < 0x40 && ![63, 3].contains(&id));
    }
}

#[test]
fn an_image_of_the_size_before_is_251() {
    // 102 bytes: the last completed ID alone, and all that comes after the completed IDs.
    for last in [0x41, 0, 5] {
        for image in signs([0, 0, 0, 0, 0]) {
            let old = [&[last], &image[5..]].concat();
            assert_eq!(old.len(), 102);
            let (mut kept, mut out) = (old.clone(), [0xEE; 104]);
            assert_eq!(calls::power_on(&mut kept), 251);
            assert_eq!(calls::reset(&mut kept), 251);
            assert_eq!(calls::receive(&mut kept, 0x80, &QUERY, &mut out), 251);
            assert_eq!(calls::step(&mut kept, &mut out), 251);
            assert_eq!(calls::reply(&kept, 0x80, 0, &mut out), 251);
            assert_eq!(calls::copy_body(&kept, &mut out), 251);
            assert_eq!((kept, out), (old, [0xEE; 104]));
        }
    }
}
