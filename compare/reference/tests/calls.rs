//! The calls over slices: sizes, words, and what stays.
//! Answers to the C interface's numbers 251 and 252 and its answers; the images byte by byte have tests of their own.

use reference::calls;
use reference::image::{AT_LENGTH, AT_ROOM, IMAGE_SIZE};

const HI: [u8; 12] = [0x80, 0x7F, 0x0C, 0x05, 0x10, 0x5E, 0x49, 0x49, 0x48, 0x49, 0x00, 0x5F];

fn power_on() -> [u8; IMAGE_SIZE] {
    let mut image = [0xEE; IMAGE_SIZE];
    assert_eq!(calls::power_on(&mut image), 0);
    image
}

fn words<const COUNT: usize>(answer: &[u8]) -> [u32; COUNT] {
    std::array::from_fn(|index| u32::from_le_bytes(answer[4 * index..][..4].try_into().unwrap()))
}

#[test]
fn sizes_come_first() {
    for size in (0..IMAGE_SIZE).chain([IMAGE_SIZE + 1, IMAGE_SIZE + 200]) {
        let mut image = vec![7; size];
        assert_eq!(calls::power_on(&mut image), 251);
        assert_eq!(calls::reset(&mut image), 251);
        assert_eq!(calls::receive(&mut image, 0x80, &[], &mut []), 251);
        assert_eq!(calls::step(&mut image, &mut []), 251);
        assert_eq!(calls::reply(&image, 0x80, 0, &mut []), 251);
        assert_eq!(calls::copy_body(&image, &mut []), 251);
        assert_eq!(image, vec![7; size]);
    }
    let mut unsound = [7; IMAGE_SIZE];
    assert_eq!(calls::receive(&mut unsound, 0x80, &[], &mut [0; 99]), 16);
    assert_eq!(calls::receive(&mut unsound, 0x80, &[], &mut [0; 100]), 16);
    assert_eq!(calls::step(&mut unsound, &mut [0; 27]), 16);
    assert_eq!(calls::step(&mut unsound, &mut [0; 28]), 16);
    assert_eq!(calls::reset(&mut unsound), 16);
    assert_eq!(calls::reply(&unsound, 0x80, 0, &mut []), 16);
    assert_eq!(calls::copy_body(&unsound, &mut []), 16);
    assert_eq!(calls::read_packet(0x80, &[], &mut [0; 19]), 252);
    assert_eq!(calls::read_reply(0x80, &[], &mut [0; 11]), 252);
    for size in 0..24 {
        let mut answer = vec![7; size];
        assert_eq!(calls::forecast(b"^S", 4, 1, &mut answer), 252);
        assert_eq!(calls::forecast(&[], 0, 0, &mut answer), 252);
        assert_eq!(answer, vec![7; size]);
    }
    assert_eq!(calls::forecast(&[], 0, 0, &mut [0; 24]), 17);
    assert_eq!(calls::forecast(&[], 4, 1, &mut [0; 24]), 21);
}

#[test]
fn answers_in_words() {
    let mut answer = [0xEE; 104];
    assert_eq!(calls::read_packet(0x80, &HI, &mut answer), 0);
    assert_eq!(words(&answer), [3, 5, 1, 0, 5, 0xEEEEEEEE]);
    let query = [0x80, 0x7F, 0x07, 0x40, 0x10, 0x00, 0xAA];
    assert_eq!(calls::read_packet(0x80, &query, &mut answer), 0);
    assert_eq!(words(&answer), [1, 0, 0, 0, 0]);
    assert_eq!(calls::read_reply(0x80, &[0x81, 0x7F, 8, 0x41, 0x52, 0x46, 0, 0x1F], &mut answer), 0);
    assert_eq!(words(&answer), [0x41, 0, 0]);
    assert_eq!(calls::judge(b"^R"), 1 << 8);
    assert_eq!(calls::judge(b"^IIa~x"), 4 << 8 | 25);
    assert_eq!(calls::write_reply(0x80, 0x41, 0, 0, &mut answer), 8 << 8);
}

#[test]
fn forecasts_in_six_words() {
    let told = |body: &[u8], pace, scans| {
        let mut answer = [0xEE; 28];
        assert_eq!(calls::forecast(body, pace, scans, &mut answer), 0);
        words::<7>(&answer)
    };
    assert_eq!(told(b"^L2^SHI^P20^E", 4, 1), [0, 7, 216, 3264, 20, 1, 0xEEEEEEEE]);
    assert_eq!(told(b"^=6^P1^SA", 4, 1), [0, 3, 612, 20400, 1, 6, 0xEEEEEEEE]);
    assert_eq!(told(b"^SHI", 4, 1), [0, 1, 108, 2400, 4, 1, 0xEEEEEEEE]);
    assert_eq!(told(b"^L3^P7^=2^E", 4, 1), [0, 10, 0, 0, 7, 2, 0xEEEEEEEE]);
    assert_eq!(told(b"^SHI^R", 4, 1), [1, 0, 0, 0, 0, 0, 0xEEEEEEEE]);
    assert_eq!(told(b"^P9^=2^L3^SHI^F", 4, 1), [1, 0, 0, 0, 0, 0, 0xEEEEEEEE]);
    assert_eq!(told(b"^IA0123456789ABCDE~dF", 4, 1), [0, 1, 7, 156, 4, 1, 0xEEEEEEEE]);
    assert_eq!(told(b"^S0123456789ABCDE~dF", 4, 1), [0, 1, 193, 4289, 4, 1, 0xEEEEEEEE]);
    let mut answer = [0xEE; 28];
    assert_eq!(calls::forecast(b"^P9^P21", 4, 1, &mut answer), 3 << 8 | 23);
    assert_eq!(answer, [0xEE; 28]);
}

#[test]
fn the_repeater_tells_which_in_its_value() {
    assert_eq!(calls::repeat(b"^S", 2, 0), 256);
    assert_eq!(calls::repeat(b"^IIHI", 3, 2), 256);
    assert_eq!(calls::repeat(b"^IIHI", 3, 3), 0);
    assert_eq!(calls::repeat(b"^IIHI", 6, 0), 0);
    assert_eq!(calls::repeat(b"^IIHI", 0, 2), 0);
    assert_eq!(calls::repeat(b"", 0, 0), 0);
}

#[test]
fn the_version_is_1_3_0() {
    assert_eq!(calls::version(), 16_973_824);
}

#[test]
fn a_message_from_line_to_end() {
    let mut image = power_on();
    let mut answer = [0xEE; 104];
    assert_eq!(calls::receive(&mut image, 0x80, &HI, &mut answer), 0);
    assert_eq!(words(&answer), [5, 0, 0, 5]);
    assert_eq!(
        (&answer[16..21], &answer[21..100], &answer[100..]),
        (b"^IIHI".as_slice(), [0; 79].as_slice(), [0xEE; 4].as_slice())
    );
    assert_eq!((image[AT_LENGTH], &image[AT_ROOM..AT_ROOM + 5]), (5, b"^IIHI".as_slice()));
    assert_eq!(calls::copy_body(&image, &mut answer), 5 << 8);
    assert_eq!(calls::step(&mut image, &mut answer), 0);
    assert_eq!(words(&answer), [1, 0, 3, 2, 42, 0, 0]);
    assert_eq!(calls::step(&mut image, &mut answer), 0);
    assert_eq!(words(&answer), [0; 7]);
    let mut expected = power_on();
    expected[..2].copy_from_slice(&[1, 5]);
    assert_eq!(image, expected);
}

#[test]
fn a_text_over_the_sign_by_its_blank_edge_is_shown() {
    let mut image = power_on();
    let mut answer = [0xEE; 104];
    let mut out = [0; 35];
    assert_eq!(calls::write_transmission(0x80, 5, b"^IB0123456789ABCDE~dF", &mut out), 35 << 8);
    for packet in out.chunks(21) {
        assert_eq!(calls::receive(&mut image, 0x80, packet, &mut answer), 0);
    }
    assert_eq!(calls::step(&mut image, &mut answer), 0);
    assert_eq!(words(&answer), [3, 0, 3, 18, 0, 7, 156]);
}
