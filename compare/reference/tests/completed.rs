//! The completed IDs: which packets are a Repeat, what a completion, a reset and a query leave, and what the reply tells.
//! Answers to C-23 in the rules J1, J4, J5, J10 and J12 to J16. Packets, images and replies are written out from the rules.

use reference::calls;

type Image = [u8; 106];

/// What a packet did, or its number for no.
type Told = Result<u8, u32>;
const QUERIED: Told = Ok(1);
const RESET: Told = Ok(2);
const REPEAT: Told = Ok(3);
const STORED: Told = Ok(4);
const RELEASED: Told = Ok(5);
const BUSY: Told = Err(12);
const OTHER: Told = Err(13);

const QUERY_PACKET: [u8; 7] = [0x80, 0x7F, 0x07, 0x40, 0x10, 0x00, 0xAA];
const RESET_PACKET: [u8; 7] = [0x80, 0x7F, 0x07, 0x41, 0x10, 0x00, 0xA9];

/// The message `^S`, a program of one step; its bytes without ID and checksum add up to C9h.
fn program(id: u8) -> Vec<u8> {
    vec![0x80, 0x7F, 0x09, id, 0x10, 0x5E, 0x53, 0x00, 0x37u8.wrapping_sub(id)]
}

/// The message `A`, which is no program; its bytes without ID and checksum add up to 58h.
fn no_program(id: u8) -> Vec<u8> {
    vec![0x80, 0x7F, 0x08, id, 0x10, 0x41, 0x00, 0xA8 - id]
}

/// The first packet of two, fourteen times `A`; its bytes without ID and checksum add up to C2h.
fn first_of_two(id: u8) -> Vec<u8> {
    [&[0x80, 0x7F, 0x15, id, 0x20], &[0x41; 14][..], &[0x00, 0x3Eu8.wrapping_sub(id)]].concat()
}

/// The second packet of two, `A`; its bytes without ID and checksum add up to 69h.
fn second_of_two(id: u8) -> Vec<u8> {
    vec![0x80, 0x7F, 0x08, id, 0x21, 0x41, 0x00, 0x97 - id]
}

/// A sign just switched on, but for the number of its completed IDs and these, the newest first.
fn ready(completed: [u8; 5]) -> Image {
    let mut image = [0; 106];
    image[..5].copy_from_slice(&completed);
    image[101..].copy_from_slice(&[4, 1, 0, 16, 0]);
    image
}

/// The same, and it runs `^S`.
fn busy(completed: [u8; 5]) -> Image {
    let mut image = ready(completed);
    image[13..15].copy_from_slice(b"^S");
    image[97] = 2;
    image
}

/// The same Ready, and it holds the first packet of two of this ID.
fn collecting(completed: [u8; 5], id: u8) -> Image {
    let mut image = ready(completed);
    image[5..8].copy_from_slice(&[id, 2, 14]);
    image[13..27].fill(0x41);
    image
}

fn receive(image: &mut Image, packet: &[u8]) -> Told {
    let mut answer = [0xEE; 100];
    match calls::receive(image, 0x80, packet, &mut answer) {
        0 => Ok(answer[0]),
        no => Err(no),
    }
}

/// A packet must do this and leave this image.
#[track_caller]
fn check(before: Image, packet: &[u8], told: Told, after: Image) {
    let mut image = before;
    assert_eq!(receive(&mut image, packet), told);
    assert_eq!(image, after);
}

#[track_caller]
fn check_stays(image: Image, packet: &[u8], told: Told) {
    check(image, packet, told, image);
}

fn reply(image: &Image) -> [u8; 8] {
    let mut out = [0; 8];
    assert_eq!(calls::reply(image, 0x80, 0, &mut out), 8 << 8);
    out
}

/// A completion: its ID, the front of the image after it, and the replies of the Ready and of the Busy sign.
type Completion = (u8, [u8; 5], [u8; 8], [u8; 8]);

/// Six completions in a row.
const SIX: [Completion; 6] = [
    (0, [1, 0, 0, 0, 0], [0x81, 0x7F, 8, 0, 0x52, 0x46, 0, 0x60], [0x81, 0x7F, 8, 0, 0x42, 0x46, 0, 0x70]),
    (5, [2, 5, 0, 0, 0], [0x81, 0x7F, 8, 5, 0x52, 0x46, 0, 0x5B], [0x81, 0x7F, 8, 5, 0x42, 0x46, 0, 0x6B]),
    (63, [3, 63, 5, 0, 0], [0x81, 0x7F, 8, 0x3F, 0x52, 0x46, 0, 0x21], [0x81, 0x7F, 8, 0x3F, 0x42, 0x46, 0, 0x31]),
    (7, [4, 7, 63, 5, 0], [0x81, 0x7F, 8, 7, 0x52, 0x46, 0, 0x59], [0x81, 0x7F, 8, 7, 0x42, 0x46, 0, 0x69]),
    (9, [4, 9, 7, 63, 5], [0x81, 0x7F, 8, 9, 0x52, 0x46, 0, 0x57], [0x81, 0x7F, 8, 9, 0x42, 0x46, 0, 0x67]),
    (11, [4, 11, 9, 7, 63], [0x81, 0x7F, 8, 11, 0x52, 0x46, 0, 0x55], [0x81, 0x7F, 8, 11, 0x42, 0x46, 0, 0x65]),
];

/// The reply of a Ready sign with no completed ID.
const NONE: [u8; 8] = [0x81, 0x7F, 8, 0x41, 0x52, 0x46, 0, 0x1F];

#[test]
fn image_and_reply_after_each_completion() {
    let mut image = [0xEE; 106];
    assert_eq!(calls::power_on(&mut image), 0);
    assert_eq!((image, reply(&image)), (ready([0, 0, 0, 0, 0]), NONE));
    for (id, completed, replied_ready, replied_busy) in SIX {
        assert_eq!(receive(&mut image, &program(id)), RELEASED);
        assert_eq!((image, reply(&image)), (busy(completed), replied_busy));
        assert_eq!(calls::step(&mut image, &mut [0; 28]), 0);
        assert_eq!((image, reply(&image)), (ready(completed), replied_ready));
    }
}

#[test]
fn a_body_that_is_no_program_completes_its_id() {
    let mut image = ready([0, 0, 0, 0, 0]);
    for (id, completed, replied, _) in SIX {
        assert_eq!(receive(&mut image, &no_program(id)), RELEASED);
        assert_eq!((image, reply(&image)), (ready(completed), replied));
        check_stays(image, &no_program(id), REPEAT);
        check_stays(image, &program(id), REPEAT);
    }
}

#[test]
fn the_last_of_several_packets_completes_their_id() {
    let mut image = ready([0, 0, 0, 0, 0]);
    let mut before = [0, 0, 0, 0, 0];
    for (id, completed, replied, _) in SIX {
        assert_eq!(receive(&mut image, &second_of_two(id)), STORED);
        assert_eq!(image[..8], [&before[..], &[id, 2, 0]].concat());
        assert_eq!(receive(&mut image, &first_of_two(id)), RELEASED);
        assert_eq!((image, reply(&image)), (ready(completed), replied));
        before = completed;
    }
}

/// Four completed IDs, and the fronts of images with none to four, 0 at each place of some.
const FOUR: [u8; 5] = [4, 9, 7, 63, 5];
const FRONTS: [[u8; 5]; 12] = [
    [0, 0, 0, 0, 0],
    [1, 9, 0, 0, 0],
    [1, 0, 0, 0, 0],
    [2, 9, 7, 0, 0],
    [2, 0, 7, 0, 0],
    [2, 9, 0, 0, 0],
    [3, 9, 7, 63, 0],
    [3, 9, 7, 0, 0],
    FOUR,
    [4, 0, 9, 7, 63],
    [4, 9, 0, 7, 63],
    [4, 9, 7, 63, 0],
];

#[test]
fn each_of_the_four_is_a_repeat_in_every_state() {
    for id in [9, 7, 63, 5] {
        for packet in [program(id), no_program(id), first_of_two(id), second_of_two(id)] {
            check_stays(ready(FOUR), &packet, REPEAT);
            check_stays(busy(FOUR), &packet, REPEAT);
            check_stays(collecting(FOUR, 8), &packet, REPEAT);
            check_stays(collecting(FOUR, 0), &packet, REPEAT);
        }
    }
}

#[test]
fn each_other_id_is_new() {
    for front in FRONTS {
        let known = &front[1..][..front[0].into()];
        for id in 0..0x40 {
            if known.contains(&id) {
                check_stays(ready(front), &program(id), REPEAT);
                check_stays(busy(front), &program(id), REPEAT);
                continue;
            }
            check_stays(busy(front), &program(id), BUSY);
            check_stays(busy(front), &first_of_two(id), BUSY);
            check(ready(front), &first_of_two(id), STORED, collecting(front, id));
            if id != 8 {
                check(collecting(front, 8), &first_of_two(id), STORED, collecting(front, id));
            }
        }
    }
}

#[test]
fn zero_is_new_while_only_unused_room_holds_it() {
    for (front, after) in [
        ([0, 0, 0, 0, 0], [1, 0, 0, 0, 0]),
        ([1, 9, 0, 0, 0], [2, 0, 9, 0, 0]),
        ([2, 9, 7, 0, 0], [3, 0, 9, 7, 0]),
        ([3, 9, 7, 63, 0], [4, 0, 9, 7, 63]),
    ] {
        check_stays(busy(front), &program(0), BUSY);
        check(ready(front), &program(0), RELEASED, busy(after));
        check(ready(front), &no_program(0), RELEASED, ready(after));
        check(ready(front), &first_of_two(0), STORED, collecting(front, 0));
        check(collecting(front, 0), &second_of_two(0), RELEASED, ready(after));
        check(collecting(front, 8), &no_program(0), RELEASED, ready(after));
        for image in [ready(after), busy(after), collecting(after, 8)] {
            check_stays(image, &program(0), REPEAT);
        }
    }
}

#[test]
fn the_fifth_is_pushed_out_and_new_again() {
    check(ready(FOUR), &program(11), RELEASED, busy([4, 11, 9, 7, 63]));
    check_stays(busy([4, 11, 9, 7, 63]), &program(5), BUSY);
    check(ready([4, 11, 9, 7, 63]), &first_of_two(5), STORED, collecting([4, 11, 9, 7, 63], 5));
    check(collecting([4, 11, 9, 7, 63], 5), &second_of_two(5), RELEASED, ready([4, 5, 11, 9, 7]));
    check_stays(ready([4, 5, 11, 9, 7]), &program(5), REPEAT);
    check(ready([4, 5, 11, 9, 7]), &no_program(63), RELEASED, ready([4, 63, 5, 11, 9]));
    check_stays(busy([4, 63, 5, 11, 9]), &program(7), BUSY);
}

#[test]
fn a_repeat_does_not_reorder_the_four() {
    let mut image = ready([0, 0, 0, 0, 0]);
    for id in [1, 2, 3, 4] {
        assert_eq!(receive(&mut image, &no_program(id)), RELEASED);
    }
    for id in [1, 3, 2, 1, 4, 1] {
        assert_eq!(receive(&mut image, &no_program(id)), REPEAT);
        assert_eq!(image, ready([4, 4, 3, 2, 1]));
    }
    assert_eq!(receive(&mut image, &program(5)), RELEASED);
    assert_eq!(image, busy([4, 5, 4, 3, 2]));
    for (id, told) in [(1, BUSY), (2, REPEAT), (3, REPEAT), (4, REPEAT), (5, REPEAT), (2, REPEAT), (0, BUSY)] {
        check_stays(image, &program(id), told);
    }
}

#[test]
fn the_order_of_the_tests() {
    // Repeat comes before Busy, Busy before all else.
    check_stays(busy(FOUR), &program(5), REPEAT);
    check_stays(busy(FOUR), &program(8), BUSY);
    // Repeat comes before a collection is begun or dropped, and a Repeat or 13 of what is collected after it.
    check_stays(collecting(FOUR, 8), &first_of_two(5), REPEAT);
    check_stays(collecting(FOUR, 8), &first_of_two(8), REPEAT);
    check_stays(collecting(FOUR, 8), &program(8), OTHER);
    check(collecting(FOUR, 8), &second_of_two(8), RELEASED, ready([4, 8, 9, 7, 63]));
    check(collecting(FOUR, 8), &program(6), RELEASED, busy([4, 6, 9, 7, 63]));
    check_stays(busy([4, 6, 9, 7, 63]), &second_of_two(8), BUSY);
}

#[test]
fn what_is_collected_and_dropped_is_not_completed() {
    let mut image = collecting([1, 9, 0, 0, 0], 8);
    assert_eq!(receive(&mut image, &no_program(6)), RELEASED);
    assert_eq!(image, ready([2, 6, 9, 0, 0]));
    assert_eq!(receive(&mut image, &no_program(8)), RELEASED);
    assert_eq!(image, ready([3, 8, 6, 9, 0]));
}

#[test]
fn a_reset_forgets_them_all() {
    let new = ready([0, 0, 0, 0, 0]);
    for front in FRONTS {
        for before in [ready(front), busy(front), collecting(front, 8)] {
            check(before, &RESET_PACKET, RESET, new);
            let mut image = before;
            assert_eq!(calls::reset(&mut image), 0);
            assert_eq!((image, reply(&image)), (new, NONE));
            let mut image = before;
            assert_eq!(calls::power_on(&mut image), 0);
            assert_eq!((image, reply(&image)), (new, NONE));
        }
        for &id in &front[1..] {
            check(new, &program(id), RELEASED, busy([1, id, 0, 0, 0]));
            check(new, &first_of_two(id), STORED, collecting([0, 0, 0, 0, 0], id));
        }
    }
    check_stays(busy([1, 8, 0, 0, 0]), &program(9), BUSY);
}

#[test]
fn a_query_forgets_and_adds_nothing() {
    for front in FRONTS {
        for image in [ready(front), busy(front), collecting(front, 8)] {
            check_stays(image, &QUERY_PACKET, QUERIED);
        }
    }
    let mut image = ready([0, 0, 0, 0, 0]);
    for (id, completed, ..) in SIX {
        assert_eq!(receive(&mut image, &first_of_two(id)), STORED);
        assert_eq!(receive(&mut image, &QUERY_PACKET), QUERIED);
        assert_eq!(receive(&mut image, &second_of_two(id)), RELEASED);
        assert_eq!(receive(&mut image, &QUERY_PACKET), QUERIED);
        assert_eq!(image, ready(completed));
    }
}

#[test]
fn steps_copies_and_replies_leave_them() {
    for front in FRONTS {
        let mut image = busy(front);
        assert_eq!(calls::copy_body(&image, &mut [0; 2]), 2 << 8);
        assert_eq!(calls::step(&mut image, &mut [0; 28]), 0);
        assert_eq!(image, ready(front));
        assert_eq!(calls::step(&mut image, &mut [0; 28]), 0);
        assert_eq!(image, ready(front));
        let last = if front[0] == 0 { 0x41 } else { front[1] };
        assert_eq!(reply(&image), [0x81, 0x7F, 8, last, 0x52, 0x46, 0, 0x60u8.wrapping_sub(last)]);
        assert_eq!(reply(&busy(front)), [0x81, 0x7F, 8, last, 0x42, 0x46, 0, 0x70 - last]);
        assert_eq!(reply(&collecting(front, 8)), reply(&image));
    }
}

#[test]
fn every_id_can_be_completed_in_turn() {
    let mut image = ready([0, 0, 0, 0, 0]);
    for id in (0..0x40).chain(0..0x40) {
        check_stays(image, &QUERY_PACKET, QUERIED);
        assert_eq!(receive(&mut image, &no_program(id)), RELEASED);
        assert_eq!(image[1], id);
    }
    assert_eq!(image, ready([4, 63, 62, 61, 60]));
}
