//! The calls of the archive, each over what it is lent, made straight: the race's way through C would be in the price.
//! All that is unsafe in the calling of the archive is here.

use crate::lent::Lent;

unsafe extern "C" {
    fn yd_read_packet(mid: u8, bytes: *const u8, bytes_len: usize, answer: *mut u8, answer_len: usize) -> u32;
    fn yd_write_query(mid: u8, out: *mut u8, out_len: usize) -> u32;
    fn yd_write_reset(mid: u8, out: *mut u8, out_len: usize) -> u32;
    fn yd_write_packet(
        mid: u8,
        id: u8,
        body: *const u8,
        body_len: usize,
        position: u8,
        out: *mut u8,
        out_len: usize,
    ) -> u32;
    fn yd_write_transmission(mid: u8, id: u8, body: *const u8, body_len: usize, out: *mut u8, out_len: usize) -> u32;
    fn yd_write_reply(mid: u8, last: u8, busy: u8, aux: u8, out: *mut u8, out_len: usize) -> u32;
    fn yd_read_reply(mid: u8, bytes: *const u8, bytes_len: usize, answer: *mut u8, answer_len: usize) -> u32;
    fn yd_judge(body: *const u8, body_len: usize) -> u32;
    fn yd_forecast(
        body: *const u8,
        body_len: usize,
        pace: u8,
        scan_setting: u8,
        answer: *mut u8,
        answer_len: usize,
    ) -> u32;
    fn yd_power_on(image: *mut u8, image_len: usize) -> u32;
    fn yd_reset(image: *mut u8, image_len: usize) -> u32;
    fn yd_receive(
        image: *mut u8,
        image_len: usize,
        mid: u8,
        bytes: *const u8,
        bytes_len: usize,
        answer: *mut u8,
        answer_len: usize,
    ) -> u32;
    fn yd_step(image: *mut u8, image_len: usize, answer: *mut u8, answer_len: usize) -> u32;
    fn yd_reply(image: *const u8, image_len: usize, mid: u8, aux: u8, out: *mut u8, out_len: usize) -> u32;
    fn yd_copy_body(image: *const u8, image_len: usize, out: *mut u8, out_len: usize) -> u32;
    fn yd_repeat(body: *const u8, body_len: usize, place: usize, length: usize) -> u32;
    fn yd_version() -> u32;
}

/// Defines a call by its name and what it passes on: `bytes`, `out` and `image` stand for a pointer and a length.
macro_rules! calls {
    ($($name:ident = $function:ident($lent:ident: $($argument:expr),*);)*) => { $(
        pub extern "C-unwind" fn $name($lent: &mut Lent) -> u32 {
            // SAFETY: each pointer and its length come from a buffer that is alive, not null and apart from the others.
            unsafe { $function($($argument),*) }
        }
    )* };
}

calls! {
    read_packet = yd_read_packet(l: l.numbers[0], l.bytes.as_ptr(), l.bytes.len(), l.out.as_mut_ptr(), l.out.len());
    write_query = yd_write_query(l: l.numbers[0], l.out.as_mut_ptr(), l.out.len());
    write_reset = yd_write_reset(l: l.numbers[0], l.out.as_mut_ptr(), l.out.len());
    write_packet = yd_write_packet(l: l.numbers[0], l.numbers[1], l.bytes.as_ptr(), l.bytes.len(), l.numbers[2],
        l.out.as_mut_ptr(), l.out.len());
    write_transmission = yd_write_transmission(l: l.numbers[0], l.numbers[1], l.bytes.as_ptr(), l.bytes.len(),
        l.out.as_mut_ptr(), l.out.len());
    write_reply = yd_write_reply(l: l.numbers[0], l.numbers[1], l.numbers[2], l.numbers[3],
        l.out.as_mut_ptr(), l.out.len());
    read_reply = yd_read_reply(l: l.numbers[0], l.bytes.as_ptr(), l.bytes.len(), l.out.as_mut_ptr(), l.out.len());
    judge = yd_judge(l: l.bytes.as_ptr(), l.bytes.len());
    forecast = yd_forecast(l: l.bytes.as_ptr(), l.bytes.len(), l.numbers[0], l.numbers[1],
        l.out.as_mut_ptr(), l.out.len());
    power_on = yd_power_on(l: l.image.as_mut_ptr(), l.image.len());
    reset = yd_reset(l: l.image.as_mut_ptr(), l.image.len());
    receive = yd_receive(l: l.image.as_mut_ptr(), l.image.len(), l.numbers[0], l.bytes.as_ptr(), l.bytes.len(),
        l.out.as_mut_ptr(), l.out.len());
    step = yd_step(l: l.image.as_mut_ptr(), l.image.len(), l.out.as_mut_ptr(), l.out.len());
    reply = yd_reply(l: l.image.as_ptr(), l.image.len(), l.numbers[0], l.numbers[1], l.out.as_mut_ptr(), l.out.len());
    copy_body = yd_copy_body(l: l.image.as_ptr(), l.image.len(), l.out.as_mut_ptr(), l.out.len());
    repeat = yd_repeat(l: l.bytes.as_ptr(), l.bytes.len(), l.numbers[0].into(), l.numbers[1].into());
    version = yd_version(_l:);
}
