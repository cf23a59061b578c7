//! The calls of include/yurodekapi.h as C makes them (`calls.c`), the asserts on what the header names (`names.c`), and where
//! the archive is. The bench declares the archive's functions itself, so that no price has the way through C in it.

/// The archive that is linked.
pub const ARCHIVE: &str = env!("YD_ARCHIVE");

unsafe extern "C" {
    pub fn race_read_packet(mid: u8, bytes: *const u8, bytes_len: usize, answer: *mut u8, answer_len: usize) -> u32;
    pub fn race_write_query(mid: u8, out: *mut u8, out_len: usize) -> u32;
    pub fn race_write_reset(mid: u8, out: *mut u8, out_len: usize) -> u32;
    pub fn race_write_packet(
        mid: u8,
        id: u8,
        body: *const u8,
        body_len: usize,
        position: u8,
        out: *mut u8,
        out_len: usize,
    ) -> u32;
    pub fn race_write_transmission(
        mid: u8,
        id: u8,
        body: *const u8,
        body_len: usize,
        out: *mut u8,
        out_len: usize,
    ) -> u32;
    pub fn race_write_reply(mid: u8, last: u8, busy: u8, aux: u8, out: *mut u8, out_len: usize) -> u32;
    pub fn race_read_reply(mid: u8, bytes: *const u8, bytes_len: usize, answer: *mut u8, answer_len: usize) -> u32;
    pub fn race_judge(body: *const u8, body_len: usize) -> u32;
    pub fn race_forecast(
        body: *const u8,
        body_len: usize,
        pace: u8,
        scan_setting: u8,
        answer: *mut u8,
        answer_len: usize,
    ) -> u32;
    pub fn race_power_on(image: *mut u8, image_len: usize) -> u32;
    pub fn race_reset(image: *mut u8, image_len: usize) -> u32;
    pub fn race_receive(
        image: *mut u8,
        image_len: usize,
        mid: u8,
        bytes: *const u8,
        bytes_len: usize,
        answer: *mut u8,
        answer_len: usize,
    ) -> u32;
    pub fn race_step(image: *mut u8, image_len: usize, answer: *mut u8, answer_len: usize) -> u32;
    pub fn race_reply(image: *const u8, image_len: usize, mid: u8, aux: u8, out: *mut u8, out_len: usize) -> u32;
    pub fn race_copy_body(image: *const u8, image_len: usize, out: *mut u8, out_len: usize) -> u32;
    pub fn race_repeat(body: *const u8, body_len: usize, place: usize, length: usize) -> u32;
    pub fn race_version() -> u32;

    /// Ends the program if these are not the sizes, numbers and places that the header names, in the order of `names.c`.
    pub fn race_assert_names(used: *const u32, count: usize);

    /// Ends the program if the header's own functions don't read these words from 100 bytes of an answer.
    pub fn race_assert_readers(bytes: *const u8, words: *const u32);

    /// Ends the program if the header's own functions don't read from this sound image what its reply of 8 bytes tells.
    pub fn race_assert_asked(image: *const u8, reply: *const u8);
}
