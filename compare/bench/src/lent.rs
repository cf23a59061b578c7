//! What a call is lent, and the loop that makes the same call many times.
//! The loop is one for all, so that what it costs by itself can be taken off.

use reference::image::IMAGE_SIZE;
use reference::sign::Sign;
use std::hint::black_box;

/// The longest that any call writes.
pub const OUT: usize = 126;

/// The inputs of a call and the room for its results; the record is there as an image and as the reference's own.
#[derive(Clone)]
pub struct Lent {
    pub numbers: [u8; 4],
    pub bytes: Vec<u8>,
    pub image: [u8; IMAGE_SIZE],
    pub out: [u8; OUT],
    pub sign: Sign,
}

impl Lent {
    /// These numbers and bytes, with the record of this sign.
    pub fn new(numbers: [u8; 4], bytes: &[u8], sign: Sign) -> Lent {
        let mut image = [0; IMAGE_SIZE];
        sign.write_image(&mut image);
        Lent { numbers, bytes: bytes.to_vec(), image, out: [0; OUT], sign }
    }
}

/// One call on lent bytes, with the result of the C interface; it may unwind, or the reference would pay for a guard.
pub type Work = extern "C-unwind" fn(&mut Lent) -> u32;

/// Does nothing, to price the loop without a call.
pub extern "C-unwind" fn nothing(_: &mut Lent) -> u32 {
    0
}

/// Makes the call so many times, each time on the record as it was first.
#[inline(never)]
pub fn again_and_again(work: Work, first: &Lent, times: u64) {
    let mut lent = first.clone();
    for _ in 0..times {
        lent.image = first.image;
        lent.sign.clone_from(&first.sign);
        black_box(black_box(work)(black_box(&mut lent)));
    }
}
