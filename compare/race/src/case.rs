//! A case: one call with all its inputs, run by either side, with all that it left behind.
//! Answers to the C interface: which call takes what, and which numbers for no it can give.

use crate::archive;
use crate::packets::readdress;
use crate::past::Past;
use reference::calls;

/// The calls of the interface.
#[derive(Clone, Copy, Debug, PartialEq, Eq)]
pub enum Function {
    ReadPacket,
    WriteQuery,
    WriteReset,
    WritePacket,
    WriteTransmission,
    WriteReply,
    ReadReply,
    Judge,
    Forecast,
    PowerOn,
    Reset,
    Receive,
    Step,
    Reply,
    CopyBody,
    Repeat,
    Version,
}

/// What a call is named, what it takes, and the numbers that it can give: yes, then the others in the order in which they come.
pub struct Shape {
    pub name: &'static str,
    pub numbers: &'static [&'static str],
    pub bytes: Option<&'static str>,
    pub out: Option<&'static str>,
    pub image: bool,
    pub noes: &'static [u8],
}

const BYTES: Option<&str> = Some("bytes");
const BODY: Option<&str> = Some("body");
const OUT: Option<&str> = Some("out");
const ANSWER: Option<&str> = Some("answer");

type Names = &'static [&'static str];
type Name = Option<&'static str>;

const fn shape(name: &'static str, numbers: Names, bytes: Name, out: Name, image: bool, noes: &'static [u8]) -> Shape {
    Shape { name, numbers, bytes, out, image, noes }
}

use Function::*;

/// The shape of each call, in the order of `Function`.
#[rustfmt::skip]
pub const SHAPES: [Shape; 17] = [
    shape("yd_read_packet", &["mid"], BYTES, ANSWER, false,
        &[0, 19, 252, 1, 2, 3, 4, 5, 6, 7, 8, 9, 10, 11]),
    shape("yd_write_query", &["mid"], None, OUT, false, &[0, 19, 34]),
    shape("yd_write_reset", &["mid"], None, OUT, false, &[0, 19, 34]),
    shape("yd_write_packet", &["mid", "id", "position"], BODY, OUT, false, &[0, 19, 31, 32, 33, 34]),
    shape("yd_write_transmission", &["mid", "id"], BODY, OUT, false, &[0, 19, 31, 32, 34]),
    shape("yd_write_reply", &["mid", "last", "busy", "aux"], None, OUT, false, &[0, 19, 32, 34]),
    shape("yd_read_reply", &["mid"], BYTES, ANSWER, false, &[0, 19, 252, 35]),
    shape("yd_judge", &[], BODY, None, false, &[0, 28, 21, 22, 23, 24, 25, 26, 27]),
    shape("yd_forecast", &["pace", "scan_setting"], BODY, ANSWER, false,
        &[0, 252, 17, 28, 21, 22, 23, 24, 25, 26, 27]),
    shape("yd_power_on", &[], None, None, true, &[0, 251]),
    shape("yd_reset", &[], None, None, true, &[0, 251, 16]),
    shape("yd_receive", &["mid"], BYTES, ANSWER, true,
        &[0, 251, 16, 19, 252, 1, 2, 3, 4, 5, 6, 7, 8, 9, 10, 11, 12, 13]),
    shape("yd_step", &[], None, ANSWER, true, &[0, 251, 16, 252]),
    shape("yd_reply", &["mid", "aux"], None, OUT, true, &[0, 251, 16, 19, 34]),
    shape("yd_copy_body", &[], None, OUT, true, &[0, 251, 16, 34]),
    shape("yd_repeat", &["place", "length"], BODY, None, false, &[0]),
    shape("yd_version", &[], None, None, false, &[0]),
];

impl Function {
    pub fn shape(self) -> &'static Shape {
        &SHAPES[self as usize]
    }
}

impl Shape {
    /// Whether the call is given the MID of a sign, which is then the first of its numbers.
    pub fn takes_mid(&self) -> bool {
        self.numbers.first() == Some(&"mid")
    }
}

/// One call with all its inputs.
#[derive(Clone, Debug)]
pub struct Case {
    pub function: Function,
    pub numbers: [usize; 4],
    pub image: Vec<u8>,
    pub bytes: Vec<u8>,
    /// What happens to stand behind the input bytes, which no answer may depend on.
    pub behind: Vec<u8>,
    pub out: Vec<u8>,
    /// What the sign of the image went through before, which no call is told.
    pub past: Past,
}

impl Case {
    pub fn new(function: Function, numbers: &[usize]) -> Self {
        let mut all = [0; 4];
        all[..numbers.len()].copy_from_slice(numbers);
        let (image, bytes, behind, out) = Default::default();
        Case { function, numbers: all, image, bytes, behind, out, past: Past::default() }
    }

    pub fn image(mut self, image: &[u8]) -> Self {
        self.image = image.to_vec();
        self
    }

    pub fn bytes(mut self, bytes: Vec<u8>) -> Self {
        self.bytes = bytes;
        self
    }

    pub fn out(mut self, out: Vec<u8>) -> Self {
        self.out = out;
        self
    }

    /// The MID that the call is given, if it takes one.
    pub fn mid(&self) -> Option<u8> {
        self.function.shape().takes_mid().then_some(self.numbers[0] as u8)
    }

    /// The same call with another MID; a packet or reply that was the first sign's is made the other's.
    pub fn readdressed(&self, mid: u8) -> Case {
        let mut case = self.clone();
        case.numbers[0] = mid.into();
        let before = self.numbers[0] as u8;
        match self.function {
            ReadPacket | Receive => readdress(&mut case.bytes, before, mid),
            ReadReply => readdress(&mut case.bytes, before ^ 1, mid ^ 1),
            _ => {}
        }
        case
    }
}

/// The bytes that a call is lent.
pub struct Lent<'a> {
    pub bytes: &'a mut [u8],
    pub image: &'a mut [u8],
    pub out: &'a mut [u8],
}

/// What a call left: its result and every byte it was lent, with those around them.
#[derive(Clone, Debug, PartialEq, Eq)]
pub struct After {
    pub result: u32,
    image: Vec<u8>,
    bytes: Vec<u8>,
    out: Vec<u8>,
}

/// The bytes on each side of a lent stretch, which no call may touch.
const AROUND: usize = 16;
const FENCE: [u8; AROUND] = *b"\xC5around\x3A\xA3around\x5C";

impl After {
    pub fn image(&self) -> &[u8] {
        inside(&self.image)
    }

    pub fn out(&self) -> &[u8] {
        inside(&self.out)
    }

    /// The word of this index in the answer.
    pub fn word(&self, index: usize) -> u32 {
        word(self.out(), index)
    }

    /// Whether the call wrote where it was lent nothing to write.
    pub fn strayed(&self, case: &Case) -> bool {
        let fenced = |bytes: &[u8]| bytes.starts_with(&FENCE) && bytes.ends_with(&FENCE);
        !fenced(&self.image) || !fenced(&self.out) || self.bytes != with_behind(case)
    }
}

/// The word of this index in an answer.
pub fn word(answer: &[u8], index: usize) -> u32 {
    let word = answer[4 * index..].first_chunk().copied().unwrap_or_default();
    u32::from_le_bytes(word)
}

fn with_behind(case: &Case) -> Vec<u8> {
    [case.bytes.as_slice(), &case.behind].concat()
}

fn fence(bytes: &[u8]) -> Vec<u8> {
    let mut fenced = Vec::with_capacity(bytes.len() + 2 * AROUND);
    fenced.extend_from_slice(&FENCE);
    fenced.extend_from_slice(bytes);
    fenced.extend_from_slice(&FENCE);
    fenced
}

fn inside(fenced: &[u8]) -> &[u8] {
    &fenced[AROUND..fenced.len() - AROUND]
}

fn run(case: &Case, side: fn(&Case, Lent) -> u32) -> After {
    let mut image = fence(&case.image);
    let mut out = fence(&case.out);
    let mut bytes = with_behind(case);
    let (image_end, out_end) = (image.len() - AROUND, out.len() - AROUND);
    let lent = Lent {
        bytes: &mut bytes[..case.bytes.len()],
        image: &mut image[AROUND..image_end],
        out: &mut out[AROUND..out_end],
    };
    let result = side(case, lent);
    After { result, image, bytes, out }
}

/// What the archive makes of a case.
pub fn by_archive(case: &Case) -> After {
    run(case, archive::call)
}

/// What the reference makes of a case.
pub fn by_reference(case: &Case) -> After {
    run(case, call_reference)
}

/// Whether the two sides differ on a case, or the archive strayed.
pub fn differ(case: &Case) -> bool {
    let archive = by_archive(case);
    archive.strayed(case) || archive != by_reference(case)
}

fn call_reference(case: &Case, lent: Lent) -> u32 {
    let [a, b, c, d] = case.numbers.map(|number| number as u8);
    let [place, length, ..] = case.numbers;
    let Lent { bytes, image, out } = lent;
    match case.function {
        ReadPacket => calls::read_packet(a, bytes, out),
        WriteQuery => calls::write_query(a, out),
        WriteReset => calls::write_reset(a, out),
        WritePacket => calls::write_packet(a, b, bytes, c, out),
        WriteTransmission => calls::write_transmission(a, b, bytes, out),
        WriteReply => calls::write_reply(a, b, c, d, out),
        ReadReply => calls::read_reply(a, bytes, out),
        Judge => calls::judge(bytes),
        Forecast => calls::forecast(bytes, a, b, out),
        PowerOn => calls::power_on(image),
        Reset => calls::reset(image),
        Receive => calls::receive(image, a, bytes, out),
        Step => calls::step(image, out),
        Reply => calls::reply(image, a, b, out),
        CopyBody => calls::copy_body(image, out),
        Repeat => calls::repeat(bytes, place, length),
        Version => calls::version(),
    }
}
