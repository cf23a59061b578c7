//! The cases that are priced: which function, on what, at which size.
//! Every record is one that the reference reached by packets and steps.

use crate::lent::{Lent, Work};
use crate::{archive, second};
use reference::completed::COMPLETED_MOST;
use reference::no::No;
use reference::packet::{self, DATA_MOST, FRAME};
use reference::sign::Sign;

/// A function of the C interface with those who have it.
#[derive(Clone, Copy)]
pub struct Function {
    pub name: &'static str,
    pub ours: Work,
    pub reference: Work,
    pub record: Option<Work>,
}

/// A call whose price is wanted.
pub struct Case {
    /// The word for it on the command line, and in the table.
    pub name: &'static str,
    pub told: &'static str,
    pub size: usize,
    pub function: Function,
    pub lent: Lent,
}

/// A function without a record and one with it, by their one name everywhere.
macro_rules! function {
    ($name:ident) => {
        Function {
            name: concat!("yd_", stringify!($name)),
            ours: archive::$name,
            reference: second::$name,
            record: None,
        }
    };
    ($name:ident, record) => {
        Function { record: Some(second::record::$name), ..function!($name) }
    };
}

/// The sign's MID, the ID of what is sent, and those that were completed before, the oldest first.
const MID: u8 = 0x80;
const ID: u8 = 5;
const BEFORE: [u8; COMPLETED_MOST] = [1, 2, 3, 4];

/// The oldest of the completed IDs once that of what is sent is one of them.
const OLDEST: u8 = BEFORE[1];

/// A mixed program of each size, and where in it a text is shown and where one scrolls.
const LONG: &[u8; 84] =
    b"^P04^=2^XS^L03^S~CVIA ~G\x81\x9f\xe3~cMARKET SQ^W10^II~BLINE ~D12^S~dPORT 7^IA~bCITY^XD99^E^R";
const SHORT: &[u8; 14] = b"^L2^II~BA^SB^E";
const MIXED: [Program; 2] =
    [Program { body: SHORT, shown: 3, scrolled: 9 }, Program { body: LONG, shown: 42, scrolled: 56 }];

struct Program {
    body: &'static [u8],
    shown: u8,
    scrolled: u8,
}

/// All cases, those of one name behind each other with the smaller size first.
pub fn all() -> Vec<Case> {
    let mut cases = reading();
    cases.extend(writing());
    cases.extend(judging());
    cases.extend(receiving());
    cases.extend(interrupting());
    cases.extend(stepping());
    cases.extend(asking());
    cases.extend(small());
    cases
}

/// The smallest packet with data, and the largest.
fn reading() -> Vec<Case> {
    let read = |length: usize| {
        let packet = packets(&LONG[..length]).remove(0);
        let lent = Lent::new([MID, 0, 0, 0], &packet, Sign::power_on());
        Case {
            name: "read_packet",
            told: "reading a packet",
            size: packet.len(),
            function: function!(read_packet),
            lent,
        }
    };
    [1, DATA_MOST].map(read).into()
}

fn writing() -> Vec<Case> {
    let write = |program: Program| {
        let lent = Lent::new([MID, ID, 0, 0], program.body, Sign::power_on());
        let (name, told) = ("write_transmission", "writing a transmission");
        Case { name, told, size: program.body.len(), function: function!(write_transmission), lent }
    };
    MIXED.map(write).into()
}

fn judging() -> Vec<Case> {
    let judge = |program: Program| body_case("judge", "judging", program.body);
    let mut cases: Vec<Case> = MIXED.map(judge).into();
    for (name, told, start) in [
        ("judge_dense", "judging, shortest commands", "^L99"),
        ("forecast", "forecasting, a loop of shortest commands", "^L99"),
        ("forecast_pace", "forecasting, a loop that changes the pace", "^L99^P05"),
    ] {
        cases.extend([14, 84].map(|size| body_case(name, told, &loop_of(start, size))));
    }
    cases
}

/// A body that is judged or forecast from the settings of a sign just switched on.
fn body_case(name: &'static str, told: &'static str, body: &[u8]) -> Case {
    let function = if name.starts_with("judge") { function!(judge) } else { function!(forecast) };
    Case { name, told, size: body.len(), function, lent: Lent::new([4, 1, 0, 0], body, Sign::power_on()) }
}

/// A loop of this start and size, full of the shortest commands.
fn loop_of(start: &str, size: usize) -> Vec<u8> {
    let scrolls = (size - start.len() - "^E".len()) / "^S".len();
    format!("{start}{}^E", "^S".repeat(scrolls)).into_bytes()
}

/// The packet that releases a body and starts it, and one in the middle that is only stored.
fn receiving() -> Vec<Case> {
    let receive = |name, told, body: &'static [u8], position: usize| {
        let packets = packets(body);
        let lent = Lent::new([MID, 0, 0, 0], &packets[position], after(&packets[..position]));
        Case { name, told, size: body.len(), function: function!(receive, record), lent }
    };
    vec![
        receive("receive_last", "receiving the last packet", SHORT, 0),
        receive("receive_last", "receiving the last packet", LONG, 5),
        receive("receive_stored", "receiving a packet in the middle", LONG, 2),
    ]
}

/// A query, a reset, and a Repeat by the newest and by the oldest of four completed IDs, that come in while a program runs.
fn interrupting() -> Vec<Case> {
    let interrupt = |name, told, packet: &[u8], program: Program| {
        let lent = Lent::new([MID, 0, 0, 0], packet, running(program.body, program.shown));
        Case { name, told, size: program.body.len(), function: function!(receive, record), lent }
    };
    let query =
        |program| interrupt("receive_query", "receiving a query, running", &special(packet::write_query), program);
    let reset =
        |program| interrupt("receive_reset", "receiving a reset, running", &special(packet::write_reset), program);
    let repeat =
        |name, told, id| move |program: Program| interrupt(name, told, &packets_of(id, program.body)[0], program);
    let mut cases: Vec<Case> = MIXED.map(query).into();
    cases.extend(MIXED.map(reset));
    cases.extend(MIXED.map(repeat("receive_repeat", "receiving a Repeat by the newest completed ID, running", ID)));
    cases.extend(MIXED.map(repeat("receive_oldest", "receiving a Repeat by the oldest of four, running", OLDEST)));
    cases
}

fn stepping() -> Vec<Case> {
    let step = |name, told, body: &[u8], place| {
        let lent = Lent::new([0; 4], &[], running(body, place));
        Case { name, told, size: body.len(), function: function!(step, record), lent }
    };
    let shown = |program: Program| step("step_shown", "one step, a text shown", program.body, program.shown);
    let scrolled = |program: Program| step("step_scroll", "one step, a text scrolled", program.body, program.scrolled);
    let dense =
        |size| step("step_dense", "one step, late among shortest commands", &loop_of("^L99", size), size as u8 - 4);
    let mut cases: Vec<Case> = MIXED.map(shown).into();
    cases.extend(MIXED.map(scrolled));
    cases.extend([14, 84].map(dense));
    cases
}

/// What is asked of a running sign.
fn asking() -> Vec<Case> {
    let ask = |name, told, function, program: Program| {
        let lent = Lent::new([MID, 1, 0, 0], &[], running(program.body, program.shown));
        Case { name, told, size: program.body.len(), function, lent }
    };
    let reply = |program| ask("reply", "answering a query, running", function!(reply, record), program);
    let copy = |program| ask("copy_body", "copying the body", function!(copy_body, record), program);
    let reset = |program| ask("reset", "resetting, running", function!(reset, record), program);
    let mut cases: Vec<Case> = MIXED.map(reply).into();
    cases.extend(MIXED.map(copy));
    cases.extend(MIXED.map(reset));
    cases
}

/// The calls whose price hangs on no size, or on next to nothing.
fn small() -> Vec<Case> {
    let case = |name, told, function, numbers, bytes: &[u8]| {
        let lent = Lent::new(numbers, bytes, Sign::power_on());
        Case { name, told, size: bytes.len(), function, lent }
    };
    let heard = packet::Reply { last: ID, busy: true, sink: false };
    let mut reply = [0; packet::REPLY];
    packet::write_reply(MID, heard, &mut reply).expect("a reply fits its size");
    vec![
        case("write_packet", "writing a packet", function!(write_packet), [MID, ID, 2, 0], LONG),
        case("write_query", "writing a query", function!(write_query), [MID, 0, 0, 0], &[]),
        case("write_reset", "writing a reset", function!(write_reset), [MID, 0, 0, 0], &[]),
        case("write_reply", "writing a reply", function!(write_reply), [MID, ID, 1, 0], &[]),
        case("read_reply", "reading a reply", function!(read_reply), [MID, 0, 0, 0], &reply),
        case("power_on", "switching on", function!(power_on, record), [0; 4], &[]),
        case("repeat", "the repeater's question", function!(repeat), [45, 11, 0, 0], LONG),
        case("version", "telling the version", function!(version), [0; 4], &[]),
    ]
}

/// The packets of a body that is sent.
fn packets(body: &[u8]) -> Vec<Vec<u8>> {
    packets_of(ID, body)
}

/// The packets of a body under this ID.
fn packets_of(id: u8, body: &[u8]) -> Vec<Vec<u8>> {
    let total = body.len().div_ceil(DATA_MOST);
    let mut out = vec![0; body.len() + FRAME * total];
    packet::write_transmission(MID, id, body, &mut out).expect("the bodies here are short enough");
    out.chunks(DATA_MOST + FRAME).map(<[u8]>::to_vec).collect()
}

/// The packet that the writer of a query or reset writes.
fn special(write: fn(u8, &mut [u8]) -> Result<usize, No>) -> [u8; FRAME] {
    let mut packet = [0; FRAME];
    write(MID, &mut packet).expect("a query or reset fits its size");
    packet
}

/// A sign that completed four messages, none of them a program, and then took these packets.
fn after(packets: &[Vec<u8>]) -> Sign {
    let mut sign = Sign::power_on();
    for packet in BEFORE.iter().flat_map(|&id| packets_of(id, b"A")).chain(packets.iter().cloned()) {
        sign.receive(MID, &packet).expect("the packets here are right");
    }
    sign
}

/// A sign that runs this body and performs the command at this place next.
fn running(body: &[u8], place: u8) -> Sign {
    let mut sign = after(&packets(body));
    while sign.course.place != place {
        sign.step().expect("the record is sound");
        assert!(sign.is_busy(), "a command stands at the place");
    }
    sign
}
