//! How often each call, each number for no and each outcome occurred, and what never did.
//! Answers to the C interface's lists, so that a reader sees what the generator reaches.

use crate::by_mid::{ByMid, in_place_of};
use crate::case::{After, Case, Function, SHAPES};
use crate::ground::Grounds;
use crate::measured::{Measured, texts_of};
use crate::remembered as ids;
use reference::machine::COLUMNS;

/// A count over the values that one word of an answer, a result, one byte of what was asked, or the blank edge of a text can take.
struct Group {
    name: &'static str,
    function: Function,
    read: fn(&Case, &After) -> Option<u32>,
    expected: &'static [u32],
}

fn yes(after: &After) -> bool {
    after.result & 0xFF == 0
}

fn first_word(_: &Case, after: &After) -> Option<u32> {
    yes(after).then(|| after.word(0))
}

fn released(_: &Case, after: &After) -> Option<u32> {
    (yes(after) && after.word(0) == 5).then(|| after.word(1))
}

fn value(_: &Case, after: &After) -> Option<u32> {
    yes(after).then_some(after.result >> 8)
}

/// The number of a command that a step performed, if it is an `XB`, which takes every number of a byte.
fn brightness(_: &Case, after: &After) -> Option<u32> {
    (yes(after) && after.word(0) == 15).then(|| after.word(1))
}

/// The byte that is the whole text of a body with one `S`, whatever the answer to it.
fn lone_byte(case: &Case, _: &After) -> Option<u32> {
    match case.bytes[..] {
        [b'^', b'S', byte] => Some(byte.into()),
        _ => None,
    }
}

/// The blank columns at the end of the first such text that a call met.
fn edge(case: &Case, after: &After, such: fn(&Measured) -> bool) -> Option<u32> {
    texts_of(case, after).iter().find(|text| such(text)).map(Measured::edge)
}

fn edge_over(case: &Case, after: &After) -> Option<u32> {
    edge(case, after, |text| text.is_shown() && text.is_over_by_edge())
}

fn edge_at_96(case: &Case, after: &After) -> Option<u32> {
    edge(case, after, |text| text.is_shown() && text.widths.lit == COLUMNS)
}

fn edge_at_97(case: &Case, after: &After) -> Option<u32> {
    edge(case, after, Measured::just_scrolls)
}

/// Each number of a byte.
const BYTES: [u32; VALUES] = {
    let mut bytes = [0; VALUES];
    let mut byte = 0;
    while byte < VALUES {
        bytes[byte] = byte as u32;
        byte += 1;
    }
    bytes
};

/// Each number of a message, and that of a reset.
const LAST: [u32; 65] = {
    let mut ids = [0x41; 65];
    let mut id = 0;
    while id < 64 {
        ids[id] = id as u32;
        id += 1;
    }
    ids
};

#[rustfmt::skip]
const GROUPS: [Group; 35] = [
    Group { name: "yd_read_packet, what", function: Function::ReadPacket, read: first_word, expected: &[1, 2, 3] },
    Group { name: "yd_read_packet, what 19 came before, 0 is yes", function: Function::ReadPacket, read: in_place_of,
        expected: &[0, 1, 2, 3, 4, 5, 6, 7, 8, 9, 10, 11, 252] },
    Group { name: "yd_read_reply, Busy", function: Function::ReadReply,
        read: |_, after| yes(after).then(|| after.word(1)), expected: &[0, 1] },
    Group { name: "yd_read_reply, AUX reads S", function: Function::ReadReply,
        read: |_, after| yes(after).then(|| after.word(2)), expected: &[0, 1] },
    Group { name: "yd_judge, endless", function: Function::Judge, read: value, expected: &[0, 1] },
    Group { name: "yd_judge, byte after `^S` in a body of three bytes", function: Function::Judge, read: lone_byte,
        expected: &BYTES },
    Group { name: "yd_forecast, endless", function: Function::Forecast, read: first_word, expected: &[0, 1] },
    Group { name: "yd_forecast, pace left, 0 if endless", function: Function::Forecast,
        read: |_, after| yes(after).then(|| after.word(4)),
        expected: &[0, 1, 2, 3, 4, 5, 6, 7, 8, 9, 10, 11, 12, 13, 14, 15, 16, 17, 18, 19, 20] },
    Group { name: "yd_forecast, scan setting left, 0 if endless", function: Function::Forecast,
        read: |_, after| yes(after).then(|| after.word(5)), expected: &[0, 1, 2, 3, 4, 5, 6] },
    Group { name: "yd_forecast, blank edge of an `I` over 96 whole, which is shown", function: Function::Forecast,
        read: edge_over, expected: &[1, 2, 3] },
    Group { name: "yd_forecast, blank edge of an `I` of 96 lit, which is shown", function: Function::Forecast,
        read: edge_at_96, expected: &[0, 1, 2, 3] },
    Group { name: "yd_forecast, blank edge of an `I` of 97 lit, which scrolls", function: Function::Forecast,
        read: edge_at_97, expected: &[0, 1, 2, 3] },
    Group { name: "yd_receive, what 19 came before, 0 is yes", function: Function::Receive, read: in_place_of,
        expected: &[0, 1, 2, 3, 4, 5, 6, 7, 8, 9, 10, 11, 12, 13, 252] },
    Group { name: "yd_receive, outcome", function: Function::Receive, read: first_word, expected: &[1, 2, 3, 4, 5] },
    Group { name: "yd_receive, number of a released body", function: Function::Receive, read: released,
        expected: &[0, 21, 22, 23, 24, 25, 26, 27] },
    Group { name: "yd_receive, place of a Repeat among four completed IDs, Ready", function: Function::Receive,
        read: ids::repeat_place_ready, expected: &[1, 2, 3, 4] },
    Group { name: "yd_receive, place of a Repeat among four completed IDs, Busy", function: Function::Receive,
        read: ids::repeat_place_busy, expected: &[1, 2, 3, 4] },
    Group { name: "yd_receive, place of a Repeat among four completed IDs, another collected",
        function: Function::Receive, read: ids::repeat_place_collecting, expected: &[1, 2, 3, 4] },
    Group { name: "yd_receive, completed IDs before a program was released", function: Function::Receive,
        read: ids::before_program, expected: &[0, 1, 2, 3, 4] },
    Group { name: "yd_receive, completed IDs before a body that is no program was released",
        function: Function::Receive, read: ids::before_no_program, expected: &[0, 1, 2, 3, 4] },
    Group { name: "yd_receive, count of completed IDs over 4, all else sound", function: Function::Receive,
        read: ids::count_over, expected: BYTES.split_at(5).1 },
    Group { name: "yd_receive, place of a completed ID over 3Fh, all else sound", function: Function::Receive,
        read: ids::over_place, expected: &[1, 2, 3, 4] },
    Group { name: "yd_receive, two places of a completed ID, all else sound", function: Function::Receive,
        read: ids::twice_places, expected: &[12, 13, 14, 23, 24, 34] },
    Group { name: "yd_receive, number of completed IDs and place of a stray byte after them, all else sound",
        function: Function::Receive, read: ids::stray_place, expected: &[1, 2, 3, 4, 12, 13, 14, 23, 24, 34] },
    Group { name: "yd_receive, place of the collected ID among the completed ones, all else sound",
        function: Function::Receive, read: ids::collected_place, expected: &[1, 2, 3, 4] },
    Group { name: "yd_reply, number of completed IDs", function: Function::Reply, read: ids::replied_with,
        expected: &[0, 1, 2, 3, 4] },
    Group { name: "yd_reply, last completed ID", function: Function::Reply, read: ids::replied, expected: &LAST },
    Group { name: "yd_step, kind", function: Function::Step, read: first_word,
        expected: &[0, 1, 2, 3, 4, 5, 6, 7, 8, 9, 10, 11, 12, 13, 14, 15, 16] },
    Group { name: "yd_step, number of an XB", function: Function::Step, read: brightness, expected: &BYTES },
    Group { name: "yd_step, blank edge of an `I` over 96 whole, which is shown", function: Function::Step,
        read: edge_over, expected: &[1, 2, 3] },
    Group { name: "yd_step, blank edge of an `I` of 96 lit, which is shown", function: Function::Step,
        read: edge_at_96, expected: &[0, 1, 2, 3] },
    Group { name: "yd_step, blank edge of an `I` of 97 lit, which scrolls", function: Function::Step,
        read: edge_at_97, expected: &[0, 1, 2, 3] },
    Group { name: "yd_step, blank edge of an `S` over 96 whole and not lit", function: Function::Step,
        read: |case, after| edge(case, after, |text| !text.centred && text.is_over_by_edge()), expected: &[1, 2, 3] },
    Group { name: "yd_write_packet, packets in full or not", function: Function::WritePacket,
        read: |case, after| value(case, after).map(|length| u32::from(length == 21)), expected: &[0, 1] },
    Group { name: "yd_repeat, shows the stretch", function: Function::Repeat, read: value, expected: &[0, 1] },
];

pub const VALUES: usize = 256;

pub struct Tally {
    calls: [u64; SHAPES.len()],
    noes: Vec<[u64; VALUES]>,
    groups: Vec<[u64; VALUES]>,
    by_mid: ByMid,
    grounds: Grounds,
}

impl Tally {
    pub fn new() -> Self {
        Tally {
            calls: [0; SHAPES.len()],
            noes: vec![[0; VALUES]; SHAPES.len()],
            groups: vec![[0; VALUES]; GROUPS.len()],
            by_mid: ByMid::new(),
            grounds: Grounds::new(),
        }
    }

    /// Counts what a case led to.
    pub fn count(&mut self, case: &Case, after: &After) {
        let function = case.function as usize;
        self.calls[function] += 1;
        self.noes[function][(after.result & 0xFF) as usize] += 1;
        for (group, counts) in GROUPS.iter().zip(&mut self.groups) {
            if group.function == case.function
                && let Some(value) = (group.read)(case, after)
            {
                counts[(value as usize).min(VALUES - 1)] += 1;
            }
        }
        self.by_mid.count(case, after);
        self.grounds.count(case, after);
    }

    /// Prints all counts.
    pub fn print(&self) {
        for ((shape, calls), noes) in SHAPES.iter().zip(self.calls).zip(&self.noes) {
            println!("{}: {calls} calls", shape.name);
            print_counts("  by number:", noes);
        }
        for (group, counts) in GROUPS.iter().zip(&self.groups) {
            println!("{}:", group.name);
            print_counts(" ", counts);
        }
        self.by_mid.print();
        self.grounds.print();
    }

    /// What should have occurred and did not, or occurred and should not have.
    pub fn faults(&self) -> Vec<String> {
        let mut faults = Vec::new();
        for (shape, noes) in SHAPES.iter().zip(&self.noes) {
            let expected: Vec<u32> = shape.noes.iter().map(|&no| no.into()).collect();
            check(&format!("{}: number", shape.name), &expected, noes, &mut faults);
        }
        for (group, counts) in GROUPS.iter().zip(&self.groups) {
            check(group.name, group.expected, counts, &mut faults);
        }
        faults.extend(self.by_mid.faults());
        faults.extend(self.grounds.faults());
        faults
    }
}

fn print_counts(title: &str, counts: &[u64]) {
    let occurred = counts.iter().enumerate().filter(|(_, count)| **count > 0);
    let words: Vec<String> = occurred.map(|(value, count)| format!("{value}: {count}")).collect();
    if !words.is_empty() {
        println!("{title} {}", words.join(", "));
    }
}

/// Adds what should have occurred and did not, and what should not have and did.
pub fn check(name: &str, expected: &[u32], counts: &[u64], faults: &mut Vec<String>) {
    for (value, count) in (0u32..).zip(counts) {
        match (expected.contains(&value), *count > 0) {
            (true, false) => faults.push(format!("{name} {value} never occurred")),
            (false, true) => faults.push(format!("{name} {value} occurred, which the header does not list")),
            _ => {}
        }
    }
}
