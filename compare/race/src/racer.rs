//! The race itself: each case to both sides, compared, counted, and at the first difference shown small.
//! Answers to 01's demand that a call leaves room for one outcome only.

use crate::archive::assert_asked;
use crate::case::{After, Case, Function, by_archive, by_reference};
use crate::random::Random;
use crate::shrink::shrink;
use crate::tally::Tally;
use reference::calls::{
    FORECAST_ANSWER_SIZE, PACKET_ANSWER_SIZE, RECEIVE_ANSWER_SIZE, REPLY_ANSWER_SIZE, STEP_ANSWER_SIZE,
};
use reference::image::{
    AT_BRIGHT, AT_COMPLETED, AT_COUNT, AT_DIM, AT_ID, AT_LENGTH, AT_LENS, AT_LOOP_LEFT, AT_LOOP_PLACE, AT_PACE,
    AT_PLACE, AT_ROOM, AT_SCANS, AT_SINK, AT_TOTAL, IMAGE_SIZE,
};
use std::fmt::Write;

/// Bytes that could go on with an input, were it read too far.
const BEHIND: &[u8] = b"GBd^^05\x80\xFFI\0";

pub struct Racer {
    pub random: Random,
    pub tally: Tally,
    pub calls: u64,
    limit: u64,
    seed: u64,
    trace: bool,
}

impl Racer {
    pub fn new(seed: u64, limit: u64, trace: bool) -> Self {
        Racer { random: Random::new(seed), tally: Tally::new(), calls: 0, limit, seed, trace }
    }

    /// What both sides make of a case; none when the calls are used up.
    pub fn call(&mut self, mut case: Case) -> Option<After> {
        if self.calls == self.limit {
            return None;
        }
        self.calls += 1;
        if self.random.chance(50) {
            case.behind = vec![self.random.pick(BEHIND), self.random.pick(BEHIND)];
        }
        if self.trace {
            eprintln!("call {}\n{}", self.calls, inputs(&case));
        }
        let archive = by_archive(&case);
        let reference = by_reference(&case);
        if archive != reference || archive.strayed(&case) {
            self.stop(case);
        }
        if case.function == Function::Reply && reference.result & 0xFF == 0 {
            assert_asked(&case.image, reference.out());
        }
        self.tally.count(&case, &reference);
        Some(reference)
    }

    /// Shows the difference on the smallest case found and ends the race.
    fn stop(&self, case: Case) -> ! {
        println!("race: difference in {}, call {}, seed {}", case.function.shape().name, self.calls, self.seed);
        let small = shrink(case);
        print!("{}", inputs(&small));
        print_sides(&small);
        std::process::exit(1);
    }

    /// A lent buffer: mostly enough for what is needed, sometimes of any size up to some more.
    pub fn buffer(&mut self, needed: usize) -> Vec<u8> {
        let size = match self.random.below(8) {
            0 => self.random.below(needed + 24),
            1 => needed.saturating_sub(1),
            2..4 => needed,
            _ => needed + self.random.below(9),
        };
        self.random.bytes(size)
    }

    /// The answer buffer of a call.
    pub fn answer(&mut self, function: Function) -> Vec<u8> {
        let needed = match function {
            Function::ReadPacket => PACKET_ANSWER_SIZE,
            Function::ReadReply => REPLY_ANSWER_SIZE,
            Function::Forecast => FORECAST_ANSWER_SIZE,
            Function::Receive => RECEIVE_ANSWER_SIZE,
            Function::Step => STEP_ANSWER_SIZE,
            _ => 0,
        };
        if self.random.chance(80) {
            let more = self.random.below(9);
            return self.random.bytes(needed + more);
        }
        self.buffer(needed)
    }
}

fn hex(bytes: &[u8]) -> String {
    let mut line = String::new();
    for byte in bytes {
        let _ = write!(line, "{byte:02X}");
    }
    line
}

/// The inputs of a case, one to a line.
fn inputs(case: &Case) -> String {
    let shape = case.function.shape();
    let mut lines = format!("  {}\n", shape.name);
    for (name, number) in shape.numbers.iter().zip(case.numbers) {
        let _ = writeln!(lines, "  {name} {number} ({number:X}h)");
    }
    if shape.image {
        let _ = writeln!(lines, "  image, {} bytes: {}", case.image.len(), hex(&case.image));
        lines.push_str(&fields(&case.image));
    }
    if let Some(name) = shape.bytes {
        let text = case.bytes.escape_ascii();
        let _ = writeln!(lines, "  {name}, {} bytes: {} \"{text}\"", case.bytes.len(), hex(&case.bytes));
        if !case.behind.is_empty() {
            let _ = writeln!(lines, "  behind them, not lent: {}", hex(&case.behind));
        }
    }
    if let Some(name) = shape.out {
        let _ = writeln!(lines, "  {name} lent, {} bytes: {}", case.out.len(), hex(&case.out));
    }
    lines
}

/// The fields of an image in words, as they stand there, sound or not.
fn fields(image: &[u8]) -> String {
    if image.len() != IMAGE_SIZE {
        return String::new();
    }
    let lens = &image[AT_LENS..AT_ROOM];
    let room = &image[AT_ROOM..AT_LENGTH];
    let used = room.iter().rposition(|&byte| byte != 0).map_or(0, |last| last + 1);
    let collected = format!("collected {:02X}h of {} lens {lens:?}", image[AT_ID], image[AT_TOTAL]);
    let course = NAMED.map(|(name, at)| format!("{name} {}", image[at])).join(", ");
    let completed = format!("completed {}: {}", image[AT_COUNT], hex(&image[AT_COMPLETED..AT_ID]));
    let room = room[..used].escape_ascii();
    format!("    {completed}, {collected}\n    room \"{room}\", zeros after\n    {course}\n")
}

/// The numbers of an image from the running body's length on.
const NAMED: [(&str, usize); 9] = [
    ("length", AT_LENGTH),
    ("place", AT_PLACE),
    ("loop place", AT_LOOP_PLACE),
    ("loop left", AT_LOOP_LEFT),
    ("pace", AT_PACE),
    ("scans", AT_SCANS),
    ("AUX", AT_SINK),
    ("dim", AT_DIM),
    ("bright", AT_BRIGHT),
];

/// What each side left, and where the bytes are not the same.
fn print_sides(case: &Case) {
    let sides = [("reference", by_reference(case)), ("archive", by_archive(case))];
    let shape = case.function.shape();
    for (name, after) in &sides {
        println!("  {name}: result {:08X}h, number {}, value {}", after.result, after.result & 0xFF, after.result >> 8);
        if shape.image {
            println!("  {name}: image after {}", hex(after.image()));
        }
        if let Some(lent) = shape.out {
            println!("  {name}: {lent} after {}", hex(after.out()));
        }
        if after.strayed(case) {
            println!("  {name}: wrote to bytes that it was not lent for writing");
        }
    }
    let [(_, reference), (_, archive)] = &sides;
    print_places("image", reference.image(), archive.image());
    print_places("lent", reference.out(), archive.out());
}

fn print_places(name: &str, reference: &[u8], archive: &[u8]) {
    let pairs = reference.iter().zip(archive).enumerate().filter(|(_, (one, other))| one != other);
    for (place, (one, other)) in pairs {
        println!("  {name} byte {place}: reference {one:02X}, archive {other:02X}");
    }
}
