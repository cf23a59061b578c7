//! Refusals of a forecast, what it leaves, and stretches at an edge of the body.
//! Answers to 01 on the forecast and the repeater.

use super::{Ground, did, ground, is_no};
use crate::case::{After, Case, Function};
use Function::{Forecast, Repeat};
use reference::program::{Kind, Loop, Reader, judge};

const FORECASTS: &[Function] = &[Forecast];
const REPEATS: &[Function] = &[Repeat];

/// A forecast's refusals, what it leaves, and the edges of what the repeater is told.
#[rustfmt::skip]
pub const GROUNDS: [Ground; 25] = [
    ground("answer of four or five words, all else right (252)", FORECASTS,
        |case, after| is_no(after, 252) && case.out.len() >= 16 && in_range(case) && is_program(case)),
    ground("short answer, settings out of range (252)", FORECASTS, |case, after| is_no(after, 252) && !in_range(case)),
    ground("short answer, no program (252)", FORECASTS, |case, after| is_no(after, 252) && !is_program(case)),
    ground("settings out of range, no program (17)", FORECASTS, |case, after| is_no(after, 17) && !is_program(case)),

    ground("pace and scan setting left as given", FORECASTS,
        |case, after| did(after, 0) && keeps(case, after) == [true, true]),
    ground("another pace left, the given scan setting", FORECASTS,
        |case, after| did(after, 0) && keeps(case, after) == [false, true]),
    ground("another scan setting left, the given pace", FORECASTS,
        |case, after| did(after, 0) && keeps(case, after) == [true, false]),
    ground("another pace and scan setting left", FORECASTS,
        |case, after| did(after, 0) && keeps(case, after) == [false, false]),
    ground("pace last set in a loop of one pass", FORECASTS,
        |case, after| did(after, 0) && last_in_loop(case, Kind::P, |passes| passes == 1)),
    ground("pace last set in a loop of several passes", FORECASTS,
        |case, after| did(after, 0) && last_in_loop(case, Kind::P, |passes| passes > 1)),
    ground("pace set before a loop, another in it", FORECASTS,
        |case, after| did(after, 0) && changes(case, Kind::P, |one, other| one.is_none() && other.is_some())),
    ground("pace set in a loop, another after it", FORECASTS,
        |case, after| did(after, 0) && changes(case, Kind::P, |one, other| one.is_some() && other.is_none())),
    ground("pace set in a loop, another in the same loop", FORECASTS,
        |case, after| did(after, 0) && changes(case, Kind::P, |one, other| one.is_some() && one == other)),
    ground("pace set in an endless program", FORECASTS, |case, after| did(after, 1) && !sets(case, Kind::P).is_empty()),
    ground("scan setting last set in a loop of one pass", FORECASTS,
        |case, after| did(after, 0) && last_in_loop(case, Kind::Equals, |passes| passes == 1)),
    ground("scan setting last set in a loop of several passes", FORECASTS,
        |case, after| did(after, 0) && last_in_loop(case, Kind::Equals, |passes| passes > 1)),
    ground("scan setting set before a loop, another in it", FORECASTS,
        |case, after| did(after, 0) && changes(case, Kind::Equals, |one, other| one.is_none() && other.is_some())),
    ground("scan setting set in a loop, another after it", FORECASTS,
        |case, after| did(after, 0) && changes(case, Kind::Equals, |one, other| one.is_some() && other.is_none())),
    ground("scan setting set in a loop, another in the same loop", FORECASTS,
        |case, after| did(after, 0) && changes(case, Kind::Equals, |one, other| one.is_some() && one == other)),
    ground("scan setting set in an endless program", FORECASTS,
        |case, after| did(after, 1) && !sets(case, Kind::Equals).is_empty()),

    ground("place 0, the stretch within the body", REPEATS,
        |case, _| place(case) == 0 && length(case) <= case.bytes.len()),
    ground("stretch up to the body's last byte", REPEATS,
        |case, _| place(case) > 0 && length(case) > 0 && end(case) == Some(case.bytes.len())),
    ground("empty stretch right after the body", REPEATS,
        |case, _| place(case) > 0 && length(case) == 0 && end(case) == Some(case.bytes.len())),
    ground("stretch one byte over the body's end", REPEATS,
        |case, _| place(case) > 0 && length(case) > 0 && end(case) == Some(case.bytes.len() + 1)),
    ground("place and length with too large a sum", REPEATS, |case, _| end(case).is_none()),
];

/// Whether a forecast is asked from settings that there are.
fn in_range(case: &Case) -> bool {
    let [pace, scans, ..] = case.numbers;
    (1..=20).contains(&pace) && (1..=6).contains(&scans)
}

fn is_program(case: &Case) -> bool {
    judge(&case.bytes).is_ok()
}

/// Whether the pace and the scan setting that a forecast tells are the given ones.
fn keeps(case: &Case, after: &After) -> [bool; 2] {
    let [pace, scans, ..] = case.numbers;
    [after.word(4) as usize == pace, after.word(5) as usize == scans]
}

/// The numbers of the commands of this kind in a program, each with the loop around it.
fn sets(case: &Case, kind: Kind) -> Vec<(u8, Option<Loop>)> {
    let mut sets = Vec::new();
    let Ok(mut reader) = Reader::begin(&case.bytes) else {
        return sets;
    };
    let mut around = reader.open();
    while let Ok(Some(command)) = reader.next_command() {
        if command.kind == kind {
            sets.push((command.number, around));
        }
        around = reader.open();
    }
    sets
}

/// Whether the last command of this kind stands in a loop of so many passes.
fn last_in_loop(case: &Case, kind: Kind, passes: fn(u8) -> bool) -> bool {
    let last = sets(case, kind).pop();
    last.and_then(|(_, around)| around).is_some_and(|around| passes(around.number))
}

/// Whether a command of this kind and the next one set something else, and stand in such loops or none.
fn changes(case: &Case, kind: Kind, loops: fn(Option<Loop>, Option<Loop>) -> bool) -> bool {
    sets(case, kind).windows(2).any(|pair| pair[0].0 != pair[1].0 && loops(pair[0].1, pair[1].1))
}

fn place(case: &Case) -> usize {
    case.numbers[0]
}

fn length(case: &Case) -> usize {
    case.numbers[1]
}

/// The place after a stretch, if there is one.
fn end(case: &Case) -> Option<usize> {
    place(case).checked_add(length(case))
}
