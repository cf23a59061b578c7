//! Races the archive behind the C interface against the reference: `race [seed [calls [trace]]]`.
//! Answers to 01 as a whole; with `trace`, each case is printed before its call, in case the archive dies of it.

mod archive;
mod bodies;
mod by_mid;
mod case;
mod completed;
mod damage;
mod ground;
mod measured;
mod mids;
mod names;
mod numbers;
mod packets;
mod past;
mod racer;
mod random;
mod records;
mod remembered;
mod ride;
mod shrink;
mod sizes;
mod tally;
mod texts;
mod widths;
mod wire;

use damage::Damage;
use racer::Racer;
use std::process::ExitCode;

const SEED: u64 = 20_261_115;
const CALLS: u64 = 1_000_000;

/// The images kept for the sweep at any time.
const REACHED: usize = 200;

fn main() -> ExitCode {
    let mut arguments = std::env::args().skip(1);
    let seed = arguments.next().map_or(Some(SEED), |word| word.parse().ok());
    let calls = arguments.next().map_or(Some(CALLS), |word| word.parse().ok());
    let (Some(seed), Some(calls)) = (seed, calls) else {
        eprintln!("race [seed [calls [trace]]]");
        return ExitCode::from(2);
    };
    archive::assert_header();
    println!("race: seed {seed}, {calls} calls to come");
    let mut racer = Racer::new(seed, calls, arguments.next().is_some_and(|word| word == "trace"));
    let mut damage = Damage::default();
    let mut reached = Vec::new();
    if once(&mut racer).is_some() {
        while round(&mut racer, &mut damage, &mut reached).is_some() {}
    }
    finish(&racer, &damage, seed)
}

/// What is gone through from end to end, once in each race.
fn once(racer: &mut Racer) -> Option<()> {
    sizes::buffers(racer)?;
    sizes::images(racer)?;
    mids::mids(racer)?;
    completed::completed(racer)?;
    numbers::numbers(racer)?;
    texts::texts(racer)?;
    widths::widths(racer)
}

/// A round of each sort of call; none when the calls are used up.
fn round(racer: &mut Racer, damage: &mut Damage, reached: &mut Vec<Vec<u8>>) -> Option<()> {
    wire::read(racer)?;
    wire::write(racer)?;
    wire::judge(racer)?;
    wire::forecast(racer)?;
    wire::repeat(racer)?;
    wire::version(racer)?;
    ride::ride(racer, reached)?;
    damage.sweep(racer, reached)?;
    damage::made_up(racer)?;
    let excess = reached.len().saturating_sub(REACHED);
    reached.drain(..excess);
    Some(())
}

/// Prints the counts and says whether all that can occur did.
fn finish(racer: &Racer, damage: &Damage, seed: u64) -> ExitCode {
    racer.tally.print();
    damage.print();
    let mut faults = racer.tally.faults();
    faults.extend(damage.faults());
    for fault in &faults {
        println!("race: {fault}");
    }
    if !faults.is_empty() {
        return ExitCode::FAILURE;
    }
    println!("race: {} calls, no difference, seed {seed}", racer.calls);
    ExitCode::SUCCESS
}
