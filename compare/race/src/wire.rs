//! Rounds of calls without a record: the readers and writers of the wire, judge, forecast, the repeater and the version.
//! Answers to 01, "The packet", "The program" and the forecast.

use crate::bodies;
use crate::case::{Case, Function};
use crate::mids;
use crate::packets;
use crate::racer::Racer;
use crate::random::Random;
use reference::packet::{FRAME, REPLY};

/// Packets and replies, read.
pub fn read(racer: &mut Racer) -> Option<()> {
    for _ in 0..100 {
        let mid = mids::any(&mut racer.random);
        let bytes = packets::packet(&mut racer.random, mid);
        let numbers = [reader(&mut racer.random, mid)];
        let answer = racer.answer(Function::ReadPacket);
        racer.call(Case::new(Function::ReadPacket, &numbers).bytes(bytes).out(answer))?;
    }
    for _ in 0..40 {
        let mid = mids::any(&mut racer.random);
        let bytes = packets::reply(&mut racer.random, mid);
        let numbers = [reader(&mut racer.random, mid)];
        let answer = racer.answer(Function::ReadReply);
        racer.call(Case::new(Function::ReadReply, &numbers).bytes(bytes).out(answer))?;
    }
    Some(())
}

/// The MID by which bytes of this MID are read: mostly the same, sometimes one that is not theirs.
fn reader(random: &mut Random, mid: u8) -> usize {
    let other = mid ^ 1 << random.below(8);
    if random.chance(95) { mid.into() } else { other.into() }
}

/// Queries, resets, replies, packets and transmissions, written.
pub fn write(racer: &mut Racer) -> Option<()> {
    for _ in 0..20 {
        let mid = mids::any(&mut racer.random).into();
        for function in [Function::WriteQuery, Function::WriteReset] {
            let out = racer.buffer(FRAME);
            racer.call(Case::new(function, &[mid]).out(out))?;
        }
        let last = packets::any_id(&mut racer.random).into();
        let busy = racer.random.pick(&[0, 1, 2, 255]);
        let sink = racer.random.pick(&[0, 1, 2, 255]);
        let out = racer.buffer(REPLY);
        racer.call(Case::new(Function::WriteReply, &[mid, last, busy, sink]).out(out))?;
        write_body(racer, mid)?;
    }
    Some(())
}

fn write_body(racer: &mut Racer, mid: usize) -> Option<()> {
    let any = racer.random.below(91);
    let length = racer.random.pick(&[any, any, 0, 1, 14, 15, 28, 29, 83, 84, 85]);
    let body = racer.random.bytes(length);
    let id = packets::any_id(&mut racer.random);
    let id = if racer.random.chance(80) { id & 0x3F } else { id };
    let total = length.div_ceil(14);
    let out = racer.buffer(length + FRAME * total);
    racer.call(Case::new(Function::WriteTransmission, &[mid, id.into()]).bytes(body.clone()).out(out))?;
    let any: usize = racer.random.byte().into();
    let inside = racer.random.below(total.max(1));
    for position in [inside, racer.random.pick(&[0, total.saturating_sub(1), total, total + 1, 15, any])] {
        let start = length.min(14 * position);
        let out = racer.buffer(FRAME + 14.min(length - start));
        let numbers = [mid, id.into(), position.min(255)];
        racer.call(Case::new(Function::WritePacket, &numbers).bytes(body.clone()).out(out))?;
    }
    Some(())
}

/// Bodies, judged.
pub fn judge(racer: &mut Racer) -> Option<()> {
    for _ in 0..150 {
        let body = bodies::body(&mut racer.random);
        racer.call(Case::new(Function::Judge, &[]).bytes(body))?;
    }
    Some(())
}

/// Bodies, forecast at each pace and scan setting in turn.
pub fn forecast(racer: &mut Racer) -> Option<()> {
    for pace in (0..=22).chain([255]) {
        for scans in [0, 1, 2, 3, 4, 5, 6, 7, 8, 1, 6] {
            let body = if racer.random.chance(60) {
                bodies::program(&mut racer.random)
            } else {
                bodies::body(&mut racer.random)
            };
            let answer = racer.answer(Function::Forecast);
            racer.call(Case::new(Function::Forecast, &[pace, scans]).bytes(body).out(answer))?;
        }
    }
    Some(())
}

/// Stretches of bodies, inside, over the end and far out.
pub fn repeat(racer: &mut Racer) -> Option<()> {
    for _ in 0..40 {
        let size = racer.random.pick(&[0, 1, 5, 84, 85, 200]);
        let body = racer.random.bytes(size);
        let inside = racer.random.below(size + 2);
        let rest = racer.random.below(size.saturating_sub(inside) + 2);
        let far = racer.random.pick(&[FAR, FAR - 1, FAR - size, FAR / 2]);
        let place = racer.random.pick(&[0, 1, size, size + 1, inside, inside, inside, far]);
        let left = size.wrapping_sub(place);
        let far = racer.random.pick(&[FAR, FAR / 2 + 1, place.wrapping_neg(), left.wrapping_add(1)]);
        let length = racer.random.pick(&[0, 1, left, rest, rest, far]);
        racer.call(Case::new(Function::Repeat, &[place, length]).bytes(body))?;
    }
    Some(())
}

const FAR: usize = usize::MAX;

/// The version, which nothing can change.
pub fn version(racer: &mut Racer) -> Option<()> {
    racer.call(Case::new(Function::Version, &[])).map(drop)
}
