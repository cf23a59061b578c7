//! Buffers and images of every size, once in each race.
//! Answers to the numbers 34, 251 and 252, and to 16 between the last two.

use crate::bodies;
use crate::case::{Case, Function};
use crate::packets;
use crate::racer::Racer;
use crate::records::{packet_for, record, sound, unsound};
use crate::remembered::known;
use reference::image::{AT_ID, IMAGE_SIZE};
use reference::packet::ID_RESET;

/// How far the sizes go beyond what any call needs.
const MORE: usize = 24;

/// The size of an image before C-23.
pub const SIZE_BEFORE: usize = 102;

/// A record as it was laid out before: its last completed ID alone, then all but the completed IDs.
pub fn laid_out_before(image: &[u8]) -> Vec<u8> {
    let last = known(image).first().copied().unwrap_or(ID_RESET);
    [&[last], &image[AT_ID..]].concat()
}

/// Each call that is lent a buffer, with every size up to more than it needs; those with an image on a sound and an unsound one.
pub fn buffers(racer: &mut Racer) -> Option<()> {
    for size in 0..=126 + MORE {
        let out = racer.random.bytes(size);
        let body = bodies::program(&mut racer.random);
        let long = racer.random.bytes(84);
        let sign = sound(&mut racer.random);
        let wrong = unsound(&mut racer.random);
        let packet = packet_for(&mut racer.random, &sign, 0x80);
        let reply = packets::frame(0x81, 0x41, b'R', b"F");
        let cases = [
            Case::new(Function::WriteQuery, &[0x80]),
            Case::new(Function::WriteReset, &[0x80]),
            Case::new(Function::WriteReply, &[0x80, 0x41, 1, 1]),
            Case::new(Function::WritePacket, &[0x80, 5, 2]).bytes(long.clone()),
            Case::new(Function::WritePacket, &[0x80, 5, 0]).bytes(body.clone()),
            Case::new(Function::WriteTransmission, &[0x80, 5]).bytes(long),
            Case::new(Function::WriteTransmission, &[0x80, 5]).bytes(body.clone()),
            Case::new(Function::ReadPacket, &[0x80]).bytes(packet.clone()),
            Case::new(Function::ReadReply, &[0x80]).bytes(reply),
            Case::new(Function::Forecast, &[4, 1]).bytes(body),
            Case::new(Function::Receive, &[0x80]).bytes(packet.clone()).image(&sign),
            Case::new(Function::Receive, &[0x80]).bytes(packet).image(&wrong),
            Case::new(Function::Step, &[]).image(&sign),
            Case::new(Function::Step, &[]).image(&wrong),
            Case::new(Function::Reply, &[0x80, 1]).image(&sign),
            Case::new(Function::Reply, &[0x80, 1]).image(&wrong),
            Case::new(Function::CopyBody, &[]).image(&sign),
            Case::new(Function::CopyBody, &[]).image(&wrong),
        ];
        for case in cases {
            racer.call(case.out(out.clone()))?;
        }
    }
    Some(())
}

/// Each call that is lent an image, with every size up to more than it needs, and an answer that is enough or is not.
/// The last of the images are laid out as before.
pub fn images(racer: &mut Racer) -> Option<()> {
    let mut images = Vec::new();
    for size in 0..=IMAGE_SIZE + MORE {
        let mut image = record(&mut racer.random);
        image.resize(size, 0);
        images.push(image);
    }
    images.extend((0..MORE).map(|_| laid_out_before(&sound(&mut racer.random))));
    for image in images {
        let packet = packets::whole(&mut racer.random, 0x80);
        for answer in [0, 100] {
            for function in WITH_IMAGE {
                let out = racer.random.bytes(answer);
                racer.call(Case::new(function, &[0x80]).image(&image).bytes(packet.clone()).out(out))?;
            }
        }
    }
    Some(())
}

/// The calls that take an image.
pub const WITH_IMAGE: [Function; 6] =
    [Function::PowerOn, Function::Reset, Function::Receive, Function::Step, Function::Reply, Function::CopyBody];
