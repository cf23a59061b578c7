//! Rides: one sign through many calls, with packets in and out of order, again, of other messages and for other signs.
//! Answers to 01, "Joining" and "One step, and what it costs".

use crate::bodies;
use crate::case::{After, Case, Function};
use crate::completed::{any_known, few_ids};
use crate::mids;
use crate::packets;
use crate::past::Followed;
use crate::racer::Racer;
use crate::random::Random;
use crate::records::packet_for;
use crate::sizes::{SIZE_BEFORE, WITH_IMAGE, laid_out_before};
use reference::image::{AT_LENGTH, IMAGE_SIZE};
use reference::packet::FORBIDDEN_MIDS;

/// A sign under way, and the packets around it.
struct Ride {
    sign: Followed,
    mid: u8,
    /// The IDs that most of its messages bear, so few that they come again soon, and that of the message that is being sent.
    ids: Vec<u8>,
    id: u8,
    /// Whether its messages are brief and resets rare, so that many messages are completed between two resets.
    brief: bool,
    /// The packets still to come of the message that is being sent.
    coming: Vec<Vec<u8>>,
    /// Packets that were sent before, or belong to a message that competes.
    around: Vec<Vec<u8>>,
}

/// Lets a sign ride from power-on, and keeps some of the images that it comes through.
pub fn ride(racer: &mut Racer, reached: &mut Vec<Vec<u8>>) -> Option<()> {
    let sign = Followed::power_on(racer)?;
    let random = &mut racer.random;
    let (mid, ids, id, brief) = (mids::allowed(random), few_ids(random), random.byte() & 0x3F, random.chance(50));
    let mut ride = Ride { sign, mid, ids, id, brief, coming: Vec::new(), around: Vec::new() };
    for _ in 0..racer.random.within(50, 400) {
        ride.go(racer)?;
        if racer.random.chance(4) {
            reached.push(ride.sign.image.clone());
        }
    }
    Some(())
}

impl Ride {
    /// One thing that happens to the sign.
    fn go(&mut self, racer: &mut Racer) -> Option<()> {
        let busy = self.sign.image[AT_LENGTH] != 0;
        match racer.random.below(100) {
            0..45 if busy => self.steps(racer),
            0..45 => self.next_packet(racer),
            45..53 => self.packet_again(racer),
            53..64 => self.odd_packet(racer),
            64..70 => self.old_packet(racer),
            70..77 => self.steps(racer),
            77..82 => self.copy_and_repeat(racer),
            82..88 => self.reply(racer),
            88..91 => self.special(racer, 0x40),
            91..98 if self.brief && racer.random.chance(90) => self.next_packet(racer),
            91 => self.special(racer, 0x41),
            92..94 => self.on_image(racer, Case::new(Function::Reset, &[])),
            94..97 => self.refused(racer),
            97 => self.on_image(racer, Case::new(Function::PowerOn, &[])),
            _ => {
                self.send(racer);
                Some(())
            }
        }
    }

    /// Has the sign answer, and goes on with the image that it left. A few calls come with a forbidden MID first, which leaves it.
    fn call(&mut self, racer: &mut Racer, case: Case) -> Option<After> {
        if case.mid().is_some() && racer.random.chance(3) {
            let mid = racer.random.pick(&FORBIDDEN_MIDS);
            self.sign.ask(racer, case.readdressed(mid))?;
        }
        self.sign.call(racer, case)
    }

    fn on_image(&mut self, racer: &mut Racer, case: Case) -> Option<()> {
        self.call(racer, case).map(drop)
    }

    fn receive(&mut self, racer: &mut Racer, bytes: Vec<u8>) -> Option<()> {
        let answer = racer.answer(Function::Receive);
        self.on_image(racer, Case::new(Function::Receive, &[self.mid.into()]).bytes(bytes).out(answer))
    }

    /// Begins to send a new message, in order or not, perhaps with another one around it.
    fn send(&mut self, racer: &mut Racer) {
        let random = &mut racer.random;
        self.id = match random.below(10) {
            0..5 => random.pick(&self.ids),
            5..9 => (self.id + 1) & 0x3F,
            _ => random.byte() & 0x3F,
        };
        let mut body = self.body(random);
        self.coming = packets::transmission(self.mid, self.id, &body);
        if random.chance(40) {
            for from in (1..self.coming.len()).rev() {
                self.coming.swap(from, random.below(from + 1));
            }
        }
        self.coming.reverse();
        if random.chance(30) {
            bodies::mutate(random, &mut body);
            body.truncate(84);
            let other = if random.chance(50) { self.id } else { random.byte() & 0x3F };
            self.around.extend(packets::transmission(self.mid, other, &body));
        }
        let excess = self.around.len().saturating_sub(24);
        self.around.drain(..excess);
    }

    /// A body to send, in a brief ride most often of one packet or two and soon over.
    fn body(&self, random: &mut Random) -> Vec<u8> {
        const BRIEF: [&[u8]; 6] = [b"^S", b"^P9^XS", b"^L2^SHI^E", b"^IIHI^W5^XD99^XB9", b"no", b"no body for a sign"];
        if self.brief && random.chance(80) {
            return random.pick(&BRIEF).to_vec();
        }
        let mut body = if random.chance(80) { bodies::program(random) } else { bodies::body(random) };
        body.truncate(84);
        body
    }

    fn next_packet(&mut self, racer: &mut Racer) -> Option<()> {
        if self.coming.is_empty() {
            self.send(racer);
        }
        let Some(bytes) = self.coming.pop() else {
            return Some(());
        };
        self.around.push(bytes.clone());
        self.receive(racer, bytes)
    }

    /// A packet that came before or competes.
    fn packet_again(&mut self, racer: &mut Racer) -> Option<()> {
        if self.around.is_empty() {
            return self.next_packet(racer);
        }
        let recent = self.around.len() - 1;
        let any = racer.random.below(self.around.len());
        let bytes = self.around[racer.random.pick(&[recent, any])].clone();
        self.receive(racer, bytes)
    }

    /// A packet that is damaged, for another sign, or close to what is held.
    fn odd_packet(&mut self, racer: &mut Racer) -> Option<()> {
        let random = &mut racer.random;
        let other = self.mid ^ 1 << random.below(8);
        let other = if random.chance(10) { random.pick(&FORBIDDEN_MIDS) } else { other };
        let bytes = match random.below(4) {
            0 => packets::packet(random, self.mid),
            1 => packets::whole(random, other),
            _ => packet_for(random, &self.sign.image, self.mid),
        };
        self.receive(racer, bytes)
    }

    /// A packet of an ID that is completed, or that was completed once and is new again.
    fn old_packet(&mut self, racer: &mut Racer) -> Option<()> {
        let random = &mut racer.random;
        let forgotten = self.sign.past.forgotten();
        let known = any_known(random, &self.sign.image);
        let id = if forgotten.is_empty() || random.chance(60) { known } else { random.pick(&forgotten) };
        let body = self.body(random);
        let packets = packets::transmission(self.mid, id, if body.is_empty() { b"^S" } else { &body });
        let bytes = packets[random.below(packets.len())].clone();
        self.receive(racer, bytes)
    }

    /// A query or a reset.
    fn special(&mut self, racer: &mut Racer, id: u8) -> Option<()> {
        self.receive(racer, packets::frame(self.mid, id, 0x10, &[]))
    }

    /// Some steps, mostly few, sometimes to the end of what runs.
    fn steps(&mut self, racer: &mut Racer) -> Option<()> {
        for _ in 0..racer.random.pick(&[1, 1, 2, 5, 12]) {
            let answer = racer.answer(Function::Step);
            self.on_image(racer, Case::new(Function::Step, &[]).out(answer))?;
        }
        Some(())
    }

    /// What a driver does: copy the body, step, and show the step's text.
    fn copy_and_repeat(&mut self, racer: &mut Racer) -> Option<()> {
        let out = racer.buffer(self.sign.image[AT_LENGTH].into());
        let copy = self.call(racer, Case::new(Function::CopyBody, &[]).out(out))?;
        let step = self.call(racer, Case::new(Function::Step, &[]).out(vec![0; 28]))?;
        if copy.result & 0xFF != 0 {
            return Some(());
        }
        let body = copy.out()[..(copy.result >> 8) as usize].to_vec();
        let numbers = [step.word(2) as usize, step.word(3) as usize];
        racer.call(Case::new(Function::Repeat, &numbers).bytes(body)).map(drop)
    }

    fn reply(&mut self, racer: &mut Racer) -> Option<()> {
        let aux = racer.random.pick(&[0, 1, 2, 255]);
        let out = racer.buffer(8);
        self.on_image(racer, Case::new(Function::Reply, &[self.mid.into(), aux]).out(out))
    }

    /// A call on an image of the wrong size.
    fn refused(&mut self, racer: &mut Racer) -> Option<()> {
        let size = racer.random.pick(&[0, 1, IMAGE_SIZE - 1, IMAGE_SIZE + 1, IMAGE_SIZE + 14]);
        let any = racer.random.below(IMAGE_SIZE + 20);
        let mut image = self.sign.image.clone();
        match racer.random.below(3) {
            0 => image = laid_out_before(&image),
            _ => image.resize(racer.random.pick(&[size, any, SIZE_BEFORE]), 0),
        }
        for function in WITH_IMAGE {
            let mid = mids::any(&mut racer.random);
            let bytes = packets::whole(&mut racer.random, mid);
            let out = racer.answer(function);
            racer.call(Case::new(function, &[mid.into()]).image(&image).bytes(bytes).out(out))?;
        }
        Some(())
    }
}
