//! The wire: packets and replies, read and written.
//! Answers to 01, "The packet", and to the numbers 1 to 11, 19 and 31 to 35. Every call here that takes a sign's MID asks
//! first whether a sign may have it.

use crate::no::No;

/// The longest packet, and the bytes of a packet that are not data.
pub const PACKET_MOST: usize = 21;
pub const FRAME: usize = 7;

/// The data of a full packet, the packets of a transmission, and so the longest body.
pub const DATA_MOST: usize = 14;
pub const TOTAL_MOST: usize = 6;
pub const BODY_MOST: usize = DATA_MOST * TOTAL_MOST;

/// The length of a reply.
pub const REPLY: usize = 8;

/// The IDs that are no message numbers, and the greatest that is one.
pub const ID_MOST: u8 = 0x3F;
pub const ID_QUERY: u8 = 0x40;
pub const ID_RESET: u8 = 0x41;

/// The MIDs that no sign may have, because its description advises against them.
pub const FORBIDDEN_MIDS: [u8; 4] = [0x00, 0x01, 0x7E, 0x7F];

const SECOND: u8 = 0x7F;
const ALONE: u8 = 0x10;

/// What an accepted packet is.
#[derive(Clone, Copy, Debug, PartialEq, Eq)]
pub enum Packet<'a> {
    Query,
    Reset,
    Normal(Normal<'a>),
}

/// The fields of a packet that carries a piece of a body.
#[derive(Clone, Copy, Debug, PartialEq, Eq)]
pub struct Normal<'a> {
    pub id: u8,
    pub total: u8,
    pub position: u8,
    pub data: &'a [u8],
}

/// What a reply tells.
#[derive(Clone, Copy, Debug, PartialEq, Eq)]
pub struct Reply {
    pub last: u8,
    pub busy: bool,
    pub sink: bool,
}

/// The sum that drops its carries.
pub fn sum(bytes: &[u8]) -> u8 {
    bytes.iter().fold(0, |sum, &byte| sum.wrapping_add(byte))
}

/// The byte that brings the sum of these bytes and itself to 0.
pub fn checksum(bytes: &[u8]) -> u8 {
    sum(bytes).wrapping_neg()
}

/// Whether this ID can be the last completed one: a message number or the reset.
fn can_be_last(id: u8) -> bool {
    id <= ID_MOST || id == ID_RESET
}

/// Refuses a forbidden MID; it is asked about the MID that the caller gives and never about a byte off the line.
pub fn check_mid(mid: u8) -> Result<(), No> {
    if FORBIDDEN_MIDS.contains(&mid) { Err(No::MidForbidden) } else { Ok(()) }
}

/// What these bytes are to the sign of this MID.
pub fn read_packet(mid: u8, bytes: &[u8]) -> Result<Packet<'_>, No> {
    check_mid(mid)?;
    check_frame(mid, bytes)?;
    let (id, fifth, data) = (bytes[3], bytes[4], &bytes[5..bytes.len() - 2]);
    match id {
        0..=ID_MOST => read_normal(id, fifth, data).map(Packet::Normal),
        ID_QUERY => read_special(fifth, data).map(|()| Packet::Query),
        ID_RESET => read_special(fifth, data).map(|()| Packet::Reset),
        _ => Err(No::IdOver),
    }
}

/// The checks that do not depend on what kind of packet it is, numbers 1 to 7.
fn check_frame(mid: u8, bytes: &[u8]) -> Result<(), No> {
    let length = bytes.len();
    if length < FRAME {
        Err(No::Under7)
    } else if length > PACKET_MOST {
        Err(No::Over21)
    } else if usize::from(bytes[2]) != length {
        Err(No::Count)
    } else if sum(bytes) != 0 {
        Err(No::Sum)
    } else if bytes[0] != mid {
        Err(No::Mid)
    } else if bytes[1] != SECOND {
        Err(No::Second)
    } else if bytes[length - 2] != 0 {
        Err(No::Zero)
    } else {
        Ok(())
    }
}

/// The checks of a packet with a message number.
fn read_normal(id: u8, fifth: u8, data: &[u8]) -> Result<Normal<'_>, No> {
    let (total, position) = (fifth >> 4, fifth & 0x0F);
    if data.is_empty() {
        Err(No::IdLength)
    } else if !(1..=TOTAL_MOST as u8).contains(&total) || position >= total {
        Err(No::Position)
    } else if data.len() < DATA_MOST && position + 1 != total {
        Err(No::NotFull)
    } else {
        Ok(Normal { id, total, position, data })
    }
}

/// The checks of a query or a reset.
fn read_special(fifth: u8, data: &[u8]) -> Result<(), No> {
    if !data.is_empty() {
        Err(No::IdLength)
    } else if fifth != ALONE {
        Err(No::Position)
    } else {
        Ok(())
    }
}

/// Lays a query at the front of `out` and tells its length.
pub fn write_query(mid: u8, out: &mut [u8]) -> Result<usize, No> {
    check_mid(mid)?;
    lay(mid, ID_QUERY, ALONE, &[], out)
}

/// Lays a reset at the front of `out` and tells its length.
pub fn write_reset(mid: u8, out: &mut [u8]) -> Result<usize, No> {
    check_mid(mid)?;
    lay(mid, ID_RESET, ALONE, &[], out)
}

/// Lays one packet of a body at the front of `out` and tells its length.
pub fn write_packet(mid: u8, id: u8, body: &[u8], position: u8, out: &mut [u8]) -> Result<usize, No> {
    check_mid(mid)?;
    let total = packet_total(body)?;
    check_write_id(id)?;
    if position >= total {
        return Err(No::WritePosition);
    }
    let start = DATA_MOST * usize::from(position);
    let end = body.len().min(start + DATA_MOST);
    lay(mid, id, total << 4 | position, &body[start..end], out)
}

/// Lays all packets of a body back to back at the front of `out` and tells their length together.
pub fn write_transmission(mid: u8, id: u8, body: &[u8], out: &mut [u8]) -> Result<usize, No> {
    check_mid(mid)?;
    let total = packet_total(body)?;
    check_write_id(id)?;
    let length = body.len() + FRAME * usize::from(total);
    let mut rest = out.get_mut(..length).ok_or(No::OutShort)?;
    for (position, data) in (0..total).zip(body.chunks(DATA_MOST)) {
        let written = lay(mid, id, total << 4 | position, data, rest)?;
        rest = &mut rest[written..];
    }
    Ok(length)
}

/// The packets that a body needs.
fn packet_total(body: &[u8]) -> Result<u8, No> {
    if body.is_empty() || body.len() > BODY_MOST {
        return Err(No::Body);
    }
    Ok(body.len().div_ceil(DATA_MOST) as u8)
}

/// Whether a message may bear this ID.
fn check_write_id(id: u8) -> Result<(), No> {
    if id > ID_MOST { Err(No::WriteId) } else { Ok(()) }
}

/// Lays a packet of these fields at the front of `out`, for data that fit a packet.
fn lay(mid: u8, id: u8, fifth: u8, data: &[u8], out: &mut [u8]) -> Result<usize, No> {
    let length = FRAME + data.len();
    let packet = out.get_mut(..length).ok_or(No::OutShort)?;
    packet[..5].copy_from_slice(&[mid, SECOND, length as u8, id, fifth]);
    packet[5..length - 2].copy_from_slice(data);
    packet[length - 2] = 0;
    packet[length - 1] = checksum(&packet[..length - 1]);
    Ok(length)
}

/// Lays a reply of the sign of this MID at the front of `out` and tells its length.
pub fn write_reply(mid: u8, reply: Reply, out: &mut [u8]) -> Result<usize, No> {
    check_mid(mid)?;
    if !can_be_last(reply.last) {
        return Err(No::WriteId);
    }
    let laid = out.first_chunk_mut::<REPLY>().ok_or(No::OutShort)?;
    let state = if reply.busy { b'B' } else { b'R' };
    let aux = if reply.sink { b'S' } else { b'F' };
    *laid = [mid ^ 1, SECOND, REPLY as u8, reply.last, state, aux, 0, 0];
    laid[REPLY - 1] = checksum(laid);
    Ok(REPLY)
}

/// What a reply of the sign of this MID tells.
pub fn read_reply(mid: u8, bytes: &[u8]) -> Result<Reply, No> {
    check_mid(mid)?;
    let &[from, SECOND, 8, last, state @ (b'R' | b'B'), aux @ (b'S' | b'F'), 0, _] = bytes else {
        return Err(No::Reply);
    };
    if from != mid ^ 1 || !can_be_last(last) || sum(bytes) != 0 {
        return Err(No::Reply);
    }
    Ok(Reply { last, busy: state == b'B', sink: aux == b'S' })
}
