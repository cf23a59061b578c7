//! Readers and writers of the wire, at the edges of each number.
//! Answers to 01, "The packet".

use reference::no::No;
use reference::packet::*;

/// A packet of these fields with its count and checksum right, whatever else is wrong with it.
fn packet(id: u8, fifth: u8, data: &[u8], zero: u8) -> Vec<u8> {
    let mut bytes = vec![0x80, 0x7F, data.len() as u8 + 7, id, fifth];
    bytes.extend_from_slice(data);
    bytes.push(zero);
    bytes.push(checksum(&bytes));
    bytes
}

fn mend(bytes: &mut [u8]) {
    let (last, front) = bytes.split_last_mut().unwrap();
    *last = checksum(front);
}

#[test]
fn the_lowest_number_wins() {
    assert_eq!(read_packet(0x80, &[]), Err(No::Under7));
    assert_eq!(read_packet(0x80, &[9; 6]), Err(No::Under7));
    assert_eq!(read_packet(0x80, &[9; 22]), Err(No::Over21));
    assert_eq!(read_packet(0x80, &[9; 21]), Err(No::Count));
    let good = packet(0x12, 0x10, b"^R", 0);
    let mut bytes = good.clone();
    bytes[3] ^= 1;
    assert_eq!(read_packet(0x81, &bytes), Err(No::Sum));
    assert_eq!(read_packet(0x81, &good), Err(No::Mid));
    bytes = packet(0x42, 0x10, b"", 1);
    bytes[1] = 0x7E;
    mend(&mut bytes);
    assert_eq!(read_packet(0x80, &bytes), Err(No::Second));
    assert_eq!(read_packet(0x80, &packet(0x42, 0x00, b"", 1)), Err(No::Zero));
    assert_eq!(read_packet(0x80, &packet(0x42, 0x00, b"", 0)), Err(No::IdOver));
    assert_eq!(read_packet(0x80, &packet(0x3F, 0x00, b"", 0)), Err(No::IdLength));
    assert_eq!(read_packet(0x80, &packet(0x40, 0x00, b"a", 0)), Err(No::IdLength));
    assert_eq!(read_packet(0x80, &packet(0x41, 0x10, b"a", 0)), Err(No::IdLength));
}

#[test]
fn totals_and_positions() {
    for fifth in 0..=255 {
        let (total, position) = (fifth >> 4, fifth & 15);
        let right = (1..=6).contains(&total) && position < total;
        let read = read_packet(0x80, &packet(0, fifth, b"fourteen bytes", 0)).is_ok();
        assert_eq!(read, right, "{fifth:02X}");
        let short = read_packet(0x80, &packet(0, fifth, b"thirteen byte", 0)).err();
        let last = right && position + 1 == total;
        let expected = if last { None } else { Some(if right { No::NotFull } else { No::Position }) };
        assert_eq!(short, expected, "{fifth:02X}");
        let query = read_packet(0x80, &packet(0x40, fifth, b"", 0)).is_ok();
        assert_eq!(query, fifth == 0x10);
    }
}

#[test]
fn what_is_written_reads_back() {
    let body: Vec<u8> = (0..84).collect();
    for length in 1..=84 {
        let mut out = [0xEE; 130];
        let written = write_transmission(0x33, 0x3F, &body[..length], &mut out).unwrap();
        assert!(out[written..].iter().all(|&byte| byte == 0xEE));
        let mut joined = Vec::new();
        for (position, bytes) in out[..written].chunks(21).enumerate() {
            let Ok(Packet::Normal(normal)) = read_packet(0x33, bytes) else { panic!() };
            assert_eq!((normal.id, normal.position as usize), (0x3F, position));
            assert_eq!(normal.total as usize, length.div_ceil(14));
            joined.extend_from_slice(normal.data);
            let mut single = [0xEE; 21];
            let one = write_packet(0x33, 0x3F, &body[..length], position as u8, &mut single);
            assert_eq!((one, &single[..bytes.len()]), (Ok(bytes.len()), bytes));
            assert!(single[bytes.len()..].iter().all(|&byte| byte == 0xEE));
        }
        assert_eq!(joined, &body[..length]);
    }
}

#[test]
fn writers_say_no_in_order() {
    let mut out = [0xEE; 126];
    assert_eq!(write_packet(0x80, 0x40, &[], 6, &mut out[..0]), Err(No::Body));
    assert_eq!(write_packet(0x80, 0x40, b"a", 6, &mut out[..0]), Err(No::WriteId));
    assert_eq!(write_packet(0x80, 0x3F, b"a", 1, &mut out[..0]), Err(No::WritePosition));
    assert_eq!(write_packet(0x80, 0x3F, b"a", 0, &mut out[..7]), Err(No::OutShort));
    assert_eq!(write_transmission(0x80, 0x40, &[0; 85], &mut out[..0]), Err(No::Body));
    assert_eq!(write_transmission(0x80, 0x40, &[0; 84], &mut out[..0]), Err(No::WriteId));
    assert_eq!(write_transmission(0x80, 0, &[0; 84], &mut out[..125]), Err(No::OutShort));
    assert_eq!(write_query(0x80, &mut out[..6]), Err(No::OutShort));
    assert_eq!(write_reset(0x80, &mut out[..6]), Err(No::OutShort));
    let reply = |last| Reply { last, busy: true, sink: true };
    assert_eq!(write_reply(0x80, reply(0x40), &mut out[..0]), Err(No::WriteId));
    assert_eq!(write_reply(0x80, reply(0x42), &mut out), Err(No::WriteId));
    assert_eq!(write_reply(0x80, reply(0x41), &mut out[..7]), Err(No::OutShort));
    assert_eq!(out, [0xEE; 126]);
    assert_eq!(write_transmission(0x80, 0, &[0; 84], &mut out), Ok(126));
}

#[test]
fn replies_read_back_and_nothing_else_does() {
    for last in (0..=0x3F).chain([0x41]) {
        for (busy, sink) in [(false, false), (false, true), (true, false), (true, true)] {
            let reply = Reply { last, busy, sink };
            let mut out = [0; 8];
            assert_eq!(write_reply(0x81, reply, &mut out), Ok(8));
            assert_eq!(out[0], 0x80);
            assert_eq!(read_reply(0x81, &out), Ok(reply));
            assert_eq!(read_reply(0x80, &out), Err(No::Reply));
            for index in 0..8 {
                let mut damaged = out;
                damaged[index] ^= 0x20;
                assert_eq!(read_reply(0x81, &damaged), Err(No::Reply));
                assert_eq!(read_reply(0x81, &out[..index]), Err(No::Reply));
            }
        }
    }
    let mut out = [0x81, 0x7F, 8, 0x40, b'R', b'F', 0, 0];
    mend(&mut out);
    assert_eq!(read_reply(0x80, &out), Err(No::Reply));
    assert_eq!(read_reply(0x80, &[0; 9]), Err(No::Reply));
}
