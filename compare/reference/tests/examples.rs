//! The examples on the bench, each as 01 gives it, and those that change requests added to the rules.
//! Answers to 01, "Examples on the bench", and to the tables of examples in docs/RULES.md.

use reference::completed::Completed;
use reference::machine::{Forecast, Totals, forecast};
use reference::no::{No, Refusal};
use reference::packet::{
    Normal, Packet, Reply, read_packet, read_reply, write_packet, write_query, write_reply, write_reset,
    write_transmission,
};
use reference::program::judge;
use reference::sign::{Received, Sign};

const HI: [u8; 12] = [0x80, 0x7F, 0x0C, 0x05, 0x10, 0x5E, 0x49, 0x49, 0x48, 0x49, 0x00, 0x5F];

fn totals(body: &[u8]) -> (u32, u32, u32) {
    match forecast(body, 4, 1) {
        Ok(Forecast::Ends { totals: Totals { steps, scans, milliseconds }, .. }) => (steps, scans, milliseconds),
        other => panic!("{other:?}"),
    }
}

fn refusal(body: &[u8]) -> (u8, u8) {
    let Refusal { no, place } = judge(body).unwrap_err();
    (no as u8, place)
}

#[test]
fn a_packet_carries_its_body() {
    let normal = Normal { id: 5, total: 1, position: 0, data: b"^IIHI" };
    assert_eq!(read_packet(0x80, &HI), Ok(Packet::Normal(normal)));
    let mut out = [0; 12];
    assert_eq!(write_packet(0x80, 5, b"^IIHI", 0, &mut out), Ok(12));
    assert_eq!(out, HI);
}

#[test]
fn a_wrong_sum_is_4() {
    let mut damaged = HI;
    damaged[11] = 0x60;
    assert_eq!(read_packet(0x80, &damaged), Err(No::Sum));
}

#[test]
fn a_forbidden_mid_is_19_and_another_signs_packet_5() {
    let query = [0x7F, 0x7F, 0x07, 0x40, 0x10, 0x00, 0xAB];
    assert_eq!(read_packet(0x7F, &query), Err(No::MidForbidden));
    assert_eq!(read_packet(0x80, &query), Err(No::Mid));
}

#[test]
fn query_reset_and_reply() {
    let mut out = [0; 7];
    assert_eq!(write_query(0x80, &mut out), Ok(7));
    assert_eq!(out, [0x80, 0x7F, 0x07, 0x40, 0x10, 0x00, 0xAA]);
    assert_eq!(write_reset(0x80, &mut out), Ok(7));
    assert_eq!(out, [0x80, 0x7F, 0x07, 0x41, 0x10, 0x00, 0xA9]);
    let mut reply = [0; 8];
    assert_eq!(Sign::power_on().reply(0x80, false, &mut reply), Ok(8));
    assert_eq!(reply, [0x81, 0x7F, 0x08, 0x41, 0x52, 0x46, 0x00, 0x1F]);
    assert_eq!(read_reply(0x80, &reply), Ok(Reply { last: 0x41, busy: false, sink: false }));
    assert_eq!(write_reply(0x80, Reply { last: 0x41, busy: false, sink: false }, &mut reply), Ok(8));
}

#[test]
fn packets_of_a_body() {
    for (length, packets) in [(14, 1), (15, 2), (84, 6)] {
        let body = vec![b'A'; length];
        assert_eq!(write_transmission(0x80, 1, &body, &mut [0; 126]), Ok(length + 7 * packets));
    }
    assert_eq!(write_transmission(0x80, 1, &[b'A'; 85], &mut [0; 200]), Err(No::Body));
}

#[test]
fn prices() {
    assert_eq!(totals(b"^W5"), (1, 0, 500));
    assert_eq!(totals(b"^L3^W2^E"), (7, 0, 600));
    assert_eq!(totals(b"^SHI"), (1, 108, 2400));
    assert_eq!(totals(b"^S"), (1, 0, 0));
    assert_eq!(totals(b"^IAHI"), (1, 7, 156));
    assert_eq!(totals(b"^=6^P1^SA"), (3, 612, 20400));
    assert_eq!(totals(&over_by_its_edge(b"^IA")), (1, 7, 156));
    assert_eq!(totals(&over_by_its_edge(b"^S")), (1, 193, 4289));
}

/// A text of 97 columns whole and 95 lit, after these letters.
fn over_by_its_edge(letters: &[u8]) -> Vec<u8> {
    [letters, &[b'A'; 15], b"~dA"].concat()
}

fn first_step(body: &[u8]) -> reference::machine::Step {
    let mut sign = Sign::power_on();
    let mut out = [0; 126];
    let length = write_transmission(0x80, 1, body, &mut out).unwrap();
    for packet in out[..length].chunks(21) {
        sign.receive(0x80, packet).unwrap();
    }
    sign.step().unwrap()
}

#[test]
fn columns_of_shown_texts() {
    assert_eq!(first_step(b"^IIHI").column, 42);
    let fits = first_step(b"^II0123456789ABCDEF");
    assert_eq!((fits.kind.map(|kind| kind as u8), fits.column, fits.scans), (Some(1), 0, 0));
    let scrolls = first_step(b"^II0123456789ABCDEFG");
    assert_eq!((scrolls.kind.map(|kind| kind as u8), scrolls.column, scrolls.scans), (Some(4), 0, 102 + 96));
    let over = first_step(&over_by_its_edge(b"^II"));
    assert_eq!((over.kind.map(|kind| kind as u8), over.column), (Some(1), 0));
    let widest = first_step(b"^II~bAAAAAAAAAAA");
    assert_eq!((widest.kind.map(|kind| kind as u8), widest.column), (Some(1), 0));
    assert_eq!(first_step(b"^IIA~b").column, 45);
}

#[test]
fn refusals() {
    assert_eq!(refusal(b"^L1^L2^E^E"), (26, 3));
    assert_eq!(refusal(b"^P21"), (23, 0));
    assert_eq!(refusal(b"^IIa~x"), (25, 4));
    assert_eq!(refusal(b"^L1^W1"), (26, 0));
}

#[test]
fn many_steps() {
    let body = [b"^L99".as_slice(), &b"^S".repeat(39), b"^E"].concat();
    assert_eq!(body.len(), 84);
    assert_eq!(totals(&body), (3961, 0, 0));
}

/// The lines of the forecast program.
fn lines(body: &[u8]) -> String {
    match forecast(body, 4, 1) {
        Ok(Forecast::Endless) => "end never".into(),
        Ok(Forecast::Ends { totals, .. }) => {
            format!("steps {}\nscans {}\nms {}\nend ready", totals.steps, totals.scans, totals.milliseconds)
        }
        Err(Refusal { no, place }) => format!("refused {} at {place}", no as u8),
    }
}

#[test]
fn the_forecast_program() {
    assert_eq!(lines(b"^L2^SHI^P20^E"), "steps 7\nscans 216\nms 3264\nend ready");
    assert_eq!(lines(b"^SHI^R"), "end never");
    assert_eq!(lines(b"^L2^SHI^F"), "end never");
    assert_eq!(lines(b"^P21"), "refused 23 at 0");
}

#[test]
fn a_late_copy_of_the_running_message_is_a_repeat() {
    let mut sign = Sign::power_on();
    assert!(matches!(sign.receive(0x80, &HI), Ok(Received::Released(_))));
    assert!(sign.is_busy());
    assert_eq!(sign.receive(0x80, &HI), Ok(Received::Repeat));
}

/// A sign just switched on that completed these messages in this order, each a body that is no program.
fn completed(ids: &[u8]) -> Sign {
    let mut sign = Sign::power_on();
    for &id in ids {
        assert!(matches!(hear(&mut sign, id, b"A"), Ok(Received::Released(_))));
    }
    sign
}

/// What the sign answers to a message of one packet.
fn hear(sign: &mut Sign, id: u8, body: &[u8]) -> Result<Received, No> {
    let mut out = [0; 21];
    let length = write_packet(0x80, id, body, 0, &mut out).unwrap();
    sign.receive(0x80, &out[..length])
}

/// Whether each of these IDs is a Repeat, or each is new.
#[track_caller]
fn check_ids(sign: &Sign, ids: &[u8], repeat: bool) {
    for &id in ids {
        let told = hear(&mut sign.clone(), id, b"^S");
        assert_eq!(told == Ok(Received::Repeat), repeat, "{id}");
        assert_eq!(matches!(told, Ok(Received::Released(_))), !repeat, "{id}");
    }
}

#[track_caller]
fn check_last(sign: &Sign, last: u8) {
    let mut out = [0; 8];
    assert_eq!(sign.reply(0x80, false, &mut out), Ok(8));
    assert_eq!(out[3], last);
}

#[test]
fn completed_ids() {
    check_ids(&completed(&[]), &[0], false);
    let six = completed(&[0, 5, 63, 7, 9, 11]);
    check_ids(&six, &[63, 7, 9, 11], true);
    check_ids(&six, &[0, 5], false);
    check_last(&six, 11);
    let mut nine = completed(&[9]);
    assert_eq!(nine.reset(), Ok(()));
    check_ids(&nine, &[9], false);
    check_last(&nine, 0x41);
    let mut busy = completed(&[1, 2, 3]);
    assert!(matches!(hear(&mut busy, 4, b"^S"), Ok(Received::Released(_))));
    assert!(busy.is_busy());
    check_ids(&busy, &[1, 2, 3, 4], true);
    assert_eq!(hear(&mut busy, 5, b"^S"), Err(No::Busy));
}

#[test]
fn sound_completed_ids() {
    let ready = |count, ids| Sign { completed: Completed { count, ids }, ..Sign::power_on() };
    assert!(ready(4, [4, 3, 2, 0]).is_sound());
    assert!(!ready(4, [4, 3, 2, 4]).is_sound());
    for third in 1..=255 {
        assert!(!ready(2, [4, 3, third, 0]).is_sound());
    }
    assert!(ready(2, [2, 1, 0, 0]).is_sound());
    let mut collecting = ready(2, [2, 1, 0, 0]);
    (collecting.id, collecting.total, collecting.lens[0]) = (1, 2, 14);
    assert!(!collecting.is_sound());
    collecting.id = 3;
    assert!(collecting.is_sound());
    assert!(!ready(1, [0x40, 0, 0, 0]).is_sound());
}
