//! Steps and forecasts: prices, loops, settings, and that a forecast is the sum of its steps and tells what they leave.
//! Answers to 01, "One step, and what it costs".

use reference::machine::{Course, Forecast, Settings, Step, Totals, forecast};
use reference::program::{Kind, judge};
use reference::sign::Sign;

/// A sign that runs this body from these settings.
fn running(body: &[u8], pace: u8, scans: u8) -> Sign {
    let mut sign = Sign::power_on();
    sign.body[..body.len()].copy_from_slice(body);
    sign.length = body.len() as u8;
    (sign.settings.pace, sign.settings.scans) = (pace, scans);
    assert!(sign.is_sound(), "{}", body.escape_ascii());
    sign
}

/// The steps up to the last, for a program that ends.
fn steps(sign: &mut Sign) -> Vec<Step> {
    let mut steps = Vec::new();
    while sign.is_busy() {
        steps.push(sign.step().unwrap());
        assert!(sign.is_sound());
    }
    steps
}

fn kinds(steps: &[Step]) -> Vec<Kind> {
    steps.iter().filter_map(|step| step.kind).collect()
}

#[test]
fn a_step_tells_all_it_did() {
    let mut sign = running(b"^IBHI^W07^XB200^IA", 4, 1);
    let step = |kind, number, place, length, column, scans, milliseconds| Step {
        kind: Some(kind),
        number,
        place,
        length,
        column,
        scans,
        milliseconds,
    };
    assert_eq!(sign.step(), Ok(step(Kind::IB, 0, 3, 2, 42, 7, 156)));
    assert_eq!(sign.step(), Ok(step(Kind::W, 7, 0, 0, 0, 0, 700)));
    assert_eq!(sign.step(), Ok(step(Kind::XB, 200, 0, 0, 0, 0, 0)));
    assert_eq!(sign.settings.bright, 31);
    assert_eq!(sign.step(), Ok(step(Kind::IA, 0, 18, 0, 48, 7, 156)));
    assert_eq!(sign, Sign { settings: Settings { bright: 31, ..Settings::POWER_ON }, ..Sign::power_on() });
    assert_eq!(sign.step(), Ok(Step::default()));
}

#[test]
fn a_wide_text_scrolls() {
    let mut sign = running(b"^IA~b012345678901", 20, 3);
    let step = sign.step().unwrap();
    assert_eq!((step.kind, step.place, step.length, step.column), (Some(Kind::S), 3, 14, 0));
    assert_eq!((step.scans, step.milliseconds), ((108 + 96) * 3, 4896));
    let mut sign = running(b"^II~C0123456789012345678~G\x80", 20, 3);
    let step = sign.step().unwrap();
    assert_eq!((step.kind, step.column, step.scans), (Some(Kind::II), 0, 0));
    let mut sign = running(b"^IIA", 20, 3);
    assert_eq!(sign.step().unwrap().column, 45);
}

#[test]
fn loops_run_their_count() {
    let mut sign = running(b"^L2^XS^E^W1", 4, 1);
    use Kind::{E, L, W, XS};
    let ran = steps(&mut sign);
    assert_eq!(kinds(&ran), [L, XS, E, XS, E, W]);
    assert_eq!(ran[0].number, 2);
    assert_eq!(sign.settings.sink, 1);
}

#[test]
fn the_course_of_a_loop() {
    let mut sign = running(b"^L2^E^S", 4, 1);
    let course = |place, loop_place, loop_left| Course { place, loop_place, loop_left };
    let mut seen = Vec::new();
    for _ in 0..4 {
        sign.step().unwrap();
        seen.push(sign.course);
    }
    assert_eq!(seen, [course(3, 3, 2), course(3, 3, 1), course(5, 0, 0), course(0, 0, 0)]);
}

#[test]
fn endless_programs_go_round() {
    let mut sign = running(b"^W1^L3^XS^F", 4, 1);
    let ran: Vec<Step> = (0..6).map(|_| sign.step().unwrap()).collect();
    use Kind::{F, L, R, W, XS};
    assert_eq!(kinds(&ran), [W, L, XS, F, XS, F]);
    assert_eq!(sign.course, Course { place: 6, loop_place: 6, loop_left: 3 });
    let mut sign = running(b"^XS^R", 4, 1);
    let ran: Vec<Step> = (0..5).map(|_| sign.step().unwrap()).collect();
    assert_eq!(kinds(&ran), [XS, R, XS, R, XS]);
    assert!(sign.is_busy());
}

#[test]
fn settings_last() {
    let mut sign = running(b"^P20^=6^XS^XD255^XB2^Y16", 4, 1);
    steps(&mut sign);
    let set = Settings { pace: 20, scans: 6, sink: 1, dim: 255, bright: 2 };
    assert_eq!(sign.settings, set);
    for (body, bright) in [("^XB1", 0), ("^XB0", 0), ("^XB31", 31), ("^XB32", 31), ("^XB2", 2)] {
        let mut sign = running(body.as_bytes(), 4, 1);
        sign.settings.bright = 5;
        steps(&mut sign);
        assert_eq!(sign.settings.bright, bright, "{body}");
    }
    sign.reset().unwrap();
    assert_eq!(sign.settings, Settings { dim: 255, bright: 2, ..Settings::POWER_ON });
}

#[test]
fn forecast_says_17_first() {
    for (pace, scans, no) in [(0, 1, 17), (21, 1, 17), (1, 0, 17), (1, 7, 17), (255, 255, 17), (20, 6, 21), (1, 1, 21)]
    {
        let refusal = forecast(b"", pace, scans).unwrap_err();
        assert_eq!((refusal.no as u8, refusal.place), (no, 0));
    }
    assert_eq!(forecast(&[0; 85], 1, 1).unwrap_err().place, 84);
    assert_eq!(forecast(b"^L1^F", 1, 1), Ok(Forecast::Endless));
}

/// The pace and scan setting that a body leaves from these ones.
#[track_caller]
fn left(body: &[u8], pace: u8, scans: u8) -> (u8, u8) {
    match forecast(body, pace, scans) {
        Ok(Forecast::Ends { pace, scans, .. }) => (pace, scans),
        other => panic!("{other:?}"),
    }
}

#[test]
fn a_forecast_tells_the_settings_left() {
    assert_eq!(left(b"^L2^SHI^P20^E", 4, 1), (20, 1));
    assert_eq!(left(b"^=6^P1^SA", 4, 1), (1, 6));
    assert_eq!(left(b"^L3^P7^=2^E", 4, 1), (7, 2));
    // Texts, waits and what else isn't P or = leave what was given.
    assert_eq!(left(b"^IIHI", 4, 1), (4, 1));
    assert_eq!(left(b"^SHI^IAHI^IB", 20, 6), (20, 6));
    assert_eq!(left(b"^W99^XS^XF^XD255^XB20^Y17^L5^W1^E", 1, 3), (1, 3));
    // Of several the last one performed holds, wherever it stands.
    assert_eq!(left(b"^P1^P20^=1^=6", 9, 3), (20, 6));
    assert_eq!(left(b"^P20^P1^=6^=1", 9, 3), (1, 1));
    assert_eq!(left(b"^SA^P02", 9, 3), (2, 3));
    assert_eq!(left(b"^P5^L9^=4^E", 9, 3), (5, 4));
    assert_eq!(left(b"^L9^P5^E^P6^=2", 9, 3), (6, 2));
    assert_eq!(left(b"^L2^P5^SA^P8^E^L1^=5^E", 9, 3), (8, 5));
    assert_eq!(left(b"^L99^P3^=2^P11^E", 9, 3), (11, 2));
    assert_eq!(left(b"^L1^P3^E^L1^P19^E", 9, 3), (19, 3));
    // A command that sets what is set already.
    assert_eq!(left(b"^L4^P9^=3^E", 9, 3), (9, 3));
    assert_eq!(left(b"^L4^P8^P9^E", 9, 3), (9, 3));
}

#[test]
fn every_setting_can_be_left() {
    for pace in 1..=20 {
        for scans in 1..=6 {
            let body = format!("^P{pace}^={scans}");
            assert_eq!(left(body.as_bytes(), 21 - pace, 7 - scans), (pace, scans));
            assert_eq!(left(format!("^L2{body}^E").as_bytes(), 21 - pace, 7 - scans), (pace, scans));
            assert_eq!(left(format!("^P{pace}").as_bytes(), 21 - pace, scans), (pace, scans));
            assert_eq!(left(format!("^={scans}").as_bytes(), pace, 7 - scans), (pace, scans));
            assert_eq!(left(b"^SA", pace, scans), (pace, scans));
        }
    }
}

/// A row of small numbers that looks like chance.
struct Dice(u64);

impl Dice {
    fn roll(&mut self, sides: usize) -> usize {
        self.0 = self.0.wrapping_mul(6364136223846793005).wrapping_add(1442695040888963407);
        (self.0 >> 33) as usize % sides
    }
}

fn thrown_body(dice: &mut Dice) -> Vec<u8> {
    const PIECES: [&[u8]; 18] = [
        b"^L3",
        b"^L99",
        b"^L1",
        b"^E",
        b"^E",
        b"^P1",
        b"^P20",
        b"^P9",
        b"^=6",
        b"^=1",
        b"^=3",
        b"^SA",
        b"^IAHI",
        b"^W9",
        b"^II0123456789ABCDEFG",
        b"^IA0123456789ABCDE~dF",
        b"^IB~b0123456789A~D",
        b"^S~bHELLO",
    ];
    let mut body = Vec::new();
    for _ in 0..1 + dice.roll(9) {
        body.extend_from_slice(PIECES[dice.roll(PIECES.len())]);
    }
    body
}

#[test]
fn a_forecast_is_the_sum_of_its_steps_and_what_they_leave() {
    let mut dice = Dice(7);
    let mut accepted = 0;
    for _ in 0..20_000 {
        let body = thrown_body(&mut dice);
        if judge(&body) != Ok(false) {
            continue;
        }
        accepted += 1;
        let (pace, scans) = (1 + dice.roll(20) as u8, 1 + dice.roll(6) as u8);
        let mut sign = running(&body, pace, scans);
        let mut totals = Totals::default();
        for step in steps(&mut sign) {
            totals.steps += 1;
            totals.scans += step.scans;
            totals.milliseconds += step.milliseconds;
        }
        let Settings { pace: pace_left, scans: scans_left, .. } = sign.settings;
        let expected = Forecast::Ends { totals, pace: pace_left, scans: scans_left };
        assert_eq!(forecast(&body, pace, scans), Ok(expected), "{}", body.escape_ascii());
    }
    assert!(accepted > 2000, "{accepted}");
}
