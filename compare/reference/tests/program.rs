//! Bodies judged: the order of the numbers, the places.
//! Answers to 01, "The program".

use reference::program::{Command, Kind, Reader, judge};

/// The number and place that a body is refused with, or 0 and whether it is endless.
fn verdict(body: &[u8]) -> (u8, usize) {
    match judge(body) {
        Ok(endless) => (0, endless.into()),
        Err(refusal) => (refusal.no as u8, refusal.place.into()),
    }
}

#[track_caller]
fn check(cases: &[(&[u8], (u8, usize))]) {
    for (body, expected) in cases {
        assert_eq!(verdict(body), *expected, "{}", body.escape_ascii());
    }
}

#[test]
fn bodies_as_such() {
    check(&[
        (b"", (21, 0)),
        (b"HI", (21, 0)),
        (&[0; 84], (21, 0)),
        (&[0; 85], (28, 84)),
        (b"^", (22, 0)),
        (b"^^", (22, 0)),
        (b"^I", (22, 0)),
        (b"^I^R", (22, 0)),
        (b"^IC", (22, 0)),
        (b"^X", (22, 0)),
        (b"^XE", (22, 0)),
        (b"^s", (22, 0)),
        (b"^R", (0, 1)),
        (b"^II", (0, 0)),
        (b"^S^IA^IB^XS^XF", (0, 0)),
    ]);
    let long = [b"^S".as_slice(), &[b'A'; 82]].concat();
    check(&[(&long, (0, 0)), (&[long.as_slice(), b"A"].concat(), (28, 84))]);
}

#[test]
fn numbers() {
    let ranges: [(&str, usize, u32, u32); 7] = [
        ("W", 2, 1, 99),
        ("P", 2, 1, 20),
        ("=", 1, 1, 6),
        ("XD", 3, 1, 255),
        ("XB", 3, 0, 255),
        ("Y", 2, 0, 17),
        ("L", 2, 1, 99),
    ];
    for (letters, digits, least, most) in ranges {
        let end = if letters == "L" { "^E" } else { "" };
        for value in 0..1200u32 {
            for padded in 1..=4 {
                let number = format!("{value:0padded$}");
                let right = (least..=most).contains(&value) && number.len() <= digits;
                let body = format!("^{letters}{number}{end}");
                let expected = if right { (0, 0) } else { (23, 0) };
                assert_eq!(verdict(body.as_bytes()), expected, "{body}");
            }
        }
        for wrong in ["", " 1", "1 ", "+1", "-1", "1a", "x", "1~B"] {
            assert_eq!(verdict(format!("^S^{letters}{wrong}{end}").as_bytes()), (23, 2));
        }
    }
}

#[test]
fn numbers_have_their_decimal_value() {
    let cases: [(&[u8], u8); 18] = [
        (b"^W1", 1),
        (b"^W9", 9),
        (b"^W09", 9),
        (b"^W10", 10),
        (b"^W12", 12),
        (b"^W21", 21),
        (b"^W90", 90),
        (b"^W99", 99),
        (b"^P20", 20),
        (b"^=6", 6),
        (b"^Y17", 17),
        (b"^XB000", 0),
        (b"^XB020", 20),
        (b"^XB102", 102),
        (b"^XB199", 199),
        (b"^XB210", 210),
        (b"^XD255", 255),
        (b"^L98^E", 98),
    ];
    for (body, number) in cases {
        assert_eq!(commands(body)[0].number, number, "{}", body.escape_ascii());
    }
}

#[test]
fn texts() {
    check(&[
        (b"^S \x7D", (0, 0)),
        (b"^S\x7F", (24, 2)),
        (b"^Sa\x1F", (24, 3)),
        (b"^S\x80", (24, 2)),
        (b"^S~G", (0, 0)),
        (b"^S~G\x80\xFE\xFF", (0, 0)),
        (b"^S~G\x80a\xFF", (24, 6)),
        (b"^S~G~D\x80", (24, 6)),
        (b"^S~G~G\x80", (0, 0)),
        (b"^S~B~b~C~c~D~d~G", (0, 0)),
        (b"^S~", (25, 2)),
        (b"^Sa~^R", (25, 3)),
        (b"^S~~B", (25, 2)),
        (b"^S~g", (25, 2)),
        (b"^S~\x01\x01", (25, 2)),
        (b"^S\x01~", (24, 2)),
    ]);
}

#[test]
fn the_kinds_of_bytes_at_their_edges() {
    check(&[
        (b"^S\x1F", (24, 2)),
        (b"^S\x20", (0, 0)),
        (b"^S\x5D", (0, 0)),
        (b"^S\x5E", (22, 2)),
        (b"^S\x5F", (0, 0)),
        (b"^S\x7D", (0, 0)),
        (b"^S\x7E", (25, 2)),
        (b"^S\x7F", (24, 2)),
        (b"^S\x80", (24, 2)),
        (b"^S\xFF", (24, 2)),
        (b"^S~G\x1F", (24, 4)),
        (b"^S~G\x20", (0, 0)),
        (b"^S~G\x5D", (0, 0)),
        (b"^S~G\x5E", (22, 4)),
        (b"^S~G\x5F", (0, 0)),
        (b"^S~G\x7D", (0, 0)),
        (b"^S~G\x7E", (25, 4)),
        (b"^S~G\x7F", (24, 4)),
        (b"^S~G\x80", (0, 0)),
        (b"^S~G\xFF", (0, 0)),
        (b"^S~G\x80\x1F", (24, 5)),
        (b"^S~G\x80\x20", (0, 0)),
        (b"^S~G\x80\x5D", (0, 0)),
        (b"^S~G\x80\x5E", (22, 5)),
        (b"^S~G\x80\x5F", (0, 0)),
        (b"^S~G\x80\x7D", (0, 0)),
        (b"^S~G\x80\x7E", (25, 5)),
        (b"^S~G\x80\x7F", (24, 5)),
        (b"^S~G\x80\x80", (0, 0)),
        (b"^S~G\x80\xFF", (0, 0)),
        (b"^SA\x1F", (24, 3)),
        (b"^SA\x20", (0, 0)),
        (b"^SA\x5D", (0, 0)),
        (b"^SA\x5E", (22, 3)),
        (b"^SA\x5F", (0, 0)),
        (b"^SA\x7D", (0, 0)),
        (b"^SA\x7E", (25, 3)),
        (b"^SA\x7F", (24, 3)),
        (b"^SA\x80", (24, 3)),
        (b"^SA\xFF", (24, 3)),
    ]);
}

#[test]
fn commands_without_parameter() {
    check(&[
        (b"^XS ", (24, 3)),
        (b"^XFa", (24, 3)),
        (b"^R1", (24, 2)),
        (b"^L1^E1", (24, 5)),
        (b"^L1^F~", (24, 5)),
        (b"^Ex", (24, 2)),
    ]);
}

#[test]
fn loops_and_ends() {
    check(&[
        (b"^L1^E", (0, 0)),
        (b"^L1^F", (0, 1)),
        (b"^L2^E^L2^E", (0, 0)),
        (b"^L2^E^L2^F", (0, 1)),
        (b"^E", (26, 0)),
        (b"^F", (26, 0)),
        (b"^F^S", (26, 0)),
        (b"^L1^E^E", (26, 5)),
        (b"^L1^R", (26, 3)),
        (b"^L1^R^S", (26, 3)),
        (b"^L1^Rx", (24, 5)),
        (b"^L1^L0", (23, 3)),
        (b"^L1^L1", (26, 3)),
        (b"^S^L9^S", (26, 2)),
        (b"^L9^Q", (22, 3)),
        (b"^R^S", (27, 2)),
        (b"^R^", (27, 2)),
        (b"^L1^F^Q", (27, 5)),
        (b"^L1^F^E", (27, 5)),
        (b"^R^R", (27, 2)),
    ]);
}

/// The commands of an accepted body.
fn commands(body: &[u8]) -> Vec<Command> {
    let mut reader = Reader::begin(body).unwrap();
    std::iter::from_fn(|| reader.next_command().unwrap()).collect()
}

#[test]
fn commands_are_read_whole() {
    let [first, second, third] = commands(b"^IIa^W05^S")[..] else { panic!() };
    assert_eq!((first.kind, first.text.place, first.text.length, first.end), (Kind::II, 3, 1, 4));
    assert_eq!((second.kind, second.number, second.text.place, second.end), (Kind::W, 5, 0, 8));
    assert_eq!((third.kind, third.text.place, third.text.length, third.end), (Kind::S, 10, 0, 10));
}
