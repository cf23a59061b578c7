//! Bodies: grammatical ones with everything that the grammar has, and ones that break it in a small or a large way.
//! Answers to 01, "The program".

use crate::random::Random;
use reference::packet::BODY_MOST;

/// A body of any sort.
pub fn body(random: &mut Random) -> Vec<u8> {
    match random.below(20) {
        0..9 => program(random),
        9..12 => {
            let mut body = program(random);
            mutate(random, &mut body);
            body
        }
        12..15 => nearly(random),
        15 => soup(random),
        16 => extended(random),
        17 => overlong(random),
        18 => random_of(random, b"^^^^^IIABSLEFRPWXDBYG=~~0123456789 a\x80\xFF\x7F\x1F"),
        _ => {
            let length = random.below(91);
            random.bytes(length)
        }
    }
}

/// A body that is nearly always an accepted program.
pub fn program(random: &mut Random) -> Vec<u8> {
    let most = random.within(1, BODY_MOST);
    let most = random.pick(&[most, 14, 28, 42, BODY_MOST, BODY_MOST, BODY_MOST]);
    let ending = match random.below(8) {
        0 => b"^R".to_vec(),
        1 => looped(random, b"^F"),
        _ => Vec::new(),
    };
    let mut body = Vec::new();
    for _ in 0..random.within(1, 12) {
        let piece = if random.chance(20) { looped(random, b"^E") } else { plain(random) };
        if body.len() + piece.len() + ending.len() <= most {
            body.extend(piece);
        }
    }
    if body.len() + ending.len() <= BODY_MOST {
        body.extend(ending);
    }
    if body.is_empty() {
        body.extend(b"^S");
    }
    body
}

fn looped(random: &mut Random, close: &[u8]) -> Vec<u8> {
    let mut piece = b"^L".to_vec();
    piece.extend(number(random, 2, 1, 99));
    for _ in 0..random.below(5) {
        piece.extend(plain(random));
    }
    piece.extend(close);
    piece
}

/// A command that may stand anywhere.
fn plain(random: &mut Random) -> Vec<u8> {
    let mut command = b"^".to_vec();
    match random.below(16) {
        0..7 => {
            command.extend(random.pick(&[b"II".as_slice(), b"IA", b"IB", b"S"]));
            command.extend(text(random));
        }
        7 => command.extend(random.pick(&[b"XS", b"XF"])),
        _ => {
            let (letters, digits, least, most) = random.pick(&NUMBERED[..7]);
            command.extend(letters);
            command.extend(number(random, digits, least, most));
        }
    }
    command
}

/// The letters, digits and bounds of each command with a number, that of the loop last.
pub const NUMBERED: [(&[u8], usize, usize, usize); 8] = [
    (b"P", 2, 1, 20),
    (b"P", 2, 1, 20),
    (b"=", 1, 1, 6),
    (b"W", 2, 1, 99),
    (b"XD", 3, 1, 255),
    (b"XB", 3, 0, 255),
    (b"Y", 2, 0, 17),
    (b"L", 2, 1, 99),
];

/// A right number, often at a bound, sometimes with zeros in front.
fn number(random: &mut Random, digits: usize, least: usize, most: usize) -> Vec<u8> {
    let between = random.within(least, most);
    let value = random.pick(&[least, most, least + 1, between, between, between]);
    let width = if random.chance(30) { digits } else { 1 };
    format!("{value:0width$}").into_bytes()
}

/// A number that is wrong, most often by one or by one digit.
fn wrong_number(random: &mut Random, digits: usize, least: usize, most: usize) -> Vec<u8> {
    let longer = digits + 1;
    match random.below(6) {
        0 => format!("{}", most + 1).into_bytes(),
        1 => format!("{:0digits$}", least.saturating_sub(1)).into_bytes(),
        2 => format!("{:0longer$}", random.within(least, most)).into_bytes(),
        3 => random.pick(&["", " 1", "1 ", "-1", "1~", "1x", ":", "/", "999", "1\0"]).as_bytes().to_vec(),
        4 => format!("{most}{}", random.below(10)).into_bytes(),
        _ => format!("{}", random.below(1200)).into_bytes(),
    }
}

/// A right text of one of many sorts.
pub fn text(random: &mut Random) -> Vec<u8> {
    match random.below(10) {
        0 | 1 => Vec::new(),
        2..5 => {
            let count = random.within(1, 8);
            letters(random, count)
        }
        5..7 => boundary(random),
        7..9 => mixed(random),
        _ => {
            let count = random.within(10, 82);
            letters(random, count)
        }
    }
}

fn letters(random: &mut Random, count: usize) -> Vec<u8> {
    (0..count).map(|_| letter(random)).collect()
}

/// A byte that any text may hold.
pub fn letter(random: &mut Random) -> u8 {
    let any = random.within(0x20, 0x7D) as u8;
    let byte = random.pick(&[any, b'A', b' ', 0x7D]);
    if byte == b'^' { b'_' } else { byte }
}

/// The letter of each font, the columns of its characters, and how many of these are blank.
pub const FONTS: [(u8, usize, usize); 6] =
    [(b'D', 6, 1), (b'd', 7, 2), (b'B', 8, 2), (b'b', 9, 3), (b'C', 5, 1), (b'c', 6, 2)];

/// A text whose widths are at the sign's width or beside it, with the columns that it lacks first or last.
fn boundary(random: &mut Random) -> Vec<u8> {
    let mut rest = random.pick(&[94, 95, 96, 96, 97, 97, 98, 98, 99, 100]);
    let mut text = Vec::new();
    let mut columns = 6;
    while rest >= columns {
        if random.chance(15) {
            let (font, wide, _) = random.pick(&FONTS);
            text.extend([b'~', font]);
            columns = wide;
        } else {
            text.push(letter(random));
            rest -= columns;
        }
    }
    if rest > 0 {
        let at = random.pick(&[0, text.len()]);
        let run: Vec<u8> = (0..rest).map(|_| graphic(random)).collect();
        text.splice(at..at, [b"~G", run.as_slice()].concat());
    }
    if random.chance(30) {
        text.extend([b'~', random.pick(&FONTS).0]);
    }
    text
}

/// A byte that shows one column.
pub fn graphic(random: &mut Random) -> u8 {
    let any = 0x80 | random.byte();
    random.pick(&[0x80, 0xFE, 0xFF, any])
}

/// A text of fonts, graphics and letters in any order.
fn mixed(random: &mut Random) -> Vec<u8> {
    let mut text = Vec::new();
    for _ in 0..random.within(1, 9) {
        match random.below(3) {
            0 => text.extend([b'~', random.pick(&FONTS).0]),
            1 => {
                text.extend(b"~G");
                text.extend((0..random.below(5)).map(|_| graphic(random)));
            }
            _ => text.push(letter(random)),
        }
    }
    text
}

/// A program with one fault in it.
fn nearly(random: &mut Random) -> Vec<u8> {
    let program = program(random);
    let carets: Vec<usize> = (0..program.len()).filter(|&place| program[place] == b'^').collect();
    let (front, end) = program.split_at(random.pick(&carets));
    let end = if random.chance(30) { &[] } else { end };
    let body = [front, &fault(random), end].concat();
    if body.len() > BODY_MOST { fault(random) } else { body }
}

/// A command that is wrong in one thing, or wrong where it stands.
fn fault(random: &mut Random) -> Vec<u8> {
    const FAULTS: [&[u8]; 18] = [
        b"^", b"^I", b"^X", b"^Q", b"^IC", b"^XE", b"^i", b"^E", b"^F", b"^R", b"^L2", b"^L2^L3", b"^L2^R", b"^E ",
        b"^XSx", b"^XF~", b"^R0", b"^L3^F1",
    ];
    match random.below(3) {
        0 => random.pick(&FAULTS).to_vec(),
        1 => {
            let (letters, digits, least, most) = random.pick(&NUMBERED);
            [b"^", letters, &wrong_number(random, digits, least, most)].concat()
        }
        _ => {
            let letters = random.pick(&[b"II".as_slice(), b"IA", b"IB", b"S"]);
            [b"^", letters, &wrong_text(random)].concat()
        }
    }
}

/// A text with a byte or a tilde that it may not hold.
fn wrong_text(random: &mut Random) -> Vec<u8> {
    const FAULTS: [&[u8]; 14] = [
        b"\x7F",
        b"\x1F",
        b"\0",
        b"\x80",
        b"\xFF",
        b"~",
        b"~~",
        b"~g",
        b"~x\x80",
        b"~G\x80A\x80",
        b"~G\xFF~D\x80",
        b"~GA\xFF",
        b"~G~",
        b"~G\x7F",
    ];
    let before = mixed(random);
    let after = if random.chance(50) { mixed(random) } else { Vec::new() };
    [before.as_slice(), random.pick(&FAULTS), &after].concat()
}

/// Commands in no order, some of them wrong.
fn soup(random: &mut Random) -> Vec<u8> {
    let mut body = Vec::new();
    for _ in 0..random.within(1, 8) {
        let piece = if random.chance(30) { fault(random) } else { plain(random) };
        body.extend(piece);
    }
    body.truncate(90);
    body
}

/// A program with more behind its end.
fn extended(random: &mut Random) -> Vec<u8> {
    let mut body = program(random);
    body.truncate(70);
    body.extend(random.pick(&[b"^R".as_slice(), b"^R^E", b"^R^R", b"^R^", b"^R^Q", b"^L2^F^S", b"^L2^F^F", b"^R "]));
    body
}

/// A body of about the greatest length.
fn overlong(random: &mut Random) -> Vec<u8> {
    let length = random.within(82, 90);
    let mut body = program(random);
    if random.chance(50) {
        body.extend(b"^S");
    }
    let filler = letter(random);
    body.resize(length, filler);
    body
}

fn random_of(random: &mut Random, alphabet: &[u8]) -> Vec<u8> {
    (0..random.below(91)).map(|_| random.pick(alphabet)).collect()
}

/// A byte that some rule is about.
fn telling_byte(random: &mut Random) -> u8 {
    let any = random.byte();
    random.pick(&[
        any, 0, 0x1F, 0x20, 0x7D, 0x7E, 0x7F, 0x80, 0xFE, 0xFF, b'^', b'^', b'~', b'G', b'L', b'E', b'F', b'R', b'0',
        b'9', b'1', b'B', b'X', b'I', b'S',
    ])
}

/// Changes a body in one to three small ways.
pub fn mutate(random: &mut Random, body: &mut Vec<u8>) {
    for _ in 0..random.within(1, 3) {
        let length = body.len();
        let at = random.below(length + 1);
        let byte = telling_byte(random);
        match random.below(6) {
            0 | 1 if at < length => body[at] = byte,
            2 if at < length => drop(body.remove(at)),
            3 => body.truncate(at),
            4 => {
                let other = random.below(length + 1);
                let copy = body[at.min(other)..at.max(other)].to_vec();
                body.splice(at..at, copy);
            }
            _ => body.insert(at, byte),
        }
    }
    body.truncate(90);
}
