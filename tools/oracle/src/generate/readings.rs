//! Bodies of frames that are read, beside those that are written (bodies.rs): bodies that are too short and too long, a
//! LOS that is out of range or unlike the octets behind it, other types, random octets, and random bodies.

use super::Case;
use super::bodies::{Body, MOST_LENT, MOST_LOS, TYPES, body, counted, drawn, each, number, reading};
use crate::random::Random;

// ---- What is refused

// These octets, cut or with others behind them.
fn resized(octets: &[u8], length: u64) -> Vec<u8> {
    octets.iter().copied().chain(counted(length)).take(length as usize).collect()
}

/// Each type with octets of every length to 20, with one less and one more than it has, and with many.
pub fn lengths() -> Case {
    let mut case = Case::new("readings: lengths");
    for body in each() {
        let octets = body.octets();
        let count = octets.len() as u64;
        for length in (0..=20).chain([count - 1, count, count + 1, 100, 4 + MOST_LOS, 5 + MOST_LOS, 260]) {
            case.call(reading(body.kind, body.ioa, &resized(&octets, length)));
        }
    }
    for kind in TYPES {
        for length in (0..=20).chain([255, 256, 260, MOST_LENT]) {
            case.call(reading(kind, 100, &counted(length)));
        }
    }
    case
}

// A segment with this LOS and so many octets behind it.
fn segment(los: u64, count: u64) -> String {
    let mut octets = Body::segment(counted(count)).octets();
    octets[3] = los.to_le_bytes()[0];
    reading(125, 100, &octets)
}

/// A LOS of 0 and over 240, with as many octets and with others; and each LOS with none, with one less, with one more
/// and with 256 more than it says.
pub fn wrong_los() -> Case {
    let mut case = Case::new("readings: LOS, wrong");
    for count in (0..=20).chain([MOST_LOS, 256]) {
        case.call(segment(0, count));
    }
    for los in 1..256 {
        for count in [0, los - 1, los + 1, los + 256] {
            case.call(segment(los, count));
        }
    }
    for los in MOST_LOS + 1..256 {
        for count in [1, MOST_LOS - 1, MOST_LOS, los] {
            case.call(segment(los, count));
        }
    }
    case
}

/// Segments whose octets are all alike, LOS among them: as many behind it as it says, one less and one more.
pub fn alike() -> Case {
    let mut case = Case::new("readings: octets alike");
    for los in 0..256 {
        for count in [los + 3, los + 4, los + 5] {
            case.call(format!("body read 125 100 fill {count} {los} {los}"));
        }
    }
    case
}

/// Every other type, with a body that would be one of types 122 and 124; and some with octets of every length to 20.
pub fn other_types() -> Case {
    let mut case = Case::new("readings: other types");
    for kind in (0..256).filter(|kind| !TYPES.contains(kind)) {
        case.call(reading(kind, 100, &counted(4)));
    }
    for kind in [0, 119, 126, 127, 128, 255] {
        for length in 0..=20 {
            case.call(reading(kind, 100, &counted(length)));
        }
    }
    case
}

// ---- Random ones

/// Random octets, about as many as a type has or any number of them. A segment's LOS is right in half of those that
/// have one.
pub fn octets(random: &mut Random) -> Case {
    let mut case = Case::new("readings: random octets");
    for _ in 0..100 {
        let kind = if random.once_in(16) { random.below(256) } else { *random.of(&TYPES) };
        let count = if random.once_in(8) { random.below(300) } else { random.below(12) };
        let mut octets = drawn(random, count);
        if kind == 125 && count >= 4 && random.flag() {
            octets[3] = (count - 4).to_le_bytes()[0];
        }
        case.call(reading(kind, number(random, 32), &octets));
    }
    case
}

// A body that is cut, longer, under another type, or with another octet where a segment has its LOS.
fn spoil(random: &mut Random, kind: &mut u64, octets: &mut Vec<u8>) {
    match random.below(4) {
        0 => octets.truncate(random.below(octets.len() as u64) as usize),
        1 => {
            let more = 1 + random.below(8);
            octets.extend(drawn(random, more));
        }
        2 => *kind = if random.flag() { *random.of(&TYPES) } else { random.below(256) },
        _ => octets[3] = random.octet(),
    }
}

/// Random bodies, one in eight of them spoiled.
pub fn random(random: &mut Random) -> Case {
    let mut case = Case::new("readings: random");
    for _ in 0..100 {
        let body = body(random);
        let (mut kind, mut octets) = (body.kind, body.octets());
        if random.once_in(8) {
            spoil(random, &mut kind, &mut octets);
        }
        case.call(reading(kind, body.ioa, &octets));
    }
    case
}
