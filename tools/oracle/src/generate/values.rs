//! Random frames, headers and entries.

use super::{Case, ROLES, SELECTIONS, UNKNOWN, WIDTHS, broadcast, max_ioa, widths};
use crate::random::Random;
use crate::show;

pub fn time(random: &mut Random) -> String {
    let fields = [
        random.below(65536),
        random.below(64),
        random.below(2),
        random.below(2),
        random.below(32),
        random.below(2),
        random.below(32),
        random.below(8),
        random.below(16),
        random.below(128),
    ];
    let words: Vec<String> = fields.iter().map(u64::to_string).collect();
    words.join(" ")
}

fn entry(random: &mut Random) -> String {
    let (nof, lof, status) = (random.below(65536), random.below(1 << 24), random.below(32));
    let flags = (random.below(2), random.below(2), random.below(2));
    format!("{nof} {lof} {status} {} {} {} {}", flags.0, flags.1, flags.2, time(random))
}

// The octets of an entry, now and then with a reserved bit set.
pub fn packed(random: &mut Random) -> Vec<u8> {
    let mut octets: Vec<u8> = (0..13).map(|_| random.octet()).collect();
    octets[9] &= 0x9F;
    octets[11] &= 0x0F;
    octets[12] &= 0x7F;
    if random.once_in(8) {
        let place = random.below(13) as usize;
        octets[place] |= random.octet();
    }
    octets
}

pub fn packing(random: &mut Random) -> Case {
    let mut case = Case::new("packing");
    for _ in 0..12 {
        case.call(format!("pack 13 {}", entry(random)));
        case.call(format!("entry {}", entry(random)));
        case.call(format!("unpack {}", show::octets(&packed(random))));
        let octets: Vec<u8> = (0..random.below(40)).map(|_| random.octet()).collect();
        case.call(format!("checksum {}", show::octets(&octets)).trim_end().to_string());
        let stated = if random.flag() {
            octets.iter().fold(0, |sum: u8, octet| sum.wrapping_add(*octet))
        } else {
            random.octet()
        };
        case.call(format!("check_checksum {stated} {}", show::octets(&octets)).trim_end().to_string());
    }
    case
}

/// A number that is often the expected one or a boundary.
fn near(random: &mut Random, usual: u64, last: u64) -> u64 {
    match random.below(6) {
        0 => random.below(last + 1),
        1 => last,
        2 => (usual + 1).min(last),
        _ => usual,
    }
}

/// A random frame and what stands beside it.
pub fn frame(random: &mut Random, w: [u8; 3], limit: u64) -> (u8, String, String) {
    let ioa = near(random, 100, u64::from(max_ioa(w)));
    let nof = near(random, 7, 65535);
    let nos = near(random, 1, 255);
    let kind = 120 + random.below(8);
    let beside = match kind {
        125 => {
            let count = near(random, 2, limit).max(1);
            format!(" beside fill {count} {} {}", random.octet(), random.octet())
        }
        126 => {
            let octets: Vec<u8> = (0..=random.below(18)).flat_map(|_| packed(random)).collect();
            format!(" beside {}", show::octets(&octets))
        }
        _ => String::new(),
    };
    let text = match kind {
        120 => format!("file_ready {ioa} {nof} {} {} {}", random.below(1 << 24), random.below(128), random.below(2)),
        121 => {
            let (lof, value, flag) = (random.below(1 << 24), random.below(128), random.below(2));
            format!("section_ready {ioa} {nof} {nos} {lof} {value} {flag}")
        }
        122 => format!("sc {ioa} {nof} {nos} {} {}", random.below(16), near(random, 0, 15)),
        123 => format!("last_section {ioa} {nof} {nos} {} {}", near(random, 3, 255), random.octet()),
        124 => format!("ack {ioa} {nof} {nos} {} {}", random.below(16), near(random, 0, 15)),
        125 => {
            let stated = beside.split(' ').nth(3).unwrap_or("0").to_string();
            let stated = if random.once_in(8) { random.octet().to_string() } else { stated };
            format!("segment {ioa} {nof} {nos} {stated}")
        }
        126 => format!("directory {ioa} {}", near(random, 5, 13).max(3)),
        _ => format!("query_log {ioa} {nof} {} {}", time(random), time(random)),
    };
    (kind as u8, text, beside)
}

/// The cause of a frame.
pub fn cause(text: &str) -> u8 {
    let words: Vec<&str> = text.split(' ').collect();
    match words.as_slice() {
        ["sc", _, _, _, "0", ..] => 5,
        ["directory", _, cause] => cause.parse().unwrap_or(5),
        _ => 13,
    }
}

/// A header that goes with a frame, or nearly.
pub fn header(random: &mut Random, w: [u8; 3], kind: u8, cause: u8) -> String {
    let kind = if random.once_in(12) { 118 + random.below(12) } else { kind.into() };
    let cause = if random.once_in(8) { random.below(64) } else { cause.into() };
    let negative = u8::from(random.once_in(4));
    let cause = if negative == 1 && random.flag() { 44 + random.below(4) } else { cause };
    let originator = if w[0] == 2 { random.octet() } else { 0 };
    let ca = if random.once_in(10) { broadcast(w).into() } else { near(random, 1, u64::from(broadcast(w)) - 1) };
    let unknown = if random.once_in(8) { random.of(&UNKNOWN) } else { "none" };
    format!("{kind} {cause} {negative} {originator} {ca} {unknown}")
}

fn station(random: &mut Random, w: [u8; 3]) -> String {
    let (role, selection) = (random.of(&ROLES), random.of(&SELECTIONS));
    let ca = 1 + random.below(u64::from(broadcast(w)) - 1);
    let org = if w[0] == 2 { random.octet() } else { 0 };
    format!("station new {role} {selection} {ca} {org} {}", widths(w))
}

pub fn admission(random: &mut Random) -> Case {
    let mut case = Case::new("admission: random");
    let w = *random.of(&WIDTHS);
    case.call(station(random, w));
    for _ in 0..60 {
        let (kind, text, beside) = frame(random, w, 236);
        let head = header(random, w, kind, cause(&text));
        let text = if random.once_in(16) { "undecodable".into() } else { text };
        if random.flag() {
            case.call(format!("station on_asdu {head} {text}{beside}"));
        } else {
            let (_, sent, _) = frame(random, w, 236);
            case.call(format!("station on_answer {head} {text} sent {sent}{beside}"));
        }
    }
    case
}

// A frame's fields without its name, behind the object address.
fn maker_of(text: &str) -> String {
    let (name, rest) = text.split_once(' ').unwrap_or((text, ""));
    match name {
        "last_section" => format!("last_segment|{rest}"),
        "segment" => format!("segment|{}", rest.rsplit_once(' ').map_or("", |(front, _)| front)),
        _ => format!("{name}|{rest}"),
    }
}

pub fn making(random: &mut Random) -> Case {
    let mut case = Case::new("makers, build: random");
    let w = *random.of(&WIDTHS);
    case.call(station(random, w));
    for _ in 0..20 {
        let (_, text, beside) = frame(random, w, 236);
        case.call(format!("station build {text}{beside}"));
        let org = if w[0] == 2 { random.octet() } else { 0 };
        let ca = 1 + random.below(u64::from(broadcast(w)) - 1);
        case.call(format!("frame_with {} {ca} {org} {text}{beside}", widths(w)));
        if let Some((name, rest)) = maker_of(&text).split_once('|') {
            case.call(format!("make {name} {} {} {rest}{beside}", 1 + random.below(65534), random.octet()));
        }
    }
    case
}
