//! Bodies of frames: every value of each element of one octet, names and lengths at the limits of their octets,
//! segments of every length, buffers that are just as long and longer, what is not read, what is refused, and random
//! bodies. They are written here; readings.rs reads them.

use super::Case;
use super::flows::{beside_words, octets_words};
use super::tables::FRAMES;
use crate::random::Random;

/// The types that have a body here.
pub const TYPES: [u64; 6] = [120, 121, 122, 123, 124, 125];

const MOST_LOF: u64 = 0x00FF_FFFF;
pub const MOST_LOS: u64 = 240;

/// As many octets as replay lends a buffer.
pub const MOST_LENT: u64 = 9216;

// ---- A frame

/// A frame that has a body: the fields of all types, of which each has some.
pub struct Body {
    pub kind: u64,
    pub ioa: u64,
    nof: u64,
    nos: u64,
    lof: u64,
    /// FRQ's or SRQ's value and flag, SCQ's or AFQ's action and error, or LSQ and CHS.
    pair: [u64; 2],
    los: u64,
    beside: Vec<u8>,
}

impl Body {
    // A frame of a type. No two octets of its body are alike, so that each shows where it stands.
    fn of(kind: u64) -> Self {
        let beside: Vec<u8> = if kind == 125 { vec![17, 18, 19, 20, 21] } else { Vec::new() };
        Self { kind, ioa: 100, nof: 0x0C0B, nos: 13, lof: 0x0010_0F0E, pair: [7, 1], los: 5, beside }
    }

    /// A segment of these octets.
    pub fn segment(beside: Vec<u8>) -> Self {
        Self { los: beside.len() as u64 % 256, beside, ..Self::of(125) }
    }

    // How many octets the body has.
    fn len(&self) -> u64 {
        match self.kind {
            120 => 6,
            121 => 7,
            123 => 5,
            125 => 4 + self.beside.len() as u64,
            _ => 4,
        }
    }

    // The call that writes it into so many octets.
    fn call(&self, length: u64) -> String {
        let Self { kind, ioa, nof, nos, lof, pair: [first, second], los, beside } = self;
        let frame = match kind {
            120 => format!("file_ready {ioa} {nof} {lof} {first} {second}"),
            121 => format!("section_ready {ioa} {nof} {nos} {lof} {first} {second}"),
            122 => format!("sc {ioa} {nof} {nos} {first} {second}"),
            123 => format!("last_section {ioa} {nof} {nos} {first} {second}"),
            124 => format!("ack {ioa} {nof} {nos} {first} {second}"),
            _ => format!("segment {ioa} {nof} {nos} {los}"),
        };
        format!("body write {length} {frame}{}", beside_words(beside))
    }

    // The same into a buffer that is just as long.
    fn exactly(&self) -> String {
        self.call(self.len())
    }

    /// Its octets, where the values are in range: reckoned here from document 02, A8, apart from the library and the
    /// Rust.
    pub fn octets(&self) -> Vec<u8> {
        let [first, second] = self.pair;
        let (nof, nos, lof) = (low(self.nof, 2), low(self.nos, 1), low(self.lof, 3));
        match self.kind {
            120 => [nof, lof, low(first + 128 * second, 1)].concat(),
            121 => [nof, nos, lof, low(first + 128 * second, 1)].concat(),
            123 => [nof, nos, low(first, 1), low(second, 1)].concat(),
            125 => [nof, nos, low(self.los, 1), self.beside.clone()].concat(),
            _ => [nof, nos, low(first + 16 * second, 1)].concat(),
        }
    }

    // The call that reads it.
    fn reading(&self) -> String {
        reading(self.kind, self.ioa, &self.octets())
    }
}

// The low octets of a number, lowest first.
fn low(number: u64, count: usize) -> Vec<u8> {
    number.to_le_bytes()[..count].to_vec()
}

/// The call that reads these octets as the body of a type.
pub fn reading(kind: u64, ioa: u64, octets: &[u8]) -> String {
    let space = if octets.is_empty() { "" } else { " " };
    format!("body read {kind} {ioa}{space}{}", octets_words(octets))
}

/// So many octets that count from 1.
pub fn counted(count: u64) -> Vec<u8> {
    (1..=count).map(|octet| octet.to_le_bytes()[0]).collect()
}

pub fn drawn(random: &mut Random, count: u64) -> Vec<u8> {
    (0..count).map(|_| random.octet()).collect()
}

// ---- Elements

/// Bodies of one kind, under its two names: where they are written, and where they are read.
pub struct Listed {
    names: [&'static str; 2],
    bodies: Vec<Body>,
}

impl Listed {
    /// The case that writes them, each into a buffer that is just as long.
    pub fn written(&self) -> Case {
        Case { kind: self.names[0], calls: self.bodies.iter().map(Body::exactly).collect() }
    }

    /// The case that reads them.
    pub fn read(&self) -> Case {
        Case { kind: self.names[1], calls: self.bodies.iter().map(Body::reading).collect() }
    }
}

// The two names of a kind.
macro_rules! names {
    ($what:literal) => {
        [concat!("bodies: ", $what), concat!("readings: ", $what)]
    };
}

// Each of these values of an element, in each of these types.
fn every(names: [&'static str; 2], kinds: &[u64], values: &[u64], set: impl Fn(&mut Body, u64)) -> Listed {
    let mut bodies = Vec::new();
    for kind in kinds {
        for value in values {
            let mut body = Body::of(*kind);
            set(&mut body, *value);
            bodies.push(body);
        }
    }
    Listed { names, bodies }
}

/// Every value of the elements of one octet, in each type that has them.
pub fn elements() -> [Listed; 7] {
    let all: Vec<u64> = (0..256).collect();
    [
        every(names!("FRQ"), &[120], &all, |body, n| body.pair = [n % 128, n / 128]),
        every(names!("SRQ"), &[121], &all, |body, n| body.pair = [n % 128, n / 128]),
        every(names!("SCQ"), &[122], &all, |body, n| body.pair = [n % 16, n / 16]),
        every(names!("AFQ"), &[124], &all, |body, n| body.pair = [n % 16, n / 16]),
        every(names!("LSQ"), &[123], &all, |body, n| body.pair[0] = n),
        every(names!("CHS"), &[123], &all, |body, n| body.pair[1] = n),
        every(names!("NOS"), &TYPES[1..], &all, |body, n| body.nos = n),
    ]
}

/// Names of files, and lengths of files and sections: at the limits of their octets, and random ones.
pub fn numbers(random: &mut Random) -> [Listed; 2] {
    let mut names = vec![0, 1, 127, 128, 255, 256, 257, 32_767, 32_768, 65_279, 65_280, 65_534, 65_535];
    names.extend((0..187).map(|_| random.below(65_536)));
    let mut lengths = vec![0, 1, 255, 256, 257, 65_280, 65_535, 65_536, 65_537];
    lengths.extend([0x00FE_FFFF, 0x00FF_0000, MOST_LOF - 1, MOST_LOF]);
    lengths.extend((0..187).map(|_| random.below(MOST_LOF + 1)));
    [
        every(names!("NOF"), &TYPES, &names, |body, n| body.nof = n),
        every(names!("LOF"), &TYPES[..2], &lengths, |body, n| body.lof = n),
    ]
}

/// Segments of every length, and every octet in a payload, alone and between two others.
pub fn segments(random: &mut Random) -> [Listed; 2] {
    let lengths = (1..=MOST_LOS).flat_map(|los| [counted(los), drawn(random, los)]);
    let lengths = lengths.map(Body::segment).collect();
    let payloads = (0..=255).flat_map(|octet| [vec![octet], vec![1, octet, 2]]);
    let payloads = payloads.map(Body::segment).collect();
    [Listed { names: names!("LOS"), bodies: lengths }, Listed { names: names!("payload"), bodies: payloads }]
}

/// Every size of the object address, which is not of the body.
pub fn addresses() -> Listed {
    let addresses = [0, 255, 256, 65_535, 65_536, 16_777_215, 16_777_216, 4_294_967_295];
    every(["bodies: not read", "readings: addresses"], &TYPES, &addresses, |body, n| body.ioa = n)
}

// ---- Buffers, and what is not read

/// A frame of each type, and segments about the limits.
pub fn each() -> Vec<Body> {
    let segments = [1, 2, 236, MOST_LOS].map(|los| Body::segment(counted(los)));
    TYPES.into_iter().map(Body::of).chain(segments).collect()
}

/// Buffers that are just as long as the body, and longer: the octets behind it stay as they are.
pub fn buffers(take: &mut dyn FnMut(Case)) {
    let mut case = Case::new("bodies: buffers");
    for body in each() {
        for room in (0..=16).chain([100, 1000]) {
            case.call(body.call(body.len() + room));
        }
        case.call(body.call(MOST_LENT));
    }
    take(case);
}

/// The object address, and octets beside another kind than a segment.
pub fn not_read(take: &mut dyn FnMut(Case)) {
    take(addresses().written());
    let mut case = Case::new("bodies: not read");
    for kind in &TYPES[..5] {
        for count in [1, 2, 5, MOST_LOS, MOST_LOS + 1, MOST_LENT] {
            case.call(Body { beside: counted(count), ..Body::of(*kind) }.exactly());
        }
    }
    take(case);
}

// ---- Refusals

// Values whose high bits the Rust drops.
fn out_of_range(case: &mut Case) {
    let mut call = |body: Body| case.call(body.exactly());
    for n in 16..256 {
        for kind in [122, 124] {
            call(Body { pair: [n, 1], ..Body::of(kind) });
            call(Body { pair: [7, n], ..Body::of(kind) });
        }
    }
    for n in 128..256 {
        for (kind, flag) in [(120, 0), (120, 1), (121, 0), (121, 1)] {
            call(Body { pair: [n, flag], ..Body::of(kind) });
        }
    }
    let bits = (24..32).map(|bit| 1 << bit);
    for lof in bits.chain([MOST_LOF + 2, 4_294_967_295]) {
        call(Body { lof, ..Body::of(120) });
        call(Body { lof, ..Body::of(121) });
    }
}

// A LOS that is not the payload's length, which the Rust writes; and segments that it refuses, empty and too long.
fn wrong_segments(case: &mut Case) {
    for count in 1..=MOST_LOS {
        for los in [count - 1, count + 1] {
            case.call(Body { los, ..Body::segment(counted(count)) }.exactly());
        }
    }
    for los in 0..=255 {
        case.call(Body { los, ..Body::segment(Vec::new()) }.exactly());
    }
    for count in (MOST_LOS + 1..=260).chain([500, MOST_LENT - 4]) {
        let body = Body::segment(counted(count));
        for length in [0, 4, body.len() - 1, body.len()] {
            case.call(body.call(length));
        }
    }
}

// Types 126 and 127, with values in range and out of it.
fn other_types(case: &mut Case) {
    for (_, frame, beside) in &FRAMES[6..] {
        for length in [0, 13, 16, 244] {
            case.call(format!("body write {length} {frame}{beside}"));
        }
    }
    case.call("body write 16 directory 100 13 beside 1");
    case.call("body write 16 query_log 100 7 0 64 0 0 0 0 0 0 0 0 0 0 0 0 0 0 0 0 0 0");
}

/// What is refused here: the Rust does so with segments alone, and writes into what grows.
pub fn refusals(take: &mut dyn FnMut(Case)) {
    let mut case = Case::new("bodies: refusals");
    out_of_range(&mut case);
    wrong_segments(&mut case);
    other_types(&mut case);
    for body in each() {
        for length in 0..body.len() {
            case.call(body.call(length));
        }
    }
    take(case);
}

// ---- Random bodies

/// A number of at most so many bits, a small one now and then.
pub fn number(random: &mut Random, bits: u64) -> u64 {
    let bits = if random.flag() { bits } else { 1 + random.below(bits) };
    random.below(1 << bits)
}

/// Fields that are in range.
pub fn body(random: &mut Random) -> Body {
    let kind = *random.of(&TYPES);
    let pair = match kind {
        120 | 121 => [random.below(128), random.below(2)],
        123 => [random.below(256), random.below(256)],
        _ => [random.below(16), random.below(16)],
    };
    let count = match (kind, random.below(3)) {
        (125, 0) => 1 + random.below(8),
        (125, 1) => MOST_LOS - random.below(8),
        (125, _) => 1 + random.below(MOST_LOS),
        (_, 0) => random.below(8),
        _ => 0,
    };
    let (ioa, nof, nos, lof) = (number(random, 32), number(random, 16), random.below(256), number(random, 24));
    Body { kind, ioa, nof, nos, lof, pair, los: count, beside: drawn(random, count) }
}

// A field that is out of range, of the types that have one.
fn spoil(random: &mut Random, body: &mut Body) {
    match body.kind {
        120 | 121 if random.flag() => body.lof = MOST_LOF + 1 + number(random, 31),
        120 | 121 => body.pair[0] = 128 + random.below(128),
        122 | 124 => body.pair[random.below(2) as usize] = 16 + random.below(240),
        125 => body.los = random.below(256),
        _ => {}
    }
}

/// Random bodies: one in sixteen has a field out of range, and one in sixteen a buffer that is too short.
pub fn random(random: &mut Random) -> Case {
    let mut case = Case::new("bodies: random");
    for _ in 0..100 {
        let mut body = body(random);
        let length = match random.below(16) {
            0 => random.below(body.len()),
            1..=8 => body.len(),
            _ => body.len() + random.below(12),
        };
        if random.once_in(16) {
            spoil(random, &mut body);
        }
        case.call(body.call(length));
    }
    case
}
