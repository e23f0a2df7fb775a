//! The lists of calls that are compared. A case is a list that makes what it needs, so that it can be played
//! alone. The tables are the same in every run; the others come from the seed.

mod bodies;
mod directories;
mod flows;
mod readings;
mod tables;
mod values;

use crate::random::Random;
pub use directories::MOST_LISTED;

pub struct Case {
    pub kind: &'static str,
    pub calls: Vec<String>,
}

impl Case {
    fn new(kind: &'static str) -> Self {
        Self { kind, calls: Vec::new() }
    }

    fn call(&mut self, line: impl Into<String>) {
        self.calls.push(line.into());
    }
}

pub const ROLES: [&str; 2] = ["controlling", "controlled"];
pub const SELECTIONS: [&str; 4] = ["none", "monitor", "control", "both"];
pub const UNKNOWN: [&str; 5] = ["none", "type", "cause", "common_address", "object_address"];

/// Octets of cause, common address and object address, of every system.
pub const WIDTHS: [[u8; 3]; 12] = [
    [2, 2, 3],
    [1, 1, 1],
    [1, 1, 2],
    [1, 1, 3],
    [1, 2, 1],
    [1, 2, 2],
    [1, 2, 3],
    [2, 1, 1],
    [2, 1, 2],
    [2, 1, 3],
    [2, 2, 1],
    [2, 2, 2],
];

pub fn widths([cause, common, object]: [u8; 3]) -> String {
    format!("{cause} {common} {object}")
}

/// The largest object address of a width.
pub fn max_ioa([_, _, object]: [u8; 3]) -> u32 {
    0xFFFF_FFFF >> (32 - 8 * u32::from(object))
}

/// The broadcast address of a width.
pub fn broadcast([_, common, _]: [u8; 3]) -> u16 {
    if common == 1 { 0xFF } else { 0xFFFF }
}

/// The tables, each a case or more.
pub fn tables(take: &mut dyn FnMut(Case)) {
    tables::elements(take);
    tables::settings(take);
    tables::frames(take);
    tables::makers(take);
    tables::answering(take);
    tables::qualifiers(take);
    tables::sections(take);
    tables::admission(take);
    directory_tables(take);
}

pub fn directory_tables(take: &mut dyn FnMut(Case)) {
    directories::pages(take);
    directories::call(take);
}

// The bodies that are both written and read: of elements, numbers and segments.
fn listed(random: &mut Random) -> impl Iterator<Item = bodies::Listed> {
    let (numbers, segments) = (bodies::numbers(random), bodies::segments(random));
    bodies::elements().into_iter().chain(numbers).chain(segments)
}

/// The bodies of frames to be written, as many with every seed. Their random numbers are drawn apart from those of the
/// other kinds, which stay as they are.
pub fn bodies(seed: u64, take: &mut dyn FnMut(Case)) {
    let mut random = Random::new(seed);
    listed(&mut random).for_each(|listed| take(listed.written()));
    bodies::buffers(take);
    bodies::not_read(take);
    bodies::refusals(take);
    for _ in 0..200 {
        take(bodies::random(&mut random));
    }
}

/// The bodies to be read, as many with every seed. Their random numbers are drawn from the seed anew, so that those of
/// the written ones stay as they are, and come again.
pub fn readings(seed: u64, take: &mut dyn FnMut(Case)) {
    let mut random = Random::new(seed);
    listed(&mut random).for_each(|listed| take(listed.read()));
    take(bodies::addresses().read());
    take(readings::lengths());
    take(readings::wrong_los());
    take(readings::alike());
    take(readings::other_types());
    for _ in 0..40 {
        take(readings::octets(&mut random));
    }
    for _ in 0..200 {
        take(readings::random(&mut random));
    }
}

/// A case of a random kind. A Receiver is handed its frames by value or by reference; the Rust has the latter only.
pub fn random(random: &mut Random) -> Case {
    if random.once_in(6) {
        return directory(random);
    }
    let case = transfer(random);
    if random.flag() { by_reference(case) } else { case }
}

// A transfer whose Receiver is called by reference.
fn by_reference(mut case: Case) -> Case {
    case.kind = match case.kind {
        "transfers" => "transfers, by reference",
        "flows with changed frames" => "flows with changed frames, by reference",
        other => other,
    };
    for call in &mut case.calls {
        *call = call.replace("receiver on_asdu ", "receiver on_asdu_mut ");
    }
    case
}

/// A directory's pages or its call.
pub fn directory(random: &mut Random) -> Case {
    match random.below(3) {
        0 => directories::paged(random),
        _ => directories::called(random),
    }
}

/// A case of any other random kind.
pub fn transfer(random: &mut Random) -> Case {
    match random.below(16) {
        0 => values::packing(random),
        1 | 2 => values::making(random),
        3..=5 => values::admission(random),
        6 => flows::run(random),
        _ => flows::flow(random),
    }
}
