//! Times whole transfers in one process (docs/SPEED.md): the library's run, the published Rust's Provider and
//! Receiver, and a floor in C; and the octet sum beside C's. The three are run in turn, again and again, and the
//! medians are printed, with the library's fastest round beside its median.
//!
//!     bench [ROUNDS]     how often each is run; fewer for the longest files

use iec104::asdu::{Known, Nof};
use iec104::ft::provide::Provider;
use iec104::ft::receive::{Progress, Receiver};
use iec104::ft::{FileTransferProcedure, Selection};
use std::collections::VecDeque;
use std::hint::black_box;
use std::time::Instant;

unsafe extern "C" {
    fn saqwinku_checksum(octets: *const u8, length: usize, so_far: u8) -> u8;
    fn saqwinku_run(
        cause_octets: u8,
        common_address_octets: u8,
        object_address_octets: u8,
        common_address: u16,
        ioa: u32,
        nof: u16,
        controlling: bool,
        file: *const u8,
        file_length: usize,
        damage: *const u8,
        damage_length: usize,
        store: *mut u8,
        store_length: usize,
        budget: usize,
        frames: *mut usize,
    ) -> u8;
    fn floor_sum(octets: *const u8, length: usize) -> u8;
    fn floor_transfer(
        file: *const u8,
        length: usize,
        store: *mut u8,
        section: usize,
        segment: usize,
        sendings: usize,
    ) -> u8;
}

const IOA: u32 = 100;
const NOF: u16 = 7;

// The octets of a segment with the conventional widths, and where its name of section and payload begin in an ASDU.
const SEGMENT: usize = 236;
const NOS_AT: usize = 11;
const PAYLOAD_AT: usize = 13;
const F_SG_NA_1: u8 = 125;

struct Case {
    file: Vec<u8>,
    damage: Vec<u8>,
    section: usize,
}

impl Case {
    // A file of so many octets, with one damaged sending of each section or none.
    fn new(length: usize, damaged: bool) -> Self {
        let file: Vec<u8> = (0..length).map(|i| (i * 7 + i / 251) as u8).collect();
        let section = length.div_ceil(255).max(4096);
        let sections = length.div_ceil(section).max(1);
        let damage = if damaged { (1..=sections).map(|n| n as u8).collect() } else { Vec::new() };
        Self { file, damage, section }
    }

    fn sendings(&self) -> usize {
        1 + usize::from(!self.damage.is_empty())
    }

    // The frames that the theorem states.
    fn frames(&self) -> usize {
        let sendings = self.sendings();
        let sections = self.file.chunks(self.section);
        let n = sections.len();
        let of_sections: usize = sections.map(|octets| sendings * (octets.len().div_ceil(SEGMENT) + 1)).sum();
        (2 + n + of_sections) + (3 + 2 * n + (sendings - 1) * n)
    }
}

// The library's run: how many frames passed.
fn ours(case: &Case, store: &mut [u8]) -> usize {
    let mut frames = 0;
    let (file, damage) = (&case.file, &case.damage);
    // Lengths go with their slices, and `frames` is written before it is read.
    let ended = unsafe {
        saqwinku_run(
            2,
            2,
            3,
            1,
            IOA,
            NOF,
            false,
            file.as_ptr(),
            file.len(),
            damage.as_ptr(),
            damage.len(),
            store.as_mut_ptr(),
            store.len(),
            usize::MAX,
            &mut frames,
        )
    };
    assert_eq!(ended, 0, "the run is whole");
    frames
}

// The published Rust's machines, each handed what the other sends: how many frames passed, and the file.
fn rust(case: &Case) -> (usize, Vec<u8>) {
    let (nof, selection) = (Nof { value: NOF }, Selection::MONITOR);
    let provides = FileTransferProcedure::controlled(selection, 1, 0);
    let receives = FileTransferProcedure::controlling(selection, 1, 0);
    let mut provider = Provider::new(provides, IOA, nof, case.file.clone()).expect("LOF can state the length");
    let mut receiver = Receiver::new(receives, IOA, nof);
    let mut left = [0usize; 256];
    for &section in &case.damage {
        left[usize::from(section)] += 1;
    }
    let mut to_provider = VecDeque::from([receiver.start().expect("the direction is selected")]);
    let mut to_receiver: VecDeque<Vec<u8>> = VecDeque::new();
    let (mut frames, mut file) = (0, Vec::new());
    loop {
        if let Some(asdu) = to_receiver.pop_front() {
            frames += 1;
            let step = receiver.on_asdu(&asdu, &Known::EVERYTHING).expect("a frame of the exchange");
            if let Progress::Complete(octets) = step.progress {
                file = octets;
            }
            to_provider.extend(step.send);
        } else if let Some(asdu) = to_provider.pop_front() {
            frames += 1;
            let mut step = provider.on_asdu(&asdu, &Known::EVERYTHING).expect("a frame of the exchange");
            if let Some(first) = step.send.first_mut()
                && first[0] == F_SG_NA_1
                && left[usize::from(first[NOS_AT])] > 0
            {
                left[usize::from(first[NOS_AT])] -= 1;
                first[PAYLOAD_AT] = first[PAYLOAD_AT].wrapping_add(1);
            }
            to_receiver.extend(step.send);
        } else {
            return (frames, file);
        }
    }
}

fn floor(case: &Case, store: &mut [u8]) -> u8 {
    // The store is as long as the file.
    unsafe {
        floor_transfer(case.file.as_ptr(), case.file.len(), store.as_mut_ptr(), case.section, SEGMENT, case.sendings())
    }
}

// Work whose result nobody reads is still to be done.
fn done<T>(result: T) {
    let _ = black_box(result);
}

fn nanoseconds(work: impl FnOnce()) -> f64 {
    let began = Instant::now();
    work();
    began.elapsed().as_secs_f64() * 1e9
}

fn median(times: &mut [f64]) -> f64 {
    times.sort_by(f64::total_cmp);
    times[times.len() / 2]
}

fn transfers(length: usize, damaged: bool, rounds: usize) {
    let case = Case::new(length, damaged);
    let mut store = vec![0; length];
    let frames = case.frames();
    assert_eq!(ours(&case, &mut store), frames, "as many frames as the theorem states");
    assert_eq!(store, case.file);
    let (theirs, file) = rust(&case);
    assert_eq!((theirs, &file), (frames, &case.file), "the Rust's frames and octets");
    // Short files are run several times in one measurement.
    let times = (200_000 / frames).max(1);
    let mut taken = [Vec::new(), Vec::new(), Vec::new()];
    for _ in 0..rounds {
        let repeat = |work: &mut dyn FnMut()| nanoseconds(|| (0..times).for_each(|_| work())) / times as f64;
        taken[0].push(repeat(&mut || done(ours(&case, &mut store))));
        taken[1].push(repeat(&mut || done(rust(&case))));
        taken[2].push(repeat(&mut || done(floor(&case, &mut store))));
    }
    // What a machine with a loaded neighbour could do without it.
    let fastest = taken[0].iter().copied().fold(f64::INFINITY, f64::min);
    let [mine, theirs, least] = taken.map(|mut times| median(&mut times));
    let a_frame = mine / frames as f64;
    println!(
        "| {length} | {} | {frames} | {a_frame:.1} | {:.1} | {:.1} | {:.2} | {:.1} | {:.2} |",
        if damaged { "each section once" } else { "none" },
        fastest / frames as f64,
        1e3 / a_frame,
        mine / theirs,
        least / frames as f64,
        mine / least,
    );
}

fn sums(length: usize, rounds: usize) {
    let octets = Case::new(length, false).file;
    let (at, n) = (octets.as_ptr(), octets.len());
    // Both read the n octets there.
    let (mine, least) = (|| unsafe { saqwinku_checksum(at, n, 0) }, || unsafe { floor_sum(at, n) });
    assert_eq!(mine(), least());
    let times = (20_000_000 / length).max(1);
    let mut taken = [Vec::new(), Vec::new()];
    for _ in 0..rounds {
        taken[0].push(nanoseconds(|| (0..times).for_each(|_| done(mine()))) / times as f64);
        taken[1].push(nanoseconds(|| (0..times).for_each(|_| done(least()))) / times as f64);
    }
    let [mine, least] = taken.map(|mut times| median(&mut times));
    println!(
        "| {length} | {:.2} | {:.2} | {:.2} |",
        mine / length as f64 * 1e3,
        least / length as f64 * 1e3,
        mine / least
    );
}

fn main() {
    let rounds: usize = std::env::args().nth(1).and_then(|word| word.parse().ok()).unwrap_or(21);
    println!(
        "| file, octets | damage | frames | ns a frame | the fastest round | million frames a second | to the Rust | floor, ns a frame | to the floor |"
    );
    println!("|---|---|---|---|---|---|---|---|---|");
    for length in [9_000, 1_000_000, 16_777_215] {
        for damaged in [false, true] {
            transfers(length, damaged, rounds);
        }
    }
    println!();
    println!("| octets summed | ps an octet | C, ps an octet | to C |");
    println!("|---|---|---|---|");
    for length in [236, 4_096, 1_000_000, 16_777_215] {
        sums(length, rounds);
    }
}
