//! A directory's pages, and its call: tables, and calls whose pages are handed over as the Rust makes them. Now and
//! then one is lost, comes again or at another address, has the last-file flag anywhere, comes before the start or
//! after the end, or stands under a changed header; and the call is started or made again.

use super::flows::{Flow, open};
use super::values::{cause, frame, packed};
use super::{Case, ROLES, SELECTIONS, UNKNOWN, WIDTHS, max_ioa, widths};
use crate::directories;
use crate::random::Random;
use crate::show;

const ENTRY: usize = 13;

// ---- Tables: the pager

/// About the last address of one, two, three and four octets: a page of 18, and two of them, end there.
const FIRST: [u32; 30] = [
    0,
    1,
    100,
    219,
    220,
    237,
    238,
    239,
    254,
    255,
    256,
    65_499,
    65_517,
    65_518,
    65_535,
    65_536,
    16_777_179,
    16_777_197,
    16_777_198,
    16_777_215,
    16_777_216,
    4_294_967_258,
    4_294_967_259,
    4_294_967_260,
    4_294_967_276,
    4_294_967_277,
    4_294_967_278,
    4_294_967_279,
    4_294_967_294,
    4_294_967_295,
];

/// How many entries: about one page, two and three, and as many as a list can lend.
const ENTRIES: [u64; 16] = [0, 1, 2, 17, 18, 19, 35, 36, 37, 53, 54, 55, 90, 91, 707, 708];

/// As many entries as a list has.
pub const MOST_LISTED: u64 = 37;

// Every page of so many entries at every address, and entries about its ends. They count from 0 to 13 and again,
// so that no two neighbours are alike; no reserved bit is set.
fn every_page(take: &mut dyn FnMut(Case), count: u64, w: [u8; 3]) {
    let mut case = Case::new("directory: pages");
    case.call(format!("station new controlled monitor 1 0 {}", widths(w)));
    case.call(format!("file is fill {} 0 13", 13 * count));
    case.call("pager pages");
    let pages = count.div_ceil(18);
    for page in 0..=pages {
        for first in FIRST {
            case.call(format!("pager page {first} {page}"));
        }
        for index in [0, 1, 16, 17, 18] {
            case.call(format!("pager entry {page} {index}"));
        }
    }
    take(case);
}

// Every status of file, in an entry that is the last of all and in one that is not.
fn every_status(take: &mut dyn FnMut(Case)) {
    let mut case = Case::new("directory: pages");
    for status in 0..=255 {
        let entry = |sof: u8| format!("7 0 200 0 0 {sof} 1 2 3 4 5 6 7");
        case.call(format!("file is {} {} {}", entry(status), entry(!status), entry(status)));
        for index in 0..=3 {
            case.call(format!("pager entry 0 {index}"));
        }
    }
    take(case);
}

// The same over a lent list of entries, as many as the test program can lend.
fn over_lists(take: &mut dyn FnMut(Case)) {
    let mut listed = |mut case: Case| {
        case.kind = "directory: pages over a list";
        for call in &mut case.calls {
            *call = call.replace("pager ", "pager_list ");
        }
        take(case);
    };
    for count in ENTRIES.into_iter().filter(|&count| count <= MOST_LISTED) {
        every_page(&mut listed, count, [2, 2, 3]);
    }
    every_status(&mut listed);
}

pub fn pages(take: &mut dyn FnMut(Case)) {
    for count in ENTRIES {
        every_page(take, count, [2, 2, 3]);
    }
    for w in WIDTHS.into_iter().skip(1) {
        for count in [1, 18, 19, 37] {
            every_page(take, count, w);
        }
    }
    every_status(take);
    over_lists(take);
}

// ---- Tables: the call

// An entry's octets by its number, with or without the last-file flag.
fn numbered(number: usize, last: bool) -> Vec<u8> {
    let sof = (number % 32) as u8 + if last { 32 } else { 0 };
    vec![number as u8, 1, 2, 3, 4, sof, 6, 7, 60, 9, 10, 11, 12]
}

// A page of so many entries, the flag in one of them or in none.
fn page_words(ioa: u32, cause: u8, count: usize, flag: Option<usize>) -> String {
    let octets: Vec<u8> = (0..count).flat_map(|number| numbered(number, flag == Some(number))).collect();
    format!("directory {ioa} {cause} beside {}", show::octets(&octets))
}

// Every number of entries, the flag in each of them or in none, behind one entry that is held. The store has room for
// just these.
fn every_flag(take: &mut dyn FnMut(Case), role: &str, selection: &str, w: [u8; 3]) {
    for count in 1..=18 {
        let mut case = Case::new("directory: call");
        case.call(format!("station new {role} {selection} 1 0 {}", widths(w)));
        for flag in (0..count).map(Some).chain([None]) {
            case.call(format!("store is fill {} 170 170", 17 * (count + 1)));
            case.call("call new");
            case.call("call start 100");
            case.call(format!("call on_asdu 126 5 0 0 1 none {}", page_words(1, 5, 1, None)));
            case.call(format!("call on_asdu 126 5 0 0 1 none {}", page_words(200, 5, count, flag)));
            case.call("call show");
            case.call("store octets 0 340");
        }
        take(case);
    }
}

// A page at each limit of an address' octets; its later entries may pass the width.
fn every_address(take: &mut dyn FnMut(Case), role: &str, selection: &str, w: [u8; 3]) {
    let mut case = Case::new("directory: call");
    case.call(format!("station new {role} {selection} 1 0 {}", widths(w)));
    let last = max_ioa(w);
    for ioa in FIRST.into_iter().filter(|ioa| *ioa <= last).chain([last - 1, last]) {
        case.call(format!("store is fill {} 170 170", 17 * 4));
        case.call("call new");
        case.call(format!("call start {ioa}"));
        case.call(format!("call on_asdu 126 3 0 0 1 none {}", page_words(ioa, 3, 3, Some(2))));
        case.call("call show");
        case.call("store octets 0 68");
    }
    take(case);
}

// A call in each of its states: made, started, with an entry held, done, done and started again.
fn every_state(take: &mut dyn FnMut(Case), role: &str, selection: &str, w: [u8; 3], header: &str, text: &str) {
    let mut case = Case::new("directory: call");
    case.call(format!("station new {role} {selection} 1 0 {}", widths(w)));
    case.call("store is fill 102 170 170");
    case.call("call new");
    let came = format!("call on_asdu {header} {text}");
    let steps = [
        "call start 100",
        &format!("call on_asdu 126 5 0 0 1 none {}", page_words(100, 5, 1, None)),
        &format!("call on_asdu 126 5 0 0 1 none {}", page_words(101, 5, 1, Some(0))),
        "call start 90",
    ];
    for step in [""].iter().chain(&steps) {
        if !step.is_empty() {
            case.call(*step);
        }
        case.call(came.clone());
        case.call("call show");
        case.call("store octets 0 102");
    }
    take(case);
}

// Headers of every type about the file transfer's, mirrors, broadcast and every field unknown.
fn headers(w: [u8; 3]) -> Vec<String> {
    let mut all = Vec::new();
    for kind in 119..=128 {
        for (cause, negative) in [(5, 0), (13, 0), (3, 1), (44, 1), (45, 1), (46, 1), (47, 1), (44, 0)] {
            all.push(format!("{kind} {cause} {negative} 0 1 none"));
        }
    }
    for unknown in UNKNOWN {
        all.push(format!("126 5 0 0 {} {unknown}", super::broadcast(w)));
        all.push(format!("126 5 1 0 2 {unknown}"));
        all.push(format!("126 3 0 0 0 {unknown}"));
    }
    all
}

fn every_header(take: &mut dyn FnMut(Case), role: &str, selection: &str, w: [u8; 3]) {
    for header in headers(w) {
        let kind: u8 = header.split(' ').next().and_then(|word| word.parse().ok()).unwrap_or(0);
        let (text, beside) = super::tables::frame_of(kind);
        every_state(take, role, selection, w, &header, &format!("{text}{beside}"));
        every_state(take, role, selection, w, &header, "undecodable");
    }
}

pub fn call(take: &mut dyn FnMut(Case)) {
    every_flag(take, "controlling", "monitor", [2, 2, 3]);
    every_flag(take, "controlled", "control", [1, 1, 1]);
    for w in WIDTHS {
        every_address(take, "controlling", "monitor", w);
        every_address(take, "controlled", "both", w);
    }
    for role in ROLES {
        for selection in SELECTIONS {
            every_header(take, role, selection, [2, 2, 3]);
            for w in WIDTHS {
                let page = page_words(max_ioa(w), 5, 1, Some(0));
                every_state(take, role, selection, w, "126 5 0 0 1 none", &page);
            }
        }
    }
}

// ---- Random entries

// Packed entries; one directory in sixteen has entries with a reserved bit now and then.
fn table(random: &mut Random, count: u64) -> Vec<u8> {
    let any = random.once_in(16);
    let mut octets: Vec<u8> = (0..count).flat_map(|_| packed(random)).collect();
    for entry in octets.chunks_exact_mut(ENTRY).filter(|_| !any) {
        entry[9] &= 0x9F;
        entry[11] &= 0x0F;
        entry[12] &= 0x7F;
    }
    octets
}

// How many entries: few mostly, or about full pages.
fn count(random: &mut Random, most: u64) -> u64 {
    match random.below(6) {
        0 => *random.of(&[0, 1, 17, 18, 19, 35, 36, 37, 54, 55]),
        1 => random.below(most),
        _ => random.below(22),
    }
}

// An address, near a limit mostly.
fn address(random: &mut Random, last: u64) -> u64 {
    let limit = *random.of(&[1 << 8, 1 << 16, 1 << 24, 1 << 32]);
    match random.below(4) {
        0 => random.below(last + 1),
        1 => last - random.below(60),
        _ => (limit - 60 + random.below(80)).min(last),
    }
}

/// A directory of random entries, page by page.
pub fn paged(random: &mut Random) -> Case {
    let mut case = Case::new("directory: pages, random");
    let w = *random.of(&WIDTHS);
    case.call(format!("station new {} {} 1 0 {}", random.of(&ROLES), random.of(&SELECTIONS), widths(w)));
    let count = count(random, 120);
    case.call(format!("file is {}", show::octets(&table(random, count))).trim_end().to_string());
    case.call("pager pages");
    let pages = count.div_ceil(18);
    for page in 0..pages + random.below(2) {
        for _ in 0..4 {
            case.call(format!("pager page {} {page}", address(random, 0xFFFF_FFFF)));
        }
        let last = count.saturating_sub(18 * page).clamp(1, 18) - 1;
        for index in [0, random.below(last + 1), random.below(last + 1), last.saturating_sub(1), last] {
            case.call(format!("pager entry {page} {index}"));
        }
        if random.once_in(4) {
            case.call(format!("pager entry {page} {}", last + 1));
        }
    }
    case
}

// ---- Random calls

struct Pages {
    /// The frames of a directory, as the Rust makes them.
    all: Vec<String>,
    next: usize,
}

// A page of random entries: the flag is where it falls, or nowhere.
fn random_page(flow: &mut Flow) -> String {
    let count = if flow.random.flag() { 1 + flow.random.below(3) } else { 1 + flow.random.below(18) };
    let mut octets = table(flow.random, count);
    if flow.random.once_in(3) {
        octets.chunks_exact_mut(ENTRY).for_each(|entry| entry[5] &= 0xDF);
    }
    let ioa = address(flow.random, u64::from(max_ioa(flow.w)));
    let cause = *flow.random.of(&[3, 5]);
    format!("directory {ioa} {cause} beside {}", show::octets(&octets))
}

impl Pages {
    fn of(flow: &mut Flow) -> Self {
        let count = count(flow.random, 90);
        let octets = table(flow.random, count);
        let ioa = flow.ioa;
        let frames = directories::pages(flow.kept.station, ioa, &octets).unwrap_or_default();
        Self { all: frames.iter().map(show_page).collect(), next: 0 }
    }

    fn take(&mut self, flow: &mut Flow) -> String {
        let found = self.all.get(self.next).cloned();
        self.next += 1;
        found.unwrap_or_else(|| random_page(flow))
    }
}

// A page as a call has it.
fn show_page(frame: &iec104::ft::Frame) -> String {
    let (_, files) = directories::page(frame);
    let octets: Vec<u8> = files.iter().flat_map(crate::values::packed).collect();
    format!("{} beside {}", show::frame(frame), show::octets(&octets))
}

// The frame of a call, without what stands beside it.
fn front(text: &str) -> &str {
    text.split_once(" beside").map_or(text, |(front, _)| front)
}

// Another address or cause, or an octet of the entries.
fn changed(flow: &mut Flow, text: &str) -> String {
    let mut words: Vec<String> = text.split(' ').map(String::from).collect();
    match flow.random.below(3) {
        0 => words[1] = address(flow.random, u64::from(max_ioa(flow.w))).to_string(),
        1 => words[2] = flow.random.below(64).to_string(),
        _ => {
            let place = 4 + flow.random.below(words.len() as u64 - 4) as usize;
            words[place] = flow.random.octet().to_string();
        }
    }
    words.join(" ")
}

fn hand(flow: &mut Flow, header: &str, text: &str) {
    flow.call(format!("call on_asdu {header} {text}"));
    look(flow);
}

// Hands a page over as it is.
fn sound(flow: &mut Flow, text: &str) {
    let header = flow.header(front(text));
    hand(flow, &header, text);
}

// Hands a page over in one of the ways in which it is not the next one, and sound.
fn troubled(flow: &mut Flow, text: &str) {
    match flow.random.below(7) {
        0 => {}
        1 => {
            sound(flow, text);
            sound(flow, text);
        }
        2 => {
            let header = flow.changed_header(front(text));
            hand(flow, &header, text);
        }
        3 => {
            let header = flow.header(front(text));
            hand(flow, &header, "undecodable");
        }
        4 => {
            let (_, other, beside) = frame(flow.random, flow.w, 8);
            let header = flow.header(&other);
            hand(flow, &header, &format!("{other}{beside}"));
        }
        5 => {
            let page = random_page(flow);
            sound(flow, &page);
        }
        _ => {
            let other = changed(flow, text);
            let why = if flow.random.flag() { cause(front(&other)) } else { cause(front(text)) };
            let header = format!("126 {why} 0 0 {} none", flow.ca);
            hand(flow, &header, &other);
        }
    }
}

// Looks at the record and the store now and then.
fn look(flow: &mut Flow) {
    if !flow.random.once_in(3) {
        return;
    }
    let line = match flow.random.below(5) {
        0 => "call agrees".into(),
        1 => "store sum".into(),
        2 => format!("store octets {} 400", flow.random.below(500)),
        _ => "call show".into(),
    };
    flow.call(line);
}

fn start(flow: &mut Flow) {
    let ioa =
        if flow.random.once_in(6) { address(flow.random, u64::from(max_ioa(flow.w))) } else { u64::from(flow.ioa) };
    flow.call(format!("call start {ioa}"));
}

// A station that uses the direction in which a directory comes to it, mostly.
fn make(flow: &mut Flow) {
    let role = flow.random.below(2) as usize;
    let selection = match flow.random.below(10) {
        0 if flow.trouble > 0 => flow.random.of(&SELECTIONS),
        1 => "both",
        _ => ["monitor", "control"][role],
    };
    let (ca, w) = (flow.ca, widths(flow.w));
    let org = if flow.w[0] == 2 { flow.random.octet() } else { 0 };
    let room = flow.random.of(&[0, 17, 300, 2000, 9000]) + flow.random.below(216);
    flow.call(format!("station new {} {selection} {ca} {org} {w}", ROLES[role]));
    flow.call(format!("store is fill {room} 170 170"));
    flow.call("call new".into());
}

// Where the directory is over: another start, a call made again, or a stray page.
fn again(flow: &mut Flow, pages: &mut Pages) {
    match flow.random.below(4) {
        0 => start(flow),
        1 => {
            flow.call("store is fill 9216 7 7".into());
            flow.call("call new".into());
            start(flow);
        }
        _ => {
            let page = random_page(flow);
            sound(flow, &page);
        }
    }
    if flow.random.flag() {
        pages.next = 0;
    }
}

/// A call of a directory, page by page.
pub fn called(random: &mut Random) -> Case {
    let trouble = *random.of(&[0, 2, 3, 8]);
    let kind = if trouble == 0 { "directory: calls" } else { "directory: calls with changed frames" };
    let mut flow = open(random, kind, trouble);
    make(&mut flow);
    let mut pages = Pages::of(&mut flow);
    if flow.trouble > 0 && flow.random.once_in(3) {
        let page = random_page(&mut flow);
        sound(&mut flow, &page);
    }
    start(&mut flow);
    for _ in 0..12 {
        if pages.next > pages.all.len() {
            again(&mut flow, &mut pages);
        }
        let text = pages.take(&mut flow);
        if flow.trouble > 0 && flow.random.once_in(flow.trouble) {
            troubled(&mut flow, &text);
        } else {
            sound(&mut flow, &text);
        }
    }
    for line in ["call show", "store sum", "store octets 0 1000"] {
        flow.call(line.into());
    }
    flow.case
}
