//! Transfers between a Provider and a Receiver, frame by frame. What each sends is handed to the other, as the
//! Rust answered; now and then a frame is lost, sent twice, changed in a field, or comes where none is awaited,
//! and a record is started or made again.

use super::values::{cause, frame};
use super::{Case, ROLES, UNKNOWN, WIDTHS, broadcast, max_ioa, widths};
use crate::answer::Answer;
use crate::calls::{self, Kept};
use crate::random::Random;
use crate::show;
use crate::words::{Words, fill};
use std::collections::VecDeque;

// A frame on its way to the Provider or the Receiver.
#[derive(Clone)]
struct Passing {
    to: &'static str,
    text: String,
    beside: Vec<u8>,
}

pub struct Flow<'a> {
    pub random: &'a mut Random,
    pub case: Case,
    pub kept: Kept,
    way: VecDeque<Passing>,
    pub w: [u8; 3],
    pub ca: u64,
    pub ioa: u32,
    nof: u64,
    /// One frame in so many is changed.
    pub trouble: u64,
}

/// Octets as a call has them: counted on, where they are.
pub fn octets_words(octets: &[u8]) -> String {
    if let Some(first) = octets.first()
        && octets.len() > 3
        && fill(octets.len() as u64, *first, first.wrapping_sub(1)) == octets
    {
        return format!("fill {} {first} {}", octets.len(), first.wrapping_sub(1));
    }
    show::octets(octets)
}

pub fn beside_words(octets: &[u8]) -> String {
    if octets.is_empty() { String::new() } else { format!(" beside {}", octets_words(octets)) }
}

fn type_of(text: &str) -> u8 {
    match text.split(' ').next().unwrap_or("") {
        "file_ready" => 120,
        "section_ready" => 121,
        "sc" => 122,
        "last_section" => 123,
        "ack" => 124,
        "segment" => 125,
        "directory" => 126,
        _ => 127,
    }
}

// A length of a file: few octets mostly, and about the limits of segments and sections.
fn length(random: &mut Random) -> u64 {
    match random.below(12) {
        0 => 0,
        1 => *random.of(&[235, 236, 237, 239, 240, 241, 472, 473, 480, 481]),
        2 => *random.of(&[4095, 4096, 4097, 4100, 8191, 8192, 8193, 9216]),
        3 => random.below(9217),
        4..=6 => random.below(1000),
        _ => random.below(12),
    }
}

impl Flow<'_> {
    // Adds a call, and answers what the Rust says to it.
    pub fn call(&mut self, line: String) -> String {
        let answer = calls::answer(&mut self.kept, &line);
        self.case.call(line);
        match answer {
            Answer::Said(text) | Answer::Own(text) => text,
            _ => String::new(),
        }
    }

    fn send(&mut self, to: &'static str, text: &str, beside: Vec<u8>) {
        if !text.is_empty() {
            self.way.push_back(Passing { to, text: text.into(), beside });
        }
    }

    // The number at a place of a frame, or another one.
    fn changed(&mut self, text: &str) -> String {
        let mut words: Vec<String> = text.split(' ').map(String::from).collect();
        let fields = if type_of(text) == 127 { 2 } else { words.len() as u64 - 1 };
        let place = 1 + self.random.below(fields) as usize;
        let flag = place + 1 == words.len() && matches!(type_of(text), 120 | 121);
        let old: u64 = words[place].parse().unwrap_or(0);
        let limit = match place {
            1 => u64::from(max_ioa(self.w)),
            2 => 65535,
            3 if type_of(text) == 120 => 0x00FF_FFFF,
            _ => 255,
        };
        let new = match self.random.below(4) {
            _ if flag => 1 - old.min(1),
            0 => old.wrapping_sub(1).min(limit),
            1 => self.random.below(limit + 1),
            2 => self.random.below(8),
            _ => (old + 1).min(limit),
        };
        words[place] = new.to_string();
        words.join(" ")
    }

    // The header that goes with a frame.
    pub fn header(&mut self, text: &str) -> String {
        let originator = if self.w[0] == 2 { self.random.octet() } else { 0 };
        format!("{} {} 0 {originator} {} none", type_of(text), cause(text), self.ca)
    }

    // A header with a field changed.
    pub fn changed_header(&mut self, text: &str) -> String {
        let (kind, why) = (type_of(text), cause(text));
        let ca = self.ca;
        match self.random.below(6) {
            0 => format!("{} {why} 0 0 {ca} none", 119 + self.random.below(10)),
            1 => format!("{kind} {} 0 0 {ca} none", self.random.below(64)),
            2 => format!("{kind} {why} 1 0 {ca} none"),
            3 => format!("{kind} {} 1 0 {ca} none", 44 + self.random.below(4)),
            4 => format!("{kind} {why} 0 0 {} none", broadcast(self.w)),
            _ => format!("{kind} {why} 0 0 {ca} {}", self.random.of(&UNKNOWN)),
        }
    }

    // Hands a frame over, perhaps changed.
    fn pass(&mut self, passing: &Passing) {
        let Passing { to, text, beside } = passing.clone();
        if self.trouble == 0 || !self.random.once_in(self.trouble) {
            let header = self.header(&text);
            return self.hand(to, &header, &text, &beside);
        }
        match self.random.below(8) {
            0 => {}
            1 => {
                for _ in 0..2 {
                    let header = self.header(&text);
                    self.hand(to, &header, &text, &beside);
                }
            }
            2 => {
                let header = self.changed_header(&text);
                self.hand(to, &header, &text, &beside);
            }
            3 => {
                let header = self.header(&text);
                self.hand(to, &header, "undecodable", &[]);
            }
            4 if !beside.is_empty() => {
                let mut altered = beside.clone();
                let place = self.random.below(altered.len() as u64) as usize;
                altered[place] = altered[place].wrapping_add(1 + self.random.octet() / 2);
                let header = self.header(&text);
                self.hand(to, &header, &text, &altered);
            }
            5 => {
                let (_, other, along) = frame(self.random, self.w, 8);
                let mut words = Words::new(along.trim_start());
                let along = words.beside().unwrap_or_default();
                let header = self.header(&other);
                self.hand(to, &header, &other, &along);
            }
            _ => {
                let changed = self.changed(&text);
                let header = self.header(&changed);
                self.hand(to, &header, &changed, &beside);
            }
        }
    }

    fn hand(&mut self, to: &'static str, header: &str, text: &str, beside: &[u8]) {
        let answer = self.call(format!("{to} on_asdu {header} {text}{}", beside_words(beside)));
        if to == "provider" {
            if let Some(reply) = answer.strip_prefix("running ") {
                self.take_reply(&reply.to_string());
            }
        } else if let Some((_, sent)) = answer.split_once(": ") {
            self.send("provider", &sent.to_string(), Vec::new());
        }
        self.look(to);
    }

    // The frames of a reply, on their way to the Receiver.
    fn take_reply(&mut self, reply: &str) {
        let count: u64 = self.call(format!("provider reply_count {reply}")).parse().unwrap_or(0);
        for index in 0..count {
            let text = self.call(format!("provider reply_frame {reply} {index}"));
            let beside = if text.starts_with("segment") { self.payload(reply, index) } else { Vec::new() };
            self.send("receiver", &text, beside);
        }
    }

    fn payload(&mut self, reply: &str, index: u64) -> Vec<u8> {
        let part = self.call(format!("provider reply_payload {reply} {index}"));
        let found: Vec<usize> = part.split(' ').filter_map(|word| word.parse().ok()).collect();
        match found.as_slice() {
            [start, length] => self.kept.file.get(*start..*start + *length).unwrap_or_default().to_vec(),
            _ => Vec::new(),
        }
    }

    // Looks at a record now and then.
    fn look(&mut self, of: &str) {
        if !self.random.once_in(6) {
            return;
        }
        let line = match (of, self.random.below(5)) {
            ("provider", 0) => "provider announce",
            ("provider", _) => "provider show",
            (_, 0) => "receiver received",
            (_, 1) => "receiver length",
            (_, 2) => "receiver awaited",
            (_, 3) => "store octets 0 300",
            _ => "receiver show",
        };
        self.call(line.into());
    }

    fn begin(&mut self) {
        let answer = self.call("receiver start".into());
        if let Some((_, sent)) = answer.split_once(": ") {
            self.send("provider", &sent.to_string(), Vec::new());
        }
    }

    // Where nothing is on its way: another start, a record made again, an announcement, or a stray frame.
    fn stir(&mut self) {
        let (ioa, nof) = (self.ioa, self.nof);
        match self.random.below(6) {
            0 | 1 => self.begin(),
            2 => {
                self.call(format!("receiver new {ioa} {nof}"));
                self.begin();
            }
            3 => {
                self.call(format!("provider new {ioa} {nof}"));
                self.begin();
            }
            4 => {
                let offer = self.call("provider announce".into());
                if offer.starts_with("file_ready") {
                    self.send("receiver", &offer, Vec::new());
                }
            }
            _ => {
                let to = *self.random.of(&["provider", "receiver"]);
                let action = self.random.below(8);
                let text = format!("sc {ioa} {nof} {} {action} 0", self.random.below(4));
                self.send(to, &text, Vec::new());
            }
        }
    }
}

/// A flow about one file or directory, at random addresses and widths.
pub fn open<'a>(random: &'a mut Random, kind: &'static str, trouble: u64) -> Flow<'a> {
    let w = *random.of(&WIDTHS);
    let ca = 1 + random.below(u64::from(broadcast(w)) - 1);
    let ioa = random.below(u64::from(max_ioa(w)) + 1) as u32;
    let nof = random.below(65536);
    Flow { random, case: Case::new(kind), kept: Kept::default(), way: VecDeque::new(), w, ca, ioa, nof, trouble }
}

fn make(flow: &mut Flow) {
    let role = flow.random.below(2) as usize;
    let right = ["control", "monitor"][role];
    let selection = match flow.random.below(10) {
        0 => "both",
        1 if flow.trouble > 0 => ["monitor", "control"][role],
        _ => right,
    };
    let provides = match flow.random.below(20) {
        0 if flow.trouble > 0 => ["monitor", "control"][role],
        1 if flow.trouble > 0 => "none",
        2 => "both",
        _ => right,
    };
    let (w, ca, ioa, nof) = (widths(flow.w), flow.ca, flow.ioa, flow.nof);
    let count = length(flow.random);
    let first = flow.random.octet();
    let octets = if count <= 12 && flow.random.flag() {
        show::octets(&(0..count).map(|_| flow.random.octet()).collect::<Vec<u8>>())
    } else {
        format!("fill {count} {first} {}", first.wrapping_sub(1))
    };
    flow.call(format!("file is {octets}").trim_end().to_string());
    let room = (count + 8).max(64).min(9216);
    flow.call(format!("store is fill {room} {first} {first}"));
    flow.call(format!("station new {} {provides} {ca} 0 {w}", ROLES[role]));
    flow.call(format!("provider new {ioa} {nof}"));
    flow.call(format!("station new {} {selection} {ca} 0 {w}", ROLES[1 - role]));
    flow.call(format!("receiver new {ioa} {nof}"));
}

/// A transfer frame by frame.
pub fn flow(random: &mut Random) -> Case {
    let trouble = *random.of(&[0, 4, 10, 30]);
    let kind = if trouble == 0 { "transfers" } else { "flows with changed frames" };
    let mut flow = open(random, kind, trouble);
    make(&mut flow);
    flow.begin();
    let mut left = 150;
    let mut after = 6;
    while left > 0 {
        left -= 1;
        match flow.way.pop_front() {
            Some(passing) => flow.pass(&passing),
            None if after == 0 => break,
            None => {
                after -= 1;
                flow.stir();
            }
        }
    }
    for line in ["provider show", "receiver show", "receiver received", "store sum", "store octets 0 64"] {
        flow.call(line.into());
    }
    flow.case
}

/// Whole runs with damage, and up to a budget.
pub fn run(random: &mut Random) -> Case {
    let mut flow = open(random, "runs with damage", 0);
    let count = length(flow.random);
    let first = flow.random.octet();
    let sections = count.div_ceil(4096);
    let damage: Vec<u8> = if sections == 0 {
        Vec::new()
    } else {
        (0..flow.random.below(5)).map(|_| 1 + flow.random.below(sections) as u8).collect()
    };
    let settings = {
        let (w, ca, ioa, nof) = (widths(flow.w), flow.ca, flow.ioa, flow.nof);
        format!("{w} {ca} {ioa} {nof} {}", flow.random.of(&ROLES))
    };
    flow.call(format!("file is fill {count} {first} {}", first.wrapping_sub(1)));
    flow.call(format!("damage is {}", show::octets(&damage)).trim_end().to_string());
    let store = format!("store is fill {} 7 7", (count + 3).min(9216));
    for budget in [65535, flow.random.below(60), flow.random.below(12)] {
        flow.call(store.clone());
        flow.call(format!("run {budget} {settings}"));
        flow.call("store octets 0 40".into());
        flow.call("store sum".into());
    }
    flow.call(store);
    flow.call(format!("party new {settings}"));
    for _ in 0..8 {
        flow.call("party next_frame".into());
        flow.call("party step".into());
    }
    let passed = flow.random.below(20);
    flow.call(format!("party pass {passed}"));
    flow.call("party lines 65535".into());
    flow.call("party next_frame".into());
    flow.call("store sum".into());
    flow.case
}
