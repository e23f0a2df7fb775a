//! The Rust's Provider and Receiver, as the calls that begin with `provider` and `receiver` ask them.
//!
//! The Rust owns its file and its octets; replay lends a file and a store. So the oracle keeps a store beside
//! the Receiver and writes each accepted segment where document 01 has it, behind the octets already held; what
//! the Rust then gives away, or shows in its record, is held against that store.

use crate::answer::{ADDRESS, Answer, INDEX, OURS, RECORD, STORE, own, refused, said};
use crate::calls::Kept;
use crate::show;
use crate::stations::{self, Arrival, Sort, admitted, arrival, in_order, refusal, sent_back};
use crate::words::Words;
use iec104::asdu::{AddressSizes, Afq, Known, Nof, Nos, Scq};
use iec104::ft::provide::Provider;
use iec104::ft::receive::{Failure, Progress, Receiver, Step};
use iec104::ft::{
    FileTransferProcedure, Frame, FtError, Reaction, Role, Selection, decode_frame_with, encode_frame,
    encode_frame_with,
};
use std::collections::HashMap;

// ---- What both have

// The frame of sent octets. The Rust reads what it wrote.
pub fn sent_frame(octets: &[u8], sizes: AddressSizes) -> Frame {
    decode_frame_with(octets, sizes).expect("the Rust reads the frame that it sends")
}

fn sent_frames(send: &[Vec<u8>], sizes: AddressSizes) -> Vec<Frame> {
    send.iter().map(|octets| sent_frame(octets, sizes)).collect()
}

// A part of a record as the Rust prints it: what stands between two of its fields.
pub fn between<'a>(record: &'a str, from: &str, to: &str) -> &'a str {
    let behind = record.rsplit_once(from).map_or("", |(_, behind)| behind);
    behind.split_once(to).map_or(behind, |(part, _)| part)
}

// The numbers in a part of a record, in their order.
fn numbers(part: &str) -> Vec<u64> {
    part.split(|c: char| !c.is_ascii_digit()).filter_map(|word| word.parse().ok()).collect()
}

// Whether admission takes the octets for the frame of the call, or why the call is outside.
pub fn is_outside(station: FileTransferProcedure, came: &Arrival) -> Option<Answer> {
    match admitted(&came.sort, station.on_asdu(&came.octets, &came.known)) {
        outside @ Answer::Outside(_) => Some(outside),
        _ => None,
    }
}

/// The same where the Rust agrees; else as docs/DIFFERENCES.md has it.
pub fn differing(rust: String, ours: String, why: &'static str) -> Answer {
    if rust == ours { said(rust) } else { Answer::Differs { rust, ours, why } }
}

// ---- The Provider

pub struct Served {
    provider: Provider,
    station: FileTransferProcedure,
    ioa: u32,
    nof: Nof,
    length: usize,
    section_len: usize,
    unmatched: u32,
    done: bool,
    replies: HashMap<String, Vec<Frame>>,
}

/// The section length in a Provider's record, as the Rust prints it.
pub fn section_len(provider: &Provider) -> usize {
    let record = format!("{provider:?}");
    between(&record, "section_len: ", ",").parse().expect("a section length")
}

/// The name of what a Provider sends.
pub fn reply_name(frames: &[Frame]) -> String {
    match frames {
        [] => "nothing".into(),
        [Frame::FileReady { .. }] => "file_ready".into(),
        [Frame::SectionReady { nos, .. }] => format!("section_ready {}", nos.value),
        [Frame::LastSection { nos, lsq, .. }] if lsq.value == 1 => format!("file_close {}", nos.value),
        [.., Frame::LastSection { nos, .. }] => format!("section {}", nos.value),
        _ => "unnamed".into(),
    }
}

fn new_provider(kept: &mut Kept, words: &mut Words) -> Option<Answer> {
    let (ioa, nof) = (words.u32()?, words.nof()?);
    let Some(station) = kept.station else {
        return Some(RECORD);
    };
    if ioa > station.address_sizes().max_ioa() {
        return Some(ADDRESS);
    }
    let Some(provider) = Provider::new(station, ioa, nof, kept.file.clone()) else {
        return Some(refused(1));
    };
    kept.provider = Some(Served {
        section_len: section_len(&provider),
        provider,
        station,
        ioa,
        nof,
        length: kept.file.len(),
        unmatched: 0,
        done: false,
        replies: HashMap::new(),
    });
    Some(own("made"))
}

impl Served {
    // Added by document 01: a request of another object address or file is counted.
    fn count(&mut self, came: &Arrival) {
        let Ok(outcome) = self.station.on_asdu(&came.octets, &came.known) else {
            return;
        };
        if let Reaction::Requested { frame } = outcome.reaction {
            let nof = match frame {
                Frame::Sc { nof, .. } | Frame::Ack { nof, .. } | Frame::QueryLog { nof, .. } => nof,
                _ => self.nof,
            };
            if frame.ioa() != self.ioa || nof != self.nof {
                self.unmatched = self.unmatched.saturating_add(1);
            }
        }
    }

    fn stepped(&mut self, step: Step<()>) -> Answer {
        self.done = self.done || step.progress != Progress::Running;
        match step.progress {
            Progress::Running => {
                let frames = sent_frames(&step.send, self.station.address_sizes());
                let name = reply_name(&frames);
                self.replies.insert(name.clone(), frames);
                said(format!("running {name}"))
            }
            Progress::Complete(()) => said("complete"),
            Progress::Failed(Failure::Deactivated { scq }) => said(format!("deactivated {} {}", scq.action, scq.error)),
            Progress::Failed(Failure::FileRejected { afq }) => {
                said(format!("file_rejected {} {}", afq.action, afq.error))
            }
            Progress::Failed(Failure::Refused { cause }) => said(sent_back(cause, !step.send.is_empty())),
            Progress::Failed(_) => said("a failure of the other side"),
        }
    }

    fn on_asdu(&mut self, came: &Arrival) -> Answer {
        if !self.done {
            if let Some(outside) = is_outside(self.station, came) {
                return outside;
            }
            self.count(came);
        }
        match self.provider.on_asdu(&came.octets, &came.known) {
            Ok(step) => self.stepped(step),
            Err(error) => refusal(&came.sort, &error),
        }
    }

    // The frames of a reply: those that were sent, or what a new Provider of the same file sends to the request
    // that has this reply.
    fn reply(&mut self, name: &str, file: &[u8]) -> Option<Vec<Frame>> {
        if name == "nothing" {
            return Some(Vec::new());
        }
        if !self.replies.contains_key(name) {
            let frames = self.asked_for(name, file)?;
            if reply_name(&frames) != name {
                return None;
            }
            self.replies.insert(name.into(), frames);
        }
        self.replies.get(name).cloned()
    }

    fn asked_for(&self, name: &str, file: &[u8]) -> Option<Vec<Frame>> {
        let (ca, org) = self.station.addressing();
        let sizes = self.station.address_sizes();
        let station = match self.station.role() {
            Role::Controlling => FileTransferProcedure::controlling(Selection::BOTH, ca, org),
            Role::Controlled => FileTransferProcedure::controlled(Selection::BOTH, ca, org),
        };
        let mut provider = Provider::new(station.with_address_sizes(sizes), self.ioa, self.nof, file.to_vec())?;
        let request = self.request_for(name)?;
        let octets = encode_frame_with(ca, org, &request, sizes).ok()?;
        let step = provider.on_asdu(&octets, &Known::EVERYTHING).ok()?;
        Some(sent_frames(&step.send, sizes))
    }

    fn request_for(&self, name: &str) -> Option<Frame> {
        let (kind, section) = name.split_once(' ').unwrap_or((name, "0"));
        let (ioa, nof, nos) = (self.ioa, self.nof, Nos { value: section.parse().ok()? });
        let call = |action| Frame::Sc { ioa, nof, nos, scq: Scq { action, error: 0 } };
        match kind {
            "file_ready" => Some(call(Scq::SELECT_FILE)),
            "section_ready" => Some(call(Scq::SELECT_SECTION)),
            "section" => Some(call(Scq::REQUEST_SECTION)),
            _ => Some(Frame::Ack { ioa, nof, nos, afq: Afq { action: Afq::SECTION_POSITIVE, error: 0 } }),
        }
    }

    // Where a segment's octets stand in the file.
    fn part(&self, frames: &[Frame], index: usize, file: &[u8]) -> Answer {
        let Some(Frame::Segment { segment, .. }) = frames.get(index) else {
            return said("0 0");
        };
        let before: usize = frames.iter().take(index).map(payload_len).sum();
        let start = (usize::from(segment.nos.value) - 1) * self.section_len + before;
        let length = segment.payload.len();
        assert_eq!(file.get(start..start + length), Some(segment.payload()), "a segment is a part of the file");
        said(format!("{start} {length}"))
    }

    fn shown(&self) -> Answer {
        let record = format!("{:?}", self.provider);
        assert_eq!(between(&record, "done: ", " "), self.done.to_string(), "done as the answers say");
        let station = stations::shown(self.station);
        let (ioa, nof, done) = (self.ioa, self.nof.value, u8::from(self.done));
        let front =
            format!("station {station} ioa {ioa} nof {nof} length {} section_len {}", self.length, self.section_len);
        Answer::Differs {
            rust: format!("{front} done {done}"),
            ours: format!("{front} unmatched {} done {done}", self.unmatched),
            why: "requests for another object address or file are counted",
        }
    }
}

fn payload_len(frame: &Frame) -> usize {
    match frame {
        Frame::Segment { segment, .. } => segment.payload.len(),
        _ => 0,
    }
}

// REPLY, as one word or two.
fn reply_words(words: &mut Words) -> Option<String> {
    let kind = words.word()?;
    match kind {
        "nothing" | "file_ready" => Some(kind.into()),
        "section_ready" | "section" | "file_close" => Some(format!("{kind} {}", words.u8()?)),
        _ => None,
    }
}

fn of_reply(served: &mut Served, what: &str, words: &mut Words, file: &[u8]) -> Option<Answer> {
    let name = reply_words(words)?;
    let Some(frames) = served.reply(&name, file) else {
        return Some(Answer::Outside("a reply that the Rust does not send"));
    };
    if what == "reply_count" {
        return Some(said(frames.len().to_string()));
    }
    let index = usize::try_from(words.u64()?).unwrap_or(usize::MAX);
    let Some(frame) = frames.get(index) else {
        return Some(INDEX);
    };
    Some(match what {
        "reply_frame" => said(show::frame(frame)),
        _ => served.part(&frames, index, file),
    })
}

fn part_of_file(words: &mut Words, file: &[u8]) -> Option<Answer> {
    let (start, length) = (usize::try_from(words.u64()?).ok()?, usize::try_from(words.u64()?).ok()?);
    let part = start.checked_add(length).and_then(|end| file.get(start..end));
    Some(part.map_or(OURS, |octets| own(show::octets(octets))))
}

fn announced(served: &Served) -> Answer {
    match served.provider.announce() {
        Ok(octets) => said(show::frame(&sent_frame(&octets, served.station.address_sizes()))),
        Err(error) => refusal(&Sort::Unsaid, &error),
    }
}

pub fn of_provider(kept: &mut Kept, words: &mut Words, line: &str) -> Option<Answer> {
    let what = words.word()?;
    match what {
        "new" => return new_provider(kept, words),
        "set" => kept.provider = None,
        _ => {}
    }
    let Some(served) = &mut kept.provider else {
        return Some(RECORD);
    };
    match what {
        "on_asdu" => Some(match arrival(words, line, served.station.address_sizes())?.0 {
            Ok(came) => in_order(&came, served.on_asdu(&came)),
            Err(outside) => outside,
        }),
        "announce" => Some(announced(served)),
        "file" => Some(said(format!("{} {}", served.provider.file().0, served.provider.file().1.value))),
        "show" => Some(served.shown()),
        "part" => part_of_file(words, &kept.file),
        "reply_count" | "reply_frame" | "reply_payload" => of_reply(served, what, words, &kept.file),
        _ => Some(OURS),
    }
}

// ---- The Receiver

#[derive(Clone)]
pub struct Taken {
    receiver: Receiver,
    station: FileTransferProcedure,
    ioa: u32,
    nof: Nof,
    /// The accepted octets.
    kept: usize,
    done: bool,
    /// Whether a file close has ended it.
    closed: bool,
}

const CLOSED: &str = "after a file close the accepted count stays and the section under way is 0";

// A Receiver's record, as the Rust prints it.
struct Record {
    sent: String,
    length: String,
    file: Vec<u8>,
    section: Vec<u8>,
    done: bool,
}

fn octets_in(part: &str) -> Vec<u8> {
    numbers(part).into_iter().filter_map(|n| u8::try_from(n).ok()).collect()
}

// What was sent, as `receiver show` has it.
fn sent_words(part: &str) -> String {
    let found = numbers(part);
    let (Some(nos), Some(action)) = (found.get(2), found.get(3)) else {
        return "nothing".into();
    };
    let kind = if part.starts_with("Some(Sc") { "request" } else { "acknowledgement" };
    format!("{kind} {action} {nos}")
}

impl Record {
    fn of(receiver: &Receiver) -> Self {
        let text = format!("{receiver:?}");
        let length = numbers(between(&text, ", length: ", ", file"));
        Self {
            sent: sent_words(between(&text, ", sent: ", ", length")),
            length: length.first().map_or("unknown".into(), |n| format!("known {n}")),
            file: octets_in(between(&text, ", file: [", "]")),
            section: octets_in(between(&text, ", section: [", "]")),
            done: between(&text, "done: ", " ") == "true",
        }
    }
}

impl Taken {
    pub fn new(station: FileTransferProcedure, ioa: u32, nof: Nof) -> Self {
        Self { receiver: Receiver::new(station, ioa, nof), station, ioa, nof, kept: 0, done: false, closed: false }
    }

    pub fn holds_octets(&self) -> bool {
        self.kept > 0 || self.receiver.received() > 0
    }

    fn held(&self) -> usize {
        if self.closed { self.kept } else { self.receiver.received() }
    }

    pub fn start(&mut self) -> Result<Vec<u8>, FtError> {
        self.receiver.start()
    }

    /// Takes octets that came, and writes a segment's where the store has room for it. None where it has not.
    pub fn take(&mut self, octets: &[u8], known: &Known, store: &mut [u8]) -> Option<Result<Step<Vec<u8>>, FtError>> {
        let place = self.receiver.received();
        let mut receiver = self.receiver.clone();
        let result = receiver.on_asdu(octets, known);
        if receiver.received() > place {
            let Ok(Frame::Segment { segment, .. }) = decode_frame_with(octets, self.station.address_sizes()) else {
                panic!("only a segment brings octets");
            };
            store.get_mut(place..place + segment.payload.len())?.copy_from_slice(&segment.payload);
        }
        self.receiver = receiver;
        if let Ok(step) = &result {
            self.note(step, store);
        }
        Some(result)
    }

    // Notes what a step did to the accepted octets.
    fn note(&mut self, step: &Step<Vec<u8>>, store: &[u8]) {
        self.done = self.done || step.progress != Progress::Running;
        match &step.progress {
            Progress::Running => {
                let accepts = step.send.first().is_some_and(|octets| {
                    matches!(sent_frame(octets, self.station.address_sizes()),
                        Frame::Ack { afq, .. } if afq.action == Afq::SECTION_POSITIVE)
                });
                if accepts {
                    self.kept = self.receiver.received();
                }
            }
            Progress::Complete(file) => {
                assert_eq!(
                    store.get(..self.kept),
                    Some(file.as_slice()),
                    "the file given away is what the store holds"
                );
                self.closed = true;
            }
            Progress::Failed(Failure::FileChecksum { .. }) => self.closed = true,
            Progress::Failed(_) => {}
        }
    }

    // The answer to a step, with the frame that is sent behind it.
    fn stepped(&self, step: &Step<Vec<u8>>) -> Answer {
        let sizes = self.station.address_sizes();
        if let Progress::Failed(Failure::Refused { cause }) = &step.progress {
            return said(sent_back(*cause, !step.send.is_empty()));
        }
        let behind = match step.send.as_slice() {
            [] => String::new(),
            [octets] => format!(": {}", show::frame(&sent_frame(octets, sizes))),
            _ => ": more than one frame".into(),
        };
        let word = match &step.progress {
            Progress::Running if step.send.is_empty() => "running".into(),
            Progress::Running => "send".into(),
            Progress::Complete(file) => format!("complete {}", file.len()),
            Progress::Failed(Failure::FileNotReady { frq }) => {
                format!("file_not_ready {} {}", frq.value, u8::from(frq.negative_confirm))
            }
            Progress::Failed(Failure::SectionNotReady { nos, srq }) => {
                format!("section_not_ready {} {} {}", nos.value, srq.value, u8::from(srq.not_ready))
            }
            Progress::Failed(Failure::FileChecksum { expected, got }) => {
                format!("file_checksum {} {}", expected.value, got.value)
            }
            Progress::Failed(Failure::UnknownLsq(lsq)) => format!("unknown_lsq {}", lsq.value),
            Progress::Failed(_) => "a failure of the other side".into(),
        };
        said(format!("{word}{behind}"))
    }

    fn on_asdu(&mut self, came: &Arrival, store: &mut [u8]) -> Answer {
        if self.held() > store.len() {
            return RECORD;
        }
        if !self.done
            && let Some(outside) = is_outside(self.station, came)
        {
            return outside;
        }
        match self.take(&came.octets, &came.known, store) {
            None => STORE,
            Some(Ok(step)) => self.stepped(&step),
            Some(Err(error)) => refusal(&came.sort, &error),
        }
    }

    fn started(&mut self, store: &[u8]) -> Answer {
        if self.held() > store.len() {
            return RECORD;
        }
        match self.start() {
            Ok(octets) => said(format!("send: {}", show::frame(&sent_frame(&octets, self.station.address_sizes())))),
            Err(error) => refusal(&Sort::Unsaid, &error),
        }
    }

    fn shown(&self, store: &[u8]) -> Answer {
        let record = Record::of(&self.receiver);
        let (kept, staged) = (record.file.len(), record.section.len());
        assert_eq!(record.done, self.done, "done as the answers say");
        if !self.closed {
            assert_eq!(kept, self.kept, "the accepted octets as the answers say");
            let held = [record.file.as_slice(), record.section.as_slice()].concat();
            assert_eq!(store.get(..held.len()), Some(held.as_slice()), "the store begins with what the record holds");
        }
        let (station, ioa, nof, done) =
            (stations::shown(self.station), self.ioa, self.nof.value, u8::from(record.done));
        let front = format!("station {station} ioa {ioa} nof {nof} sent {} length {}", record.sent, record.length);
        let line = |kept, staged| format!("{front} kept {kept} staged {staged} done {done}");
        let rust = line(kept, staged);
        differing(rust, if self.closed { line(self.kept, 0) } else { line(kept, staged) }, CLOSED)
    }

    fn received(&self) -> Answer {
        differing(self.receiver.received().to_string(), self.held().to_string(), CLOSED)
    }

    fn awaited(&self) -> String {
        let (ioa, nof) = (self.ioa, self.nof.value);
        let sent = Record::of(&self.receiver).sent;
        let found: Vec<&str> = sent.split(' ').collect();
        match found.as_slice() {
            ["request", action, nos] => format!("sc {ioa} {nof} {nos} {action} 0"),
            ["acknowledgement", action, nos] => format!("ack {ioa} {nof} {nos} {action} 0"),
            _ => format!("sc {ioa} {nof} 0 1 0"),
        }
    }
}

fn new_receiver(kept: &mut Kept, words: &mut Words) -> Option<Answer> {
    let (ioa, nof) = (words.u32()?, words.nof()?);
    let Some(station) = kept.station else {
        return Some(RECORD);
    };
    if ioa > station.address_sizes().max_ioa() {
        return Some(ADDRESS);
    }
    kept.receiver = Some(Taken::new(station, ioa, nof));
    Some(own("made"))
}

fn length_of(taken: &Taken) -> Answer {
    said(taken.receiver.length().map_or("unknown".into(), |n| format!("known {n}")))
}

pub fn of_receiver(kept: &mut Kept, words: &mut Words, line: &str) -> Option<Answer> {
    let what = words.word()?;
    match what {
        "new" => return new_receiver(kept, words),
        "set" => kept.receiver = None,
        _ => {}
    }
    let is_frame = matches!(what, "on_asdu" | "on_asdu_mut");
    if is_frame {
        kept.leave_call();
    }
    let Some(taken) = &mut kept.receiver else {
        kept.store_unknown |= is_frame;
        return Some(RECORD);
    };
    match what {
        "on_asdu" | "on_asdu_mut" => Some(match arrival(words, line, taken.station.address_sizes())?.0 {
            Ok(came) => in_order(&came, taken.on_asdu(&came, &mut kept.store)),
            Err(outside) => outside,
        }),
        "start" => Some(taken.started(&kept.store)),
        "length" => Some(length_of(taken)),
        "received" => Some(taken.received()),
        "awaited" => Some(said(taken.awaited())),
        "show" => Some(taken.shown(&kept.store)),
        _ => Some(OURS),
    }
}

// ---- The Provider's table

// How many sections the Rust's Provider readies one after another.
fn sections(provider: &mut Provider, ioa: u32, nof: Nof) -> u16 {
    let mut nos = 0;
    loop {
        let afq = Afq { action: Afq::SECTION_POSITIVE, error: 0 };
        let acknowledged = Frame::Ack { ioa, nof, nos: Nos { value: nos }, afq };
        let octets = encode_frame(1, 0, &acknowledged).expect("an acknowledgement");
        let step = provider.on_asdu(&octets, &Known::EVERYTHING).expect("an answer");
        match sent_frames(&step.send, AddressSizes::CONVENTIONAL).first() {
            Some(Frame::SectionReady { .. }) if nos < 255 => nos += 1,
            _ => return nos.into(),
        }
    }
}

/// Prints document 01's table of sections as the Rust gives it, with the files that no list can lend.
pub fn table() {
    let (ioa, nof) = (100, Nof { value: 7 });
    let station = FileTransferProcedure::controlled(Selection::MONITOR, 1, 0);
    for length in [0, 4096, 4097, 1_044_480, 1_044_481, 16_777_215, 16_777_216] {
        match Provider::new(station, ioa, nof, vec![1; length]) {
            None => println!("{length}: refused 1"),
            Some(mut provider) => {
                let longest = section_len(&provider);
                println!("{length}: section length {longest}, sections {}", sections(&mut provider, ioa, nof));
            }
        }
    }
}
