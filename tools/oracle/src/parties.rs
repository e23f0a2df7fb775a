//! Two parties: the Rust's Provider and Receiver, each handed what the other sends. The Rust has no such run; the
//! queue, the damage and the count of frames are ours, as document 01 has the exchange and the script.

use crate::answer::{ADDRESS, Answer, OURS, RECORD, SCRIPT, STORE, WIDTHS, own, refused, said};
use crate::calls::Kept;
use crate::machines::{Taken, section_len, sent_frame};
use crate::show;
use crate::stations::is_own_address;
use crate::words::Words;
use iec104::asdu::{AddressSizes, Known, Nof};
use iec104::ft::provide::Provider;
use iec104::ft::{FileTransferProcedure, Frame, Role, Selection};
use std::collections::VecDeque;
use std::io::Read;

#[derive(Clone, Copy, PartialEq, Eq)]
enum Sender {
    Provider,
    Receiver,
}

impl Sender {
    fn letter(self) -> &'static str {
        match self {
            Self::Provider => "P",
            Self::Receiver => "R",
        }
    }
}

pub struct Party {
    provider: Provider,
    receiver: Taken,
    sizes: AddressSizes,
    queue: VecDeque<(Sender, Vec<u8>)>,
    /// How many sendings of each section are still to be damaged.
    damage: [usize; 256],
    /// The octets that the Receiver named when it was complete.
    complete: Option<usize>,
}

struct Settings {
    sizes: AddressSizes,
    ca: u16,
    ioa: u32,
    nof: Nof,
    role: Role,
}

impl Party {
    // Both machines, and the Receiver's start in the queue. Tested as document 01 has it: 2, 3, 1, 11, 24.
    fn new(settings: &Settings, kept: &Kept) -> Result<Self, Answer> {
        let Settings { sizes, ca, ioa, nof, role } = *settings;
        if !is_own_address(sizes, ca, 0) || ioa > sizes.max_ioa() {
            return Err(ADDRESS);
        }
        let (provides, receives) = stations(role, ca, sizes);
        let provider = Provider::new(provides, ioa, nof, kept.file.clone()).ok_or(refused(1))?;
        let longest = section_len(&provider);
        let mut damage = [0usize; 256];
        for &section in &kept.damage {
            if section == 0 || (usize::from(section) - 1) * longest >= kept.file.len() {
                return Err(SCRIPT);
            }
            damage[usize::from(section)] += 1;
        }
        if kept.store.len() < kept.file.len() {
            return Err(STORE);
        }
        let mut receiver = Taken::new(receives, ioa, nof);
        let first = receiver.start().expect("the direction is selected");
        let queue = VecDeque::from([(Sender::Receiver, first)]);
        Ok(Self { provider, receiver, sizes, queue, damage, complete: None })
    }

    fn next(&self) -> Option<(Sender, Frame)> {
        let (sender, octets) = self.queue.front()?;
        Some((*sender, sent_frame(octets, self.sizes)))
    }

    // Passes the queue's first frame to the other machine, and answers who sent it.
    fn step(&mut self, store: &mut [u8]) -> Option<Sender> {
        let (sender, octets) = self.queue.pop_front()?;
        match sender {
            Sender::Receiver => {
                let step = self.provider.on_asdu(&octets, &Known::EVERYTHING).expect("a frame of the exchange");
                let send = self.damaged(step.send);
                self.queue.extend(send.into_iter().map(|octets| (Sender::Provider, octets)));
            }
            Sender::Provider => {
                let taken = self.receiver.take(&octets, &Known::EVERYTHING, store).expect("the store has room");
                let step = taken.expect("a frame of the exchange");
                if let iec104::ft::receive::Progress::Complete(file) = &step.progress {
                    self.complete = Some(file.len());
                }
                self.queue.extend(step.send.into_iter().map(|octets| (Sender::Receiver, octets)));
            }
        }
        Some(sender)
    }

    // A sending, its first octet raised by 1 where its section is still to be damaged.
    fn damaged(&mut self, mut send: Vec<Vec<u8>>) -> Vec<Vec<u8>> {
        let Some(first) = send.first_mut() else {
            return send;
        };
        if let Frame::Segment { segment, .. } = sent_frame(first, self.sizes) {
            let left = &mut self.damage[usize::from(segment.nos.value)];
            if *left > 0 {
                *left -= 1;
                let place = first.len() - segment.payload.len();
                first[place] = first[place].wrapping_add(1);
            }
        }
        send
    }
}

// The stations of a transfer, in the direction in which the Provider sends.
fn stations(role: Role, ca: u16, sizes: AddressSizes) -> (FileTransferProcedure, FileTransferProcedure) {
    let of = |role, selection| match role {
        Role::Controlling => FileTransferProcedure::controlling(selection, ca, 0).with_address_sizes(sizes),
        Role::Controlled => FileTransferProcedure::controlled(selection, ca, 0).with_address_sizes(sizes),
    };
    match role {
        Role::Controlled => (of(Role::Controlled, Selection::MONITOR), of(Role::Controlling, Selection::MONITOR)),
        Role::Controlling => (of(Role::Controlling, Selection::CONTROL), of(Role::Controlled, Selection::CONTROL)),
    }
}

/// A frame as the transfer program prints it.
fn line(sender: Sender, frame: &Frame) -> String {
    let (nos, value, sum) = match frame {
        Frame::FileReady { lof, .. } => (0, lof.value, 0),
        Frame::SectionReady { nos, lof, .. } => (nos.value, lof.value, 0),
        Frame::Sc { nos, scq, .. } => (nos.value, scq.action.into(), 0),
        Frame::Ack { nos, afq, .. } => (nos.value, afq.action.into(), 0),
        Frame::Segment { segment, .. } => (segment.nos.value, segment.los.value.into(), 0),
        Frame::LastSection { nos, lsq, chs, .. } => (nos.value, lsq.value.into(), chs.value),
        Frame::Directory { .. } | Frame::QueryLog { .. } => (0, 0, 0),
    };
    format!("{} {} {nos} {value} {sum}", sender.letter(), frame.type_id().to_u8())
}

// ---- Calls

fn settings(words: &mut Words) -> Option<Result<Settings, Answer>> {
    let widths = words.widths()?;
    let (ca, ioa, nof, role) = (words.u16()?, words.u32()?, words.nof()?, words.role()?);
    Some(widths.sizes().map(|sizes| Settings { sizes, ca, ioa, nof, role }).ok_or(WIDTHS))
}

fn party(kept: &Kept, words: &mut Words) -> Option<Result<Party, Answer>> {
    Some(settings(words)?.and_then(|settings| Party::new(&settings, kept)))
}

pub fn run(kept: &mut Kept, words: &mut Words) -> Option<Answer> {
    let budget = words.u64()?;
    let mut party = match party(kept, words)? {
        Ok(party) => party,
        Err(answer) => return Some(answer),
    };
    // The store is then that of the run.
    kept.leave_receiver();
    kept.leave_call();
    kept.party = None;
    let mut frames = 0;
    while frames < budget && party.step(&mut kept.store).is_some() {
        frames += 1;
    }
    Some(match (party.queue.is_empty(), party.complete) {
        (true, Some(length)) => said(format!("whole {length} frames {frames}")),
        (true, None) => said("not complete"),
        (false, _) => said(format!("spent frames {frames}")),
    })
}

fn pass(party: &mut Party, count: u64, store: &mut [u8]) -> Answer {
    let mut passed = [0u64; 2];
    for _ in 0..count {
        match party.step(store) {
            Some(Sender::Provider) => passed[0] += 1,
            Some(Sender::Receiver) => passed[1] += 1,
            None => break,
        }
    }
    said(format!("provider {} receiver {}", passed[0], passed[1]))
}

fn lines(party: &mut Party, count: u64, store: &mut [u8]) -> Answer {
    let mut text = Vec::new();
    while (text.len() as u64) < count
        && let Some((sender, frame)) = party.next()
    {
        text.push(line(sender, &frame));
        party.step(store);
    }
    let frames = format!("{} frames", text.len());
    text.push(frames);
    said(text.join("\n"))
}

pub fn of_party(kept: &mut Kept, words: &mut Words) -> Option<Answer> {
    let what = words.word()?;
    if what == "new" {
        return Some(match party(kept, words)? {
            Ok(party) => {
                kept.leave_receiver();
                kept.leave_call();
                kept.party = Some(party);
                own("made")
            }
            Err(answer) => answer,
        });
    }
    if what == "set" {
        kept.party = None;
    }
    let Some(party) = &mut kept.party else {
        kept.store_unknown |= matches!(what, "step" | "pass" | "lines");
        return Some(RECORD);
    };
    Some(match what {
        "next_frame" => match party.next() {
            Some((sender, frame)) => said(format!("{} {}", sender.letter(), show::frame(&frame))),
            None => said("nothing"),
        },
        "step" => {
            party.step(&mut kept.store);
            said("stepped")
        }
        "pass" => pass(party, words.u64()?, &mut kept.store),
        "lines" => lines(party, words.u64()?, &mut kept.store),
        _ => OURS,
    })
}

// ---- The transfer program

// The numbers of a script that is shaped as document 01 has it: settings, octets and damage, each after its count.
pub fn script(text: &str) -> Option<(u32, u16, Vec<u8>, Vec<u8>)> {
    let mut words = Words::new(text.strip_suffix('\n')?);
    if words.u64()? != 2 {
        return None;
    }
    let (ioa, nof) = (words.u32().filter(|ioa| *ioa <= 0x00FF_FFFF)?, words.u16()?);
    let mut section = |limit| -> Option<Vec<u8>> {
        let count = words.u64().filter(|count| *count <= limit)?;
        (0..count).map(|_| words.u8()).collect()
    };
    let (file, damage) = (section(8192)?, section(255)?);
    words.is_end().then_some((ioa, nof, file, damage))
}

/// Plays the script on standard input.
pub fn transfer() {
    let mut text = String::new();
    if std::io::stdin().read_to_string(&mut text).is_err() {
        crate::stop("standard input cannot be read");
    }
    println!("{}", transferred(&text).unwrap_or_else(|| crate::stop("not a script that the Rust can be asked")));
}

/// What the Rust's machines print of a script.
pub fn transferred(text: &str) -> Option<String> {
    let (ioa, nof, file, damage) = script(text)?;
    let store = vec![0; file.len()];
    let mut kept = Kept { file, store, damage, ..Kept::default() };
    let settings =
        Settings { sizes: AddressSizes::CONVENTIONAL, ca: 1, ioa, nof: Nof { value: nof }, role: Role::Controlled };
    let mut party = Party::new(&settings, &kept).ok()?;
    let Answer::Said(text) = lines(&mut party, 65535, &mut kept.store) else {
        return None;
    };
    let (frames, _) = text.rsplit_once('\n')?;
    Some(format!("{frames}\nwhole {}", party.complete?))
}
