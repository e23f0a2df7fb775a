//! The Rust's pages of a directory and its call, as the calls that begin with `pager` and `call` ask them.
//!
//! The Rust takes entries as values and collects them in a list of its own; replay lends packed entries, and a
//! store of 17 octets an entry. So the oracle keeps beside the call what the Rust has collected, and writes it into
//! the store where document 01 has it: the address in 4 octets, the lowest first, then the packed 13.

use crate::answer::{ADDRESS, Answer, INDEX, OURS, PAGE, RANGE, RECORD, own, said};
use crate::calls::Kept;
use crate::generate::MOST_LISTED;
use crate::machines::{between, differing, is_outside, sent_frame};
use crate::show;
use crate::stations::{self, Arrival, Sort, arrival, in_order, refusal, sent_back};
use crate::values::packed;
use crate::words::{Words, entries};
use iec104::asdu::{Cause, Cp56Time2a, Known, Lof, Nof, Sof};
use iec104::ft::provide::directory;
use iec104::ft::receive::{DirectoryCall, DirectoryFile, Failure, Progress, Step};
use iec104::ft::{DirectoryEntry, FileTransferProcedure, Frame, FtError, Selection, encode_frame_with};

/// An entry's octets in the store.
const STORED: usize = 17;

/// An entry's octets, packed.
const PACKED: usize = 13;

// ---- The pager

/// The Rust's pages of packed entries, the first of them at an address. None where an entry is out of range.
pub fn pages(station: Option<FileTransferProcedure>, ioa: u32, octets: &[u8]) -> Option<Vec<Frame>> {
    let station = station.unwrap_or(FileTransferProcedure::controlled(Selection::MONITOR, 1, 0));
    Some(directory(&station, ioa, &entries(octets)?))
}

/// The address and the entries of a page.
pub fn page(frame: &Frame) -> (u32, &[DirectoryEntry]) {
    match frame {
        Frame::Directory { ioa, cause: Cause::Request, files } => (*ioa, files),
        _ => panic!("a directory's page, requested"),
    }
}

fn index(words: &mut Words) -> Option<usize> {
    Some(usize::try_from(words.u64()?).unwrap_or(usize::MAX))
}

fn page_of(kept: &Kept, words: &mut Words) -> Option<Answer> {
    let (first, at) = (words.u32()?, index(words)?);
    let Some(frames) = pages(kept.station, first, &kept.file) else {
        return Some(RANGE);
    };
    Some(frames.get(at).map_or(INDEX, |frame| {
        let (ioa, files) = page(frame);
        said(format!("{ioa} {}", files.len()))
    }))
}

fn entry_of(kept: &Kept, words: &mut Words) -> Option<Answer> {
    let (at, place) = (index(words)?, index(words)?);
    let Some(frames) = pages(kept.station, 0, &kept.file) else {
        return Some(RANGE);
    };
    let found = frames.get(at).and_then(|frame| page(frame).1.get(place));
    Some(found.map_or(INDEX, |entry| said(show::entry(entry))))
}

pub fn of_pager(kept: &Kept, words: &mut Words) -> Option<Answer> {
    match words.word()? {
        "pages" => Some(pages(kept.station, 0, &kept.file).map_or(RANGE, |all| said(all.len().to_string()))),
        "page" => page_of(kept, words),
        "entry" => entry_of(kept, words),
        _ => None,
    }
}

/// The same over a list of entries. The Rust has no other form; what is no list is the test program's own.
pub fn of_list(kept: &Kept, words: &mut Words) -> Option<Answer> {
    let count = (kept.file.len() / PACKED) as u64;
    let is_list = kept.file.len().is_multiple_of(PACKED) && count <= MOST_LISTED;
    let answer = of_pager(kept, words)?;
    Some(if is_list { answer } else { own("no list") })
}

// ---- The call

#[derive(Clone)]
pub struct Called {
    call: DirectoryCall,
    station: FileTransferProcedure,
    started: bool,
    /// What the Rust has collected, or gave away.
    files: Vec<DirectoryFile>,
    done: bool,
}

const GIVEN: &str = "after its end a directory's call holds its entries: the Rust gives them away";

// A page of one entry that ends a directory.
fn last_page(station: FileTransferProcedure) -> Vec<u8> {
    let sof = Sof { status: 0, last_file_of_directory: true, name_defines_subdirectory: false, transfer_active: false };
    let entry = DirectoryEntry { nof: Nof { value: 0 }, lof: Lof { value: 0 }, sof, time: Cp56Time2a::default() };
    let (ca, org) = station.addressing();
    let frame = Frame::Directory { ioa: 0, cause: Cause::Request, files: vec![entry] };
    encode_frame_with(ca, org, &frame, station.address_sizes()).expect("a page of one entry")
}

// An entry as the store has it.
fn stored(file: &DirectoryFile) -> Vec<u8> {
    [file.ioa.to_le_bytes().as_slice(), packed(&file.entry).as_slice()].concat()
}

impl Called {
    fn new(station: FileTransferProcedure) -> Self {
        Self { call: DirectoryCall::new(station), station, started: false, files: Vec::new(), done: false }
    }

    pub fn holds_entries(&self) -> bool {
        !self.files.is_empty()
    }

    fn fits(&self, store: &[u8]) -> bool {
        self.files.len() <= store.len() / STORED
    }

    // What the Rust has collected: a copy is handed one more page, which ends the directory, and gives all away.
    // One that takes no page has taken none.
    fn collected(&self) -> Vec<DirectoryFile> {
        match self.call.clone().on_asdu(&last_page(self.station), &Known::EVERYTHING) {
            Ok(Step { progress: Progress::Complete(mut files), .. }) => {
                files.pop();
                files
            }
            _ => Vec::new(),
        }
    }

    // Notes what a step did, and answers it. A call sends nothing but a mirror.
    fn stepped(&mut self, step: Step<Vec<DirectoryFile>>) -> Answer {
        let was_done = self.done;
        self.done = was_done || step.progress != Progress::Running;
        let sends = !step.send.is_empty();
        match step.progress {
            Progress::Failed(Failure::Refused { cause }) => said(sent_back(cause, sends)),
            _ if sends => said("a frame"),
            Progress::Running => {
                if !was_done {
                    self.files = self.collected();
                }
                said("running")
            }
            Progress::Complete(files) => {
                self.files = files;
                said(format!("complete {}", self.files.len()))
            }
            Progress::Failed(_) => said("a failure of a transfer"),
        }
    }

    // Takes what came, where the store has room for all of it, and writes the entries that are new.
    fn on_asdu(&mut self, came: &Arrival, store: &mut [u8]) -> Answer {
        if !self.fits(store) {
            return RECORD;
        }
        if self.started
            && !self.done
            && let Some(outside) = is_outside(self.station, came)
        {
            return outside;
        }
        let mut next = self.clone();
        let answer = match next.call.on_asdu(&came.octets, &came.known) {
            Ok(step) => next.stepped(step),
            Err(error) => return refusal(&came.sort, &error),
        };
        if !next.fits(store) {
            return PAGE;
        }
        for (place, file) in store.chunks_exact_mut(STORED).zip(&next.files).skip(self.files.len()) {
            place.copy_from_slice(&stored(file));
        }
        *self = next;
        answer
    }

    fn start(&mut self, ioa: u32, store: &[u8]) -> Answer {
        if !self.fits(store) {
            return RECORD;
        }
        match self.call.start(ioa) {
            Ok(octets) => {
                self.started = true;
                said(format!("send: {}", show::frame(&sent_frame(&octets, self.station.address_sizes()))))
            }
            Err(error @ (FtError::FunctionNotUsed | FtError::NotSelectedDirection { .. })) => {
                refusal(&Sort::Unsaid, &error)
            }
            Err(_) => ADDRESS,
        }
    }

    // The record as the Rust prints it; the store must begin with what it has collected.
    fn shown(&self, store: &[u8]) -> Answer {
        let record = format!("{:?}", self.call);
        let held = record.matches("DirectoryFile {").count();
        let started = between(&record, ", sent: ", ", files") != "None";
        assert_eq!(started, self.started, "started as the answers say");
        assert_eq!(between(&record, "done: ", " "), self.done.to_string(), "done as the answers say");
        assert!(self.done || held == self.files.len(), "as many entries as the answers say");
        let octets: Vec<u8> = self.files.iter().flat_map(stored).collect();
        assert!(store.starts_with(&octets), "the store begins with what the Rust has collected");
        let station = stations::shown(self.station);
        let (started, done) = (u8::from(started), u8::from(self.done));
        let line = |held: usize| format!("station {station} started {started} held {held} done {done}");
        differing(line(held), line(self.files.len()), GIVEN)
    }
}

fn new_call(kept: &mut Kept) -> Answer {
    let Some(station) = kept.station else {
        return RECORD;
    };
    kept.call = Some(Called::new(station));
    own("made")
}

fn on_asdu(kept: &mut Kept, words: &mut Words, line: &str) -> Option<Answer> {
    kept.leave_transfers();
    let Some(called) = &mut kept.call else {
        kept.store_unknown = true;
        return Some(RECORD);
    };
    Some(match arrival(words, line, called.station.address_sizes())?.0 {
        Ok(came) => in_order(&came, called.on_asdu(&came, &mut kept.store)),
        Err(outside) => outside,
    })
}

pub fn of_call(kept: &mut Kept, words: &mut Words, line: &str) -> Option<Answer> {
    let what = words.word()?;
    match what {
        "new" => return Some(new_call(kept)),
        "on_asdu" => return on_asdu(kept, words, line),
        "set" => kept.call = None,
        _ => {}
    }
    let Some(called) = &mut kept.call else {
        return Some(RECORD);
    };
    match what {
        "start" => Some(called.start(words.u32()?, &kept.store)),
        "show" if kept.store_unknown => Some(RECORD),
        "show" => Some(called.shown(&kept.store)),
        "agrees" => Some(own(if called.fits(&kept.store) { "yes" } else { "no" })),
        _ => Some(OURS),
    }
}
