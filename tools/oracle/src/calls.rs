//! What a list keeps, and which part of the oracle answers which call.

use crate::answer::{Answer, OURS, RECORD, SCRIPT, number, own, said};
use crate::directories::Called;
use crate::machines::{Served, Taken};
use crate::parties::Party;
use crate::words::Words;
use crate::{bodies, directories, machines, parties, show, stations, values};
use iec104::ft::{FileTransferProcedure, checksum};

/// The records and buffers of a list. A record is none where a call has made it one that no making gives.
#[derive(Default)]
pub struct Kept {
    pub station: Option<FileTransferProcedure>,
    pub provider: Option<Served>,
    pub receiver: Option<Taken>,
    pub call: Option<Called>,
    pub party: Option<Party>,
    pub file: Vec<u8>,
    pub store: Vec<u8>,
    pub damage: Vec<u8>,
    /// Whether a call that the Rust was not asked may have written into the store.
    pub store_unknown: bool,
}

// A record that holds something in the store is out of the comparison once another one writes there.
impl Kept {
    pub fn leave_receiver(&mut self) {
        if self.receiver.as_ref().is_some_and(Taken::holds_octets) {
            self.receiver = None;
        }
    }

    pub fn leave_call(&mut self) {
        if self.call.as_ref().is_some_and(Called::holds_entries) {
            self.call = None;
        }
    }

    pub fn leave_transfers(&mut self) {
        self.leave_receiver();
        self.party = None;
    }
}

/// Answers a call.
pub fn answer(kept: &mut Kept, line: &str) -> Answer {
    let mut words = Words::new(line);
    call(kept, &mut words, line).unwrap_or(Answer::Outside("not a call that the oracle reads"))
}

fn call(kept: &mut Kept, words: &mut Words, line: &str) -> Option<Answer> {
    match words.word()? {
        "station" => stations::of_station(kept, words, line),
        "provider" => machines::of_provider(kept, words, line),
        "receiver" => machines::of_receiver(kept, words, line),
        "pager" => directories::of_pager(kept, words),
        "pager_list" => directories::of_list(kept, words),
        "call" => directories::of_call(kept, words, line),
        "party" => parties::of_party(kept, words),
        "run" => parties::run(kept, words),
        "body" => bodies::of_body(words),
        "file" => of_file(kept, words),
        "store" => of_store(kept, words),
        "damage" => of_damage(kept, words),
        "script" => Some(of_script(kept, line)),
        first => values::call(first, words),
    }
}

// `octets` and `sum` of a buffer that only the list fills.
fn of_own(buffer: &[u8], what: &str, words: &mut Words) -> Option<Answer> {
    of_buffer(buffer, what, words).map(|answer| own(answer.written()))
}

// `octets` and `sum` of a buffer.
fn of_buffer(buffer: &[u8], what: &str, words: &mut Words) -> Option<Answer> {
    match what {
        "octets" => {
            let (from, count) = (usize::try_from(words.u64()?).ok()?, usize::try_from(words.u64()?).ok()?);
            let part = buffer.get(from..).unwrap_or_default();
            Some(said(show::octets(part.get(..count).unwrap_or(part))))
        }
        "sum" => Some(number(checksum(buffer).value)),
        _ => None,
    }
}

fn count(octets: &[u8]) -> Answer {
    own(octets.len().to_string())
}

// A record over a buffer that other calls change is out of the comparison.
fn of_file(kept: &mut Kept, words: &mut Words) -> Option<Answer> {
    match words.word()? {
        "is" => {
            kept.file = words.octets()?;
            kept.provider = None;
            kept.party = None;
            Some(count(&kept.file))
        }
        what => of_own(&kept.file, what, words),
    }
}

fn of_store(kept: &mut Kept, words: &mut Words) -> Option<Answer> {
    match words.word()? {
        "is" => {
            kept.store = words.octets()?;
            kept.store_unknown = false;
            kept.leave_transfers();
            kept.leave_call();
            Some(count(&kept.store))
        }
        _ if kept.store_unknown => Some(RECORD),
        what => of_buffer(&kept.store, what, words),
    }
}

fn of_damage(kept: &mut Kept, words: &mut Words) -> Option<Answer> {
    match words.word()? {
        "is" => {
            kept.damage = words.octets()?;
            kept.party = None;
            Some(count(&kept.damage))
        }
        what => of_own(&kept.damage, what, words),
    }
}

// A script is ours; what it reads stands in the buffers.
fn of_script(kept: &mut Kept, line: &str) -> Answer {
    let Some(rest) = line.strip_prefix("script read \"") else {
        return OURS;
    };
    let text = rest.strip_suffix('"').map(|text| text.replace("\\n", "\n")).unwrap_or_default();
    let Some((ioa, nof, file, damage)) = parties::script(&text) else {
        return SCRIPT;
    };
    let answer = own(format!("{ioa} {nof} {} {}", file.len(), damage.len()));
    (kept.file, kept.damage) = (file, damage);
    (kept.provider, kept.party) = (None, None);
    answer
}
