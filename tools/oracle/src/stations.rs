//! Stations, and what they admit: the calls that begin with `station`, and how a header and a frame of a call
//! become the octets that the Rust takes.

use crate::answer::{ADDRESS, Answer, HEADER, OURS, RANGE, RECORD, WIDTHS, own, refused, said};
use crate::calls::Kept;
use crate::show;
use crate::values::{built, direction_for};
use crate::words::{Facts, Words, Written, six_bits};
use iec104::asdu::{AddressSizes, Cause, Discard, Header, Known, TypeId, Unspecified};
use iec104::ft::{
    FileTransferProcedure, Frame, FtError, Outcome, Reaction, Role, Selection, decode_frame_with, encode_frame_with,
};

// ---- Octets

/// What a call hands in, as octets.
pub struct Arrival {
    pub octets: Vec<u8>,
    pub sort: Sort,
    pub known: Known,
    /// The cause of the type or the cause, where it is unknown in a broadcast header.
    before_broadcast: Option<Cause>,
}

/// What the octets behind the header are.
#[derive(Debug, Clone, PartialEq)]
pub enum Sort {
    /// The frame of the call.
    Frame(Frame),
    /// Nothing: the frame of the call cannot be said in octets of its header's type.
    Unsaid,
    /// Octets that are no frame.
    Undecodable,
}

struct Body {
    sequence: bool,
    count: u8,
    octets: Vec<u8>,
}

// The frame with an object address and, of a directory, a cause that always go.
fn plain(frame: &Frame) -> Frame {
    match frame {
        Frame::Directory { files, .. } => Frame::Directory { ioa: 0, cause: Cause::Request, files: files.clone() },
        _ => frame.clone(),
    }
}

// Whether every field of a frame is one that octets say: encoded and read, it is the same.
fn is_sayable(frame: &Frame, sizes: AddressSizes) -> bool {
    match frame {
        Frame::Segment { .. } | Frame::Directory { .. } => frame.ioa() <= sizes.max_ioa(),
        _ => encode_frame_with(1, 0, frame, sizes)
            .and_then(|octets| decode_frame_with(&octets, sizes))
            .is_ok_and(|read| read == *frame),
    }
}

// The object area of a frame: as it is encoded, its address and a segment's LOS then as the frame has them.
fn body(frame: &Frame, sizes: AddressSizes) -> Option<Body> {
    if !is_sayable(frame, sizes) {
        return None;
    }
    let mut encoded = plain(frame);
    let mut los = None;
    if let Frame::Segment { segment, .. } = &mut encoded {
        los = Some((segment.los.value, segment.payload.len()));
        if segment.payload.is_empty() {
            segment.payload.push(0);
        }
    }
    let mut octets = encode_frame_with(1, 0, &encoded, sizes).ok()?;
    let header = Header::parse_with(&octets, sizes).ok()?;
    octets.drain(..sizes.header_len());
    let width = usize::from(sizes.information_object_address_octets());
    octets.get_mut(..width)?.copy_from_slice(frame.ioa().to_le_bytes().get(..width)?);
    if let Some((stated, present)) = los {
        *octets.get_mut(width + 3)? = stated;
        octets.truncate(width + 4 + present);
    }
    Some(Body { sequence: header.sequence, count: header.count, octets })
}

// Four object areas that are no frame of a type, chosen by the words of the call.
fn broken(type_id: u8, salt: usize) -> Body {
    let sequence = type_id == 126;
    match salt % 4 {
        0 => Body { sequence, count: 1, octets: Vec::new() },
        1 => Body { sequence: !sequence, count: 1, octets: vec![0; 16] },
        2 => Body { sequence, count: 0, octets: Vec::new() },
        _ => Body { sequence, count: 1, octets: vec![0; 3] },
    }
}

// The header in octets, before an object area.
fn encoded(facts: Facts, cause: Cause, body: &Body, sizes: AddressSizes) -> Option<Vec<u8>> {
    let header = Header {
        type_id: TypeId::from_u8(facts.type_id),
        sequence: body.sequence,
        count: body.count,
        cause,
        negative: facts.negative,
        test: false,
        originator: facts.originator,
        common_address: facts.common_address,
    };
    let mut octets = Vec::new();
    header.encode_with(&mut octets, sizes).ok()?;
    octets.extend_from_slice(&body.octets);
    Some(octets)
}

// Whether a directory frame names another cause than a header that may have it: the Rust reads one cause only.
fn is_other_cause(frame: &Frame, cause: u8) -> bool {
    match frame {
        Frame::Directory { cause: named, .. } => named.to_u8() != cause && matches!(cause, 3 | 5),
        _ => false,
    }
}

// What a call hands in behind its header.
fn object_area(
    facts: Facts,
    frame: Option<Frame>,
    undecodable: bool,
    sizes: AddressSizes,
    salt: usize,
) -> (Body, Sort) {
    if undecodable {
        return (broken(facts.type_id, salt), Sort::Undecodable);
    }
    let said = frame.filter(|frame| frame.type_id().to_u8() == facts.type_id && !is_other_cause(frame, facts.cause));
    match said.and_then(|frame| body(&frame, sizes).map(|area| (area, Sort::Frame(frame)))) {
        Some(both) => both,
        None => (Body { sequence: false, count: 1, octets: Vec::new() }, Sort::Unsaid),
    }
}

/// HEADER UNKNOWN RECEIVED, then what the call has behind them, then BESIDE.
pub fn arrival(
    words: &mut Words,
    line: &str,
    sizes: AddressSizes,
) -> Option<(Result<Arrival, Answer>, Option<Written>)> {
    let facts = words.facts()?;
    let known = words.known()?;
    let received = words.received()?;
    let sent = if words.is_next("sent") { Some(words.frame()?) } else { None };
    let beside = words.beside()?;
    let Some(cause) = six_bits(facts.cause) else {
        return Some((Err(HEADER), sent));
    };
    if facts.common_address > sizes.max_common_address() {
        return Some((Err(ADDRESS), sent));
    }
    let undecodable = received.is_none();
    let frame = received.and_then(|written| written.with(&beside));
    let (area, sort) = object_area(facts, frame, undecodable, sizes, line.len());
    let octets = encoded(facts, cause, &area, sizes)?;
    Some((Ok(Arrival { octets, sort, known, before_broadcast: before_broadcast(facts, known, sizes) }), sent))
}

// Document 02, A11: the type and the cause come before the common address, broadcast or unknown.
fn before_broadcast(facts: Facts, known: Known, sizes: AddressSizes) -> Option<Cause> {
    let which = known.unknown.filter(|_| facts.common_address == sizes.max_common_address())?;
    matches!(which, Unspecified::TypeIdentification | Unspecified::CauseOfTransmission).then(|| which.cause())
}

// ---- Admission

/// What an error of the Rust is called.
pub fn refusal(sort: &Sort, error: &FtError) -> Answer {
    match (show::number(error), sort) {
        (Some(4), Sort::Undecodable) => Answer::Differs {
            rust: "refused 4".into(),
            ours: "refused 10".into(),
            why: "undecodable is judged before the cause, of types 125 and 126 too",
        },
        (Some(4) | None, Sort::Unsaid) => RANGE,
        (Some(n), _) => refused(n),
        (None, Sort::Undecodable) => refused(10),
        (None, Sort::Frame(_)) => RANGE,
    }
}

pub fn sent_back(cause: Cause, mirror: bool) -> String {
    let behind = if mirror { " mirror" } else { "" };
    format!("sent back {}{behind}", cause.to_u8())
}

/// The Rust's answer; where a header is broadcast and its type or cause unknown, and the Rust names the common
/// address, A11's answer is meant, which names the type or the cause.
pub fn in_order(came: &Arrival, answer: Answer) -> Answer {
    let (Some(cause), Answer::Said(rust)) = (came.before_broadcast, &answer) else {
        return answer;
    };
    let ours = match rust.as_str() {
        "sent back 46 mirror" => sent_back(cause, true),
        "discard 46" => discarded(cause),
        _ => return answer,
    };
    Answer::Differs { rust: rust.clone(), ours, why: "an unknown type or cause is named before broadcast" }
}

fn discarded(cause: Cause) -> String {
    format!("discard {}", cause.to_u8())
}

// Whether the frame that was admitted is the one of the call: octets may say another one.
fn is_as_given(reaction: &Reaction, sort: &Sort) -> bool {
    match reaction {
        Reaction::Requested { frame } | Reaction::Answered { frame } => *sort == Sort::Frame(frame.clone()),
        _ => true,
    }
}

/// Admission's answer, in the words of replay.
pub fn admitted(sort: &Sort, result: Result<Outcome, FtError>) -> Answer {
    let outcome = match result {
        Ok(outcome) => outcome,
        Err(error) => return refusal(sort, &error),
    };
    if !is_as_given(&outcome.reaction, sort) {
        return RANGE;
    }
    match outcome.reaction {
        Reaction::Requested { .. } => said("requested"),
        Reaction::Answered { .. } => said("answered"),
        Reaction::Refused { cause } => said(sent_back(cause, !outcome.send.is_empty())),
        Reaction::Discard(Discard::Mirror) => said("discard mirror"),
        Reaction::Discard(Discard::Unspecified(which)) => said(discarded(which.cause())),
        Reaction::Other => said("other"),
    }
}

// ---- The station that is kept

fn make(role: Role, selection: Selection, ca: u16, org: u8, sizes: AddressSizes) -> FileTransferProcedure {
    match role {
        Role::Controlling => FileTransferProcedure::controlling(selection, ca, org),
        Role::Controlled => FileTransferProcedure::controlled(selection, ca, org),
    }
    .with_address_sizes(sizes)
}

/// Whether a station may have these addresses (refusal 3).
pub fn is_own_address(sizes: AddressSizes, ca: u16, org: u8) -> bool {
    ca != 0 && ca < sizes.max_common_address() && (org == 0 || sizes.originator_address())
}

// Makes the station, or says why that is outside.
fn made(kept: &mut Kept, station: FileTransferProcedure, word: &str) -> Answer {
    let (ca, org) = station.addressing();
    if !is_own_address(station.address_sizes(), ca, org) {
        return ADDRESS;
    }
    kept.station = Some(station);
    own(word)
}

fn new(kept: &mut Kept, words: &mut Words, word: &str) -> Option<Answer> {
    let (role, selection) = (words.role()?, words.selection()?);
    let (ca, org) = (words.u16()?, words.u8()?);
    let Some(sizes) = words.widths()?.sizes() else {
        return Some(WIDTHS);
    };
    Some(made(kept, make(role, selection, ca, org, sizes), word))
}

// As it stands: where no making gives such a station, there is none for the Rust.
fn set(kept: &mut Kept, words: &mut Words) -> Option<Answer> {
    kept.station = None;
    new(kept, words, "set")
}

fn conventional(kept: &mut Kept, words: &mut Words) -> Option<Answer> {
    let (role, selection) = (words.role()?, words.selection()?);
    let (ca, org) = (words.u16()?, words.u8()?);
    Some(made(kept, make(role, selection, ca, org, AddressSizes::CONVENTIONAL), "made"))
}

fn with_address_sizes(kept: &mut Kept, words: &mut Words) -> Option<Answer> {
    let Some(station) = kept.station else {
        return Some(RECORD);
    };
    let Some(sizes) = words.widths()?.sizes() else {
        return Some(WIDTHS);
    };
    Some(made(kept, station.with_address_sizes(sizes), "made"))
}

fn show_station(station: FileTransferProcedure) -> String {
    let (ca, org) = station.addressing();
    let (role, selection) = (show::role(station.role()), show::selection(station.selection()));
    format!("{role} {selection} {ca} {org} {}", show::widths(station.address_sizes()))
}

pub fn shown(station: FileTransferProcedure) -> String {
    show_station(station)
}

fn on_asdu(station: FileTransferProcedure, words: &mut Words, line: &str) -> Option<Answer> {
    let (arrival, _) = arrival(words, line, station.address_sizes())?;
    Some(match arrival {
        Ok(came) => in_order(&came, admitted(&came.sort, station.on_asdu(&came.octets, &came.known))),
        Err(answer) => answer,
    })
}

fn on_answer(station: FileTransferProcedure, words: &mut Words, line: &str) -> Option<Answer> {
    let (arrival, sent) = arrival(words, line, station.address_sizes())?;
    let sent = sent?.with(&[])?;
    Some(match arrival {
        Ok(came) => in_order(&came, admitted(&came.sort, station.on_answer(&came.octets, &came.known, &sent))),
        Err(answer) => answer,
    })
}

fn asked(station: FileTransferProcedure, what: &str, words: &mut Words, line: &str) -> Option<Answer> {
    let (ca, org) = station.addressing();
    match what {
        "show" => Some(said(show_station(station))),
        "role" => Some(said(show::role(station.role()))),
        "selection" => Some(said(show::selection(station.selection()))),
        "addressing" => Some(said(format!("{ca} {org}"))),
        "address_sizes" => Some(said(show::widths(station.address_sizes()))),
        "serves" => {
            let (role, receiver_side) = (words.role()?, words.flag()?);
            let served = station.selection().uses(direction_for(role, receiver_side)?);
            Some(crate::answer::question(served))
        }
        "build" => {
            let written = words.frame()?;
            let beside = words.beside()?;
            let Some(frame) = written.with(&beside) else {
                return Some(unsaid_build(station, &written));
            };
            Some(built(&frame, station.build(&frame), station.address_sizes(), ca))
        }
        "on_asdu" => on_asdu(station, words, line),
        "on_answer" => on_answer(station, words, line),
        _ => Some(OURS),
    }
}

// A directory that the Rust has no value for: only the tests before its octets can be asked.
fn unsaid_build(station: FileTransferProcedure, written: &Written) -> Answer {
    let Written::Directory { ioa, .. } = written else {
        return RANGE;
    };
    let stand_in = Frame::Directory { ioa: *ioa, cause: Cause::Request, files: Vec::new() };
    match station.build(&stand_in) {
        Err(error @ (FtError::FunctionNotUsed | FtError::NotSelectedDirection { .. })) => {
            refusal(&Sort::Unsaid, &error)
        }
        _ => RANGE,
    }
}

pub fn of_station(kept: &mut Kept, words: &mut Words, line: &str) -> Option<Answer> {
    match words.word()? {
        "new" => new(kept, words, "made"),
        "conventional" => conventional(kept, words),
        "with_address_sizes" => with_address_sizes(kept, words),
        "set" => set(kept, words),
        "is_settled" => Some(OURS),
        what => match kept.station {
            Some(station) => asked(station, what, words, line),
            None => Some(RECORD),
        },
    }
}
