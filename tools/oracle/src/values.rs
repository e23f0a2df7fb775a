//! Calls that keep nothing: elements, widths, frames and makers.

use crate::answer::{ADDRESS, Answer, OURS, PRIVATE, RANGE, WIDTHS, number, question, refused, said};
use crate::show;
use crate::stations::is_own_address;
use crate::words::{Widths, Words, Written, entry, six_bits};
use iec104::apci::MAX_ASDU;
use iec104::asdu::{
    AddressSizes, Afq, AsduLayout, Cp56Time2a, Direction, FDrTa1, Frq, Header, Known, Lof, Los, Nof, Nos, Scq, Sof,
    Srq, TypeId, is_mirror,
};
use iec104::ft::{self, DirectoryEntry, FileTransferProcedure, Frame, FtError, Reaction, Role, Selection};

// ---- Elements: one is in range where its octets say the same

fn octets_of(encode: impl Fn(&mut Vec<u8>)) -> Vec<u8> {
    let mut octets = Vec::new();
    encode(&mut octets);
    octets
}

fn is_lof(lof: Lof) -> bool {
    Lof::parse(&octets_of(|out| lof.encode(out))) == Ok(lof)
}

fn is_time(time: Cp56Time2a) -> bool {
    Cp56Time2a::parse(&octets_of(|out| time.encode(out))) == Ok(time)
}

/// The octets of an entry.
pub fn packed(entry: &DirectoryEntry) -> Vec<u8> {
    let element = FDrTa1 { nof: entry.nof, lof: entry.lof, sof: entry.sof, time: entry.time };
    octets_of(|out| element.encode(out))
}

fn is_entry(given: &DirectoryEntry) -> bool {
    entry(&packed(given)) == Some(*given)
}

fn pack(words: &mut Words) -> Option<Answer> {
    let (length, entry) = (words.u64()?, words.entry()?);
    if length != FDrTa1::LEN as u64 || !is_entry(&entry) {
        return Some(RANGE);
    }
    Some(said(format!("packed {}", show::octets(&packed(&entry)))))
}

fn unpack(words: &mut Words) -> Option<Answer> {
    let octets = words.octets()?;
    let read = if octets.len() == FDrTa1::LEN { entry(&octets) } else { None };
    Some(read.map_or(RANGE, |entry| said(show::entry(&entry))))
}

fn constant(words: &mut Words) -> Option<Answer> {
    let value = match words.word()? {
        "nof_len" => Nof::LEN,
        "nos_len" => Nos::LEN,
        "lof_len" => Lof::LEN,
        "los_len" => Los::LEN,
        "sof_len" => Sof::LEN,
        "time_len" => Cp56Time2a::LEN,
        "entry_len" => FDrTa1::LEN,
        "deactivate_file" => Scq::DEACTIVATE_FILE.into(),
        "delete_file" => Scq::DELETE_FILE.into(),
        "deactivate_section" => Scq::DEACTIVATE_SECTION.into(),
        "los_max" => Los::MAX.into(),
        "max_segment" => ft::MAX_SEGMENT,
        "max_asdu" => MAX_ASDU,
        "max_directory_files" => ft::MAX_DIRECTORY_FILES,
        _ => return None,
    };
    Some(said(value.to_string()))
}

// ---- Widths

fn of_sizes(words: &mut Words) -> Option<Answer> {
    let what = words.word()?;
    let widths: Widths = words.widths()?;
    let Some(sizes) = widths.sizes() else {
        return Some(if what == "is_right" { question(false) } else { WIDTHS });
    };
    Some(match what {
        "new" => said("made"),
        "is_right" => question(true),
        "originator_address" => question(sizes.originator_address()),
        "header_len" => said(sizes.header_len().to_string()),
        "max_ioa" => number(sizes.max_ioa()),
        "max_common_address" => number(sizes.max_common_address()),
        "broadcast_common_address" => number(sizes.broadcast_common_address()),
        "max_segment" => said(ft::max_segment(sizes).to_string()),
        "max_directory_files" => said(ft::max_directory_files(sizes).to_string()),
        _ => return None,
    })
}

fn of_header(words: &mut Words) -> Option<Answer> {
    let facts = words.facts()?;
    let Some(cause) = six_bits(facts.cause) else {
        return Some(crate::answer::HEADER);
    };
    Some(question(is_mirror(&Header {
        type_id: TypeId::from_u8(facts.type_id),
        sequence: false,
        count: 1,
        cause,
        negative: facts.negative,
        test: false,
        originator: facts.originator,
        common_address: facts.common_address,
    })))
}

fn check_checksum(words: &mut Words) -> Option<Answer> {
    let stated = words.chs()?;
    let octets = words.octets()?;
    Some(match ft::check_checksum(&octets, stated) {
        Ok(()) => said("equal"),
        Err(FtError::ChecksumMismatch { expected, got }) => {
            said(format!("refused 8 expected {} got {}", expected.value, got.value))
        }
        Err(_) => return None,
    })
}

// ---- Directions

/// The direction of what a role sends: a station that selects the monitor direction alone is asked to build it.
pub fn direction_for(role: Role, receiver_side: bool) -> Option<Direction> {
    let station = match role {
        Role::Controlling => FileTransferProcedure::controlling(Selection::MONITOR, 1, 0),
        Role::Controlled => FileTransferProcedure::controlled(Selection::MONITOR, 1, 0),
    };
    let frame = if receiver_side {
        request(Scq::SELECT_FILE)
    } else {
        Frame::FileReady { ioa: 1, nof: Nof { value: 1 }, lof: Lof { value: 1 }, frq: Frq::default() }
    };
    match station.build(&frame) {
        Ok(_) => Some(Direction::Monitor),
        Err(FtError::NotSelectedDirection { direction }) => Some(direction),
        Err(_) => None,
    }
}

fn request(action: u8) -> Frame {
    Frame::Sc { ioa: 1, nof: Nof { value: 1 }, nos: Nos { value: 1 }, scq: Scq { action, error: 0 } }
}

// Whether a type is of the receiver's side: its mirror comes back to a controlling station in the monitor
// direction.
fn is_receiver_side_type(kind: u8) -> Option<Answer> {
    if !ft::is_file_type(TypeId::from_u8(kind)) {
        return Some(OURS);
    }
    let station = FileTransferProcedure::controlling(Selection::MONITOR, 1, 0);
    let mirror = [kind, 1, 0x40 | 44, 0, 1, 0];
    let outcome = station.on_asdu(&mirror, &Known::EVERYTHING).ok()?;
    Some(question(matches!(outcome.reaction, Reaction::Refused { .. })))
}

fn of_selection(words: &mut Words) -> Option<Answer> {
    let what = words.word()?;
    let selection = words.selection()?;
    Some(match what {
        "count" => number(selection.count()),
        "uses_function" => question(selection.uses_function()),
        "uses" => question(selection.uses(words.direction()?)),
        "with" => said(show::selection(selection.with(words.direction()?, words.flag()?))),
        _ => return None,
    })
}

// ---- Frames

fn of_frame(words: &mut Words) -> Option<Answer> {
    let what = words.word()?;
    let written = words.frame()?;
    if what == "last_ioa" {
        return Some(OURS);
    }
    let Some(frame) = written.with(&[]) else {
        return Some(RANGE);
    };
    Some(match what {
        "type_id" => number(frame.type_id().to_u8()),
        "cause" => number(frame.cause().to_u8()),
        "is_receiver_side" => question(frame.is_receiver_side()),
        "ioa" => number(frame.ioa()),
        _ => PRIVATE,
    })
}

// A frame with octets beside it that go.
fn furnished(written: &Written) -> Option<Frame> {
    match written {
        Written::Segment { los, .. } => written.with(&vec![0; usize::from(los.value)]),
        Written::Directory { .. } => written.with(&[0; FDrTa1::LEN]),
        Written::Frame(_) => written.with(&[]),
    }
}

// The frame of another file, object and section.
fn renamed(frame: &Frame) -> Frame {
    let (named, ns) = (Nof { value: 1 }, Nos { value: 1 });
    let mut frame = frame.clone();
    match &mut frame {
        Frame::Sc { ioa, nof, nos, .. }
        | Frame::SectionReady { ioa, nof, nos, .. }
        | Frame::LastSection { ioa, nof, nos, .. }
        | Frame::Ack { ioa, nof, nos, .. } => (*ioa, *nof, *nos) = (1, named, ns),
        Frame::FileReady { ioa, nof, .. } | Frame::QueryLog { ioa, nof, .. } => (*ioa, *nof) = (1, named),
        Frame::Segment { ioa, segment } => (*ioa, segment.nof, segment.nos) = (1, named, ns),
        Frame::Directory { ioa, .. } => *ioa = 1,
    }
    frame
}

// Whether one frame answers another: a station that selects both directions is handed it.
fn answers(words: &mut Words, by_kind: bool) -> Option<Answer> {
    let first = words.frame()?;
    let by = words.is_next("by");
    let second = words.frame()?;
    let (Some(mut sent), Some(mut came), true) = (first.with(&[]), furnished(&second), by) else {
        return Some(RANGE);
    };
    if by_kind {
        (sent, came) = (renamed(&sent), renamed(&came));
    }
    if came.is_receiver_side() {
        return Some(PRIVATE);
    }
    let station = FileTransferProcedure::controlling(Selection::BOTH, 1, 0);
    let Ok(octets) = ft::encode_frame(1, 0, &came) else {
        return Some(RANGE);
    };
    Some(match station.on_answer(&octets, &Known::EVERYTHING, &sent) {
        Ok(outcome) if outcome.reaction == (Reaction::Answered { frame: came }) => question(true),
        Err(FtError::EchoMismatch { .. }) => question(false),
        _ => RANGE,
    })
}

// ---- Makers

/// A frame that was made, with its header. The one that went out must be the one that was given.
pub fn built(frame: &Frame, result: Result<Vec<u8>, FtError>, sizes: AddressSizes, ca: u16) -> Answer {
    let octets = match result {
        Ok(octets) => octets,
        Err(FtError::FunctionNotUsed) => return refused(21),
        Err(FtError::NotSelectedDirection { .. }) => return refused(22),
        Err(FtError::BroadcastAddress { .. }) => return ADDRESS,
        Err(_) => return RANGE,
    };
    let (Ok(header), Ok(gone)) = (Header::parse_with(&octets, sizes), ft::decode_frame_with(&octets, sizes)) else {
        return RANGE;
    };
    if gone != *frame {
        return RANGE;
    }
    if !is_own_address(sizes, ca, 0) {
        return ADDRESS;
    }
    said(format!("made {} {}", show::header(&header), show::frame(frame)))
}

fn frame_with(words: &mut Words) -> Option<Answer> {
    let widths = words.widths()?;
    let (ca, org) = (words.u16()?, words.u8()?);
    let written = words.frame()?;
    let beside = words.beside()?;
    let Some(sizes) = widths.sizes() else {
        return Some(WIDTHS);
    };
    let Some(frame) = written.with(&beside) else {
        return Some(RANGE);
    };
    if !is_own_address(sizes, ca, org) {
        return Some(ADDRESS);
    }
    Some(built(&frame, ft::encode_frame_with(ca, org, &frame, sizes), sizes, ca))
}

fn header_of(words: &mut Words) -> Option<Answer> {
    let (ca, org) = (words.u16()?, words.u8()?);
    let Some(frame) = furnished(&words.frame()?) else {
        return Some(RANGE);
    };
    let Ok(octets) = ft::encode_frame(ca, org, &frame) else {
        return Some(RANGE);
    };
    Some(said(show::header(&Header::parse(&octets).ok()?)))
}

// What a maker gave, against the frame of its fields.
fn made(frame: Option<Frame>, result: Result<Vec<u8>, FtError>, ca: u16) -> Option<Answer> {
    Some(built(&frame?, result, AddressSizes::CONVENTIONAL, ca))
}

fn make_sc(ca: u16, org: u8, ioa: u32, words: &mut Words) -> Option<Answer> {
    let (nof, nos, scq) = (words.nof()?, words.nos()?, words.scq()?);
    match ft::sc(ca, org, ioa, nof, nos, scq) {
        Err(FtError::CauseNotListed { .. }) => Some(refused(7)),
        result => made(Some(Frame::Sc { ioa, nof, nos, scq }), result, ca),
    }
}

fn make_segment(ca: u16, org: u8, ioa: u32, words: &mut Words) -> Option<Answer> {
    let (nof, nos) = (words.nof()?, words.nos()?);
    let payload = words.beside()?;
    match ft::segment(ca, org, ioa, nof, nos, &payload) {
        Err(FtError::EmptySegment) => Some(refused(5)),
        Err(FtError::SegmentTooLong { .. }) => Some(refused(6)),
        result => {
            let los = Los { value: u8::try_from(payload.len()).ok()? };
            made(Written::Segment { ioa, nof, nos, los }.with(&payload), result, ca)
        }
    }
}

fn make_directory(ca: u16, org: u8, ioa: u32, words: &mut Words) -> Option<Answer> {
    let cause = words.u8()?;
    let beside = words.beside()?;
    let Some(frame @ Frame::Directory { .. }) = (Written::Directory { ioa, cause }).with(&beside) else {
        return Some(RANGE);
    };
    let Frame::Directory { cause, files, .. } = frame.clone() else { return None };
    made(Some(frame), ft::directory(ca, org, ioa, cause, files), ca)
}

// The makers of a request: a call directory names no section.
fn make_request(which: &str, ca: u16, org: u8, ioa: u32, words: &mut Words) -> Option<Answer> {
    let nof = words.nof()?;
    let nos = if which == "call_directory" { Nos { value: 0 } } else { words.nos()? };
    let (action, result) = match which {
        "call_directory" => (ft::SCQ_CALL_DIRECTORY, ft::call_directory(ca, org, ioa, nof)),
        "select_file" => (Scq::SELECT_FILE, ft::select_file(ca, org, ioa, nof, nos)),
        "call_file" => (Scq::REQUEST_FILE, ft::call_file(ca, org, ioa, nof, nos)),
        _ => (Scq::REQUEST_SECTION, ft::call_section(ca, org, ioa, nof, nos)),
    };
    made(Some(Frame::Sc { ioa, nof, nos, scq: Scq { action, error: 0 } }), result, ca)
}

fn make_other(which: &str, ca: u16, org: u8, ioa: u32, words: &mut Words) -> Option<Answer> {
    let nof = words.nof()?;
    let (frame, result) = match which {
        "file_ready" => {
            let (lof, frq) = (words.lof()?, words.frq()?);
            (Frame::FileReady { ioa, nof, lof, frq }, ft::file_ready(ca, org, ioa, nof, lof, frq))
        }
        "section_ready" => {
            let (nos, lof, srq) = (words.nos()?, words.lof()?, words.srq()?);
            (Frame::SectionReady { ioa, nof, nos, lof, srq }, ft::section_ready(ca, org, ioa, nof, nos, lof, srq))
        }
        "ack" => {
            let (nos, afq) = (words.nos()?, words.afq()?);
            (Frame::Ack { ioa, nof, nos, afq }, ft::ack(ca, org, ioa, nof, nos, afq))
        }
        "last_segment" => {
            let (nos, lsq, chs) = (words.nos()?, words.lsq()?, words.chs()?);
            (Frame::LastSection { ioa, nof, nos, lsq, chs }, ft::last_segment(ca, org, ioa, nof, nos, lsq, chs))
        }
        "query_log" => {
            let (range_start, range_stop) = (words.time()?, words.time()?);
            let frame = Frame::QueryLog { ioa, nof, range_start, range_stop };
            (frame, ft::query_log(ca, org, ioa, nof, range_start, range_stop))
        }
        _ => return None,
    };
    made(Some(frame), result, ca)
}

fn make(words: &mut Words) -> Option<Answer> {
    let which = words.word()?;
    let (ca, org, ioa) = (words.u16()?, words.u8()?, words.u32()?);
    match which {
        "sc" => make_sc(ca, org, ioa, words),
        "segment" => make_segment(ca, org, ioa, words),
        "directory" => make_directory(ca, org, ioa, words),
        "call_directory" | "select_file" | "call_file" | "call_section" => make_request(which, ca, org, ioa, words),
        _ => make_other(which, ca, org, ioa, words),
    }
}

// ---- Calls

fn of_element(first: &str, words: &mut Words) -> Option<Answer> {
    Some(match first {
        "frq" => words.frq().map(|e| question(Frq::from_raw(e.raw()) == e))?,
        "srq" => words.srq().map(|e| question(Srq::from_raw(e.raw()) == e))?,
        "scq" => words.scq().map(|e| question(Scq::from_raw(e.raw()) == e))?,
        "afq" => words.afq().map(|e| question(Afq::from_raw(e.raw()) == e))?,
        "sof" => words.sof().map(|e| question(Sof::from_raw(e.raw()) == e))?,
        "lof" => question(is_lof(words.lof()?)),
        "time" => question(is_time(words.time()?)),
        "entry" => question(is_entry(&words.entry()?)),
        _ => OURS,
    })
}

pub fn call(first: &str, words: &mut Words) -> Option<Answer> {
    match first {
        "pack" => pack(words),
        "unpack" => unpack(words),
        "constant" => constant(words),
        "sizes" => of_sizes(words),
        "is_mirror" => of_header(words),
        "unknown_cause" => words.known()?.unknown.map(|which| number(which.cause().to_u8())),
        "checksum" => Some(number(ft::checksum(&words.octets()?).value)),
        "check_checksum" => check_checksum(words),
        "selection" => of_selection(words),
        "direction_for" => {
            let (role, receiver_side) = (words.role()?, words.flag()?);
            Some(said(show::direction(direction_for(role, receiver_side)?)))
        }
        "is_file_type" => Some(question(ft::is_file_type(TypeId::from_u8(words.u8()?)))),
        "is_receiver_side_type" => is_receiver_side_type(words.u8()?),
        "frame" => of_frame(words),
        "answers" => answers(words, false),
        "answers_type" => answers(words, true),
        "header_of" => header_of(words),
        "frame_with" => frame_with(words),
        "make" => make(words),
        _ => of_element(first, words),
    }
}
