//! The Rust's values in the words of replay.

use iec104::asdu::{AddressSizes, Cp56Time2a, Direction, Header};
use iec104::ft::{DirectoryEntry, Frame, FtError, Role, Selection};

pub fn role(role: Role) -> &'static str {
    match role {
        Role::Controlling => "controlling",
        Role::Controlled => "controlled",
    }
}

pub fn selection(selection: Selection) -> &'static str {
    match (selection.monitor, selection.control) {
        (false, false) => "none",
        (true, false) => "monitor",
        (false, true) => "control",
        (true, true) => "both",
    }
}

pub fn direction(direction: Direction) -> &'static str {
    match direction {
        Direction::Monitor => "monitor",
        Direction::Control => "control",
        Direction::Both => "both",
    }
}

pub fn widths(sizes: AddressSizes) -> String {
    let cause = if sizes.originator_address() { 2 } else { 1 };
    format!("{cause} {} {}", sizes.common_address_octets(), sizes.information_object_address_octets())
}

pub fn header(header: &Header) -> String {
    let (kind, cause, negative) = (header.type_id.to_u8(), header.cause.to_u8(), u8::from(header.negative));
    format!("{kind} {cause} {negative} {} {}", header.originator, header.common_address)
}

pub fn time(time: &Cp56Time2a) -> String {
    let (substituted, invalid, summer) =
        (u8::from(time.substituted), u8::from(time.invalid), u8::from(time.summer_time));
    format!(
        "{} {} {substituted} {invalid} {} {summer} {} {} {} {}",
        time.milliseconds, time.minutes, time.hours, time.day_of_month, time.day_of_week, time.months, time.years
    )
}

pub fn entry(entry: &DirectoryEntry) -> String {
    let sof = entry.sof;
    let (last, subdirectory, active) =
        (u8::from(sof.last_file_of_directory), u8::from(sof.name_defines_subdirectory), u8::from(sof.transfer_active));
    let (nof, lof, when) = (entry.nof.value, entry.lof.value, time(&entry.time));
    format!("{nof} {lof} {} {last} {subdirectory} {active} {when}", sof.status)
}

pub fn octets(octets: &[u8]) -> String {
    let words: Vec<String> = octets.iter().map(u8::to_string).collect();
    words.join(" ")
}

/// A frame, without what stands beside it.
pub fn frame(frame: &Frame) -> String {
    match frame {
        Frame::FileReady { ioa, nof, lof, frq } => {
            format!("file_ready {ioa} {} {} {} {}", nof.value, lof.value, frq.value, u8::from(frq.negative_confirm))
        }
        Frame::SectionReady { ioa, nof, nos, lof, srq } => format!(
            "section_ready {ioa} {} {} {} {} {}",
            nof.value,
            nos.value,
            lof.value,
            srq.value,
            u8::from(srq.not_ready)
        ),
        Frame::Sc { ioa, nof, nos, scq } => {
            format!("sc {ioa} {} {} {} {}", nof.value, nos.value, scq.action, scq.error)
        }
        Frame::LastSection { ioa, nof, nos, lsq, chs } => {
            format!("last_section {ioa} {} {} {} {}", nof.value, nos.value, lsq.value, chs.value)
        }
        Frame::Ack { ioa, nof, nos, afq } => {
            format!("ack {ioa} {} {} {} {}", nof.value, nos.value, afq.action, afq.error)
        }
        Frame::Segment { ioa, segment } => {
            format!("segment {ioa} {} {} {}", segment.nof.value, segment.nos.value, segment.los.value)
        }
        Frame::Directory { ioa, cause, .. } => format!("directory {ioa} {}", cause.to_u8()),
        Frame::QueryLog { ioa, nof, range_start, range_stop } => {
            format!("query_log {ioa} {} {} {}", nof.value, time(range_start), time(range_stop))
        }
    }
}

/// Document 01's number of an error that a frame, admitted or made, gives. None of one of the codec's.
pub fn number(error: &FtError) -> Option<u8> {
    match error {
        FtError::FunctionNotUsed => Some(21),
        FtError::NotSelectedDirection { .. } => Some(22),
        FtError::EchoMismatch { .. } => Some(23),
        FtError::ChecksumMismatch { .. } => Some(8),
        FtError::BroadcastAddress { .. } => Some(3),
        FtError::CauseNotListed { .. }
        | FtError::SegmentTooLong { .. }
        | FtError::SegmentLengthMismatch { .. }
        | FtError::EmptySegment
        | FtError::DirectoryTooLarge { .. } => Some(4),
        FtError::NotThisType { .. } | FtError::Layout(_) => None,
    }
}
