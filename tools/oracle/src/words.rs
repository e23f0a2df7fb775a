//! A call, read word by word.

use iec104::asdu::Direction;
use iec104::asdu::{
    AddressSizes, Afq, AsduLayout, Cause, Chs, Cp56Time2a, FDrTa1, Frq, Known, Lof, Los, Lsq, Nof, Nos, Scq, Segment,
    Sof, Srq, Unspecified,
};
use iec104::ft::{DirectoryEntry, Frame, Role, Selection};

pub struct Words<'a> {
    rest: std::iter::Peekable<std::str::Split<'a, char>>,
}

/// The facts of a header as a call has them.
#[derive(Debug, Clone, Copy)]
pub struct Facts {
    pub type_id: u8,
    pub cause: u8,
    pub negative: bool,
    pub originator: u8,
    pub common_address: u16,
}

/// Widths as a call has them.
#[derive(Debug, Clone, Copy)]
pub struct Widths {
    pub cause: u8,
    pub common: u8,
    pub object: u8,
}

impl Widths {
    /// The Rust's widths, where a system can have them.
    pub fn sizes(self) -> Option<AddressSizes> {
        if !(1..=2).contains(&self.cause) {
            return None;
        }
        AddressSizes::new(self.common, self.object, self.cause == 2).ok()
    }
}

/// A frame as a call has it: without what stands beside it.
#[derive(Debug, Clone)]
pub enum Written {
    Frame(Frame),
    Segment { ioa: u32, nof: Nof, nos: Nos, los: Los },
    Directory { ioa: u32, cause: u8 },
}

impl Written {
    /// The Rust's frame, with the octets that stand beside it. None where it has no such frame.
    pub fn with(&self, beside: &[u8]) -> Option<Frame> {
        match self {
            Self::Frame(frame) => Some(frame.clone()),
            Self::Segment { ioa, nof, nos, los } => Some(Frame::Segment {
                ioa: *ioa,
                segment: Segment { nof: *nof, nos: *nos, los: *los, payload: beside.to_vec() },
            }),
            Self::Directory { ioa, cause } => {
                Some(Frame::Directory { ioa: *ioa, cause: six_bits(*cause)?, files: entries(beside)? })
            }
        }
    }
}

/// The cause of six bits.
pub fn six_bits(cause: u8) -> Option<Cause> {
    (cause <= 63).then(|| Cause::from_u8(cause))
}

/// Packed entries, where the Rust reads them and writes the same octets.
pub fn entries(octets: &[u8]) -> Option<Vec<DirectoryEntry>> {
    octets.chunks(FDrTa1::LEN).map(entry).collect()
}

pub fn entry(octets: &[u8]) -> Option<DirectoryEntry> {
    let read = FDrTa1::parse(octets).ok()?;
    let mut again = Vec::new();
    read.encode(&mut again);
    (again == octets).then_some(DirectoryEntry { nof: read.nof, lof: read.lof, sof: read.sof, time: read.time })
}

impl<'a> Words<'a> {
    pub fn new(line: &'a str) -> Self {
        Self { rest: line.split(' ').peekable() }
    }

    pub fn word(&mut self) -> Option<&'a str> {
        self.rest.next()
    }

    pub fn is_next(&mut self, word: &str) -> bool {
        self.rest.next_if(|next| *next == word).is_some()
    }

    pub fn is_end(&mut self) -> bool {
        self.rest.peek().is_none()
    }

    pub fn u64(&mut self) -> Option<u64> {
        let word = self.word()?;
        if word.len() > 1 && word.starts_with('0') || word.starts_with('+') {
            return None;
        }
        word.parse().ok()
    }

    pub fn u32(&mut self) -> Option<u32> {
        u32::try_from(self.u64()?).ok()
    }

    pub fn u16(&mut self) -> Option<u16> {
        u16::try_from(self.u64()?).ok()
    }

    pub fn u8(&mut self) -> Option<u8> {
        u8::try_from(self.u64()?).ok()
    }

    pub fn flag(&mut self) -> Option<bool> {
        match self.word()? {
            "0" => Some(false),
            "1" => Some(true),
            _ => None,
        }
    }

    pub fn role(&mut self) -> Option<Role> {
        match self.word()? {
            "controlling" => Some(Role::Controlling),
            "controlled" => Some(Role::Controlled),
            _ => None,
        }
    }

    pub fn selection(&mut self) -> Option<Selection> {
        match self.word()? {
            "none" => Some(Selection::NONE),
            "monitor" => Some(Selection::MONITOR),
            "control" => Some(Selection::CONTROL),
            "both" => Some(Selection::BOTH),
            _ => None,
        }
    }

    pub fn direction(&mut self) -> Option<Direction> {
        match self.word()? {
            "monitor" => Some(Direction::Monitor),
            "control" => Some(Direction::Control),
            "both" => Some(Direction::Both),
            _ => None,
        }
    }

    pub fn known(&mut self) -> Option<Known> {
        let unknown = match self.word()? {
            "none" => None,
            "type" => Some(Unspecified::TypeIdentification),
            "cause" => Some(Unspecified::CauseOfTransmission),
            "common_address" => Some(Unspecified::CommonAddress),
            "object_address" => Some(Unspecified::InformationObjectAddress),
            _ => return None,
        };
        Some(Known { unknown })
    }

    pub fn widths(&mut self) -> Option<Widths> {
        Some(Widths { cause: self.u8()?, common: self.u8()?, object: self.u8()? })
    }

    pub fn facts(&mut self) -> Option<Facts> {
        Some(Facts {
            type_id: self.u8()?,
            cause: self.u8()?,
            negative: self.flag()?,
            originator: self.u8()?,
            common_address: self.u16()?,
        })
    }

    pub fn nof(&mut self) -> Option<Nof> {
        Some(Nof { value: self.u16()? })
    }

    pub fn nos(&mut self) -> Option<Nos> {
        Some(Nos { value: self.u8()? })
    }

    pub fn lof(&mut self) -> Option<Lof> {
        Some(Lof { value: self.u32()? })
    }

    pub fn frq(&mut self) -> Option<Frq> {
        Some(Frq { value: self.u8()?, negative_confirm: self.flag()? })
    }

    pub fn srq(&mut self) -> Option<Srq> {
        Some(Srq { value: self.u8()?, not_ready: self.flag()? })
    }

    pub fn scq(&mut self) -> Option<Scq> {
        Some(Scq { action: self.u8()?, error: self.u8()? })
    }

    pub fn afq(&mut self) -> Option<Afq> {
        Some(Afq { action: self.u8()?, error: self.u8()? })
    }

    pub fn lsq(&mut self) -> Option<Lsq> {
        Some(Lsq { value: self.u8()? })
    }

    pub fn chs(&mut self) -> Option<Chs> {
        Some(Chs { value: self.u8()? })
    }

    pub fn sof(&mut self) -> Option<Sof> {
        Some(Sof {
            status: self.u8()?,
            last_file_of_directory: self.flag()?,
            name_defines_subdirectory: self.flag()?,
            transfer_active: self.flag()?,
        })
    }

    pub fn time(&mut self) -> Option<Cp56Time2a> {
        Some(Cp56Time2a {
            milliseconds: self.u16()?,
            minutes: self.u8()?,
            substituted: self.flag()?,
            invalid: self.flag()?,
            hours: self.u8()?,
            summer_time: self.flag()?,
            day_of_month: self.u8()?,
            day_of_week: self.u8()?,
            months: self.u8()?,
            years: self.u8()?,
        })
    }

    pub fn entry(&mut self) -> Option<DirectoryEntry> {
        Some(DirectoryEntry { nof: self.nof()?, lof: self.lof()?, sof: self.sof()?, time: self.time()? })
    }

    /// One of the eight frames.
    pub fn frame(&mut self) -> Option<Written> {
        let frame = match self.word()? {
            "file_ready" => Frame::FileReady { ioa: self.u32()?, nof: self.nof()?, lof: self.lof()?, frq: self.frq()? },
            "section_ready" => Frame::SectionReady {
                ioa: self.u32()?,
                nof: self.nof()?,
                nos: self.nos()?,
                lof: self.lof()?,
                srq: self.srq()?,
            },
            "sc" => Frame::Sc { ioa: self.u32()?, nof: self.nof()?, nos: self.nos()?, scq: self.scq()? },
            "last_section" => Frame::LastSection {
                ioa: self.u32()?,
                nof: self.nof()?,
                nos: self.nos()?,
                lsq: self.lsq()?,
                chs: self.chs()?,
            },
            "ack" => Frame::Ack { ioa: self.u32()?, nof: self.nof()?, nos: self.nos()?, afq: self.afq()? },
            "segment" => {
                return Some(Written::Segment {
                    ioa: self.u32()?,
                    nof: self.nof()?,
                    nos: self.nos()?,
                    los: Los { value: self.u8()? },
                });
            }
            "directory" => return Some(Written::Directory { ioa: self.u32()?, cause: self.u8()? }),
            "query_log" => Frame::QueryLog {
                ioa: self.u32()?,
                nof: self.nof()?,
                range_start: self.time()?,
                range_stop: self.time()?,
            },
            _ => return None,
        };
        Some(Written::Frame(frame))
    }

    /// A frame, or none where it is `undecodable`.
    pub fn received(&mut self) -> Option<Option<Written>> {
        if self.is_next("undecodable") {
            return Some(None);
        }
        self.frame().map(Some)
    }

    /// OCTETS, to the end.
    pub fn octets(&mut self) -> Option<Vec<u8>> {
        if self.is_next("fill") {
            let (count, first, last) = (self.u64()?, self.u8()?, self.u8()?);
            return self.is_end().then(|| fill(count, first, last));
        }
        let mut octets = Vec::new();
        while !self.is_end() {
            octets.push(self.u8()?);
        }
        Some(octets)
    }

    /// BESIDE, to the end.
    pub fn beside(&mut self) -> Option<Vec<u8>> {
        if self.is_next("beside") {
            return self.octets();
        }
        self.is_end().then(Vec::new)
    }
}

/// So many octets that count from the first up to the last and again.
pub fn fill(count: u64, first: u8, last: u8) -> Vec<u8> {
    let mut octets = Vec::new();
    let mut octet = first;
    for _ in 0..count {
        octets.push(octet);
        octet = if octet == last { first } else { octet.wrapping_add(1) };
    }
    octets
}
