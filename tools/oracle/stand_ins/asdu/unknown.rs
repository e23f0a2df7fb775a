//! A stand-in of ours for src/asdu/unknown.rs, which is not published: the rule of IEC 60870-5-101, 7.2.3,
//! for a field that a station does not know.
//!
//! Inferred from: the list of names in src/asdu/mod.rs; how `FileTransferProcedure::on_asdu` in src/ft.rs
//! uses `is_mirror`, `discard_reason`, `Unspecified::cause` and `mirror_frame`, and what it says of them (a
//! mirror is `P/N = 1` with a cause of 44 to 47; 44 is the unknown type, 45 the cause, 46 the common address,
//! 47 the object address; a mirror has `P/N = 1`, the class's cause and the object area as it came).
//!
//! `Known` holds the first unknown field and nothing else, as the calls of replay have it: which field of a
//! header a station knows is its application's matter, and is an input of the comparison.

use super::{AddressSizes, Cause, Header, TypeId};

#[derive(Debug, Clone, Copy, PartialEq, Eq)]
pub enum Unspecified {
    TypeIdentification,
    CauseOfTransmission,
    CommonAddress,
    InformationObjectAddress,
}

impl Unspecified {
    pub const fn cause(self) -> Cause {
        match self {
            Self::TypeIdentification => Cause::UnknownTypeId,
            Self::CauseOfTransmission => Cause::UnknownCause,
            Self::CommonAddress => Cause::UnknownCommonAddress,
            Self::InformationObjectAddress => Cause::UnknownInformationObjectAddress,
        }
    }
}

#[derive(Debug, Clone, Copy, PartialEq, Eq)]
pub enum Discard {
    Mirror,
    Unspecified(Unspecified),
}

/// What a station knows: everything, or all but one field.
#[derive(Debug, Clone, Copy, PartialEq, Eq)]
pub struct Known {
    pub unknown: Option<Unspecified>,
}

impl Known {
    pub const EVERYTHING: Self = Self { unknown: None };
}

pub const fn is_mirror(header: &Header) -> bool {
    header.negative
        && matches!(
            header.cause,
            Cause::UnknownTypeId
                | Cause::UnknownCause
                | Cause::UnknownCommonAddress
                | Cause::UnknownInformationObjectAddress
        )
}

pub fn discard_reason(header: &Header, known: &Known) -> Option<Discard> {
    if is_mirror(header) {
        return Some(Discard::Mirror);
    }
    known.unknown.map(Discard::Unspecified)
}

pub fn mirror_header(header: &Header, which: Unspecified) -> Header {
    Header { cause: which.cause(), negative: true, ..*header }
}

/// The octets are not compared, only that there is a mirror. A broadcast is answered with the own address.
pub fn mirror_frame(header: &Header, asdu: &[u8], which: Unspecified, own: u16, sizes: AddressSizes) -> Vec<u8> {
    let mut mirrored = mirror_header(header, which);
    if mirrored.common_address == sizes.broadcast_common_address() {
        mirrored.common_address = own;
    }
    let mut out = Vec::new();
    if mirrored.encode_with(&mut out, sizes).is_ok() {
        out.extend_from_slice(asdu.get(sizes.header_len()..).unwrap_or_default());
    }
    out
}

pub fn mirror_reply_with(asdu: &[u8], which: Unspecified, own: u16, sizes: AddressSizes) -> Option<Vec<u8>> {
    let header = Header::parse_with(asdu, sizes).ok()?;
    Some(mirror_frame(&header, asdu, which, own, sizes))
}

pub fn mirror_reply(asdu: &[u8], which: Unspecified, own: u16) -> Option<Vec<u8>> {
    mirror_reply_with(asdu, which, own, AddressSizes::CONVENTIONAL)
}

pub fn type_is_defined(type_id: TypeId) -> bool {
    type_id.info().is_some()
}

pub fn cause_is_defined(cause: Cause) -> bool {
    !matches!(cause, Cause::NotUsed | Cause::Reserved(_) | Cause::Private(_))
}

pub fn classify(header: &Header, known: &Known) -> Option<Unspecified> {
    match discard_reason(header, known) {
        Some(Discard::Unspecified(which)) => Some(which),
        _ => None,
    }
}
