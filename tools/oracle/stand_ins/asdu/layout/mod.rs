//! A stand-in of ours for src/asdu/layout/mod.rs, which is not published: whole ASDUs of a constant element
//! length, read and written.
//!
//! Inferred from: the list of names in src/asdu/mod.rs and its description of the layer; src/asdu/layout/file.rs
//! (the rows of `FILE_LAYOUTS`, `AsduLayout` and its eight users, the variants of `LayoutError` and when
//! each is given); src/ft.rs (`single` refuses N = 0 and N of 2 or more, so that N = 0 is read as no object; a
//! directory is SQ = 1, and one with SQ = 0 is refused).
//!
//! The layouts of other functions are names only.

mod file;

pub use file::*;

use super::{AddressSizes, AsduError, BodyReader, Header, Object, TypeId, encode_body_with};

#[derive(Debug, Clone, Copy, PartialEq, Eq)]
pub enum Sequence {
    NotDefined,
    Required,
    Allowed,
}

#[derive(Debug, Clone, Copy, PartialEq, Eq)]
pub enum ObjectCount {
    Single,
    Multiple,
}

#[derive(Debug, Clone, Copy, PartialEq, Eq)]
pub struct Layout {
    pub type_id: TypeId,
    pub element_len: usize,
    pub variable: bool,
    pub sequence: Sequence,
    pub count: ObjectCount,
}

pub(crate) const fn layout(type_id: TypeId, element_len: usize, sequence: Sequence, count: ObjectCount) -> Layout {
    Layout { type_id, element_len, variable: false, sequence, count }
}

pub(crate) const fn variable_layout(type_id: TypeId, sequence: Sequence, count: ObjectCount) -> Layout {
    Layout { type_id, element_len: 0, variable: true, sequence, count }
}

#[derive(Debug, Clone, Copy, PartialEq, Eq)]
pub enum LayoutError {
    Asdu(AsduError),
    TypeMismatch { expected: TypeId, got: TypeId },
    NoLayout { type_id: TypeId },
    SequenceNotAllowed { type_id: TypeId },
    SequenceRequired { type_id: TypeId },
    ObjectCountNotAllowed { type_id: TypeId, count: u8 },
    EmptySegment { type_id: TypeId },
    SegmentTooLong { len: usize, max: usize },
}

impl From<AsduError> for LayoutError {
    fn from(why: AsduError) -> Self {
        Self::Asdu(why)
    }
}

/// A type whose element has a constant length.
pub trait AsduLayout: Sized {
    const TYPE_ID: TypeId;
    const LEN: usize;

    fn parse(element: &[u8]) -> Result<Self, AsduError>;
    fn encode(&self, out: &mut Vec<u8>);
}

#[derive(Debug, Clone, Copy, PartialEq, Eq)]
pub struct LayoutObject<A> {
    pub ioa: u32,
    pub value: A,
}

pub const MONITOR_LAYOUTS: &[Layout] = &[];
pub const CONTROL_LAYOUTS: &[Layout] = &[];

pub fn layout_for(type_id: TypeId) -> Option<&'static Layout> {
    FILE_LAYOUTS.iter().find(|row| row.type_id == type_id)
}

pub fn element_len(type_id: TypeId) -> Option<usize> {
    layout_for(type_id).filter(|row| !row.variable).map(|row| row.element_len)
}

// Whether the header names the layout's type, and has a sequence and a count that it allows.
fn check<A: AsduLayout>(header: &Header) -> Result<(), LayoutError> {
    let type_id = A::TYPE_ID;
    if header.type_id != type_id {
        return Err(LayoutError::TypeMismatch { expected: type_id, got: header.type_id });
    }
    let row = layout_for(type_id).ok_or(LayoutError::NoLayout { type_id })?;
    match (row.sequence, header.sequence) {
        (Sequence::NotDefined, true) => return Err(LayoutError::SequenceNotAllowed { type_id }),
        (Sequence::Required, false) => return Err(LayoutError::SequenceRequired { type_id }),
        _ => {}
    }
    if row.count == ObjectCount::Single && header.count > 1 {
        return Err(LayoutError::ObjectCountNotAllowed { type_id, count: header.count });
    }
    Ok(())
}

pub fn decode_asdu<A: AsduLayout>(asdu: &[u8]) -> Result<Vec<LayoutObject<A>>, LayoutError> {
    decode_asdu_with(asdu, AddressSizes::CONVENTIONAL)
}

pub fn decode_asdu_with<A: AsduLayout>(asdu: &[u8], sizes: AddressSizes) -> Result<Vec<LayoutObject<A>>, LayoutError> {
    let header = Header::parse_with(asdu, sizes)?;
    check::<A>(&header)?;
    let area = asdu.get(sizes.header_len()..).unwrap_or_default();
    let mut reader = BodyReader::with_sizes(header, area, sizes);
    let mut objects = Vec::new();
    while let Some(object) = reader.next_object(A::LEN)? {
        objects.push(LayoutObject { ioa: object.ioa, value: A::parse(object.element)? });
    }
    reader.finish()?;
    Ok(objects)
}

pub fn encode_asdu<A: AsduLayout>(header: &Header, objects: &[LayoutObject<A>]) -> Result<Vec<u8>, LayoutError> {
    encode_asdu_with(header, objects, AddressSizes::CONVENTIONAL)
}

pub fn encode_asdu_with<A: AsduLayout>(
    header: &Header,
    objects: &[LayoutObject<A>],
    sizes: AddressSizes,
) -> Result<Vec<u8>, LayoutError> {
    check::<A>(header)?;
    let mut elements = Vec::new();
    for object in objects {
        let mut element = Vec::new();
        object.value.encode(&mut element);
        elements.push((object.ioa, element));
    }
    let written: Vec<Object<'_>> = elements.iter().map(|(ioa, element)| Object { ioa: *ioa, element }).collect();
    let body = encode_body_with(header, &written, sizes)?;
    let mut out = Vec::new();
    header.encode_with(&mut out, sizes)?;
    out.extend_from_slice(&body);
    Ok(out)
}

macro_rules! names {
    ($($name:ident)*) => { $(pub struct $name;)* };
}

names! {
    CBoNa1 CBoTa1 CCdNa1 CCiNa1 CCsNa1 CDcNa1 CDcTa1 CIcNa1 CRcNa1 CRcTa1 CRdNa1 CRpNa1 CScNa1 CScTa1 CSeNa1
    CSeNb1 CSeNc1 CSeTa1 CSeTb1 CSeTc1 CTsNa1 CTsTa1 MBoNa1 MBoTa1 MBoTb1 MDpNa1 MDpTa1 MDpTb1 MEiNa1 MEpTa1
    MEpTb1 MEpTc1 MEpTd1 MEpTe1 MEpTf1 MItNa1 MItTa1 MItTb1 MMeNa1 MMeNb1 MMeNc1 MMeNd1 MMeTa1 MMeTb1 MMeTc1
    MMeTd1 MMeTe1 MMeTf1 MPsNa1 MSpNa1 MSpTa1 MSpTb1 MStNa1 MStTa1 MStTb1 PAcNa1 PMeNa1 PMeNb1 PMeNc1
}
