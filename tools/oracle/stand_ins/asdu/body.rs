//! A stand-in of ours for src/asdu/body.rs, which is not published: the object area behind a header.
//!
//! Inferred from: the list of names in src/asdu/mod.rs and its example; the variants of `AsduError` and
//! their comments there (what the reader and the writer refuse); `write_ioa`'s comment there, that
//! `encode_body` checks every object's address; `decode_segment_with` and `encode_segment_with` in
//! src/asdu/layout/file.rs, which call it; IEC 60870-5-101, 7.2.2.1, for SQ = 0 and SQ = 1.
//!
//! What it decides that the published text leaves open: a sequence that is read gives object i the address
//! base + i and refuses none of them (the comment in `DirectoryCall::on_asdu` says that the range cannot
//! reach `u32::MAX`, which would be said of no address that had been refused); a sequence that is written is
//! refused where any object's address passes the width.

use super::{AddressSizes, AsduError, Header, ioa_out_of_range, read_ioa_with, write_ioa_checked_with};

pub const IOA_IRRELEVANT: u32 = 0;

pub const MAX_IOA: u32 = 0x00FF_FFFF;

pub const MAX_BODY: usize = 243;

#[derive(Debug, Clone, Copy, PartialEq, Eq)]
pub struct Object<'a> {
    pub ioa: u32,
    pub element: &'a [u8],
}

/// Walks the objects of an ASDU.
#[derive(Debug, Clone)]
pub struct BodyReader<'a> {
    header: Header,
    area: &'a [u8],
    sizes: AddressSizes,
    index: u8,
    base: u32,
    length: Option<usize>,
}

impl<'a> BodyReader<'a> {
    pub const fn new(header: Header, area: &'a [u8]) -> Self {
        Self::with_sizes(header, area, AddressSizes::CONVENTIONAL)
    }

    pub const fn with_sizes(header: Header, area: &'a [u8], sizes: AddressSizes) -> Self {
        Self { header, area, sizes, index: 0, base: 0, length: None }
    }

    pub fn from_asdu(asdu: &'a [u8]) -> Result<Self, AsduError> {
        let header = Header::parse(asdu)?;
        Ok(Self::new(header, asdu.get(Header::LEN..).unwrap_or_default()))
    }

    // The next octets of the area.
    fn take(&mut self, need: usize) -> Result<&'a [u8], AsduError> {
        let have = self.area.len();
        let Some((front, rest)) = self.area.split_at_checked(need) else {
            return Err(AsduError::TruncatedElement { index: self.index, need, have });
        };
        self.area = rest;
        Ok(front)
    }

    // The address of the next object: its own, or the one behind the last object's in a sequence.
    fn address(&mut self) -> Result<u32, AsduError> {
        if self.header.sequence && self.index > 0 {
            return Ok(self.base.saturating_add(u32::from(self.index)));
        }
        let width = usize::from(self.sizes.information_object_address_octets());
        let field = self.take(width)?;
        self.base = read_ioa_with(field, self.sizes)?;
        Ok(self.base)
    }

    pub fn next_object(&mut self, element_len: usize) -> Result<Option<Object<'a>>, AsduError> {
        if self.index == self.header.count {
            return Ok(None);
        }
        let expected = *self.length.get_or_insert(element_len);
        if expected != element_len {
            return Err(AsduError::ElementLengthMismatch { index: self.index, expected, got: element_len });
        }
        let ioa = self.address()?;
        let element = self.take(element_len)?;
        self.index += 1;
        Ok(Some(Object { ioa, element }))
    }

    pub fn finish(self) -> Result<(), AsduError> {
        if self.area.is_empty() {
            return Ok(());
        }
        Err(AsduError::ObjectsNotExhausted { count: self.header.count, remaining: self.area.len() })
    }
}

pub fn encode_body(header: &Header, objects: &[Object<'_>]) -> Result<Vec<u8>, AsduError> {
    encode_body_with(header, objects, AddressSizes::CONVENTIONAL)
}

pub fn encode_body_with(header: &Header, objects: &[Object<'_>], sizes: AddressSizes) -> Result<Vec<u8>, AsduError> {
    if usize::from(header.count) != objects.len() {
        return Err(AsduError::ObjectCountMismatch { header: header.count, objects: objects.len() });
    }
    let mut out = Vec::new();
    let Some(first) = objects.first() else {
        return Ok(out);
    };
    for (object, index) in objects.iter().zip(0u8..) {
        if object.element.len() != first.element.len() {
            let (expected, got) = (first.element.len(), object.element.len());
            return Err(AsduError::ElementLengthMismatch { index, expected, got });
        }
        if object.ioa > sizes.max_ioa() {
            return Err(ioa_out_of_range(object.ioa, sizes.max_ioa()));
        }
        let expected = first.ioa.wrapping_add(u32::from(index));
        if header.sequence && object.ioa != expected {
            return Err(AsduError::SequenceNotContiguous { index, expected, got: object.ioa });
        }
        if !header.sequence || index == 0 {
            write_ioa_checked_with(&mut out, object.ioa, sizes)?;
        }
        out.extend_from_slice(object.element);
    }
    if out.len() > sizes.max_body() {
        return Err(AsduError::BodyTooLong { len: out.len(), max: sizes.max_body() });
    }
    Ok(out)
}
