//! The bodies of frames, as the calls `body write` and `body read` ask them: the octets behind the object address. The
//! Rust makes each body in two ways, which must give the same octets: by its encoders of the elements, in the order in
//! which IEC 60870-5-101, 7.3.6.1 to 7.3.6.6, has them, and by its layout of the whole. It reads each body in the same
//! two ways, which must give the same frame.
//!
//! Both refuse a body that is too short and nothing else: they leave octets behind it alone, and take any LOS. So the
//! Rust's reader of whole frames is asked as well, with the body behind a header and an object address. It refuses a
//! body of any wrong length, a LOS of 0 or over 240, and a LOS unlike the octets behind it; what it takes must be the
//! same frame again.

use crate::answer::{Answer, BODY, BUFFER, RANGE, refused, said};
use crate::show;
use crate::words::Words;
use iec104::asdu::{
    AddressSizes, Afq, AsduError, AsduLayout, Cause, Chs, FAfNa1, FFrNa1, FLsNa1, FScNa1, FSrNa1, Frq, Header,
    LayoutError, Lof, Los, Lsq, Nof, Nos, Scq, Segment, Srq, TypeId,
};
use iec104::ft::{Frame, FtError, decode_frame_with};

/// What stands in a buffer before a body is written.
const BEFORE: u8 = 170;

// The octets of elements, or of a whole body, one behind the other.
macro_rules! octets {
    ($($element:expr),*) => {{
        let mut out = Vec::new();
        $($element.encode(&mut out);)*
        out
    }};
}

// Widths of one octet each, which leave a segment the most octets.
fn narrowest() -> AddressSizes {
    AddressSizes::new(1, 1, false).expect("widths of one octet each")
}

// ---- Two ways to write

// Element by element. Of types 126 and 127 there is no body here.
fn by_elements(frame: &Frame) -> Vec<u8> {
    match frame {
        Frame::FileReady { nof, lof, frq, .. } => octets![nof, lof, frq],
        Frame::SectionReady { nof, nos, lof, srq, .. } => octets![nof, nos, lof, srq],
        Frame::Sc { nof, nos, scq, .. } => octets![nof, nos, scq],
        Frame::LastSection { nof, nos, lsq, chs, .. } => octets![nof, nos, lsq, chs],
        Frame::Ack { nof, nos, afq, .. } => octets![nof, nos, afq],
        Frame::Segment { segment: Segment { nof, nos, los, payload }, .. } => {
            [octets![nof, nos, los], payload.clone()].concat()
        }
        Frame::Directory { .. } | Frame::QueryLog { .. } => Vec::new(),
    }
}

// What the Rust's layout of the whole makes of a frame.
enum Whole {
    Body(Vec<u8>),
    /// A segment that it does not write: an empty one, or one that is too long.
    Refused,
    /// Octets that say something else than the frame: a value is out of range, or LOS is not the payload's length.
    Other,
    /// The body of type 126 or 127.
    NotHere,
}

// The layout of a constant length: the values are in range where the octets say the same.
fn whole<A: AsduLayout + PartialEq>(element: A) -> Whole {
    let octets = octets![element];
    if A::parse(&octets) == Ok(element) { Whole::Body(octets) } else { Whole::Other }
}

fn whole_segment(segment: &Segment) -> Whole {
    match segment.element_with(narrowest()) {
        Ok(octets) if Segment::parse(&octets).as_ref() == Ok(segment) => Whole::Body(octets),
        Ok(_) => Whole::Other,
        Err(LayoutError::EmptySegment { .. } | LayoutError::SegmentTooLong { .. }) => Whole::Refused,
        Err(why) => panic!("{segment:?} is refused by {why:?}"),
    }
}

fn by_layout(frame: &Frame) -> Whole {
    match *frame {
        Frame::FileReady { nof, lof, frq, .. } => whole(FFrNa1 { nof, lof, frq }),
        Frame::SectionReady { nof, nos, lof, srq, .. } => whole(FSrNa1 { nof, nos, lof, srq }),
        Frame::Sc { nof, nos, scq, .. } => whole(FScNa1 { nof, nos, scq }),
        Frame::LastSection { nof, nos, lsq, chs, .. } => whole(FLsNa1 { nof, nos, lsq, chs }),
        Frame::Ack { nof, nos, afq, .. } => whole(FAfNa1 { nof, nos, afq }),
        Frame::Segment { ref segment, .. } => whole_segment(segment),
        Frame::Directory { .. } | Frame::QueryLog { .. } => Whole::NotHere,
    }
}

// ---- Two ways to read

// The next element, taken off the front of what is left. None where too few octets are.
macro_rules! next {
    ($rest:ident, $element:ty) => {{
        let element = <$element>::parse($rest).ok()?;
        *$rest = &$rest[<$element>::LEN..];
        element
    }};
}

// Element by element. What is left is a segment's payload, and is not asked of another type.
fn elements_of(kind: u8, ioa: u32, rest: &mut &[u8]) -> Option<Frame> {
    let nof = next!(rest, Nof);
    Some(match kind {
        120 => Frame::FileReady { ioa, nof, lof: next!(rest, Lof), frq: next!(rest, Frq) },
        121 => Frame::SectionReady { ioa, nof, nos: next!(rest, Nos), lof: next!(rest, Lof), srq: next!(rest, Srq) },
        122 => Frame::Sc { ioa, nof, nos: next!(rest, Nos), scq: next!(rest, Scq) },
        123 => Frame::LastSection { ioa, nof, nos: next!(rest, Nos), lsq: next!(rest, Lsq), chs: next!(rest, Chs) },
        124 => Frame::Ack { ioa, nof, nos: next!(rest, Nos), afq: next!(rest, Afq) },
        125 => {
            let (nos, los) = (next!(rest, Nos), next!(rest, Los));
            Frame::Segment { ioa, segment: Segment { nof, nos, los, payload: rest.to_vec() } }
        }
        _ => return None,
    })
}

// By the layout of the whole.
fn layout_of(kind: u8, ioa: u32, octets: &[u8]) -> Option<Frame> {
    let frame = match kind {
        120 => FFrNa1::parse(octets).map(|FFrNa1 { nof, lof, frq }| Frame::FileReady { ioa, nof, lof, frq }),
        121 => {
            FSrNa1::parse(octets).map(|FSrNa1 { nof, nos, lof, srq }| Frame::SectionReady { ioa, nof, nos, lof, srq })
        }
        122 => FScNa1::parse(octets).map(|FScNa1 { nof, nos, scq }| Frame::Sc { ioa, nof, nos, scq }),
        123 => {
            FLsNa1::parse(octets).map(|FLsNa1 { nof, nos, lsq, chs }| Frame::LastSection { ioa, nof, nos, lsq, chs })
        }
        124 => FAfNa1::parse(octets).map(|FAfNa1 { nof, nos, afq }| Frame::Ack { ioa, nof, nos, afq }),
        125 => Segment::parse(octets).map(|segment| Frame::Segment { ioa, segment }),
        _ => return None,
    };
    frame.ok()
}

// The object address of a body that is handed to the reader of frames, in its one octet.
const ADDRESS: u8 = 1;

// What the reader of frames makes of a body, under a header of this cause. Octets that are left over behind types 120
// to 124 are refused by our stand-in for the object area, as the published comments on `AsduError` say of them.
fn received(kind: u8, cause: Cause, octets: &[u8]) -> Result<Frame, FtError> {
    let (type_id, count, common_address) = (TypeId::from_u8(kind), 1, 1);
    let (sequence, negative, test, originator) = (false, false, false, 0);
    let header = Header { type_id, sequence, count, cause, negative, test, originator, common_address };
    let mut asdu = Vec::new();
    header.encode_with(&mut asdu, narrowest()).expect("a header that octets can say");
    asdu.push(ADDRESS);
    asdu.extend_from_slice(octets);
    decode_frame_with(&asdu, narrowest())
}

// ---- The calls

// Octets as they stand behind something else.
fn behind(octets: &[u8]) -> String {
    octets.iter().map(|octet| format!(" {octet}")).collect()
}

// An answer with the whole buffer behind it, which begins with these octets.
fn shown(answer: &str, front: &[u8], length: usize) -> Answer {
    let mut buffer = vec![BEFORE; length];
    buffer[..front.len()].copy_from_slice(front);
    said(format!("{answer}:{}", behind(&buffer)))
}

// The Rust writes into what grows: a buffer that is too short is ours.
fn write(words: &mut Words) -> Option<Answer> {
    let (length, written) = (usize::try_from(words.u64()?).ok()?, words.frame()?);
    let Some(frame) = written.with(&words.beside()?) else {
        return Some(BODY);
    };
    Some(match by_layout(&frame) {
        Whole::NotHere => BODY,
        Whole::Other => RANGE,
        Whole::Refused => shown("refused 4", &[], length),
        Whole::Body(octets) => {
            assert_eq!(octets, by_elements(&frame), "{frame:?}: by its layout, and by its elements");
            let count = octets.len();
            if length < count { BUFFER } else { shown(&format!("wrote {count}"), &octets, length) }
        }
    })
}

// A frame that is read from so many octets: a segment's payload is the last of them, and another type has none.
fn shown_frame(frame: &Frame, count: usize) -> Answer {
    let (begin, payload) = match frame {
        Frame::Segment { segment, .. } => (count - segment.payload().len(), segment.payload()),
        _ => (0, &[][..]),
    };
    said(format!("read {} payload {begin} {}:{}", show::frame(frame), payload.len(), behind(payload)))
}

// Types 126 and 127 the Rust reads as well, and they have no body here.
fn read(words: &mut Words) -> Option<Answer> {
    let (kind, ioa, octets) = (words.u8()?, words.u32()?, words.octets()?);
    if [126, 127].contains(&kind) {
        return Some(BODY);
    }
    let frame = layout_of(kind, ioa, &octets);
    let again = elements_of(kind, ioa, &mut octets.as_slice());
    assert_eq!(frame, again, "type {kind}, {octets:?}: by its layout, and by its elements");
    let cause = frame.as_ref().map_or(Cause::FileTransfer, Frame::cause);
    Some(match received(kind, cause, &octets) {
        Ok(read) => {
            let whole = layout_of(kind, ADDRESS.into(), &octets);
            assert_eq!(whole, Some(read), "type {kind}, {octets:?}: by its layout, and by the reader of frames");
            shown_frame(&frame?, octets.len())
        }
        Err(FtError::NotThisType { .. }) => refused(29),
        Err(
            FtError::EmptySegment
            | FtError::SegmentLengthMismatch { .. }
            | FtError::Layout(LayoutError::Asdu(
                AsduError::TruncatedElement { .. }
                | AsduError::ObjectsNotExhausted { .. }
                | AsduError::BodyTooLong { .. },
            )),
        ) => refused(31),
        Err(why) => panic!("type {kind}, {octets:?}: refused by {why:?}"),
    })
}

pub fn of_body(words: &mut Words) -> Option<Answer> {
    match words.word()? {
        "write" => write(words),
        "read" => read(words),
        _ => None,
    }
}
