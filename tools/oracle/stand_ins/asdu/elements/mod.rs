//! A stand-in of ours for src/asdu/elements/mod.rs, which is not published: the modules of the elements, and
//! the three functions with which they and src/asdu/layout/file.rs read octets.
//!
//! Inferred from: the list of names in src/asdu/mod.rs; the uses of `octets`, `take` and `split_off`, and the
//! comments there that name `AsduError::TooShort`. The elements of other functions are names only.

mod file;
mod time;

pub use file::*;
pub use time::*;

use super::AsduError;

/// The first octets of a buffer.
pub(crate) const fn take(buf: &[u8], need: usize) -> Result<&[u8], AsduError> {
    match buf.split_at_checked(need) {
        Some((front, _)) => Ok(front),
        None => Err(AsduError::TooShort { need, have: buf.len() }),
    }
}

/// The first octets of a buffer, which then begins behind them.
pub(crate) fn split_off<'a>(buf: &mut &'a [u8], need: usize) -> Result<&'a [u8], AsduError> {
    let front = take(buf, need)?;
    *buf = buf.get(need..).unwrap_or_default();
    Ok(front)
}

/// The first octets of a buffer as an array.
pub(crate) fn octets<const N: usize>(buf: &[u8]) -> Result<[u8; N], AsduError> {
    let front = take(buf, N)?;
    <[u8; N]>::try_from(front).map_err(|_| AsduError::TooShort { need: N, have: buf.len() })
}

macro_rules! names {
    ($($name:ident)*) => { $(pub struct $name;)* };
}

names! {
    Bcr Bsi Coi CommandQualifier Dco Diq DoubleCommandState DoublePointState EventState Fbp FreezeMode Nva Oci
    Qcc Qdp Qds Qoc Qoi Qos Qpa Qpm Qrp R32 Rco RegulatingStepState Scd Sco Sep Siq Spe Sva Tsc Vti
}
