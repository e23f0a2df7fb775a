//! A stand-in of ours for src/asdu/decoded.rs, which is not published: only the names that src/asdu/mod.rs
//! gives on. Nothing of the file transfer uses them.

pub struct Asdu;
pub struct Objects;
pub struct Point;
pub struct Quality;
pub struct TimeTag;
pub struct Validity;
pub struct Value;

pub fn decode() {}
pub fn decode_with() {}
