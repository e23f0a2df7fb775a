//! A stand-in of ours for src/lib.rs, the crate's root, which is not published: the modules that the file
//! transfer stands on. The other functions' modules, which comments name, are left out.
#![allow(dead_code)]

#[path = "../published/apci.rs"]
pub mod apci;
#[path = "../published/asdu/mod.rs"]
pub mod asdu;
#[path = "../published/ft/mod.rs"]
pub mod ft;
