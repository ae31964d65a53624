//! Names the three files of this folder.
#![allow(missing_docs)]

pub mod detect;
pub mod response;
pub mod ring;
