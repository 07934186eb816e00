//! The published assemblers of bempp-rs, built over stand-in crates and fed with lent numbers. This source is built twice: `published` has the files as they
//! are, `corrected` has them with the corrections of `oracle/build.rs`.
#![cfg(rust_at_hand)]
pub mod grid;
pub mod run;
pub mod timing;

use common::{answer, clock, job, numbers, random};

include!(concat!(env!("OUT_DIR"), "/published/root.rs"));
