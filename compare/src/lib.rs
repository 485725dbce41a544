//! The oracle (the plain path of pxfm), the answers that the standards decide
//! otherwise, and what the four programs share.

mod double_double;
mod dyadic_float;

// The sources of pxfm, included where they lie. They name each other from the
// root of the crate, so they stand here.
include!(concat!(env!("OUT_DIR"), "/pxfm.rs"));

pub mod function;
pub mod standard;
pub mod word;

#[cfg(feature = "ours")]
pub mod ours;
