//! swim.h, as it stands in C. The crate `swim` has what is safe.

#![allow(non_camel_case_types)]

#[rustfmt::skip]
mod made;

pub use made::*;
