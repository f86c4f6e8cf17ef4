//! The former name of the crate `provedown`, for this version alone: its manifest line becomes that of `provedown`.

pub use provedown::*;
