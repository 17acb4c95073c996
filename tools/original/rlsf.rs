//! The original as a library of its own name, for programs that also run over the crate of the folder `rust`.

extern crate self as const_default1;

#[macro_use]
mod utils;
mod flex;
pub mod int;
mod tlsf;

pub use flex::*;
pub use tlsf::*;

/// The trait that the original takes from another crate.
pub trait ConstDefault {
    const DEFAULT: Self;
}
