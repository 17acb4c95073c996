//! The allocators of the crate [`rlsf`](https://docs.rs/rlsf/0.2.3) 0.2.3, over an implementation that is proved.
//!
//! [`Tlsf`] divides memory that you insert, [`FlexTlsf`] asks a source for memory, and [`GlobalTlsf`] is a `#[global_allocator]`. They have the
//! original's calls, and return the same addresses. Each allocation, deallocation and reallocation is a call of the static library
//! `librlsf_malloc.a`, whose contracts are proved. This crate only converts pointers, cuts pools and asks sources for memory, in plain Rust.
//!
//! ```
//! use rlsf::Tlsf;
//! use std::{alloc::Layout, mem::MaybeUninit};
//!
//! let mut pool = [MaybeUninit::uninit(); 65536];
//! let mut tlsf: Tlsf<'_, u16, u16, 12, 16> = Tlsf::new();
//! tlsf.insert_free_block(&mut pool);
//! let number = tlsf.allocate(Layout::new::<u64>()).unwrap().cast::<u64>();
//! unsafe {
//!     number.write(42);
//!     assert_eq!(number.read(), 42);
//!     tlsf.deallocate(number.cast(), align_of::<u64>());
//! }
//! ```
//!
//! The archive has heaps of 12 first-level rows with 16 size classes, and of 64 rows with 8, 32 and 64 classes. So `FLLEN` is at most 12 with an
//! `SLLEN` of 16, and at most 64 with one of 8, 32 and 64. Any other pair doesn't compile. Code that is generic over these numbers has the bound
//! `Classes<FLLEN, SLLEN>: Served`.
#![no_std]
#![warn(missing_docs)]

mod blocks;
mod flex;
#[cfg(target_os = "linux")]
mod global;
pub mod int;
mod kinds;
mod tlsf;

pub use blocks::BlockInfo;
pub use flex::{FlexSource, FlexTlsf, GlobalAllocAsFlexSource};
#[cfg(target_os = "linux")]
pub use global::{CAlloc, GlobalTlsf, GlobalTlsfOptions, SmallGlobalTlsf, SmallGlobalTlsfOptions};
pub use kinds::{Classes, Served};
pub use tlsf::{Tlsf, GRANULARITY};
