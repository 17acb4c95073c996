//! The original behind those calls of `include/rlsf.h` that `tools/measuring/preload.c` makes, so that it links with either library.
//! Payloads are pointers, which these calls pass as numbers.

extern crate self as const_default1;

#[macro_use]
mod utils;
mod int;
mod tlsf;

use int::BinInteger;
use std::alloc::Layout;
use std::ptr::{self, NonNull};
use tlsf::{Tlsf, GRANULARITY};

/// The trait that the original takes from another crate.
pub trait ConstDefault {
    const DEFAULT: Self;
}

/// The alignment that `malloc` promises.
const ALIGN: usize = 2 * size_of::<usize>();

/// A number that a call returns: 0 where there is no payload.
fn number(payload: Option<NonNull<u8>>) -> usize {
    payload.map_or(0, |at| at.as_ptr() as usize)
}

/// The payload at a number that isn't 0.
unsafe fn at(payload: usize) -> NonNull<u8> {
    NonNull::new_unchecked(payload as *mut u8)
}

#[inline(always)]
fn allocate<F: BinInteger, S: BinInteger, const FLLEN: usize, const SLLEN: usize>(
    heap: &mut Tlsf<'static, F, S, FLLEN, SLLEN>,
    size: usize,
    align: usize,
) -> usize {
    match Layout::from_size_align(size, align) {
        Ok(layout) => number(heap.allocate(layout)),
        Err(_) => 0,
    }
}

/// A payload's alignment isn't known. If it is above `ALIGN`, the original may not be called like this.
#[inline(always)]
unsafe fn reallocate<F: BinInteger, S: BinInteger, const FLLEN: usize, const SLLEN: usize>(
    heap: &mut Tlsf<'static, F, S, FLLEN, SLLEN>,
    payload: usize,
    size: usize,
) -> usize {
    match Layout::from_size_align(size, ALIGN) {
        Ok(layout) if payload != 0 => number(heap.reallocate(at(payload), layout)),
        Ok(layout) => number(heap.allocate(layout)),
        Err(_) => 0,
    }
}

/// The calls of a kind of heap.
macro_rules! calls {
    ($kind:literal, $module:ident, $heap:ty) => {
        mod $module {
            use super::*;

            #[export_name = concat!("rlsf_", $kind, "_init")]
            pub unsafe extern "C" fn init(heap: *mut $heap, _block: *mut u8, _start: usize, _len: usize) {
                ptr::write(heap, Tlsf::new());
            }

            #[export_name = concat!("rlsf_", $kind, "_add")]
            pub unsafe extern "C" fn add(heap: *mut $heap, start: usize, len: usize) -> usize {
                let range = NonNull::new(ptr::slice_from_raw_parts_mut(start as *mut u8, len)).unwrap();
                (*heap).insert_free_block_ptr(range).map_or(0, |taken| taken.get())
            }

            #[export_name = concat!("rlsf_", $kind, "_malloc")]
            pub unsafe extern "C" fn malloc(heap: *mut $heap, size: usize) -> usize {
                super::allocate(&mut *heap, size, ALIGN)
            }

            #[export_name = concat!("rlsf_", $kind, "_allocate")]
            pub unsafe extern "C" fn allocate(heap: *mut $heap, size: usize, align: usize) -> usize {
                super::allocate(&mut *heap, size, align.max(ALIGN))
            }

            #[export_name = concat!("rlsf_", $kind, "_reallocate")]
            pub unsafe extern "C" fn reallocate(heap: *mut $heap, payload: usize, size: usize) -> usize {
                super::reallocate(&mut *heap, payload, size)
            }

            #[export_name = concat!("rlsf_", $kind, "_free")]
            pub unsafe extern "C" fn free(heap: *mut $heap, payload: usize) {
                if payload != 0 {
                    (*heap).deallocate_unknown_align(at(payload));
                }
            }

            #[export_name = concat!("rlsf_", $kind, "_usable")]
            pub unsafe extern "C" fn usable(_: *mut $heap, payload: usize) -> usize {
                if payload == 0 {
                    return 0;
                }
                <$heap>::size_of_allocation_unknown_align(at(payload))
            }
        }
    };
}

calls!("small", small, Tlsf<'static, u16, u16, 12, 16>);
calls!("large", large, Tlsf<'static, usize, usize, 64, 64>);

// The header's handles have room behind the kind.
const _: () = assert!(size_of::<Tlsf<'static, u16, u16, 12, 16>>() <= 1776 - 8);
const _: () = assert!(size_of::<Tlsf<'static, usize, usize, 64, 64>>() <= 33840 - 8);
