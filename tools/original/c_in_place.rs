//! The original behind those exported functions of `include/rlsf.h` that `examples/steps_in_place.c` uses, so that this program links
//! with either library. Nothing is tested of the numbers, since the original tests nothing.

extern crate self as const_default1;

#[macro_use]
mod utils;
mod int;
mod tlsf;

use std::alloc::Layout;
use std::ptr::{self, NonNull};
use tlsf::{Tlsf, GRANULARITY};

/// The trait that the original takes from another crate.
pub trait ConstDefault {
    const DEFAULT: Self;
}

macro_rules! kind {
    ($heap:ty, $init:ident, $add:ident, $malloc:ident, $free:ident) => {
        #[no_mangle]
        pub unsafe extern "C" fn $init(heap: *mut $heap, _block: *mut u8, _start: usize, _len: usize) {
            ptr::write(heap, Tlsf::new());
        }

        #[no_mangle]
        pub unsafe extern "C" fn $add(heap: *mut $heap, start: usize, len: usize) -> usize {
            let range = NonNull::new(ptr::slice_from_raw_parts_mut(start as *mut u8, len)).unwrap();
            (*heap).insert_free_block_ptr(range).map_or(0, |taken| taken.get())
        }

        #[no_mangle]
        pub unsafe extern "C" fn $malloc(heap: *mut $heap, size: usize) -> usize {
            let Ok(layout) = Layout::from_size_align(size, 16) else {
                return 0;
            };
            (*heap).allocate(layout).map_or(0, |payload| payload.as_ptr() as usize)
        }

        #[no_mangle]
        pub unsafe extern "C" fn $free(heap: *mut $heap, payload: usize) {
            if let Some(payload) = NonNull::new(payload as *mut u8) {
                (*heap).deallocate_unknown_align(payload);
            }
        }
    };
}

kind!(Tlsf<'static, u16, u16, 12, 16>, rlsf_small_init, rlsf_small_add, rlsf_small_malloc, rlsf_small_free);
kind!(Tlsf<'static, usize, usize, 64, 64>, rlsf_large_init, rlsf_large_add, rlsf_large_malloc, rlsf_large_free);
