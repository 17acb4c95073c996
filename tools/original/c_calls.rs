//! The original behind those calls of `include/rlsf_pool.h` that `examples/steps.c` makes, so that this program links with either library.
//! As there, addresses are numbers of the pool's own memory. Nothing is tested of them, since the original tests nothing.

extern crate self as const_default1;

#[macro_use]
mod utils;
mod int;
mod tlsf;

use std::alloc::{alloc_zeroed, dealloc, Layout};
use std::ptr::{self, NonNull};
use tlsf::{Tlsf, GRANULARITY};

/// The trait that the original takes from another crate.
pub trait ConstDefault {
    const DEFAULT: Self;
}

/// The kinds and errors of the header.
const SMALL: usize = 1;
const LARGE: usize = 2;
const NO_LAYOUT: usize = 9;
const NO_ROOM: usize = 10;
const NO_KIND: usize = 11;

enum Kind {
    Small(Tlsf<'static, u16, u16, 12, 16>),
    Large(Tlsf<'static, usize, usize, 64, 64>),
}

/// A pool at its handle. The displacement is what is added to one of its addresses to get a pointer.
pub struct Pool {
    kind: Kind,
    memory: *mut u8,
    layout: Layout,
    displacement: usize,
}

#[repr(C)]
pub struct Answer {
    error: usize,
    value: usize,
}

/// A call on the allocator of a pool, whatever its kind.
macro_rules! on {
    ($pool:expr, $tlsf:ident => $call:expr) => {
        match &mut $pool.kind {
            Kind::Small($tlsf) => $call,
            Kind::Large($tlsf) => $call,
        }
    };
}

#[no_mangle]
pub extern "C" fn rlsf_pool_size() -> usize {
    size_of::<Pool>()
}

/// The start is a multiple of the granularity, so that alignments up to it are the same for addresses and pointers.
#[no_mangle]
pub unsafe extern "C" fn rlsf_pool_init(pool: *mut Pool, kind: usize, start: usize, len: usize) -> usize {
    let kind = match kind {
        SMALL => Kind::Small(Tlsf::new()),
        LARGE => Kind::Large(Tlsf::new()),
        _ => return NO_KIND,
    };
    assert!(start % GRANULARITY == 0);
    let layout = Layout::from_size_align(len, GRANULARITY).unwrap();
    let memory = alloc_zeroed(layout);
    assert!(!memory.is_null());
    let displacement = (memory as usize).wrapping_sub(start);
    ptr::write(pool, Pool { kind, memory, layout, displacement });
    0
}

#[no_mangle]
pub unsafe extern "C" fn rlsf_pool_destroy(pool: *mut Pool) {
    let pool = ptr::read(pool);
    dealloc(pool.memory, pool.layout);
}

#[no_mangle]
pub unsafe extern "C" fn rlsf_pool_insert(pool: *mut Pool, start: usize, len: usize) -> Answer {
    let pool = &mut *pool;
    let begin = start.wrapping_add(pool.displacement) as *mut u8;
    let range = NonNull::new(ptr::slice_from_raw_parts_mut(begin, len)).unwrap();
    let taken = on!(pool, tlsf => tlsf.insert_free_block_ptr(range));
    Answer { error: 0, value: taken.map_or(0, |n| n.get()) }
}

#[no_mangle]
pub unsafe extern "C" fn rlsf_pool_allocate(pool: *mut Pool, size: usize, align: usize) -> Answer {
    let pool = &mut *pool;
    let Ok(layout) = Layout::from_size_align(size, align) else {
        return Answer { error: NO_LAYOUT, value: 0 };
    };
    match on!(pool, tlsf => tlsf.allocate(layout)) {
        Some(payload) => Answer { error: 0, value: (payload.as_ptr() as usize).wrapping_sub(pool.displacement) },
        None => Answer { error: NO_ROOM, value: 0 },
    }
}

/// The call isn't told an alignment, so the original looks for the block without it.
#[no_mangle]
pub unsafe extern "C" fn rlsf_pool_free(pool: *mut Pool, addr: usize) -> usize {
    let pool = &mut *pool;
    let payload = NonNull::new_unchecked(addr.wrapping_add(pool.displacement) as *mut u8);
    on!(pool, tlsf => tlsf.deallocate_unknown_align(payload));
    0
}
