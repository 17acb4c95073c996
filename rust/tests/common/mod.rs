//! What tests and the example share: random numbers, and live payloads whose bytes all are one value.
#![allow(dead_code)]

use std::alloc::{alloc_zeroed, dealloc, Layout};
use std::ptr::NonNull;

/// A generator of random numbers, xorshift64.
pub struct Random(pub u64);

impl Random {
    pub fn below(&mut self, end: usize) -> usize {
        self.0 ^= self.0 << 13;
        self.0 ^= self.0 >> 7;
        self.0 ^= self.0 << 17;
        (self.0 >> 11) as usize % end
    }

    /// A size: mostly small, seldom up to 64 KiB.
    pub fn size(&mut self) -> usize {
        let end = [64, 512, 4096, 65_537][self.below(4).min(self.below(4))];
        self.below(end)
    }

    /// An alignment from 1 to 4096.
    pub fn align(&mut self) -> usize {
        if self.below(4) == 0 {
            1 << self.below(13)
        } else {
            1 << self.below(5)
        }
    }
}

/// Memory that begins at a multiple of 2 MiB, so that addresses as differences from its start don't depend on where it lies.
pub struct Arena {
    pub base: NonNull<u8>,
    layout: Layout,
}

impl Arena {
    pub fn new(len: usize) -> Arena {
        let layout = Layout::from_size_align(len, 1 << 21).unwrap();
        Arena { base: NonNull::new(unsafe { alloc_zeroed(layout) }).unwrap(), layout }
    }

    pub fn range(&self, start: usize, len: usize) -> NonNull<[u8]> {
        assert!(start + len <= self.layout.size());
        NonNull::slice_from_raw_parts(unsafe { self.base.add(start) }, len)
    }

    pub fn offset(&self, at: NonNull<u8>) -> usize {
        at.addr().get() - self.base.addr().get()
    }
}

impl Drop for Arena {
    fn drop(&mut self) {
        unsafe { dealloc(self.base.as_ptr(), self.layout) };
    }
}

/// A live payload, whose bytes all are `fill`.
pub struct Live {
    pub at: NonNull<u8>,
    pub size: usize,
    pub align: usize,
    pub fill: u8,
}

impl Live {
    /// Fills a payload that has just been allocated.
    pub fn new(at: NonNull<u8>, size: usize, align: usize, random: &mut Random) -> Live {
        let live = Live { at, size, align, fill: random.below(256) as u8 };
        live.write();
        live
    }

    pub fn write(&self) {
        assert_eq!(self.at.addr().get() % self.align, 0);
        unsafe { self.at.write_bytes(self.fill, self.size) };
    }

    /// Whether the first bytes are as they were written.
    pub fn is_kept(&self, len: usize) -> bool {
        (0..len.min(self.size)).all(|at| unsafe { self.at.add(at).read() } == self.fill)
    }

    /// Resizes it at the address at which a reallocation left it.
    pub fn resize(&mut self, at: NonNull<u8>, size: usize) {
        self.at = at;
        assert!(self.is_kept(size));
        self.size = size;
        self.write();
    }
}
