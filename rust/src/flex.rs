//! An allocator that asks a source for memory.

use core::alloc::{GlobalAlloc, Layout};
use core::fmt;
use core::ptr::NonNull;

use crate::int::BinInteger;
use crate::kinds::{Classes, Served};
use crate::tlsf::{Tlsf, GRANULARITY};

/// A source of memory for a [`FlexTlsf`]. The capabilities are constant for each value.
///
/// # Safety
///
/// A range that a call returns belongs to the caller, up to its `dealloc`.
pub unsafe trait FlexSource {
    /// Provides a range of at least `min_size` bytes that begins at a multiple of [`min_align`](Self::min_align), or `None`.
    ///
    /// # Safety
    ///
    /// `min_size` is a multiple of 32, and not 0.
    unsafe fn alloc(&mut self, min_size: usize) -> Option<NonNull<[u8]>> {
        let _ = min_size;
        None
    }

    /// Extends a range in place to at least `min_new_len` bytes. Returns its new length, or `None`; then the range is as before.
    ///
    /// # Safety
    ///
    /// `ptr` is a range that this source provided, as it was extended. `min_new_len` isn't less than its length.
    unsafe fn realloc_inplace_grow(&mut self, ptr: NonNull<[u8]>, min_new_len: usize) -> Option<usize> {
        let _ = (ptr, min_new_len);
        None
    }

    /// Takes a range back. It is only called if [`supports_dealloc`](Self::supports_dealloc) returns `true`.
    ///
    /// # Safety
    ///
    /// `ptr` is a range that this source provided, as it was extended.
    unsafe fn dealloc(&mut self, ptr: NonNull<[u8]>) {
        let _ = ptr;
        unimplemented!("`supports_dealloc` returns `true`, so `dealloc` has to be written");
    }

    /// Returns whether [`dealloc`](Self::dealloc) takes ranges back.
    fn supports_dealloc(&self) -> bool {
        false
    }

    /// Returns whether [`realloc_inplace_grow`](Self::realloc_inplace_grow) may extend a range.
    fn supports_realloc_inplace_grow(&self) -> bool {
        false
    }

    /// Returns whether all memory is one range. Then [`alloc`](Self::alloc) isn't called after an extension was refused.
    fn is_contiguous_growable(&self) -> bool {
        false
    }

    /// Returns a power of two. Each range begins at a multiple of it.
    fn min_align(&self) -> usize {
        1
    }
}

/// A [`GlobalAlloc`] as a source of ranges that begin at multiples of `ALIGN`, a power of two, and of 32.
#[derive(Default, Debug, Copy, Clone)]
pub struct GlobalAllocAsFlexSource<T, const ALIGN: usize>(pub T);

impl<T: GlobalAlloc, const ALIGN: usize> GlobalAllocAsFlexSource<T, ALIGN> {
    const RANGE_ALIGN: usize = {
        assert!(ALIGN.is_power_of_two(), "`ALIGN` is no power of two");
        if ALIGN < GRANULARITY {
            GRANULARITY
        } else {
            ALIGN
        }
    };
}

unsafe impl<T: GlobalAlloc, const ALIGN: usize> FlexSource for GlobalAllocAsFlexSource<T, ALIGN> {
    unsafe fn alloc(&mut self, min_size: usize) -> Option<NonNull<[u8]>> {
        let layout = Layout::from_size_align(min_size, Self::RANGE_ALIGN).ok()?.pad_to_align();
        // The size isn't 0.
        let start = NonNull::new(unsafe { self.0.alloc(layout) })?;
        Some(NonNull::slice_from_raw_parts(start, layout.size()))
    }

    unsafe fn dealloc(&mut self, ptr: NonNull<[u8]>) {
        // `alloc` made the range with this layout.
        unsafe { self.0.dealloc(ptr.cast().as_ptr(), Layout::from_size_align_unchecked(ptr.len(), Self::RANGE_ALIGN)) }
    }

    fn supports_dealloc(&self) -> bool {
        true
    }

    fn min_align(&self) -> usize {
        Self::RANGE_ALIGN
    }
}

/// A range of the source, and how many of its bytes, from its start, its pool takes.
#[derive(Clone, Copy, Debug)]
struct Pool {
    range: NonNull<[u8]>,
    len: usize,
}

/// The last 16 bytes of a range that has to go back to the source: the range before it. Its pool's last 16 bytes are no block's.
type Footer = Option<NonNull<[u8]>>;

/// An allocator that asks a source for memory if its pools have no room, as in `rlsf` 0.2.3.
///
/// Its drop returns each range to the source exactly once, newest first, if the source supports that.
pub struct FlexTlsf<Source: FlexSource, FLBitmap, SLBitmap, const FLLEN: usize, const SLLEN: usize>
where
    Classes<FLLEN, SLLEN>: Served,
{
    source: Source,
    tlsf: Tlsf<'static, FLBitmap, SLBitmap, FLLEN, SLLEN>,
    /// The newest pool, if the source takes ranges back or extends them.
    newest: Option<Pool>,
}

// A pool's pointer is only used by calls that borrow the allocator exclusively.
unsafe impl<Source: FlexSource + Send, FLBitmap, SLBitmap, const FLLEN: usize, const SLLEN: usize> Send
    for FlexTlsf<Source, FLBitmap, SLBitmap, FLLEN, SLLEN>
where
    Classes<FLLEN, SLLEN>: Served,
{
}
unsafe impl<Source: FlexSource + Sync, FLBitmap, SLBitmap, const FLLEN: usize, const SLLEN: usize> Sync
    for FlexTlsf<Source, FLBitmap, SLBitmap, FLLEN, SLLEN>
where
    Classes<FLLEN, SLLEN>: Served,
{
}

impl<Source: FlexSource + fmt::Debug, FLBitmap, SLBitmap, const FLLEN: usize, const SLLEN: usize> fmt::Debug
    for FlexTlsf<Source, FLBitmap, SLBitmap, FLLEN, SLLEN>
where
    Classes<FLLEN, SLLEN>: Served,
{
    fn fmt(&self, formatter: &mut fmt::Formatter<'_>) -> fmt::Result {
        formatter.debug_struct("FlexTlsf").field("source", &self.source).finish_non_exhaustive()
    }
}

impl<Source: FlexSource + Default, FLBitmap: BinInteger, SLBitmap: BinInteger, const FLLEN: usize, const SLLEN: usize> Default
    for FlexTlsf<Source, FLBitmap, SLBitmap, FLLEN, SLLEN>
where
    Classes<FLLEN, SLLEN>: Served,
{
    fn default() -> Self {
        Self::new(Source::default())
    }
}

impl<Source: FlexSource, FLBitmap: BinInteger, SLBitmap: BinInteger, const FLLEN: usize, const SLLEN: usize>
    FlexTlsf<Source, FLBitmap, SLBitmap, FLLEN, SLLEN>
where
    Classes<FLLEN, SLLEN>: Served,
{
    /// Returns an allocator without a pool. The source is asked nothing.
    pub const fn new(source: Source) -> Self {
        Self { source, tlsf: Tlsf::INIT, newest: None }
    }

    /// Returns the source.
    pub fn source_ref(&self) -> &Source {
        &self.source
    }

    /// Returns the source for a change.
    ///
    /// # Safety
    ///
    /// The change neither replaces the source nor takes a range away.
    pub unsafe fn source_mut_unchecked(&mut self) -> &mut Source {
        &mut self.source
    }

    /// Allocates a payload, as [`Tlsf::allocate`] does. If the pools have no room, asks the source for memory. Returns `None` if the source
    /// refuses, or if no pool contains such a payload; then all payloads are as before.
    ///
    /// Takes constant time, and that of the source.
    #[inline]
    pub fn allocate(&mut self, layout: Layout) -> Option<NonNull<u8>> {
        if let Some(payload) = self.tlsf.allocate(layout) {
            return Some(payload);
        }
        self.allocate_from_source(layout)
    }

    /// Gets a pool from the source, and allocates a payload in it.
    #[cold]
    fn allocate_from_source(&mut self, layout: Layout) -> Option<NonNull<u8>> {
        self.grow(layout)?;
        self.tlsf.allocate(layout)
    }

    /// Deallocates a payload, as [`Tlsf::deallocate`] does.
    ///
    /// # Safety
    ///
    /// `ptr` is a live payload of this allocator, with the alignment `align`.
    #[inline]
    pub unsafe fn deallocate(&mut self, ptr: NonNull<u8>, align: usize) {
        unsafe { self.tlsf.deallocate(ptr, align) }
    }

    /// Deallocates a payload, as [`Tlsf::deallocate_unknown_align`] does.
    ///
    /// # Safety
    ///
    /// `ptr` is a live payload of this allocator.
    #[inline]
    pub unsafe fn deallocate_unknown_align(&mut self, ptr: NonNull<u8>) {
        unsafe { self.tlsf.deallocate_unknown_align(ptr) }
    }

    /// Changes the size of a payload, as [`Tlsf::reallocate`] does. If the pools have no room, asks the source for memory.
    ///
    /// # Safety
    ///
    /// `ptr` is a live payload of this allocator, with the alignment of `new_layout`.
    #[inline]
    pub unsafe fn reallocate(&mut self, ptr: NonNull<u8>, new_layout: Layout) -> Option<NonNull<u8>> {
        if let Some(payload) = unsafe { self.tlsf.reallocate(ptr, new_layout) } {
            return Some(payload);
        }
        let payload = self.allocate_from_source(new_layout)?;
        unsafe {
            // The pools had no room, so the new size is greater.
            ptr.copy_to_nonoverlapping(payload, self.tlsf.allocation_usable_size(ptr));
            self.deallocate(ptr, new_layout.align());
        }
        Some(payload)
    }

    /// Returns the number of bytes of a payload that may be read and written. In the original this takes no allocator.
    ///
    /// # Safety
    ///
    /// `ptr` is a live payload of this allocator.
    #[inline]
    pub unsafe fn allocation_usable_size(&self, ptr: NonNull<u8>) -> usize {
        unsafe { self.tlsf.allocation_usable_size(ptr) }
    }

    /// Gets a pool from the source that has room for `layout`: the newest one extended, or another one.
    fn grow(&mut self, layout: Layout) -> Option<()> {
        let least = Tlsf::<FLBitmap, SLBitmap, FLLEN, SLLEN>::pool_size_to_contain_allocation(layout)?;
        if let Some(pool) = self.newest {
            let wanted = pool.len.checked_add(least)?;
            if self.source.supports_realloc_inplace_grow() && self.extend(pool, wanted).is_some() {
                return Some(());
            }
            if self.source.is_contiguous_growable() {
                return None;
            }
        }
        self.insert(least)
    }

    /// Extends the newest pool, whose range is to have `wanted` bytes at least.
    fn extend(&mut self, pool: Pool, wanted: usize) -> Option<()> {
        // The source provided the range, and extended it to its length. That is less than 64 bytes longer than its pool.
        let len = unsafe { self.source.realloc_inplace_grow(pool.range, wanted) }?;
        let start = pool.range.cast::<u8>();
        let range = NonNull::slice_from_raw_parts(start, len);
        if self.source.supports_dealloc() {
            unsafe { self.footer(range).write(self.footer(pool.range).read()) };
        }
        // The pool ends before the bytes that the source added.
        let appended = unsafe { self.tlsf.append_free_block_ptr(NonNull::slice_from_raw_parts(start.add(pool.len), len - pool.len)) };
        self.newest = Some(Pool { range, len: pool.len + appended });
        Some(())
    }

    /// Inserts another range of the source, in which a pool of `least` bytes that begins at a multiple of 32 has room.
    fn insert(&mut self, least: usize) -> Option<()> {
        let wanted = if self.source.min_align() < GRANULARITY { least.checked_add(GRANULARITY)? } else { least };
        // The length is a multiple of 32, and not 0. The range is the caller's, and so the allocator's.
        let range = unsafe { self.source.alloc(wanted) }?;
        let len = unsafe { self.tlsf.insert_free_block_ptr(range) }?.get();
        if self.source.supports_dealloc() {
            unsafe { self.footer(range).write(self.newest.map(|pool| pool.range)) };
        }
        if self.source.supports_dealloc() || self.source.supports_realloc_inplace_grow() {
            self.newest = Some(Pool { range, len });
        }
        Some(())
    }
}

impl<Source: FlexSource, FLBitmap, SLBitmap, const FLLEN: usize, const SLLEN: usize> FlexTlsf<Source, FLBitmap, SLBitmap, FLLEN, SLLEN>
where
    Classes<FLLEN, SLLEN>: Served,
{
    /// The place of a range's footer: its last 16 bytes, at a multiple of 8.
    unsafe fn footer(&self, range: NonNull<[u8]>) -> NonNull<Footer> {
        let end = unsafe { range.cast::<u8>().add(range.len()) };
        let rest = if self.source.min_align() < align_of::<Footer>() { end.addr().get() % align_of::<Footer>() } else { 0 };
        unsafe { end.sub(rest + size_of::<Footer>()) }.cast()
    }
}

impl<Source: FlexSource, FLBitmap, SLBitmap, const FLLEN: usize, const SLLEN: usize> Drop for FlexTlsf<Source, FLBitmap, SLBitmap, FLLEN, SLLEN>
where
    Classes<FLLEN, SLLEN>: Served,
{
    fn drop(&mut self) {
        if !self.source.supports_dealloc() {
            return;
        }
        let mut newest = self.newest.map(|pool| pool.range);
        while let Some(range) = newest {
            // A footer is read before its range goes back.
            unsafe {
                newest = self.footer(range).read();
                self.source.dealloc(range);
            }
        }
    }
}
