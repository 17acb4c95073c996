//! The type [`Tlsf`]. Each call passes addresses as numbers to one exported function, and makes a pointer of the number that it returns.

use core::alloc::Layout;
use core::fmt;
use core::marker::PhantomData;
use core::mem::{size_of, MaybeUninit};
use core::num::NonZeroUsize;
use core::ptr::{with_exposed_provenance_mut, NonNull};

use crate::blocks::{BlockInfo, Blocks};
use crate::int::BinInteger;
use crate::kinds::{Calls, Classes, Kind, Served};

/// The length of the shortest block, in bytes. Each block's length is a multiple of it.
pub const GRANULARITY: usize = 32;

/// The least length of a pool: a block, and the sentinel at its end.
const LEAST_POOL: usize = 2 * GRANULARITY;

/// The greatest alignment that each payload has. It is also the length of a block's header.
const LEAST_ALIGN: usize = GRANULARITY / 2;

/// A heap is over all addresses in between, each at itself. It has those bytes alone that are added.
const FIRST_ADDRESS: usize = GRANULARITY;
const LAST_ADDRESS: usize = 1 << 58;

pub(crate) type KindOf<const FLLEN: usize, const SLLEN: usize> = <Classes<FLLEN, SLLEN> as Served>::Kind;

/// An allocator over pools of memory that its user inserts, as in `rlsf` 0.2.3.
///
/// It has `FLLEN` first-level rows of `SLLEN` size classes. `FLBitmap` and `SLBitmap` have to have as many bits. A `Tlsf` holds no address of
/// itself, so it may be moved while payloads are live.
///
/// `'pool` is the lifetime of the pools that [`insert_free_block`](Self::insert_free_block) inserts:
///
/// ```compile_fail
/// use rlsf::Tlsf;
/// let mut tlsf: Tlsf<'_, u16, u16, 12, 16> = Tlsf::new();
/// {
///     let mut pool = [core::mem::MaybeUninit::uninit(); 4096];
///     tlsf.insert_free_block(&mut pool);
/// }
/// tlsf.allocate(core::alloc::Layout::new::<u64>());
/// ```
///
/// The archive has no heaps of 10 classes:
///
/// ```compile_fail
/// let tlsf = rlsf::Tlsf::<u16, u16, 12, 10>::new();
/// ```
pub struct Tlsf<'pool, FLBitmap, SLBitmap, const FLLEN: usize, const SLLEN: usize>
where
    Classes<FLLEN, SLLEN>: Served,
{
    /// The heap, once a pool was inserted.
    handle: <KindOf<FLLEN, SLLEN> as Kind>::Handle,
    is_begun: bool,
    _pools: PhantomData<(&'pool (), fn() -> (FLBitmap, SLBitmap))>,
}

impl<FLBitmap: BinInteger, SLBitmap: BinInteger, const FLLEN: usize, const SLLEN: usize> Default for Tlsf<'_, FLBitmap, SLBitmap, FLLEN, SLLEN>
where
    Classes<FLLEN, SLLEN>: Served,
{
    fn default() -> Self {
        Self::INIT
    }
}

impl<FLBitmap, SLBitmap, const FLLEN: usize, const SLLEN: usize> fmt::Debug for Tlsf<'_, FLBitmap, SLBitmap, FLLEN, SLLEN>
where
    Classes<FLLEN, SLLEN>: Served,
{
    fn fmt(&self, formatter: &mut fmt::Formatter<'_>) -> fmt::Result {
        formatter.debug_struct("Tlsf").finish_non_exhaustive()
    }
}

impl<'pool, FLBitmap: BinInteger, SLBitmap: BinInteger, const FLLEN: usize, const SLLEN: usize> Tlsf<'pool, FLBitmap, SLBitmap, FLLEN, SLLEN>
where
    Classes<FLLEN, SLLEN>: Served,
{
    /// An allocator without a pool.
    pub const INIT: Self = Self { handle: KindOf::<FLLEN, SLLEN>::EMPTY, is_begun: Self::FITS, _pools: PhantomData };

    /// The length of the longest pool, if there is one. Longer ranges become several pools.
    pub const MAX_POOL_SIZE: Option<usize> = longest_pool(FLLEN);

    /// Tests the parameters when the program is compiled. No heap has begun.
    const FITS: bool = {
        assert!(FLLEN <= FLBitmap::BITS as usize, "`FLBitmap` has fewer than `FLLEN` bits");
        assert!(SLLEN <= SLBitmap::BITS as usize, "`SLBitmap` has fewer than `SLLEN` bits");
        false
    };

    /// The length of the pools into which longer ranges are cut here, if the heap would make longer ones.
    const PART: Option<usize> = if FLLEN < KindOf::<FLLEN, SLLEN>::ROWS { Self::MAX_POOL_SIZE } else { None };

    const CALLS: Calls = KindOf::<FLLEN, SLLEN>::CALLS;

    /// Returns an allocator without a pool.
    pub const fn new() -> Self {
        Self::INIT
    }

    #[inline]
    fn heap(&mut self) -> *mut u8 {
        (&raw mut self.handle).cast()
    }

    /// The heap for a call that only reads it.
    #[inline]
    fn read_only(&self) -> *mut u8 {
        (&raw const self.handle).cast_mut().cast()
    }

    #[cold]
    fn begin(&mut self) {
        assert_eq!(size_of::<<KindOf<FLLEN, SLLEN> as Kind>::Handle>(), unsafe { (Self::CALLS.size)() }, "librlsf_malloc.a has another version");
        unsafe { (Self::CALLS.init)(self.heap(), with_exposed_provenance_mut(FIRST_ADDRESS), FIRST_ADDRESS, LAST_ADDRESS - FIRST_ADDRESS) };
        self.is_begun = true;
    }

    /// Inserts a pool. Returns the number of bytes from its start to the end of the last block in it. Returns `None` if it has no 64 bytes from
    /// a multiple of 32 on; then nothing changes.
    ///
    /// Takes constant time for each pool of [`MAX_POOL_SIZE`](Self::MAX_POOL_SIZE) bytes.
    ///
    /// # Safety
    ///
    /// The bytes of `block` belong to the allocator until they are removed, or for ever. They need no value.
    pub unsafe fn insert_free_block_ptr(&mut self, block: NonNull<[u8]>) -> Option<NonZeroUsize> {
        let start = block.cast::<u8>().as_ptr().expose_provenance();
        let skipped = start.wrapping_neg() % GRANULARITY;
        let len = block.len().checked_sub(skipped)? / GRANULARITY * GRANULARITY;
        if len < LEAST_POOL {
            return None;
        }
        NonZeroUsize::new(skipped + unsafe { self.insert_aligned(start + skipped, len) })
    }

    /// Inserts a range of whole multiples of 32 as pools, and returns how many of its bytes they have.
    unsafe fn insert_aligned(&mut self, start: usize, len: usize) -> usize {
        if !self.is_begun {
            self.begin();
        }
        let part = Self::PART.unwrap_or(usize::MAX);
        let mut taken = 0;
        while len - taken >= LEAST_POOL {
            taken += unsafe { (Self::CALLS.add)(self.heap(), start + taken, part.min(len - taken)) };
        }
        taken
    }

    /// Inserts a pool that the caller lends for the allocator's lifetime. Does nothing if the pool is too short, as
    /// [`insert_free_block_ptr`](Self::insert_free_block_ptr).
    pub fn insert_free_block(&mut self, block: &'pool mut [MaybeUninit<u8>]) {
        let block = NonNull::slice_from_raw_parts(NonNull::from(&mut *block).cast(), block.len());
        // The borrow lasts as long as the allocator.
        unsafe { self.insert_free_block_ptr(block) };
    }

    /// Appends memory that begins where a pool ends, and returns how many of its bytes the pool now has. The pool and the memory become one if
    /// there is no longest pool ([`MAX_POOL_SIZE`](Self::MAX_POOL_SIZE)). Otherwise the memory becomes pools of its own, and 0 is returned if it
    /// has fewer than 64 bytes.
    ///
    /// # Safety
    ///
    /// As for [`insert_free_block_ptr`](Self::insert_free_block_ptr). A pool of this allocator ends at the start of `block`.
    pub unsafe fn append_free_block_ptr(&mut self, block: NonNull<[u8]>) -> usize {
        let (start, len) = (block.cast::<u8>().as_ptr().expose_provenance(), block.len() / GRANULARITY * GRANULARITY);
        if Self::MAX_POOL_SIZE.is_none() {
            unsafe { (Self::CALLS.append)(self.heap(), start, len) }
        } else {
            unsafe { self.insert_aligned(start, len) }
        }
    }

    /// Returns the least length of a pool that begins at a multiple of 32 and contains a payload of `layout`. Returns `None` if none does.
    pub(crate) fn pool_size_to_contain_allocation(layout: Layout) -> Option<usize> {
        let least = NonZeroUsize::new(unsafe { (Self::CALLS.pool_size)(layout.size(), layout.align()) })?.get();
        let is_longer = Self::MAX_POOL_SIZE.is_some_and(|longest| longest < least);
        if is_longer { None } else { Some(least) }
    }

    /// Allocates a payload of at least `layout.size()` bytes at a multiple of `layout.align()`. Its bytes may have any values. Returns `None` if
    /// no free block has a class that reaches the size.
    ///
    /// Takes constant time.
    #[inline]
    pub fn allocate(&mut self, layout: Layout) -> Option<NonNull<u8>> {
        if !self.is_begun {
            return None;
        }
        pointer(unsafe {
            if layout.align() <= LEAST_ALIGN {
                (Self::CALLS.malloc)(self.heap(), layout.size())
            } else {
                (Self::CALLS.allocate)(self.heap(), layout.size(), layout.align())
            }
        })
    }

    /// Deallocates a payload in constant time.
    ///
    /// # Safety
    ///
    /// `ptr` is a live payload of this allocator, with the alignment `align`.
    #[inline]
    pub unsafe fn deallocate(&mut self, ptr: NonNull<u8>, align: usize) {
        let _ = align;
        unsafe { self.deallocate_unknown_align(ptr) }
    }

    /// Deallocates a payload in constant time.
    ///
    /// # Safety
    ///
    /// `ptr` is a live payload of this allocator.
    #[inline]
    pub unsafe fn deallocate_unknown_align(&mut self, ptr: NonNull<u8>) {
        unsafe { (Self::CALLS.free)(self.heap(), ptr.as_ptr().expose_provenance()) }
    }

    /// Changes the size of a payload, and returns its address, which may be another one. The first bytes, as many as both sizes have, are kept.
    /// Returns `None` if there is no room; then nothing changes.
    ///
    /// Takes time in proportion to the old size if the payload moves.
    ///
    /// # Safety
    ///
    /// `ptr` is a live payload of this allocator, with the alignment of `new_layout`.
    #[inline]
    pub unsafe fn reallocate(&mut self, ptr: NonNull<u8>, new_layout: Layout) -> Option<NonNull<u8>> {
        pointer(unsafe { (Self::CALLS.reallocate_aligned)(self.heap(), ptr.as_ptr().expose_provenance(), new_layout.size(), new_layout.align()) })
    }

    /// Returns the number of bytes of a payload that may be read and written: at least its size. In the original this takes no allocator.
    ///
    /// # Safety
    ///
    /// `ptr` is a live payload of this allocator.
    #[inline]
    pub unsafe fn allocation_usable_size(&self, ptr: NonNull<u8>) -> usize {
        unsafe { (Self::CALLS.usable)(self.read_only(), ptr.as_ptr().expose_provenance()) }
    }

    /// Returns the blocks of a pool in address order.
    ///
    /// # Safety
    ///
    /// `pool` is a pool of this allocator with what was appended to it: from its start to the end of its last block.
    pub unsafe fn iter_blocks(&self, pool: NonNull<[u8]>) -> impl Iterator<Item = BlockInfo<'_>> + Send + '_ {
        let start = pool.cast::<u8>().as_ptr().expose_provenance();
        let begin = start.next_multiple_of(GRANULARITY);
        let end = (start + pool.len()) / GRANULARITY * GRANULARITY;
        unsafe { Blocks::new(Self::CALLS.list, self.read_only(), begin, end.saturating_sub(begin)) }
    }
}

/// The length of the longest pool that `rows` first-level rows allow.
const fn longest_pool(rows: usize) -> Option<usize> {
    if rows < 59 {
        Some(GRANULARITY << rows)
    } else {
        None
    }
}

#[inline]
fn pointer(address: usize) -> Option<NonNull<u8>> {
    NonNull::new(with_exposed_provenance_mut(address))
}
