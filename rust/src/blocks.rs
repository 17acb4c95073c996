//! The blocks of a pool.

use core::fmt;
use core::marker::PhantomData;
use core::ptr::{with_exposed_provenance_mut, NonNull};

use crate::tlsf::GRANULARITY;

/// A block of a pool.
#[derive(Clone, Copy)]
pub struct BlockInfo<'a> {
    block: NonNull<[u8]>,
    is_occupied: bool,
    _allocator: PhantomData<&'a ()>,
}

impl BlockInfo<'_> {
    /// Returns the block's length in bytes, with its header.
    pub fn size(&self) -> usize {
        self.block.len()
    }

    /// Returns the length of the longest payload that the block has room for, at an alignment below 32.
    pub fn max_payload_size(&self) -> usize {
        self.size() - GRANULARITY / 2
    }

    /// Returns the bytes of the block.
    pub fn as_ptr(&self) -> NonNull<[u8]> {
        self.block
    }

    /// Returns whether a payload is live in the block.
    pub fn is_occupied(&self) -> bool {
        self.is_occupied
    }
}

impl fmt::Debug for BlockInfo<'_> {
    fn fmt(&self, formatter: &mut fmt::Formatter<'_>) -> fmt::Result {
        formatter.debug_struct("BlockInfo").field("ptr", &self.block).field("size", &self.size()).field("is_occupied", &self.is_occupied).finish()
    }
}

/// A block in the list of an exported function.
#[repr(C)]
#[derive(Clone, Copy, Default)]
struct Span {
    start: usize,
    len: usize,
    used: usize,
}

type List = unsafe extern "C" fn(*mut u8, usize, usize, usize, *mut usize, usize) -> usize;

/// How many blocks are listed at once.
const ROOM: usize = 32;

/// The blocks of a pool, from an address on.
pub(crate) struct Blocks<'a> {
    list: List,
    heap: *mut u8,
    /// The pool, and the address from which on blocks aren't listed yet.
    start: usize,
    len: usize,
    from: usize,
    /// Listed blocks, of which the first ones were returned.
    listed: [Span; ROOM],
    next: usize,
    count: usize,
    _allocator: PhantomData<&'a ()>,
}

// The heap is only read, and is borrowed as long as the iterator lives.
unsafe impl Send for Blocks<'_> {}

impl Blocks<'_> {
    /// # Safety
    ///
    /// The heap lives as long as the iterator, and doesn't change meanwhile. The range is empty, or a pool of it.
    pub(crate) unsafe fn new(list: List, heap: *mut u8, start: usize, len: usize) -> Self {
        Blocks { list, heap, start, len, from: start, listed: [Span::default(); ROOM], next: 0, count: 0, _allocator: PhantomData }
    }

    fn list_more(&mut self) {
        let numbers = self.listed.as_mut_ptr().cast();
        // The caller of `new` keeps the conditions.
        self.count = unsafe { (self.list)(self.heap, self.start, self.len, self.from, numbers, 3 * ROOM) };
        self.next = 0;
    }
}

impl<'a> Iterator for Blocks<'a> {
    type Item = BlockInfo<'a>;

    fn next(&mut self) -> Option<BlockInfo<'a>> {
        if self.next == self.count && self.len != 0 {
            self.list_more();
        }
        let span = *self.listed[..self.count].get(self.next)?;
        self.next += 1;
        self.from = span.start + span.len;
        let start = NonNull::new(with_exposed_provenance_mut(span.start))?;
        Some(BlockInfo { block: NonNull::slice_from_raw_parts(start, span.len), is_occupied: span.used != 0, _allocator: PhantomData })
    }
}
