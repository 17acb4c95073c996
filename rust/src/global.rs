//! An allocator for all of a program's memory, which it maps in steps of 64 KiB.

use core::alloc::{GlobalAlloc, Layout};
use core::cell::UnsafeCell;
use core::fmt;
use core::marker::PhantomData;
use core::ptr::{null_mut, NonNull};

use crate::flex::{FlexSource, FlexTlsf};
use crate::tlsf::GRANULARITY;

/// The options of a [`GlobalTlsf`].
pub trait GlobalTlsfOptions {
    /// Whether a payload may be resized where it lies. Otherwise each reallocation moves it.
    const ENABLE_REALLOCATION: bool = true;
    /// Whether mappings that lie side by side become one pool.
    const COALESCE_POOLS: bool = true;
}

impl GlobalTlsfOptions for () {}

/// The options of a [`SmallGlobalTlsf`]: both are off.
#[derive(Debug)]
pub struct SmallGlobalTlsfOptions;

impl GlobalTlsfOptions for SmallGlobalTlsfOptions {
    const ENABLE_REALLOCATION: bool = false;
    const COALESCE_POOLS: bool = false;
}

/// A [`GlobalTlsf`] whose options are both off.
pub type SmallGlobalTlsf = GlobalTlsf<SmallGlobalTlsfOptions>;

type Inside<Options> = FlexTlsf<Mappings<Options>, usize, usize, 64, 64>;

/// An allocator for all of a program's memory, as in `rlsf` 0.2.3. It maps memory in steps of 64 KiB, and unmaps none. One lock orders the calls
/// of all threads.
///
/// ```
/// #[global_allocator]
/// static GLOBAL: rlsf::GlobalTlsf = rlsf::GlobalTlsf::new();
///
/// let squares: Vec<u32> = (0..1000).map(|n| n * n).collect();
/// assert_eq!(squares[999], 998_001);
/// ```
pub struct GlobalTlsf<Options: GlobalTlsfOptions = ()> {
    inside: UnsafeCell<Inside<Options>>,
}

// The lock orders all accesses.
unsafe impl<Options: GlobalTlsfOptions> Send for GlobalTlsf<Options> {}
unsafe impl<Options: GlobalTlsfOptions> Sync for GlobalTlsf<Options> {}

impl<Options: GlobalTlsfOptions> GlobalTlsf<Options> {
    /// Returns an allocator without memory.
    pub const fn new() -> Self {
        Self { inside: UnsafeCell::new(FlexTlsf::new(Mappings(PhantomData))) }
    }

    /// Calls a function on the allocator under the lock.
    #[inline]
    fn locked<Out>(&self, call: impl FnOnce(&mut Inside<Options>) -> Out) -> Out {
        let _guard = Guard::new();
        // No other call has it while the guard lives.
        call(unsafe { &mut *self.inside.get() })
    }
}

impl<Options: GlobalTlsfOptions> Default for GlobalTlsf<Options> {
    fn default() -> Self {
        Self::new()
    }
}

impl<Options: GlobalTlsfOptions> fmt::Debug for GlobalTlsf<Options> {
    fn fmt(&self, formatter: &mut fmt::Formatter<'_>) -> fmt::Result {
        formatter.debug_struct("GlobalTlsf").finish_non_exhaustive()
    }
}

/// A payload's address, or null.
fn address(payload: Option<NonNull<u8>>) -> *mut u8 {
    payload.map_or(null_mut(), NonNull::as_ptr)
}

unsafe impl<Options: GlobalTlsfOptions> GlobalAlloc for GlobalTlsf<Options> {
    #[inline]
    unsafe fn alloc(&self, layout: Layout) -> *mut u8 {
        address(self.locked(|inside| inside.allocate(layout)))
    }

    #[inline]
    unsafe fn dealloc(&self, ptr: *mut u8, layout: Layout) {
        self.locked(|inside| unsafe { inside.deallocate(NonNull::new_unchecked(ptr), layout.align()) });
    }

    #[inline]
    unsafe fn realloc(&self, ptr: *mut u8, layout: Layout, new_size: usize) -> *mut u8 {
        let (ptr, new_layout) = unsafe { (NonNull::new_unchecked(ptr), Layout::from_size_align_unchecked(new_size, layout.align())) };
        address(self.locked(|inside| unsafe {
            if Options::ENABLE_REALLOCATION {
                inside.reallocate(ptr, new_layout)
            } else {
                move_payload(inside, ptr, layout.size(), new_layout)
            }
        }))
    }
}

/// Allocates a payload of a new layout, copies the first bytes, as many as both sizes have, and deallocates the old payload.
unsafe fn move_payload<Options: GlobalTlsfOptions>(
    inside: &mut Inside<Options>,
    ptr: NonNull<u8>,
    old_size: usize,
    new_layout: Layout,
) -> Option<NonNull<u8>> {
    let payload = inside.allocate(new_layout)?;
    unsafe {
        ptr.copy_to_nonoverlapping(payload, old_size.min(new_layout.size()));
        inside.deallocate_unknown_align(ptr);
    }
    Some(payload)
}

/// Calls as those of C: a payload is deallocated without its layout.
///
/// # Safety
///
/// A payload that `allocate` or `reallocate` returned is the caller's, until it is passed to `deallocate` or `reallocate`.
pub unsafe trait CAlloc {
    /// Allocates a payload, or returns `None`.
    fn allocate(&self, layout: Layout) -> Option<NonNull<u8>>;

    /// Deallocates a payload.
    ///
    /// # Safety
    ///
    /// `ptr` is a live payload of this allocator.
    unsafe fn deallocate(&self, ptr: NonNull<u8>);

    /// Moves a payload to another one of the new layout, and keeps the first bytes, as many as both have. Returns `None` if there is no room;
    /// then nothing changes.
    ///
    /// # Safety
    ///
    /// `ptr` is a live payload of this allocator.
    unsafe fn reallocate(&self, ptr: NonNull<u8>, new_layout: Layout) -> Option<NonNull<u8>>;

    /// Returns the number of bytes of a payload that may be read and written.
    ///
    /// # Safety
    ///
    /// `ptr` is a live payload of this allocator.
    unsafe fn allocation_usable_size(&self, ptr: NonNull<u8>) -> usize;
}

unsafe impl<Options: GlobalTlsfOptions> CAlloc for GlobalTlsf<Options> {
    fn allocate(&self, layout: Layout) -> Option<NonNull<u8>> {
        self.locked(|inside| inside.allocate(layout))
    }

    unsafe fn deallocate(&self, ptr: NonNull<u8>) {
        self.locked(|inside| unsafe { inside.deallocate_unknown_align(ptr) });
    }

    unsafe fn reallocate(&self, ptr: NonNull<u8>, new_layout: Layout) -> Option<NonNull<u8>> {
        self.locked(|inside| unsafe {
            let old_size = inside.allocation_usable_size(ptr);
            move_payload(inside, ptr, old_size, new_layout)
        })
    }

    unsafe fn allocation_usable_size(&self, ptr: NonNull<u8>) -> usize {
        self.locked(|inside| unsafe { inside.allocation_usable_size(ptr) })
    }
}

unsafe extern "C" {
    fn mmap(at: *mut u8, len: usize, protection: i32, flags: i32, file: i32, offset: i64) -> *mut u8;
    fn munmap(at: *mut u8, len: usize) -> i32;
    fn pthread_mutex_lock(mutex: *mut Mutex) -> i32;
    fn pthread_mutex_unlock(mutex: *mut Mutex) -> i32;
}

// The constants of Linux for x86-64.
const PROT_READ: i32 = 1;
const PROT_WRITE: i32 = 2;
const MAP_PRIVATE: i32 = 2;
const MAP_ANONYMOUS: i32 = 0x20;
const MAP_FIXED_NOREPLACE: i32 = 0x10_0000;

/// A `pthread_mutex_t` of Linux has at most 48 bytes. Zeros are an unlocked one.
#[repr(C, align(16))]
struct Mutex(UnsafeCell<[u8; 64]>);

// Threads pass it to the system's calls.
unsafe impl Sync for Mutex {}

/// It isn't moved, since it is static: so all allocators share it.
static MUTEX: Mutex = Mutex(UnsafeCell::new([0; 64]));

/// The lock is held while this lives.
struct Guard;

impl Guard {
    #[inline]
    fn new() -> Guard {
        unsafe { pthread_mutex_lock((&raw const MUTEX).cast_mut()) };
        Guard
    }
}

impl Drop for Guard {
    #[inline]
    fn drop(&mut self) {
        unsafe { pthread_mutex_unlock((&raw const MUTEX).cast_mut()) };
    }
}

/// Mappings of whole steps.
struct Mappings<Options>(PhantomData<fn() -> Options>);

/// The length of a step.
const STEP: usize = 1 << 16;

/// Maps memory at an address that the system chooses, or that `at` names.
fn map(at: *mut u8, len: usize, flags: i32) -> Option<NonNull<u8>> {
    let mapped = unsafe { mmap(at, len, PROT_READ | PROT_WRITE, MAP_PRIVATE | MAP_ANONYMOUS | flags, -1, 0) };
    NonNull::new(mapped).filter(|mapped| mapped.addr().get() != usize::MAX)
}

unsafe impl<Options: GlobalTlsfOptions> FlexSource for Mappings<Options> {
    unsafe fn alloc(&mut self, min_size: usize) -> Option<NonNull<[u8]>> {
        let len = min_size.checked_next_multiple_of(STEP)?;
        Some(NonNull::slice_from_raw_parts(map(null_mut(), len, 0)?, len))
    }

    unsafe fn realloc_inplace_grow(&mut self, ptr: NonNull<[u8]>, min_new_len: usize) -> Option<usize> {
        let len = min_new_len.checked_next_multiple_of(STEP)?;
        let (end, added) = (ptr.cast::<u8>().as_ptr().wrapping_add(ptr.len()), len - ptr.len());
        let mapped = map(end, added, MAP_FIXED_NOREPLACE)?;
        if mapped.as_ptr() == end {
            return Some(len);
        }
        // A system before Linux 4.17 doesn't know the flag, and maps elsewhere.
        unsafe { munmap(mapped.as_ptr(), added) };
        None
    }

    fn supports_realloc_inplace_grow(&self) -> bool {
        Options::COALESCE_POOLS
    }

    fn min_align(&self) -> usize {
        GRANULARITY
    }
}
