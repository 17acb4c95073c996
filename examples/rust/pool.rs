//! A safe wrapper over the archive, and a program over it. Safe code owns the handle, so it can't use one that was ended, lend it to two
//! calls at a time or pass bytes that aren't there; the archive tests all else.
use std::alloc::{Layout, alloc, dealloc, handle_alloc_error};
use std::ptr::NonNull;

#[repr(C)]
struct Answer { error: usize, value: usize }
/// A block: where it begins, its length in bytes, and 1 if a payload is live in it, else 0.
#[repr(C)]
pub struct Block { error: usize, pub start: usize, pub len: usize, pub used: usize }
/// A block of a list.
#[repr(C)]
#[derive(Clone, Copy, Debug, Default, PartialEq)]
pub struct Span { pub start: usize, pub len: usize, pub used: usize }
/// The totals of some blocks.
#[repr(C)]
#[derive(Debug, PartialEq)]
pub struct Statistics { pub payloads: usize, pub used: usize, pub free: usize, pub longest: usize }

unsafe extern "C" {
    fn rlsf_pool_size() -> usize;
    fn rlsf_pool_length_for_payloads(kind: usize, count: usize, size: usize, align: usize) -> usize;
    fn rlsf_pool_length_for_allocation(kind: usize, size: usize, align: usize) -> usize;
    fn rlsf_pool_init(pool: *mut u8, kind: usize, start: usize, len: usize) -> usize;
    fn rlsf_pool_destroy(pool: *mut u8);
    fn rlsf_pool_reset(pool: *mut u8);
    fn rlsf_pool_len(pool: *const u8) -> usize;
    fn rlsf_pool_insert(pool: *mut u8, start: usize, len: usize) -> Answer;
    fn rlsf_pool_append(pool: *mut u8, start: usize, len: usize) -> Answer;
    fn rlsf_pool_remove(pool: *mut u8, start: usize, len: usize) -> usize;
    fn rlsf_pool_remove_last(pool: *mut u8) -> usize;
    fn rlsf_pool_allocate(pool: *mut u8, size: usize, align: usize) -> Answer;
    fn rlsf_pool_allocate_zeroed(pool: *mut u8, size: usize, align: usize) -> Answer;
    fn rlsf_pool_free(pool: *mut u8, addr: usize) -> usize;
    fn rlsf_pool_realloc(pool: *mut u8, addr: usize, size: usize) -> Answer;
    fn rlsf_pool_realloc_no_move(pool: *mut u8, addr: usize, size: usize) -> Answer;
    fn rlsf_pool_usable(pool: *const u8, addr: usize) -> Answer;
    fn rlsf_pool_read(pool: *const u8, addr: usize, offset: usize, into: *mut u8, len: usize) -> usize;
    fn rlsf_pool_write(pool: *mut u8, addr: usize, offset: usize, bytes: *const u8, len: usize) -> usize;
    fn rlsf_pool_copy(pool: *mut u8, from: usize, to: usize, len: usize) -> usize;
    fn rlsf_pool_stats(pool: *const u8) -> Statistics;
    fn rlsf_pool_walk(pool: *const u8, from: usize) -> Block;
    fn rlsf_pool_list(pool: *const u8, from: usize, numbers: *mut usize, len: usize) -> usize;
}

/// The number of an error, as include/rlsf_pool.h names it.
#[derive(Debug, PartialEq)]
pub struct Error(pub usize);
type Result<T> = std::result::Result<T, Error>;

fn done(error: usize) -> Result<()> { if error == 0 { Ok(()) } else { Err(Error(error)) } }
fn value(answer: Answer) -> Result<usize> { done(answer.error).map(|()| answer.value) }

#[derive(Clone, Copy)]
pub enum Kind { Small = 1, Large = 2 }
impl Kind {
    fn some(len: usize) -> Option<usize> { Some(len).filter(|&len| len != 0) }
    /// The length of a range that refuses none of `count` payloads of up to this size and alignment, if there is one.
    pub fn length_for_payloads(self, count: usize, size: usize, align: usize) -> Option<usize> {
        Kind::some(unsafe { rlsf_pool_length_for_payloads(self as usize, count, size, align) })
    }
    /// The least length of a range in which such a payload can be allocated, if there is one.
    pub fn length_for_allocation(self, size: usize, align: usize) -> Option<usize> {
        Kind::some(unsafe { rlsf_pool_length_for_allocation(self as usize, size, align) })
    }
}

/// A pool. It may move to another thread. Each call borrows it exclusively, so one call at a time runs.
pub struct Pool { at: NonNull<u8>, layout: Layout }
// SAFETY: crates/rlsf_pool_calls proves it of what lies at the handle.
unsafe impl Send for Pool {}

impl Pool {
    pub fn new(kind: Kind, start: usize, len: usize) -> Result<Pool> {
        let layout = Layout::from_size_align(unsafe { rlsf_pool_size() }, 16).unwrap();
        let at = NonNull::new(unsafe { alloc(layout) }).unwrap_or_else(|| handle_alloc_error(layout));
        let error = unsafe { rlsf_pool_init(at.as_ptr(), kind as usize, start, len) };
        // If no pool was made, the drop of this value ends the handle.
        let pool = Pool { at, layout };
        done(error).map(|()| pool)
    }
    pub fn insert(&mut self, start: usize, len: usize) -> Result<usize> { value(unsafe { rlsf_pool_insert(self.at.as_ptr(), start, len) }) }
    pub fn append(&mut self, start: usize, len: usize) -> Result<usize> { value(unsafe { rlsf_pool_append(self.at.as_ptr(), start, len) }) }
    pub fn remove(&mut self, start: usize, len: usize) -> Result<()> { done(unsafe { rlsf_pool_remove(self.at.as_ptr(), start, len) }) }
    pub fn remove_last(&mut self) -> Result<()> { done(unsafe { rlsf_pool_remove_last(self.at.as_ptr()) }) }
    pub fn reset(&mut self) { unsafe { rlsf_pool_reset(self.at.as_ptr()) } }
    pub fn len(&mut self) -> usize { unsafe { rlsf_pool_len(self.at.as_ptr()) } }
    pub fn allocate(&mut self, size: usize, align: usize) -> Result<usize> { value(unsafe { rlsf_pool_allocate(self.at.as_ptr(), size, align) }) }
    pub fn allocate_zeroed(&mut self, size: usize, align: usize) -> Result<usize> { value(unsafe { rlsf_pool_allocate_zeroed(self.at.as_ptr(), size, align) }) }
    pub fn free(&mut self, addr: usize) -> Result<()> { done(unsafe { rlsf_pool_free(self.at.as_ptr(), addr) }) }
    pub fn realloc(&mut self, addr: usize, size: usize) -> Result<usize> { value(unsafe { rlsf_pool_realloc(self.at.as_ptr(), addr, size) }) }
    pub fn realloc_no_move(&mut self, addr: usize, size: usize) -> Result<usize> { value(unsafe { rlsf_pool_realloc_no_move(self.at.as_ptr(), addr, size) }) }
    pub fn usable(&mut self, addr: usize) -> Result<usize> { value(unsafe { rlsf_pool_usable(self.at.as_ptr(), addr) }) }
    pub fn read(&mut self, addr: usize, offset: usize, into: &mut [u8]) -> Result<()> {
        done(unsafe { rlsf_pool_read(self.at.as_ptr(), addr, offset, into.as_mut_ptr(), into.len()) })
    }
    pub fn write(&mut self, addr: usize, offset: usize, bytes: &[u8]) -> Result<()> {
        done(unsafe { rlsf_pool_write(self.at.as_ptr(), addr, offset, bytes.as_ptr(), bytes.len()) })
    }
    pub fn copy(&mut self, from: usize, to: usize, len: usize) -> Result<()> { done(unsafe { rlsf_pool_copy(self.at.as_ptr(), from, to, len) }) }
    pub fn statistics(&mut self) -> Statistics { unsafe { rlsf_pool_stats(self.at.as_ptr()) } }
    pub fn block(&mut self, from: usize) -> Option<Block> { Some(unsafe { rlsf_pool_walk(self.at.as_ptr(), from) }).filter(|block| block.error == 0) }
    /// Fills the front of `into` with the blocks from an address on, and returns that front.
    pub fn blocks<'a>(&mut self, from: usize, into: &'a mut [Span]) -> &'a [Span] {
        let count = unsafe { rlsf_pool_list(self.at.as_ptr(), from, into.as_mut_ptr().cast(), 3 * into.len()) };
        &into[..count]
    }
}
impl Drop for Pool {
    fn drop(&mut self) { unsafe { rlsf_pool_destroy(self.at.as_ptr()); dealloc(self.at.as_ptr(), self.layout) } }
}

fn main() -> Result<()> {
    let mut pool = Pool::new(Kind::Large, 4096, 65536)?;
    assert_eq!(pool.insert(4096, 4096)?, 4096);
    assert_eq!(pool.append(8192, 57344)?, 57344);
    let addr = pool.allocate(100, 64)?;
    assert!(addr % 64 == 0 && pool.usable(addr)? >= 100);
    pool.write(addr, 10, b"hello")?;
    let addr = pool.realloc(addr, 5000)?;
    let mut bytes = [0; 5];
    pool.read(addr, 10, &mut bytes)?;
    assert_eq!(&bytes, b"hello");
    assert_eq!(pool.statistics().payloads, 1);
    let (mut at, mut used) = (0, 0);
    while let Some(block) = pool.block(at) {
        at = block.start + block.len;
        used += block.used;
    }
    assert_eq!(used, 1);
    let mut spans = [Span::default(); 10];
    assert_eq!(pool.blocks(0, &mut spans).iter().filter(|span| span.used == 1).count(), 1);
    assert_eq!(pool.realloc_no_move(addr, 5001)?, addr);
    let zeros = pool.allocate_zeroed(100, 16)?;
    pool.copy(addr, zeros, 12)?;
    pool.read(zeros, 10, &mut bytes)?;
    assert_eq!(&bytes, b"he\0\0\0");
    pool.free(zeros)?;
    assert_eq!(pool.remove_last(), Err(Error(15)));
    assert_eq!(pool.remove(4096, 61440), Err(Error(15)));
    assert_eq!(pool.remove(4096, 4096), Err(Error(16)));
    let mut pool = std::thread::spawn(move || pool.free(addr).map(|()| pool)).join().unwrap()?;
    assert_eq!(pool.free(addr), Err(Error(3)));
    assert_eq!(pool.read(addr, 0, &mut []), Err(Error(3)));
    assert_eq!(pool.allocate(1, 3), Err(Error(9)));
    pool.remove_last()?;
    assert_eq!(pool.allocate(1, 1), Err(Error(10)));
    assert_eq!(pool.insert(4096, 65536)?, 65536);
    pool.remove(4096, 65536)?;
    assert_eq!(pool.insert(4096, 65536)?, 65536);
    pool.allocate(1, 1)?;
    pool.reset();
    assert_eq!((pool.len(), pool.statistics().payloads), (65536, 0));
    assert_eq!(Pool::new(Kind::Small, 4096, 1 << 62).err(), Some(Error(2)));
    assert_eq!(Kind::Large.length_for_payloads(10, 16, 16), Some(384));
    assert_eq!(Kind::Small.length_for_allocation(16, 3), None);
    println!("rust: all calls answered as the header says");
    Ok(())
}
