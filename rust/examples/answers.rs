//! Makes the same random calls over this crate or over the original, and prints a number of all that they returned, and of all bytes that were
//! kept: the same numbers over both. `tools/original/build SOURCE OUT` makes `OUT/rlsf_answers`, and in the folder rust:
//!
//!     diff <(cargo run --release --example answers -- 1000000 7) <(OUT/rlsf_answers 1000000 7)

use common::{Arena, Live, Random};
use rlsf::{FlexSource, FlexTlsf, Tlsf};
use std::alloc::Layout;
use std::cell::RefCell;
use std::env;
use std::ptr::NonNull;
use std::rc::Rc;

#[path = "../tests/common/mod.rs"]
mod common;

/// A number of all that was returned so far (FNV-1a).
struct Sum(u64);

impl Sum {
    fn add(&mut self, number: usize) {
        for byte in number.to_le_bytes() {
            self.0 = (self.0 ^ u64::from(byte)).wrapping_mul(0x100_0000_01b3);
        }
    }
}

/// A number of what a call returned: 0 for `None`.
fn number(arena: &Arena, payload: Option<NonNull<u8>>) -> usize {
    payload.map_or(0, |at| arena.offset(at) + 1)
}

/// The calls that `Tlsf` and `FlexTlsf` share.
trait Allocator {
    fn allocate(&mut self, layout: Layout) -> Option<NonNull<u8>>;
    unsafe fn deallocate(&mut self, at: NonNull<u8>, align: usize);
    unsafe fn reallocate(&mut self, at: NonNull<u8>, layout: Layout) -> Option<NonNull<u8>>;
}

macro_rules! allocators {
    ($($name:ident = $of:ty;)*) => {$(
        type $name = $of;

        impl Allocator for $name {
            fn allocate(&mut self, layout: Layout) -> Option<NonNull<u8>> {
                self.allocate(layout)
            }
            unsafe fn deallocate(&mut self, at: NonNull<u8>, align: usize) {
                unsafe { self.deallocate(at, align) }
            }
            unsafe fn reallocate(&mut self, at: NonNull<u8>, layout: Layout) -> Option<NonNull<u8>> {
                unsafe { self.reallocate(at, layout) }
            }
        }
    )*};
}
allocators! {
    SmallTlsf = Tlsf<'static, u16, u16, 12, 16>;
    FewRows = Tlsf<'static, u8, u16, 7, 16>;
    LargeTlsf = Tlsf<'static, u64, u64, 64, 64>;
    Growing = Tlsf<'static, u64, u64, 59, 64>;
    FewWideRows = Tlsf<'static, u32, u64, 10, 64>;
    FewClasses = Tlsf<'static, u64, u8, 64, 8>;
    HalfTheClasses = Tlsf<'static, u32, u32, 28, 32>;
    LargeFlex = FlexTlsf<Source, usize, usize, 64, 64>;
    SmallFlex = FlexTlsf<Source, u16, u16, 12, 16>;
    FewClassesFlex = FlexTlsf<Source, u32, u8, 20, 8>;
    HalfTheClassesFlex = FlexTlsf<Source, u64, u32, 64, 32>;
}

/// One random call on payloads.
fn step(allocator: &mut impl Allocator, live: &mut Vec<Live>, arena: &Arena, random: &mut Random, sum: &mut Sum) {
    let pick = random.below(live.len().max(1));
    match random.below(8) {
        0..3 => {
            let (size, align) = (random.size(), random.align());
            let at = allocator.allocate(Layout::from_size_align(size, align).unwrap());
            sum.add(number(arena, at));
            if let Some(at) = at {
                live.push(Live::new(at, size, align, random));
            }
        }
        3..6 if !live.is_empty() => {
            let gone = live.swap_remove(pick);
            assert!(gone.is_kept(gone.size));
            unsafe { allocator.deallocate(gone.at, gone.align) };
        }
        6.. if !live.is_empty() => {
            let size = random.size();
            let layout = Layout::from_size_align(size, live[pick].align).unwrap();
            let at = unsafe { allocator.reallocate(live[pick].at, layout) };
            sum.add(number(arena, at));
            if let Some(at) = at {
                live[pick].resize(at, size);
            }
        }
        _ => (),
    }
    if live.len() > 2000 {
        let gone = live.swap_remove(pick);
        unsafe { allocator.deallocate(gone.at, gone.align) };
    }
}

/// The length of the memory of each run.
const LEN: usize = 1 << 23;

/// Calls on payloads, between which pools are inserted and appended. The handle moves before each call.
macro_rules! over_pools {
    ($steps:expr, $seed:expr, $of:ty) => {{
        let (mut random, mut sum, mut live, arena) = (Random($seed), Sum(1), Vec::new(), Arena::new(LEN));
        let mut allocator = Box::new(<$of>::new());
        // Where the memory begins that isn't inserted yet, and where the newest pool ends.
        let (mut next, mut end) = (64, 0);
        for _ in 0..$steps {
            allocator = Box::new(*allocator);
            if random.below(1000) == 0 && next < LEN - 70_000 {
                let (start, len) = (next + random.below(64), random.size());
                let taken = unsafe { allocator.insert_free_block_ptr(arena.range(start, len)) };
                sum.add(taken.map_or(0, |taken| taken.get()));
                if let Some(taken) = taken {
                    end = start + taken.get();
                    count(
                        unsafe { allocator.iter_blocks(arena.range(start, taken.get())) }.map(|block| (block.size(), block.is_occupied())),
                        &mut sum,
                    );
                }
                next = start + len;
            } else if random.below(1000) == 0 && end != 0 && next < LEN - 70_000 {
                let len = next.saturating_sub(end) + random.size();
                let appended = unsafe { allocator.append_free_block_ptr(arena.range(end, len)) };
                sum.add(appended);
                next = next.max(end + len);
                end += appended;
            } else {
                step(&mut *allocator, &mut live, &arena, &mut random, &mut sum);
            }
        }
        println!("{}: {:016x}, {} live", stringify!($of), sum.0, live.len());
    }};
}

/// Adds the blocks of a pool.
fn count(blocks: impl Iterator<Item = (usize, bool)>, sum: &mut Sum) {
    for (size, is_occupied) in blocks {
        sum.add(size);
        sum.add(is_occupied.into());
    }
}

/// A source over an arena. Ranges lie one after another, with gaps. What it is asked is added to a sum.
struct Source {
    arena: Rc<Arena>,
    next: usize,
    sum: Rc<RefCell<Sum>>,
    random: Random,
    supports: Supports,
}

/// What a source supports.
#[derive(Clone, Copy)]
struct Supports {
    dealloc: bool,
    growth: bool,
    contiguous: bool,
    align: usize,
}

unsafe impl FlexSource for Source {
    unsafe fn alloc(&mut self, min_size: usize) -> Option<NonNull<[u8]>> {
        self.sum.borrow_mut().add(min_size);
        let gap = if self.supports.contiguous { 0 } else { self.random.below(100) };
        let align = self.supports.align;
        // The original needs whole multiples of 32 from a source that says that its ranges begin at such.
        let (start, len) = ((self.next + gap).next_multiple_of(align), (min_size + self.random.below(300)).next_multiple_of(align));
        if self.random.below(8) == 0 || start + len > LEN {
            return None;
        }
        self.next = start + len;
        Some(self.arena.range(start, len))
    }

    unsafe fn realloc_inplace_grow(&mut self, ptr: NonNull<[u8]>, min_new_len: usize) -> Option<usize> {
        if !self.supports.growth {
            return None;
        }
        let start = self.arena.offset(ptr.cast());
        self.sum.borrow_mut().add(min_new_len);
        if self.random.below(4) == 0 || start + ptr.len() != self.next || start + min_new_len > LEN {
            return None;
        }
        self.next = start + min_new_len;
        Some(min_new_len)
    }

    unsafe fn dealloc(&mut self, ptr: NonNull<[u8]>) {
        self.sum.borrow_mut().add(self.arena.offset(ptr.cast()));
        self.sum.borrow_mut().add(ptr.len());
    }

    fn supports_dealloc(&self) -> bool {
        self.supports.dealloc
    }

    fn supports_realloc_inplace_grow(&self) -> bool {
        self.supports.growth
    }

    fn is_contiguous_growable(&self) -> bool {
        self.supports.contiguous
    }

    fn min_align(&self) -> usize {
        self.supports.align
    }
}

/// Calls on payloads over each source.
macro_rules! over_sources {
    ($steps:expr, $seed:expr, $of:ty) => {{
        for kind in 0..16 {
            let supports =
                Supports { dealloc: kind & 1 != 0, growth: kind & 2 != 0, contiguous: kind & 4 != 0, align: if kind & 8 != 0 { 32 } else { 1 } };
            let asked = Rc::new(RefCell::new(Sum(1)));
            let arena = Rc::new(Arena::new(LEN));
            let source = Source { arena: arena.clone(), next: 96, sum: asked.clone(), random: Random($seed + kind), supports };
            let (mut random, mut sum, mut live) = (Random($seed), Sum(1), Vec::new());
            let mut allocator = <$of>::new(source);
            for _ in 0..$steps {
                step(&mut allocator, &mut live, &arena, &mut random, &mut sum);
            }
            drop(allocator);
            sum.add(asked.borrow().0 as usize);
            println!("{} {kind}: {:016x}, {} live", stringify!($of), sum.0, live.len());
        }
    }};
}

fn main() {
    let mut words = env::args().skip(1).map(|word| word.parse().expect("a number"));
    let (steps, seed) = (words.next().unwrap_or(100_000), words.next().unwrap_or(7));
    over_pools!(steps, seed, SmallTlsf);
    over_pools!(steps, seed + 1, FewRows);
    over_pools!(steps, seed + 2, LargeTlsf);
    over_pools!(steps, seed + 3, Growing);
    over_pools!(steps, seed + 4, FewWideRows);
    over_pools!(steps, seed + 7, FewClasses);
    over_pools!(steps, seed + 8, HalfTheClasses);
    over_sources!(steps / 16, seed + 5, LargeFlex);
    over_sources!(steps / 16, seed + 6, SmallFlex);
    over_sources!(steps / 16, seed + 9, FewClassesFlex);
    over_sources!(steps / 16, seed + 10, HalfTheClassesFlex);
}
