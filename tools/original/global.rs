//! The steps of `rlsf_bench_threads global SLOTS STEPS 1 LEN`, done by the original's `FlexTlsf`, as in its `GlobalTlsf`: behind a
//! `std::sync::Mutex` (`global`), or without a lock (`flex`). Its source hands out whole pages of 65536 bytes of one memory, and grows its
//! newest range.

extern crate self as const_default1;

#[macro_use]
mod utils;
mod flex;
mod int;
mod tlsf;

use flex::{FlexSource, FlexTlsf};
use std::alloc::{alloc_zeroed, Layout};
use std::cell::UnsafeCell;
use std::ptr::NonNull;
use std::sync::Mutex;
use tlsf::{Tlsf, GRANULARITY};

/// The trait that the original takes from another crate.
pub trait ConstDefault {
    const DEFAULT: Self;
}

/// What the source hands out is a multiple of this.
const PAGE: usize = 65536;

/// One memory, of which so many bytes are handed out.
struct Pages {
    start: usize,
    len: usize,
    used: usize,
}

impl Pages {
    /// Hands out as many pages as these bytes take. Returns where they begin.
    fn take(&mut self, wanted: usize) -> Option<usize> {
        let bytes = wanted.checked_add(PAGE - 1)? / PAGE * PAGE;
        if bytes > self.len - self.used {
            return None;
        }
        let at = self.start + self.used;
        self.used += bytes;
        Some(at)
    }
}

unsafe impl FlexSource for Pages {
    unsafe fn alloc(&mut self, min_size: usize) -> Option<NonNull<[u8]>> {
        let at = self.take(min_size)?;
        let range = std::ptr::slice_from_raw_parts_mut(at as *mut u8, self.start + self.used - at);
        NonNull::new(range)
    }

    unsafe fn realloc_inplace_grow(&mut self, range: NonNull<[u8]>, min_new_len: usize) -> Option<usize> {
        let at = range.as_ptr() as *mut u8 as usize;
        self.take(min_new_len - range.len())?;
        Some(self.start + self.used - at)
    }

    fn supports_realloc_inplace_grow(&self) -> bool {
        true
    }

    fn is_contiguous_growable(&self) -> bool {
        true
    }

    fn min_align(&self) -> usize {
        PAGE
    }
}

type Flex = FlexTlsf<Pages, usize, usize, 64, 64>;

/// The next number of the generator.
fn next(state: &mut u64) -> u64 {
    *state ^= *state << 13;
    *state ^= *state >> 7;
    *state ^= *state << 17;
    state.wrapping_mul(0x2545_F491_4F6C_DD1D)
}

#[derive(Default)]
struct Tally {
    placed: u64,
    refused: u64,
    live: u64,
}

fn run(
    slots: usize,
    steps: u64,
    mut allocate: impl FnMut(Layout) -> Option<NonNull<u8>>,
    mut deallocate: impl FnMut(NonNull<u8>),
) {
    let mut live: Vec<Option<NonNull<u8>>> = vec![None; slots];
    let mut state = 0x9E37_79B9_7F4A_7C15;
    let mut tally = Tally::default();
    for _ in 0..steps {
        let draw = next(&mut state);
        let slot = (draw >> 32) as usize % slots;
        if let Some(payload) = live[slot].take() {
            deallocate(payload);
            tally.live -= 1;
            continue;
        }
        let layout = unsafe { Layout::from_size_align_unchecked((draw % 512) as usize, 1) };
        live[slot] = allocate(layout);
        if live[slot].is_some() {
            tally.placed += 1;
            tally.live += 1;
        } else {
            tally.refused += 1;
        }
    }
    println!("{} placed, {} refused, {} live", tally.placed, tally.refused, tally.live);
}

fn main() {
    let words: Vec<String> = std::env::args().collect();
    let words: Vec<&str> = words.iter().map(String::as_str).collect();
    let [_, kind @ ("global" | "flex"), slots, steps, len] = words[..] else {
        panic!("the arguments are global|flex SLOTS STEPS LEN");
    };
    let (slots, steps, len) = (slots.parse().unwrap(), steps.parse().unwrap(), len.parse().unwrap());
    let start = unsafe { alloc_zeroed(Layout::from_size_align(len, PAGE).unwrap()) } as usize;
    assert!(start != 0, "the system refused memory");
    let flex: Flex = FlexTlsf::new(Pages { start, len, used: 0 });
    if kind == "global" {
        let shared = Mutex::new(flex);
        let locked = || shared.lock().unwrap();
        run(slots, steps, |layout| locked().allocate(layout), |payload| unsafe { locked().deallocate(payload, 1) });
    } else {
        let flex = UnsafeCell::new(flex);
        let inner = || unsafe { &mut *flex.get() };
        run(slots, steps, |layout| inner().allocate(layout), |payload| unsafe { inner().deallocate(payload, 1) });
    }
}
