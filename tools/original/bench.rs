//! The steps of `rlsf_bench` and the programs beside it, done by the original: it takes the same arguments, does the same calls, and
//! prints the same line. `build` compiles it four times: `--cfg called` puts each call into a function of its own that is never
//! inlined, and `--cfg aligned` gives the slots seven alignments.

extern crate self as const_default1;

#[macro_use]
mod utils;
mod int;
mod tlsf;

use int::BinInteger;
use std::alloc::{alloc, Layout};
use std::ptr::NonNull;
use tlsf::{Tlsf, GRANULARITY};

/// The trait that the original takes from another crate.
pub trait ConstDefault {
    const DEFAULT: Self;
}

/// The pool's first address, and its length. Addresses count from the begin of a page.
const START: usize = 4096;
const LEN: usize = 1 << 25;

/// How many alignments the slots have in turn: 1, 2, 4 and so on.
const ALIGNS: usize = if cfg!(aligned) { 7 } else { 1 };

#[cfg_attr(called, inline(never))]
#[cfg_attr(not(called), inline(always))]
fn allocate<F: BinInteger, S: BinInteger, const FLLEN: usize, const SLLEN: usize>(
    tlsf: &mut Tlsf<'_, F, S, FLLEN, SLLEN>,
    layout: Layout,
) -> Option<NonNull<u8>> {
    tlsf.allocate(layout)
}

#[cfg_attr(called, inline(never))]
#[cfg_attr(not(called), inline(always))]
fn deallocate<F: BinInteger, S: BinInteger, const FLLEN: usize, const SLLEN: usize>(
    tlsf: &mut Tlsf<'_, F, S, FLLEN, SLLEN>,
    payload: NonNull<u8>,
    align: usize,
) {
    unsafe { tlsf.deallocate(payload, align) }
}

#[cfg_attr(called, inline(never))]
#[cfg_attr(not(called), inline(always))]
fn reallocate<F: BinInteger, S: BinInteger, const FLLEN: usize, const SLLEN: usize>(
    tlsf: &mut Tlsf<'_, F, S, FLLEN, SLLEN>,
    payload: NonNull<u8>,
    layout: Layout,
) -> Option<NonNull<u8>> {
    unsafe { tlsf.reallocate(payload, layout) }
}

/// The next number of the generator.
fn next(state: &mut u64) -> u64 {
    *state ^= *state << 13;
    *state ^= *state >> 7;
    *state ^= *state << 17;
    state.wrapping_mul(0x2545_F491_4F6C_DD1D)
}

fn run<F: BinInteger, S: BinInteger, const FLLEN: usize, const SLLEN: usize>(
    slots: usize,
    sizes: u16,
    steps: u64,
    reallocates: bool,
) {
    let base = unsafe { alloc(Layout::from_size_align(START + LEN, 4096).unwrap()) };
    assert!(!base.is_null(), "the system refused memory");
    unsafe { base.write_bytes(0, START + LEN) };
    let pool = std::ptr::slice_from_raw_parts_mut(base.wrapping_add(START), LEN);
    let mut tlsf: Tlsf<'static, F, S, FLLEN, SLLEN> = Tlsf::new();
    let _ = unsafe { tlsf.insert_free_block_ptr(NonNull::new(pool).unwrap()) };
    let mut live: Vec<Option<NonNull<u8>>> = vec![None; slots];
    let mut state = 0x9E37_79B9_7F4A_7C15;
    let (mut refused, mut checksum) = (0u64, 0u64);
    for step in 0..steps {
        let draw = next(&mut state);
        let slot = (draw >> 32) as usize % slots;
        let align = 1 << (slot % ALIGNS);
        let layout = unsafe { Layout::from_size_align_unchecked((draw % u64::from(sizes)) as usize, align) };
        let mut count = |placed: Option<NonNull<u8>>| match placed {
            Some(payload) => {
                let addr = (payload.as_ptr() as usize - base as usize) as u64;
                checksum = checksum.wrapping_mul(31).wrapping_add(addr);
            }
            None => refused += 1,
        };
        match live[slot] {
            Some(payload) if reallocates && step % 8 == 0 => {
                let moved = reallocate(&mut tlsf, payload, layout);
                live[slot] = Some(moved.unwrap_or(payload));
                count(moved);
            }
            Some(payload) => {
                deallocate(&mut tlsf, payload, align);
                live[slot] = None;
            }
            None => {
                let placed = allocate(&mut tlsf, layout);
                live[slot] = placed;
                count(placed);
            }
        }
    }
    println!("{refused} refused, checksum {checksum}");
}

fn main() {
    let words: Vec<String> = std::env::args().collect();
    let words: Vec<&str> = words.iter().map(String::as_str).collect();
    let [_, configuration, slots, sizes, steps, mode @ ("free" | "realloc")] = words[..] else {
        panic!("the arguments are 12x16|59x8|64x64 SLOTS SIZES STEPS free|realloc");
    };
    let (slots, sizes, steps) = (slots.parse().unwrap(), sizes.parse().unwrap(), steps.parse().unwrap());
    let reallocates = mode == "realloc";
    match configuration {
        "12x16" => run::<u16, u16, 12, 16>(slots, sizes, steps, reallocates),
        "59x8" => run::<u64, u64, 59, 8>(slots, sizes, steps, reallocates),
        "64x64" => run::<usize, usize, 64, 64>(slots, sizes, steps, reallocates),
        _ => panic!("no such configuration"),
    }
}
