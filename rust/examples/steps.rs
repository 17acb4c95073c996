//! Steps over random slots, whose instructions are counted beside the original's: `tools/measure rust`. A step frees the payload of a slot, or
//! allocates one there; with `realloc` half of the steps on a live payload resize it.
//!
//!     cargo run --release --example steps -- small|large|flex free|realloc STEPS

use rlsf::{FlexSource, FlexTlsf, Tlsf};
use std::alloc::Layout;
use std::env;
use std::mem::MaybeUninit;
use std::ptr::NonNull;

const SLOTS: usize = 1000;
const LONGEST: u64 = 512;

/// A payload at an alignment of 8.
fn layout(size: u64) -> Layout {
    Layout::from_size_align(size as usize, 8).unwrap()
}

/// A source that provides parts of an array.
struct Source(&'static mut [MaybeUninit<u8>]);

unsafe impl FlexSource for Source {
    unsafe fn alloc(&mut self, min_size: usize) -> Option<NonNull<[u8]>> {
        let (part, rest) = std::mem::take(&mut self.0).split_at_mut_checked(min_size.next_multiple_of(65_536))?;
        self.0 = rest;
        Some(NonNull::slice_from_raw_parts(NonNull::from(&mut *part).cast(), part.len()))
    }
}

macro_rules! steps {
    ($allocator:expr, $steps:expr, $resizes:expr) => {{
        let mut allocator = $allocator;
        let (mut state, mut slots) = (88_172_645_463_325_252_u64, [None; SLOTS]);
        for _ in 0..$steps {
            state ^= state << 13;
            state ^= state >> 7;
            state ^= state << 17;
            let (slot, size) = (&mut slots[(state >> 20) as usize % SLOTS], (state >> 40) % LONGEST);
            *slot = match *slot {
                None => allocator.allocate(layout(size)),
                Some(payload) if $resizes && state & 1 == 0 => unsafe { allocator.reallocate(payload, layout(size)) }.or(Some(payload)),
                Some(payload) => {
                    unsafe { allocator.deallocate(payload, 8) };
                    None
                }
            };
        }
        println!("{} live", slots.iter().flatten().count());
    }};
}

fn main() {
    let words: Vec<String> = env::args().skip(1).collect();
    let [kind, call, steps] = &words[..] else { panic!("usage: steps small|large|flex free|realloc STEPS") };
    let (resizes, steps) = (call == "realloc", steps.parse::<u64>().expect("a number"));
    let memory = Vec::leak(vec![MaybeUninit::uninit(); 1 << 22]);
    match kind.as_str() {
        "small" => {
            let mut tlsf = Tlsf::<u16, u16, 12, 16>::new();
            tlsf.insert_free_block(memory);
            steps!(tlsf, steps, resizes)
        }
        "large" => {
            let mut tlsf = Tlsf::<u64, u64, 64, 64>::new();
            tlsf.insert_free_block(memory);
            steps!(tlsf, steps, resizes)
        }
        _ => steps!(FlexTlsf::<Source, u64, u64, 64, 64>::new(Source(memory)), steps, resizes),
    }
}
