//! The original behind a trace (docs/TRACES.md): reads one from standard input, and prints what `crates/rlsf_replay` has to print.
//! It makes the calls `insert`, `alloc`, `realloc`, `free` and `ufree`, and no others. A payload's alignment is at most that of the memory.

extern crate self as const_default1;

#[macro_use]
mod utils;
mod int;
mod tlsf;

use int::BinInteger;
use std::alloc::{alloc_zeroed, Layout};
use std::collections::HashMap;
use std::fmt::Write as _;
use std::io::{Read, Write};
use std::ptr::{self, NonNull};
use tlsf::{Tlsf, GRANULARITY};

/// The trait that the original takes from another crate.
pub trait ConstDefault {
    const DEFAULT: Self;
}

/// The alignment of the memory: addresses of a trace and pointers are equal up to it.
const ALIGN: usize = 1 << 21;

struct Replay<F, S, const FLLEN: usize, const SLLEN: usize> {
    tlsf: Tlsf<'static, F, S, FLLEN, SLLEN>,
    base: *mut u8,
    /// The address and the alignment of each live payload, by its name.
    live: HashMap<u64, (usize, usize)>,
}

impl<F: BinInteger, S: BinInteger, const FLLEN: usize, const SLLEN: usize> Replay<F, S, FLLEN, SLLEN> {
    fn insert(&mut self, start: usize, len: usize, out: &mut String) {
        let range = ptr::slice_from_raw_parts_mut(self.base.wrapping_add(start), len);
        match unsafe { self.tlsf.insert_free_block_ptr(NonNull::new(range).unwrap()) } {
            Some(taken) => writeln!(out, "insert some {taken}"),
            None => writeln!(out, "insert none"),
        }
        .unwrap()
    }

    /// Says where a payload lies now, if the call had room.
    fn place(&mut self, call: &str, name: u64, payload: Option<NonNull<u8>>, align: usize, out: &mut String) {
        match payload {
            Some(payload) => {
                let addr = payload.as_ptr() as usize - self.base as usize;
                self.live.insert(name, (addr, align));
                writeln!(out, "{call} {name} at {addr}")
            }
            None => writeln!(out, "{call} {name} none"),
        }
        .unwrap()
    }

    fn allocate(&mut self, name: u64, size: usize, align: usize, out: &mut String) {
        if self.live.contains_key(&name) {
            return writeln!(out, "refused 2 NameTaken").unwrap();
        }
        let payload = self.tlsf.allocate(Layout::from_size_align(size, align).unwrap());
        self.place("alloc", name, payload, align, out);
    }

    fn on_live(&mut self, call: &str, name: u64, words: &[u64], out: &mut String) {
        let Some(&(addr, align)) = self.live.get(&name) else {
            return writeln!(out, "refused 1 UnknownName").unwrap();
        };
        let payload = NonNull::new(self.base.wrapping_add(addr)).unwrap();
        if call == "realloc" {
            let layout = Layout::from_size_align(words[1] as usize, align).unwrap();
            let moved = unsafe { self.tlsf.reallocate(payload, layout) };
            return self.place(call, name, moved, align, out);
        }
        match call {
            "free" => unsafe { self.tlsf.deallocate(payload, align) },
            "ufree" => unsafe { self.tlsf.deallocate_unknown_align(payload) },
            _ => panic!("no call {call}"),
        };
        self.live.remove(&name);
        writeln!(out, "{call} {name} done").unwrap();
    }

    fn line(&mut self, line: &str, out: &mut String) {
        let (call, rest) = line.split_once(' ').unwrap();
        let words: Vec<u64> = rest.split(' ').map(|word| word.parse().unwrap()).collect();
        match call {
            "insert" => self.insert(words[0] as usize, words[1] as usize, out),
            "alloc" => self.allocate(words[0], words[1] as usize, words[2] as usize, out),
            _ => self.on_live(call, words[0], &words, out),
        }
    }
}

fn run<F: BinInteger, S: BinInteger, const FLLEN: usize, const SLLEN: usize>(len: usize, lines: std::str::Lines) -> String {
    let base = unsafe { alloc_zeroed(Layout::from_size_align(len, ALIGN).unwrap()) };
    assert!(!base.is_null() && base as usize % GRANULARITY == 0, "the system is out of memory");
    let tlsf: Tlsf<'static, F, S, FLLEN, SLLEN> = Tlsf::new();
    let mut replay = Replay { tlsf, base, live: HashMap::new() };
    let mut out = String::new();
    for line in lines {
        replay.line(line, &mut out);
    }
    out
}

fn main() {
    let mut text = String::new();
    std::io::stdin().read_to_string(&mut text).unwrap();
    let mut lines = text.lines();
    let first: Vec<&str> = lines.next().unwrap().split(' ').collect();
    let len = first[1].parse::<usize>().unwrap() + first[2].parse::<usize>().unwrap();
    let out = match first[0] {
        "8x8" => run::<u8, u8, 8, 8>(len, lines),
        "12x16" => run::<u16, u16, 12, 16>(len, lines),
        "59x8" => run::<u64, u64, 59, 8>(len, lines),
        "64x64" => run::<u64, u64, 64, 64>(len, lines),
        config => panic!("no configuration {config}"),
    };
    std::io::stdout().write_all(out.as_bytes()).unwrap();
}
