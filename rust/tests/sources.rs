//! `FlexTlsf` asks its source for what it needs, and returns each range once.

mod common;

use common::{Arena, Live, Random};
use rlsf::{FlexSource, FlexTlsf, GlobalAllocAsFlexSource};
use std::alloc::{Layout, System};
use std::cell::RefCell;
use std::ptr::NonNull;
use std::rc::Rc;

fn layout(size: usize, align: usize) -> Layout {
    Layout::from_size_align(size, align).unwrap()
}

#[derive(Debug, PartialEq)]
enum Asked {
    Alloc(usize),
    Grow(usize, usize),
    Dealloc(usize, usize),
}
use Asked::{Alloc, Dealloc, Grow};

/// A source that provides exactly what it is asked for, from the start of an arena on, and writes down what that was.
struct Listing {
    arena: Arena,
    next: usize,
    end: usize,
    asked: Rc<RefCell<Vec<Asked>>>,
    grows: bool,
    is_contiguous: bool,
}

impl Listing {
    fn new(end: usize, grows: bool, is_contiguous: bool) -> (Listing, Rc<RefCell<Vec<Asked>>>) {
        let asked = Rc::new(RefCell::new(Vec::new()));
        (Listing { arena: Arena::new(1 << 21), next: 0, end, asked: asked.clone(), grows, is_contiguous }, asked)
    }
}

unsafe impl FlexSource for Listing {
    unsafe fn alloc(&mut self, min_size: usize) -> Option<NonNull<[u8]>> {
        self.asked.borrow_mut().push(Alloc(min_size));
        let start = self.next;
        if self.end - start < min_size {
            return None;
        }
        self.next += min_size;
        Some(self.arena.range(start, min_size))
    }

    unsafe fn realloc_inplace_grow(&mut self, ptr: NonNull<[u8]>, min_new_len: usize) -> Option<usize> {
        let start = self.arena.offset(ptr.cast());
        self.asked.borrow_mut().push(Grow(start, min_new_len));
        if start + ptr.len() != self.next || self.end - start < min_new_len {
            return None;
        }
        self.next = start + min_new_len;
        Some(min_new_len)
    }

    unsafe fn dealloc(&mut self, ptr: NonNull<[u8]>) {
        self.asked.borrow_mut().push(Dealloc(self.arena.offset(ptr.cast()), ptr.len()));
    }

    fn supports_dealloc(&self) -> bool {
        true
    }

    fn supports_realloc_inplace_grow(&self) -> bool {
        self.grows
    }

    fn is_contiguous_growable(&self) -> bool {
        self.is_contiguous
    }

    fn min_align(&self) -> usize {
        32
    }
}

/// A payload of 100 bytes needs a block of 128, and a pool of 160. It is aligned, so the second pool has no other length.
#[test]
fn ranges_are_asked_for_and_returned() {
    let (source, asked) = Listing::new(1000, false, false);
    let mut flex = FlexTlsf::<Listing, u64, u64, 64, 64>::new(source);
    assert!(asked.borrow().is_empty());
    let first = flex.allocate(layout(100, 16)).unwrap();
    let second = flex.allocate(layout(100, 16)).unwrap();
    assert_eq!((flex.source_ref().arena.offset(first), flex.source_ref().arena.offset(second)), (16, 176));
    assert!(flex.allocate(layout(1000, 16)).is_none());
    assert_eq!(*asked.borrow(), [Alloc(160), Alloc(160), Alloc(1056)]);
    drop(flex);
    assert_eq!(asked.borrow()[3..], [Dealloc(160, 160), Dealloc(0, 160)]);
}

/// A pool that grows stays one range, whose payloads stay.
#[test]
fn ranges_grow() {
    let (source, asked) = Listing::new(1000, true, true);
    let mut flex = FlexTlsf::<Listing, u64, u64, 64, 64>::new(source);
    let mut random = Random(7);
    let first = Live::new(flex.allocate(layout(100, 1)).unwrap(), 100, 1, &mut random);
    let second = Live::new(flex.allocate(layout(200, 1)).unwrap(), 200, 1, &mut random);
    assert!(flex.allocate(layout(1000, 1)).is_none());
    assert_eq!(*asked.borrow(), [Alloc(160), Grow(0, 416), Grow(0, 1472)]);
    assert!(first.is_kept(100) && second.is_kept(200));
    // The second payload can't grow where it is. Its block has 224 bytes, and the new one 320.
    let at = unsafe { flex.reallocate(second.at, layout(300, 1)) }.unwrap();
    assert_eq!(asked.borrow()[3..], [Grow(0, 768)]);
    assert!(Live { at, ..second }.is_kept(200));
    drop(flex);
    assert_eq!(asked.borrow()[4..], [Dealloc(0, 768)]);
}

/// Ranges of the system's allocator all go back: under the address sanitizer or valgrind, none leaks.
#[test]
fn over_the_system() {
    let (mut random, mut live) = (Random(5), Vec::<Live>::new());
    let mut flex = FlexTlsf::<GlobalAllocAsFlexSource<System, 64>, u64, u64, 64, 64>::default();
    for _ in 0..30_000 {
        let (pick, size, align) = (random.below(live.len().max(1)), random.size(), random.align());
        match random.below(3) {
            0 if live.len() < 500 => live.push(Live::new(flex.allocate(layout(size, align)).unwrap(), size, align, &mut random)),
            1 if !live.is_empty() => {
                let at = unsafe { flex.reallocate(live[pick].at, layout(size, live[pick].align)) }.unwrap();
                live[pick].resize(at, size);
            }
            _ if !live.is_empty() => {
                let gone = live.swap_remove(pick);
                assert!(gone.is_kept(gone.size));
                unsafe { flex.deallocate(gone.at, gone.align) };
            }
            _ => (),
        }
    }
    assert!(live.iter().all(|payload| payload.is_kept(payload.size)));
}
