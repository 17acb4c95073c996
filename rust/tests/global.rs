//! A program whose allocations all come from a `GlobalTlsf`: threads and std's collections.

use rlsf::{CAlloc, GlobalTlsf, SmallGlobalTlsf};
use std::alloc::{GlobalAlloc, Layout};
use std::collections::{BTreeMap, HashMap};
use std::thread;

#[global_allocator]
static GLOBAL: GlobalTlsf = GlobalTlsf::new();

static SMALL: SmallGlobalTlsf = SmallGlobalTlsf::new();

#[repr(align(256))]
struct Wide([u8; 300]);

/// Collections that grow and shrink: the sum of what they have.
fn work(seed: u64) -> u64 {
    let mut state = seed;
    let mut draw = move || {
        state ^= state << 13;
        state ^= state >> 7;
        state ^= state << 17;
        state
    };
    let mut names: BTreeMap<u64, String> = BTreeMap::new();
    let mut lists: HashMap<u64, Vec<u64>> = HashMap::new();
    for number in 0..50_000 {
        names.entry(draw() % 500).or_default().push_str("name");
        lists.entry(draw() % 500).or_default().push(number);
        if draw() % 50 == 0 {
            names.remove(&(draw() % 500));
            lists.remove(&(draw() % 500));
        }
    }
    let wide: Vec<Box<Wide>> = (0..50).map(|byte| Box::new(Wide([byte; 300]))).collect();
    assert!(wide.iter().enumerate().all(|(byte, wide)| (&raw const **wide).addr() % 256 == 0 && wide.0 == [byte as u8; 300]));
    assert!(vec![0u64; 100_000].iter().all(|&number| number == 0));
    assert!(names.values().all(|name| name.as_bytes().chunks(4).all(|word| word == b"name")));
    lists.values().flatten().sum::<u64>() + names.len() as u64
}

#[test]
fn threads_and_collections() {
    let expected = work(7);
    let threads: Vec<_> = (0..4).map(|_| thread::spawn(|| work(7))).collect();
    assert!(threads.into_iter().all(|running| running.join().unwrap() == expected));
}

#[test]
fn calls_of_c() {
    for call in [&GLOBAL as &dyn Calls, &SMALL] {
        let layout = |size, align| Layout::from_size_align(size, align).unwrap();
        unsafe {
            let payload = call.allocate(layout(100, 64)).unwrap();
            assert!((100..132).contains(&call.allocation_usable_size(payload)));
            payload.write_bytes(9, 100);
            let moved = call.reallocate(payload, layout(5000, 16)).unwrap();
            assert_ne!(moved, payload);
            assert!((0..100).all(|at| moved.add(at).read() == 9));
            call.deallocate(moved);
            let resized = call.alloc(layout(64, 8));
            resized.write_bytes(3, 64);
            let resized = call.realloc(resized, layout(64, 8), 64 << 10);
            assert!((0..64).all(|at| resized.add(at).read() == 3));
            call.dealloc(resized, layout(64 << 10, 8));
            assert!(call.alloc(layout(isize::MAX as usize - 15, 16)).is_null());
        }
    }
}

trait Calls: CAlloc + GlobalAlloc {}
impl<T: CAlloc + GlobalAlloc> Calls for T {}
