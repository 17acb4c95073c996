//! `Tlsf` agrees with a table of its live payloads, over pools of each length, that lie apart or side by side.

mod common;

use common::{Arena, Live, Random};
use rlsf::{Tlsf, GRANULARITY};
use std::alloc::Layout;
use std::mem::MaybeUninit;
use std::sync::Mutex;
use std::thread;

fn layout(size: usize, align: usize) -> Layout {
    Layout::from_size_align(size, align).unwrap()
}

/// Random calls in three pools that lie apart, of which one is extended. The handle moves before each call.
macro_rules! calls_agree_with_a_table {
    ($name:ident, $of:ty) => {
        #[test]
        fn $name() {
            let (arena, mut random, mut live) = (Arena::new(1 << 22), Random(29), Vec::<Live>::new());
            let mut tlsf = <$of>::new();
            assert!(tlsf.allocate(layout(0, 1)).is_none());
            let pools = [(0, 4096), (1 << 20, 300_001), (3 << 20, 50_017)];
            let mut ends = pools.map(|(start, len)| start + unsafe { tlsf.insert_free_block_ptr(arena.range(start, len)) }.unwrap().get());
            for call in 0..60_000 {
                tlsf = *Box::new(tlsf);
                let (pick, size, align) = (random.below(live.len().max(1)), random.size(), random.align());
                match random.below(3) {
                    0 => {
                        if let Some(at) = tlsf.allocate(layout(size, align)) {
                            let usable = unsafe { tlsf.allocation_usable_size(at) };
                            assert!((size..size + GRANULARITY).contains(&usable));
                            let (start, place) = (arena.offset(at), arena.offset(at) + usable);
                            assert!(pools.iter().zip(ends).any(|(pool, end)| pool.0 <= start && place <= end));
                            live.push(Live::new(at, size, align, &mut random));
                        }
                    }
                    1 if !live.is_empty() => {
                        let gone = live.swap_remove(pick);
                        assert!(gone.is_kept(gone.size));
                        unsafe { tlsf.deallocate(gone.at, gone.align) };
                    }
                    2 if !live.is_empty() => {
                        if let Some(at) = unsafe { tlsf.reallocate(live[pick].at, layout(size, live[pick].align)) } {
                            live[pick].resize(at, size);
                        }
                    }
                    _ => (),
                }
                if call % 2000 == 1999 {
                    // 992 is the greatest multiple of 32.
                    assert_eq!(unsafe { tlsf.append_free_block_ptr(arena.range(ends[1], 1000)) }, 992);
                    ends[1] += 992;
                    assert_eq!(occupied(&tlsf, &arena, &pools, &ends), live.len());
                }
            }
            for gone in live {
                assert!(gone.is_kept(gone.size));
                unsafe { tlsf.deallocate_unknown_align(gone.at) };
            }
            assert_eq!(occupied(&tlsf, &arena, &pools, &ends), 0);

            fn occupied(tlsf: &$of, arena: &Arena, pools: &[(usize, usize); 3], ends: &[usize; 3]) -> usize {
                let mut count = 0;
                for (&(start, _), end) in pools.iter().zip(ends) {
                    let mut next = start;
                    for block in unsafe { tlsf.iter_blocks(arena.range(start, end - start)) } {
                        // Between two blocks lies nothing, or the 32 bytes at the end of a pool.
                        let at = arena.offset(block.as_ptr().cast());
                        assert!(at == next || at == next + 32);
                        next = at + block.size();
                        count += usize::from(block.is_occupied());
                    }
                    assert_eq!(next + 32, *end);
                }
                count
            }
        }
    };
}
calls_agree_with_a_table!(twelve_rows_of_16, Tlsf<'_, u16, u16, 12, 16>);
calls_agree_with_a_table!(seven_rows_of_16, Tlsf<'_, u8, u16, 7, 16>);
calls_agree_with_a_table!(sixty_four_rows_of_64, Tlsf<'_, u64, u64, 64, 64>);
calls_agree_with_a_table!(twelve_rows_of_64, Tlsf<'_, u16, u64, 12, 64>);
calls_agree_with_a_table!(sixty_four_rows_of_8, Tlsf<'_, u64, u8, 64, 8>);
calls_agree_with_a_table!(thirty_rows_of_32, Tlsf<'_, u32, u32, 30, 32>);

/// A pool is the whole multiples of 32 of its range, if these are two at least. One payload takes all but 48 bytes of it.
#[test]
fn pools_of_each_length_and_start() {
    let arena = Arena::new(1 << 21);
    for start in 64..96usize {
        for len in 0..=200 {
            let mut tlsf = Tlsf::<u16, u16, 12, 16>::new();
            let (first, last) = (start.next_multiple_of(32), (start + len) / 32 * 32);
            let taken = unsafe { tlsf.insert_free_block_ptr(arena.range(start, len)) };
            let expected = (first + 64 <= last).then(|| last - start);
            assert_eq!(taken.map(|taken| taken.get()), expected, "{len} bytes at {start}");
            let Some(taken) = expected else {
                assert!(tlsf.allocate(layout(0, 1)).is_none());
                continue;
            };
            let pool = arena.range(start, taken);
            let sizes: Vec<_> =
                unsafe { tlsf.iter_blocks(pool) }.map(|block| (block.size(), block.max_payload_size(), block.is_occupied())).collect();
            let block = last - first - 32;
            assert_eq!(sizes, [(block, block - 16, false)]);
            assert!(tlsf.allocate(layout(block - 15, 1)).is_none());
            let payload = tlsf.allocate(layout(block - 16, 1)).unwrap();
            assert_eq!(arena.offset(payload), first + 16);
            assert!(tlsf.allocate(layout(0, 1)).is_none());
            assert!(unsafe { tlsf.iter_blocks(pool) }.all(|block| block.is_occupied()));
            unsafe { tlsf.deallocate(payload, 1) };
        }
    }
}

/// A pool without a longest length grows by an append, and one with a longest length doesn't.
#[test]
fn appends() {
    let arena = Arena::new(1 << 21);
    let mut large = Tlsf::<u64, u64, 64, 64>::new();
    assert_eq!(unsafe { large.insert_free_block_ptr(arena.range(0, 1024)) }.unwrap().get(), 1024);
    assert!(large.allocate(layout(1500, 1)).is_none());
    assert_eq!(unsafe { large.append_free_block_ptr(arena.range(1024, 31)) }, 0);
    assert_eq!(unsafe { large.append_free_block_ptr(arena.range(1024, 1055)) }, 1024);
    assert_eq!(arena.offset(large.allocate(layout(1500, 1)).unwrap()), 16);
    let mut small = Tlsf::<u16, u16, 12, 16>::new();
    assert_eq!(unsafe { small.insert_free_block_ptr(arena.range(8192, 1024)) }.unwrap().get(), 1024);
    assert_eq!(unsafe { small.append_free_block_ptr(arena.range(9216, 63)) }, 0);
    assert_eq!(unsafe { small.append_free_block_ptr(arena.range(9216, 1055)) }, 1024);
    assert!(small.allocate(layout(1500, 1)).is_none());
}

/// A range that is longer than the longest pool becomes several.
#[test]
fn long_ranges_are_cut() {
    let arena = Arena::new(1 << 21);
    assert_eq!(Tlsf::<u8, u64, 3, 64>::MAX_POOL_SIZE, Some(256));
    assert_eq!(Tlsf::<u64, u64, 58, 64>::MAX_POOL_SIZE, Some(1 << 63));
    assert_eq!(Tlsf::<u64, u64, 59, 64>::MAX_POOL_SIZE, None);
    let mut tlsf = Tlsf::<u8, u64, 3, 64>::new();
    assert_eq!(unsafe { tlsf.insert_free_block_ptr(arena.range(0, 1000)) }.unwrap().get(), 992);
    let pool = arena.range(0, 992);
    let sizes: Vec<_> = unsafe { tlsf.iter_blocks(pool) }.map(|block| block.size()).collect();
    assert_eq!(sizes, [224, 224, 224, 192]);
    // The rest of 32 bytes is no pool.
    assert_eq!(unsafe { tlsf.insert_free_block_ptr(arena.range(1024, 256 + 32)) }.unwrap().get(), 256);
}

/// A `Tlsf` in a static, and over a static array: another thread uses it.
#[test]
fn statics() {
    static TLSF: Mutex<Tlsf<'static, u16, u16, 12, 16>> = Mutex::new(Tlsf::INIT);
    static mut POOL: [MaybeUninit<u8>; 4096] = [MaybeUninit::uninit(); 4096];
    TLSF.lock().unwrap().insert_free_block(unsafe { &mut *(&raw mut POOL) });
    let payload = thread::spawn(|| TLSF.lock().unwrap().allocate(layout(100, 64)).unwrap().addr()).join().unwrap();
    assert_eq!(payload.get() % 64, 0);
    let pool = (&raw const POOL).addr();
    assert!((pool..pool + 4096 - 100).contains(&payload.get()));
}
