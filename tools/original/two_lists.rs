//! A model of an `OwnerHeap` over the original's `Tlsf`: does a second list of returned payloads, which the owner swaps, make its calls shorter?
//! `rlsf_two_lists one|two yields|sleeps CALLS`.
//!
//! The owner allocates zeroed payloads of 16 to 115 bytes, and sends them to four threads, which return them. With `one` list each allocation
//! first takes at most two payloads from it, each under a `try_lock`. With `two` the owner drains a list of its own without a lock, and swaps it
//! for the other under a `try_lock` when it is empty. A thread that finds the lock taken `yields` its processor and tries again, or `sleeps`.
//!
//! It prints how long the owner's allocations take, with the clock around them. As root it runs them at a real-time priority.
use rlsf::Tlsf;
use std::alloc::Layout;
use std::collections::VecDeque;
use std::mem::{swap, MaybeUninit};
use std::ptr::NonNull;
use std::sync::{Condvar, Mutex};
use std::time::Instant;

const THREADS: usize = 4;
const LIVE: usize = 1_000;
const COLLECTED: usize = 2;
/// How many payloads a thread receives at once, at most.
const RECEIVED: usize = 16;

extern "C" {
    fn sched_setscheduler(process: i32, policy: i32, priority: &i32) -> i32;
}
const FIRST_IN_FIRST_OUT: i32 = 1;

#[derive(Clone, Copy)]
struct Payload {
    start: NonNull<u8>,
    len: usize,
    align: usize,
}

unsafe impl Send for Payload {}

/// The payloads that threads returned.
struct Returns {
    list: Mutex<Vec<Payload>>,
    sleeps: bool,
}

impl Returns {
    fn put(&self, payload: Payload) {
        if self.sleeps {
            return self.list.lock().unwrap().push(payload);
        }
        loop {
            if let Ok(mut list) = self.list.try_lock() {
                return list.push(payload);
            }
            std::thread::yield_now();
        }
    }
}

struct Owner<'r> {
    heap: Tlsf<'static, usize, usize, 58, 64>,
    returns: &'r Returns,
    second: Vec<Payload>,
    lent: usize,
}

impl Owner<'_> {
    fn deallocate(&mut self, payload: Payload) {
        unsafe { self.heap.deallocate(payload.start, payload.align) };
        self.lent -= 1;
    }

    fn collect_of_one(&mut self) {
        for _ in 0..COLLECTED {
            let Some(payload) = self.returns.list.try_lock().ok().and_then(|mut list| list.pop()) else { return };
            self.deallocate(payload);
        }
    }

    fn collect_of_two(&mut self) {
        for _ in 0..COLLECTED {
            if self.second.is_empty() {
                let Ok(mut list) = self.returns.list.try_lock() else { return };
                swap(&mut *list, &mut self.second);
            }
            let Some(payload) = self.second.pop() else { return };
            self.deallocate(payload);
        }
    }

    fn lend(&mut self, layout: Layout) -> Option<Payload> {
        if self.lent == LIVE {
            return None;
        }
        let start = self.heap.allocate(layout)?;
        unsafe { start.as_ptr().write_bytes(0, layout.size()) };
        self.lent += 1;
        Some(Payload { start, len: layout.size(), align: layout.align() })
    }
}

#[no_mangle]
#[inline(never)]
fn allocate_with_one(owner: &mut Owner, layout: Layout) -> Option<Payload> {
    if owner.lent != 0 {
        owner.collect_of_one();
    }
    owner.lend(layout)
}

#[no_mangle]
#[inline(never)]
fn allocate_with_two(owner: &mut Owner, layout: Layout) -> Option<Payload> {
    if owner.lent != 0 {
        owner.collect_of_two();
    }
    owner.lend(layout)
}

/// The payloads on their way to the threads. After a `None` no more come.
struct Queue {
    messages: Mutex<VecDeque<Option<Payload>>>,
    sent: Condvar,
}

impl Queue {
    fn send(&self, message: Option<Payload>) {
        self.messages.lock().unwrap().push_back(message);
        self.sent.notify_one();
    }

    /// Receives some payloads. Returns whether more come.
    fn receive(&self, payloads: &mut Vec<Payload>) -> bool {
        let mut messages = self.sent.wait_while(self.messages.lock().unwrap(), |messages| messages.is_empty()).unwrap();
        while payloads.len() < RECEIVED {
            match messages.pop_front() {
                Some(Some(payload)) => payloads.push(payload),
                Some(None) => return false,
                None => break,
            }
        }
        true
    }
}

fn give_back(queue: &Queue, returns: &Returns) {
    let mut payloads = Vec::with_capacity(RECEIVED);
    let mut more = true;
    while more {
        more = queue.receive(&mut payloads);
        for payload in payloads.drain(..) {
            assert!(payload.len >= 16);
            returns.put(payload);
        }
    }
}

/// Makes the calls, and returns how long each took, in nanoseconds.
fn times(mut owner: Owner, queue: &Queue, has_two: bool, calls: usize) -> Vec<u128> {
    let mut times = Vec::with_capacity(calls);
    for number in 0..calls {
        let layout = Layout::from_size_align(16 + number % 100, 16).unwrap();
        let payload = loop {
            let begun = Instant::now();
            let payload = if has_two { allocate_with_two(&mut owner, layout) } else { allocate_with_one(&mut owner, layout) };
            let time = begun.elapsed().as_nanos();
            match payload {
                Some(payload) => {
                    times.push(time);
                    break payload;
                }
                None => std::thread::yield_now(),
            }
        };
        queue.send(Some(payload));
    }
    times
}

fn main() {
    let words: Vec<String> = std::env::args().collect();
    let [_, lists, how, calls] = &words[..] else { panic!("usage: rlsf_two_lists one|two yields|sleeps CALLS") };
    let mut heap = Tlsf::new();
    heap.insert_free_block(Box::leak(vec![MaybeUninit::new(0); 1 << 25].into_boxed_slice()));
    let returns = Returns { list: Mutex::new(Vec::with_capacity(LIVE)), sleeps: how == "sleeps" };
    let owner = Owner { heap, returns: &returns, second: Vec::with_capacity(LIVE), lent: 0 };
    let queue = Queue { messages: Mutex::new(VecDeque::with_capacity(LIVE + THREADS)), sent: Condvar::new() };
    let mut times = std::thread::scope(|scope| {
        for _ in 0..THREADS {
            scope.spawn(|| give_back(&queue, &returns));
        }
        let _ = unsafe { sched_setscheduler(0, FIRST_IN_FIRST_OUT, &10) };
        let times = times(owner, &queue, lists == "two", calls.parse().unwrap());
        for _ in 0..THREADS {
            queue.send(None);
        }
        times
    });
    times.sort();
    let at = |of_thousand: usize| times[(times.len() - 1) * of_thousand / 1_000];
    println!("nanoseconds: half {}, 99.9% {}, longest {}", at(500), at(999), at(1_000));
}
