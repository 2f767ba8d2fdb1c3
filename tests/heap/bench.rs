//! Times the queue of the static library and std's BinaryHeap on the same mixed operations. Usage: bench
mod event;
use event::{Event, Random};
use std::{collections::BinaryHeap, time::Instant};

unsafe extern "C" {
    fn sirmolaat_heap_push(
        keys: *mut f64,
        keys_len: usize,
        words: *mut u32,
        words_len: usize,
        n: u32,
        key: f64,
        number: u32,
        kind: u32,
    ) -> u32;
    fn sirmolaat_heap_pop(
        keys: *mut f64,
        keys_len: usize,
        words: *mut u32,
        words_len: usize,
        n: u32,
    ) -> u32;
}

/// What the two have in common.
trait Queue {
    fn push(&mut self, e: Event);
    fn pop(&mut self) -> Event;
}

impl Queue for BinaryHeap<Event> {
    fn push(&mut self, e: Event) {
        BinaryHeap::push(self, e);
    }
    fn pop(&mut self) -> Event {
        BinaryHeap::pop(self).unwrap()
    }
}

struct Lent {
    keys: Vec<f64>,
    words: Vec<u32>,
    n: u32,
}

impl Queue for Lent {
    fn push(&mut self, e: Event) {
        let (k, w) = (&mut self.keys, &mut self.words);
        self.n = unsafe {
            sirmolaat_heap_push(
                k.as_mut_ptr(),
                k.len(),
                w.as_mut_ptr(),
                w.len(),
                self.n,
                e.0,
                e.1,
                e.2 as u32,
            )
        };
    }
    fn pop(&mut self) -> Event {
        let (k, w) = (&mut self.keys, &mut self.words);
        self.n = unsafe {
            sirmolaat_heap_pop(k.as_mut_ptr(), k.len(), w.as_mut_ptr(), w.len(), self.n)
        };
        let i = self.n as usize;
        Event(k[i], w[2 * i], w[2 * i + 1] == 1)
    }
}

/// Nanoseconds for a push and a pop at a queue of `length` events whose keys rise as a field's do, and a sum of what was popped.
fn time(queue: &mut impl Queue, length: usize, pairs: u32) -> (f64, u64) {
    let mut random = Random(0x2545_f491_4f6c_dd1d);
    for i in 0..length as u32 {
        queue.push(Event(random.unit(), i, i % 2 == 1));
    }
    let (start, mut sum) = (Instant::now(), 0u64);
    for i in 0..pairs {
        let e = queue.pop();
        sum = sum.wrapping_mul(31).wrapping_add(e.1 as u64);
        queue.push(Event(e.0 + random.unit(), i, i % 2 == 1));
    }
    (start.elapsed().as_secs_f64() * 1e9 / pairs as f64, sum)
}

fn main() {
    for length in [1_000, 100_000] {
        let (mut std, mut lent) = (vec![], vec![]);
        for _ in 0..15 {
            let a = time(&mut BinaryHeap::with_capacity(length), length, 500_000);
            let b = time(
                &mut Lent {
                    keys: vec![0.; length],
                    words: vec![0; 2 * length],
                    n: 0,
                },
                length,
                500_000,
            );
            assert_eq!(a.1, b.1, "the queues differ");
            std.push(a.0);
            lent.push(b.0);
        }
        std.sort_by(f64::total_cmp);
        lent.sort_by(f64::total_cmp);
        println!(
            "length {length}: BinaryHeap {:.1} ns, heap {:.1} ns a push and a pop (medians of 15), ratio {:.2}; least {:.1} and {:.1}, ratio {:.2}",
            std[7],
            lent[7],
            lent[7] / std[7],
            std[0],
            lent[0],
            lent[0] / std[0]
        );
    }
}
