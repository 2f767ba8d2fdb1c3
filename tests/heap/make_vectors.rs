//! Writes the stored runs of the queue: for each class a file of records of four numbers, each 8 bytes, the least significant
//! first. The first says what was done and answered: 0 a push that found a slot, 1 a push that found none, 2 a pop of an event,
//! 3 a pop of none. The others are the event's key, a bit pattern, its number and its kind (0 a window, 1 a vertex).
//! The answers are those of std's BinaryHeap, which is never pushed past `SLOTS` events. A NaN is 0x7ff8000000000000: the
//! language has one. Usage: make_vectors DIRECTORY
mod event;
use event::{Event, Random};
use std::{collections::BinaryHeap, fs::File, io::Write};

const SLOTS: usize = 256;

fn record(out: &mut Vec<u8>, what: u64, e: Event) {
    for n in [what, e.0.to_bits(), e.1 as u64, e.2 as u64] {
        out.extend(n.to_le_bytes());
    }
}

/// `steps` operations that fill and empty the queue by turns, with keys that `key` makes from the last key popped.
fn run(random: &mut Random, steps: usize, key: impl Fn(&mut Random, f64) -> f64) -> Vec<u8> {
    let (mut queue, mut out, mut last) = (BinaryHeap::new(), vec![], 0.);
    for step in 0..steps {
        // More pushes than pops for a while, so that the queue is full; then fewer, so that it is empty.
        let pushes = if step / 800 % 2 == 0 { 7 } else { 3 };
        if random.below(10) < pushes {
            let e = Event(key(random, last), random.below(64) as u32, random.below(2) == 1);
            let full = queue.len() == SLOTS;
            record(&mut out, full as u64, e);
            if !full {
                queue.push(e);
            }
        } else if let Some(e) = queue.pop() {
            last = if e.0.is_nan() { 0. } else { e.0 };
            record(&mut out, 2, e);
        } else {
            record(&mut out, 3, Event(0., 0, false));
        }
    }
    out
}

fn main() {
    let directory = std::env::args().nth(1).expect("a directory");
    let special = [
        0x7ff8_0000_0000_0000, // NaN
        0x7ff0_0000_0000_0000, // infinity
        0xfff0_0000_0000_0000,
        0x0000_0000_0000_0000, // zero
        0x8000_0000_0000_0000,
        0x0000_0000_0000_0001, // the least
        0x8000_0000_0000_0001,
        0x7fef_ffff_ffff_ffff, // the greatest
        0xffef_ffff_ffff_ffff,
        0x3ff0_0000_0000_0000, // one
        0xbff0_0000_0000_0000,
    ]
    .map(f64::from_bits);
    let any = |r: &mut Random| {
        let x = f64::from_bits(r.bits());
        if x.is_nan() { special[0] } else { x }
    };
    let mut random = Random(0x9e37_79b9_7f4a_7c15);
    let runs = [
        // Few keys: ties are settled by number, then by kind.
        ("equal", run(&mut random, 6000, |r, _| r.below(3) as f64)),
        ("special", run(&mut random, 6000, |r, _| special[r.below(11) as usize])),
        ("patterns", run(&mut random, 6000, |r, _| any(r))),
        // Keys that rise from the last one popped, as a field's do.
        ("rising", run(&mut random, 6000, |r, last| last + r.unit())),
    ];
    for (name, bytes) in runs {
        let path = format!("{directory}/{name}");
        File::create(path).unwrap().write_all(&bytes).unwrap();
    }
}
