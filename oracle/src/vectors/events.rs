//! Pushes and pops answered by the standard library's BinaryHeap with the
//! Rust's own order of events.
use super::Out;
use crate::exact::Event;
use crate::generate::rng::Rng;
use crate::reading::Published;
use std::collections::BinaryHeap;

fn key(rng: &mut Rng, last: f64) -> f64 {
    match rng.below(8) {
        0 | 1 => last,
        2 => rng.pick(&[
            0.,
            -0.,
            f64::INFINITY,
            f64::NEG_INFINITY,
            f64::NAN,
            -1.,
            5e-324,
            -5e-324,
        ]),
        3 => rng.below(4) as f64,
        4 => -rng.unit(),
        5 => f64::from_bits(rng.u64()),
        _ => rng.between(0., 100.),
    }
}

/// One run of mixed pushes and pops. There is one NaN, without a sign, and
/// it is the positive one of `total_cmp`.
pub fn run(rng: &mut Rng, out: &mut Out) {
    let length = rng.pick(&[10, 50, 200, 1_000]);
    let pushes = rng.pick(&[5, 7, 9]);
    let mut heap: BinaryHeap<Event<Published>> = BinaryHeap::new();
    let mut last = 0.;
    out.u32(length);
    for k in 0..length {
        let push = rng.below(10) < pushes && k < length * 3 / 4;
        out.u8(if push { 0 } else { 1 });
        if push {
            last = key(rng, last);
            let x = if last.is_nan() {
                f64::from_bits(0x7ff8 << 48)
            } else {
                last
            };
            let id = if rng.one_in(3) {
                rng.below(4) as u32
            } else {
                rng.below(1_000_000) as u32
            };
            let vertex = rng.one_in(3);
            out.f64(x);
            out.u32(id);
            out.u8(vertex.into());
            heap.push(Event::new(x, id, vertex));
        } else {
            let event = heap.pop();
            out.u8(event.is_some().into());
            let (key, id, vertex) = event.map_or((0., 0, false), |e| (e.0, e.1, e.2));
            out.f64(key);
            out.u32(id);
            out.u8(vertex.into());
        }
    }
}
