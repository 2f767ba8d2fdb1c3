//! Rooms for a job, tight and wide: slices of a room that are longer than
//! another of its slices, slots that are not whole, more slots than are
//! needed, and once in a while a slot less. Anything stands in them.
use super::insertion::{self, Stage};
use super::rng::Rng;
use super::small;
use crate::job::Job;
use crate::rooms::{Rooms, Slots};

/// Numbers behind the slots, of a slice with so many a slot: mostly none or
/// less than a slot.
fn spare(rng: &mut Rng, stride: usize) -> usize {
    match rng.below(8) {
        0..4 => 0,
        4..7 => rng.below(stride),
        _ => rng.below(5 * stride),
    }
}

/// What stands in a room before a job: any bits, or the same number.
fn garbage(rng: &mut Rng, rooms: &mut Rooms) {
    let mut other = Rng::new(rng.u64());
    match rng.below(4) {
        0 => rooms.fill(|| 7, || 7.),
        1 => rooms.fill(|| u32::MAX, || f64::INFINITY),
        2 => rooms.fill(
            || rng.pick(&[0, 1, 2, 3, 9, 40]),
            || other.pick(&[0., -0., 1., -3., f64::NAN]),
        ),
        _ => rooms.fill(|| rng.u64() as u32, || f64::from_bits(other.u64())),
    }
}

/// Rooms with the slots that the job's counts say, and for the rest what it
/// must have, or one slot less (9).
pub fn lent(rng: &mut Rng, job: &Job) -> Rooms {
    let mut slots = Slots::least(job, job.buffers);
    if rng.one_in(20) {
        let lacking: [&mut u32; 7] = [
            &mut slots.vertices,
            &mut slots.edges,
            &mut slots.round,
            &mut slots.triangles,
            &mut slots.pieces,
            &mut slots.scratch,
            &mut slots.other_scratch,
        ];
        let which = rng.below(7);
        for (k, n) in lacking.into_iter().enumerate() {
            if k == which {
                *n = n.saturating_sub(1);
            }
        }
    }
    let mut rooms = Rooms::new(&slots);
    let strides = [3, 6, 1, 6, 3, 4, 2, 3, 1, 1];
    for (slice, stride) in rooms.all_words_mut().into_iter().zip(strides) {
        slice.resize(slice.len() + spare(rng, stride), 0);
    }
    let strides = [4, 9, 3, 2, 6, 1, 1, 2, 2, 2];
    for (slice, stride) in rooms.all_reals_mut().into_iter().zip(strides) {
        slice.resize(slice.len() + spare(rng, stride), 0.);
    }
    garbage(rng, &mut rooms);
    rooms
}

/// The job of a seed, of `small` or of `insertion`, and its rooms.
pub fn job(seed: u64) -> (Job, Rooms) {
    let mut rng = Rng::new(!seed);
    let mut job = if rng.one_in(3) {
        let mut job = small::job(seed);
        // a job that is refused whatever is lent gets some rooms all the same
        let _ = insertion::fit(&mut rng, &mut job, Stage::Field);
        job
    } else {
        insertion::job(seed, Stage::Field)
    };
    if rng.one_in(12) {
        small::defect(&mut rng, &mut job);
    }
    let rooms = lent(&mut rng, &job);
    (job, rooms)
}
