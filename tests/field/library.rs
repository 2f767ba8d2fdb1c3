//! The whole job of the static library field_c and single questions to its field, called with a job and rooms of the oracle.
// each program that has this file calls a part of it
#![allow(dead_code)]
use oracle::job::Job;
use oracle::rooms::{Rooms, Told};

/// A function of the library, and the same for slices: each goes over as its first element and its length.
macro_rules! export {
    (fn $name:ident($($first:ident: $f:ty),*; $($read:ident: $r:ty),*; $($number:ident: $n:ty),*; $($write:ident: $w:ty),*)) => {
        mod $name {
            unsafe extern "C" {
                pub fn $name($($first: $f,)* $($read: *const $r, _: usize,)* $($number: $n,)* $($write: *mut $w, _: usize),*) -> u32;
            }
        }

        #[allow(clippy::too_many_arguments)]
        fn $name($($first: $f,)* $($read: &[$r],)* $($number: $n,)* $($write: &mut [$w]),*) -> u32 {
            unsafe {
                $name::$name(
                    $($first,)*
                    $($read.as_ptr(), $read.len(),)*
                    $($number,)*
                    $($write.as_mut_ptr(), $write.len()),*
                )
            }
        }
    };
}

export!(fn sirmolaat_compute(;
    vertices: f64, triangles: u32, flags: u8, kinds: u8, faces: u32, coords: f64;
    limit: f64, max_steps: u32;
    vertex_words: u32, edge_words: u32, edge_reals: f64, round: u32, triangle_words: u32, triangle_reals: f64,
    piece_words: u32, piece_reals: f64, vertex: f64, words: u32, reals: f64, keys: f64, events: u32, entry_words: u32,
    pts: f64, out: f64, keep: f64, next: f64, scratch: u32, other_scratch: u32, told: u32
));

export!(fn sirmolaat_at(;
    told: u32, vertices: f64, triangles: u32, kinds: u8, faces: u32, coords: f64,
    edge_words: u32, edge_reals: f64, triangle_words: u32, triangle_reals: f64, vertex: f64, words: u32, reals: f64, entry_words: u32;
    f: u32, x: f64, y: f64, z: f64; distance: f64
));
export!(fn sirmolaat_edge_at(;
    told: u32, vertices: f64, triangles: u32, kinds: u8, faces: u32, coords: f64,
    edge_words: u32, edge_reals: f64, triangle_words: u32, triangle_reals: f64, vertex: f64, words: u32, reals: f64, entry_words: u32;
    e: u32, x: f64; distance: f64
));

/// A single question: its number and its distance.
macro_rules! ask {
    ($name:ident, $told:ident, $job:ident, $rooms:ident, $($asked:expr),*) => {{
        let mut distance = [77.];
        let number = $name(
            $told,
            &$job.vertices,
            &$job.triangles,
            &$job.piece_kinds,
            &$job.piece_faces,
            &$job.piece_coords,
            &$rooms.edge_words,
            &$rooms.edge_reals,
            &$rooms.triangle_words,
            &$rooms.triangle_reals,
            &$rooms.vertex,
            &$rooms.words,
            &$rooms.reals,
            &$rooms.entry_words,
            $($asked,)*
            &mut distance,
        );
        (number, distance[0])
    }};
}

pub fn at(told: &Told, job: &Job, rooms: &Rooms, f: u32, [x, y, z]: [f64; 3]) -> (u32, f64) {
    ask!(sirmolaat_at, told, job, rooms, f, x, y, z)
}

pub fn edge_at(told: &Told, job: &Job, rooms: &Rooms, e: u32, x: f64) -> (u32, f64) {
    ask!(sirmolaat_edge_at, told, job, rooms, e, x)
}

/// What the job comes to: its counts, or the refusal's number.
pub fn compute(job: &Job, rooms: &mut Rooms) -> Result<Told, u32> {
    let mut told = [7; 6];
    let refusal = sirmolaat_compute(
        &job.vertices,
        &job.triangles,
        &job.flags,
        &job.piece_kinds,
        &job.piece_faces,
        &job.piece_coords,
        job.limit,
        job.max_steps,
        &mut rooms.vertex_words,
        &mut rooms.edge_words,
        &mut rooms.edge_reals,
        &mut rooms.round,
        &mut rooms.triangle_words,
        &mut rooms.triangle_reals,
        &mut rooms.piece_words,
        &mut rooms.piece_reals,
        &mut rooms.vertex,
        &mut rooms.words,
        &mut rooms.reals,
        &mut rooms.keys,
        &mut rooms.events,
        &mut rooms.entry_words,
        &mut rooms.pts,
        &mut rooms.out,
        &mut rooms.keep,
        &mut rooms.next,
        &mut rooms.scratch,
        &mut rooms.other_scratch,
        &mut told,
    );
    if refusal == 0 { Ok(told) } else { Err(refusal) }
}

/// The windows and the distances of two fields are the same to the bit.
pub fn same(a: &Rooms, b: &Rooms) -> bool {
    let bits = |x: &[f64], y: &[f64]| {
        x.iter()
            .map(|v| v.to_bits())
            .eq(y.iter().map(|v| v.to_bits()))
    };
    a.words == b.words && bits(&a.reals, &b.reals) && bits(&a.vertex, &b.vertex)
}
