//! The functions of the static library, and the only `unsafe` code of this package. docs/ABI.md of the repository says what each takes and answers.
//!
//! A slice goes over as its first element and its length. Every function takes slices of any length with anything in them, tests the lengths itself, keeps no state and no pointer;
//! where a function is to fill a slice of answers, its length is tested here too.
#![allow(unsafe_code)]
use crate::buffers::Buffers;
use crate::input::Input;
use crate::refusal::OTHER_VERSION;
use crate::slip::{Form, Rows};
use std::sync::OnceLock;

/// Vertices, triangles, pieces, edges, windows made and steps of a field.
pub(crate) type Told = [u32; 6];

/// The row's slices have not one length: the library's own number for it.
const SHORT_ROW: u32 = 74;

/// What is lent for a slip that is moved is too short: document 02's number.
const NO_ROOM: u32 = 36;

/// Declares a function, and the same for slices.
macro_rules! export {
    ($name:ident($($number:ident: $n:ty),*; $($read:ident: $r:ty),*; $($after:ident: $m:ty),*; $($write:ident: $w:ty),*) -> $answer:ty) => {
        #[allow(clippy::too_many_arguments)]
        fn $name($($number: $n,)* $($read: &[$r],)* $($after: $m,)* $($write: &mut [$w]),*) -> $answer {
            mod declared {
                unsafe extern "C" {
                    pub fn $name($($number: $n,)* $($read: *const $r, _: usize,)* $($after: $m,)* $($write: *mut $w, _: usize),*) -> $answer;
                }
            }
            // SAFETY: the function is proved for slices of any length and content, reads and writes nothing else and ends; the slices are borrowed for the call.
            unsafe {
                declared::$name(
                    $($number,)* $($read.as_ptr(), $read.len(),)* $($after,)* $($write.as_mut_ptr(), $write.len()),*
                )
            }
        }
    };
}

export!(sirmolaat_faces_at(refusal: u32;
    told: u32, vertices: f64, triangles: u32, kinds: u8, faces: u32, coords: f64,
    edge_words: u32, edge_reals: f64, triangle_words: u32, triangle_reals: f64, vertex: f64, words: u32, reals: f64, entry_words: u32,
    asked: u32, points: f64;; numbers: u32, distances: f64
) -> u32);
export!(sirmolaat_edges_at(refusal: u32;
    told: u32, vertices: f64, triangles: u32, kinds: u8, faces: u32, coords: f64,
    edge_words: u32, edge_reals: f64, triangle_words: u32, triangle_reals: f64, vertex: f64, words: u32, reals: f64, entry_words: u32,
    edges: u32, places: f64;; numbers: u32, distances: f64
) -> u32);

export!(sirmolaat_at(;
    told: u32, vertices: f64, triangles: u32, kinds: u8, faces: u32, coords: f64,
    edge_words: u32, edge_reals: f64, triangle_words: u32, triangle_reals: f64, vertex: f64, words: u32, reals: f64, entry_words: u32;
    f: u32, x: f64, y: f64, z: f64; distance: f64
) -> u32);
export!(sirmolaat_edge_at(;
    told: u32, vertices: f64, triangles: u32, kinds: u8, faces: u32, coords: f64,
    edge_words: u32, edge_reals: f64, triangle_words: u32, triangle_reals: f64, vertex: f64, words: u32, reals: f64, entry_words: u32;
    e: u32, x: f64; distance: f64
) -> u32);
export!(sirmolaat_read_slip_form(form: u32; slip: u8;;
    vertices: f64, triangles: u32, flags: u8, kinds: u8, faces: u32, coords: f64, told: u32, limit: f64
) -> u32);
export!(sirmolaat_slip_to_groups(; slip: u8;; out: u8, told: usize) -> u32);
export!(sirmolaat_groups_to_slip(; slip: u8;; out: u8, told: usize) -> u32);
export!(sirmolaat_write_slip(;
    vertices: f64, triangles: u32, flags: u8, kinds: u8, faces: u32, coords: f64; limit: f64; out: u8
) -> usize);
export!(sirmolaat_print_out(refusal: u32; told: u32, words: u32, vertex: f64;; out: u8) -> usize);

export!(sirmolaat_insert(;
    vertices: f64, triangles: u32, flags: u8, kinds: u8, faces: u32, coords: f64;
    limit: f64;
    vertex_words: u32, edge_words: u32, edge_reals: f64, round: u32, triangle_words: u32, triangle_reals: f64,
    piece_words: u32, piece_reals: f64, vertex: f64, words: u32, reals: f64, keys: f64, events: u32, entry_words: u32,
    pts: f64, out: f64, keep: f64, next: f64, told: u32
) -> u32);
export!(sirmolaat_advance(limit: f64, n: u32, most: u32;
    vertices: f64, triangles: u32, vertex_words: u32, edge_reals: f64, round: u32, triangle_words: u32, triangle_reals: f64;;
    edge_words: u32, vertex: f64, words: u32, reals: f64, keys: f64, events: u32, pts: f64, out: f64, keep: f64, next: f64, told: u32
) -> u32);
export!(sirmolaat_finish(edges: u32, made: u32; edge_reals: f64, words: u32, reals: f64;;
    edge_words: u32, vertex: f64, keys: f64, events: u32, pts: f64, out: f64, keep: f64, next: f64
) -> u32);

export!(sirmolaat_stl_read(; s: u8;; vertices: f64, triangles: u32) -> u64);
export!(sirmolaat_stl_write(; vertices: f64, triangles: u32;; out: u8) -> u64);

export!(sirmolaat_interface(;;;) -> u32);

/// The interface that is declared here.
const INTERFACE: u32 = 1;

/// Whether the library that is linked is of this version; where it is not, nothing else of it may be called.
fn same_version() -> bool {
    static SAME: OnceLock<bool> = OnceLock::new();
    *SAME.get_or_init(|| sirmolaat_interface() == INTERFACE)
}

/// The mesh and the insertion of a job: edges, windows made, events that wait and face entries; or the refusal's number.
pub(crate) fn insert(job: &Input, b: &mut Buffers) -> Result<[u32; 4], u32> {
    if !same_version() {
        return Err(OTHER_VERSION);
    }
    let mut told = [0; 4];
    let number = sirmolaat_insert(
        job.vertices,
        job.triangles,
        &job.flags,
        &job.kinds,
        &job.faces,
        &job.coords,
        job.limit,
        &mut b.vertex_words,
        &mut b.edge_words,
        &mut b.edge_reals,
        &mut b.round,
        &mut b.triangle_words,
        &mut b.triangle_reals,
        &mut b.piece_words,
        &mut b.piece_reals,
        &mut b.vertex,
        &mut b.words,
        &mut b.reals,
        &mut b.keys,
        &mut b.events,
        &mut b.entry_words,
        &mut b.pts,
        &mut b.out,
        &mut b.keep,
        &mut b.next,
        &mut told,
    );
    if number == 0 { Ok(told) } else { Err(number) }
}

/// At most so many turns of the main loop, from so many windows made and events that wait: as many as there are then, and the steps; or the refusal's number.
pub(crate) fn advance(
    job: &Input,
    b: &mut Buffers,
    most: u32,
    counts: [u32; 2],
) -> Result<[u32; 3], u32> {
    let mut told = [counts[0], counts[1], 0];
    let number = sirmolaat_advance(
        job.limit,
        job.flags.len() as u32,
        most,
        job.vertices,
        job.triangles,
        &b.vertex_words,
        &b.edge_reals,
        &b.round,
        &b.triangle_words,
        &b.triangle_reals,
        &mut b.edge_words,
        &mut b.vertex,
        &mut b.words,
        &mut b.reals,
        &mut b.keys,
        &mut b.events,
        &mut b.pts,
        &mut b.out,
        &mut b.keep,
        &mut b.next,
        &mut told,
    );
    if number == 0 { Ok(told) } else { Err(number) }
}

/// The end of a job of so many edges and windows, where no event waits.
pub(crate) fn finish(b: &mut Buffers, edges: u32, made: u32) -> Result<(), u32> {
    let number = sirmolaat_finish(
        edges,
        made,
        &b.edge_reals,
        &b.words,
        &b.reals,
        &mut b.edge_words,
        &mut b.vertex,
        &mut b.keys,
        &mut b.events,
        &mut b.pts,
        &mut b.out,
        &mut b.keep,
        &mut b.next,
    );
    if number == 0 { Ok(()) } else { Err(number) }
}

/// A field as it is lent for queries.
pub(crate) struct Lent<'a> {
    pub told: &'a Told,
    pub job: &'a Input<'a>,
    pub buffers: &'a Buffers,
}

/// Calls a query with the job and the buffers of a field.
macro_rules! ask {
    ($lent:expr, $name:ident($($first:expr),*; $($asked:expr),*)) => {{
        let Lent { told, job, buffers: b } = $lent;
        $name(
            $($first,)*
            &told[..],
            job.vertices,
            job.triangles,
            &job.kinds,
            &job.faces,
            &job.coords,
            &b.edge_words,
            &b.edge_reals,
            &b.triangle_words,
            &b.triangle_reals,
            &b.vertex,
            &b.words,
            &b.reals,
            &b.entry_words,
            $($asked),*
        )
    }};
}

/// The numbers and distances of a row, or the number by which the whole row is refused.
pub(crate) type Row = Result<(Vec<u32>, Vec<f64>), u32>;

fn row(length: usize, others: usize, ask: impl FnOnce(&mut [u32], &mut [f64]) -> u32) -> Row {
    if length != others || u32::try_from(length).is_err() {
        return Err(SHORT_ROW);
    }
    let (mut numbers, mut distances) = (vec![0; length], vec![f64::NAN; length]);
    match ask(&mut numbers, &mut distances) {
        0 => Ok((numbers, distances)),
        number => Err(number),
    }
}

impl Lent<'_> {
    pub(crate) fn faces_at(&self, faces: &[u32], points: &[[f64; 3]]) -> Row {
        row(
            faces.len(),
            points.len(),
            |numbers, distances| ask!(self, sirmolaat_faces_at(0; faces, points.as_flattened(), numbers, distances)),
        )
    }

    pub(crate) fn edges_at(&self, edges: &[u32], places: &[f64]) -> Row {
        row(
            edges.len(),
            places.len(),
            |numbers, distances| ask!(self, sirmolaat_edges_at(0; edges, places, numbers, distances)),
        )
    }

    /// One question to a field that a job returned: it is not checked again.
    pub(crate) fn at(&self, f: u32, [x, y, z]: [f64; 3]) -> Result<f64, u32> {
        one(|distance| ask!(self, sirmolaat_at(; f, x, y, z, distance)))
    }

    pub(crate) fn edge_at(&self, e: u32, x: f64) -> Result<f64, u32> {
        one(|distance| ask!(self, sirmolaat_edge_at(; e, x, distance)))
    }

    /// The print-out: asked for its length first.
    pub(crate) fn print_out(&self) -> Vec<u8> {
        let b = self.buffers;
        let put = |out: &mut [u8]| sirmolaat_print_out(0, self.told, &b.words, &b.vertex, out);
        let mut out = vec![0; put(&mut [])];
        put(&mut out);
        out
    }
}

fn one(ask: impl FnOnce(&mut [f64]) -> u32) -> Result<f64, u32> {
    let mut distance = [f64::NAN];
    match ask(&mut distance) {
        0 => Ok(distance[0]),
        number => Err(number),
    }
}

/// The library's number of a form.
fn number_of(form: Form) -> u32 {
    match form {
        Form::Plain => 1,
        Form::Groups => 2,
    }
}

/// A slip, read to rows that have as many elements as it claims; or its refusal, and nothing is written.
pub(crate) fn read_slip(form: Form, slip: &[u8], rows: &mut Rows) -> Result<(), u32> {
    if !same_version() {
        return Err(OTHER_VERSION);
    }
    let (mut told, mut limit) = ([0; 3], [0.]);
    let number = sirmolaat_read_slip_form(
        number_of(form),
        slip,
        &mut rows.vertices,
        &mut rows.triangles,
        &mut rows.flags,
        &mut rows.kinds,
        &mut rows.faces,
        &mut rows.coords,
        &mut told,
        &mut limit,
    );
    let counts = [rows.flags.len(), rows.triangles.len() / 3, rows.kinds.len()];
    match number {
        0 if counts == told.map(|n| n as usize) => {
            rows.limit = limit[0];
            Ok(())
        }
        0 => Err(33),
        number => Err(number),
    }
}

/// The bytes of a job's slip, which has at most so many; none where it has more.
pub(crate) fn write_slip(job: &Input, most: usize) -> Result<Vec<u8>, u32> {
    if !same_version() {
        return Err(OTHER_VERSION);
    }
    let mut out = vec![0; most];
    let length = sirmolaat_write_slip(
        job.vertices,
        job.triangles,
        &job.flags,
        &job.kinds,
        &job.faces,
        &job.coords,
        job.limit,
        &mut out,
    );
    out.truncate(length);
    Ok(out)
}

/// A slip of one form in the other, or its refusal: asked for its length first.
pub(crate) fn move_slip(from: Form, slip: &[u8]) -> Result<Vec<u8>, u32> {
    if !same_version() {
        return Err(OTHER_VERSION);
    }
    let mut told = [0];
    let mut put = |out: &mut [u8]| {
        let number = match from {
            Form::Plain => sirmolaat_slip_to_groups(slip, out, &mut told),
            Form::Groups => sirmolaat_groups_to_slip(slip, out, &mut told),
        };
        (number, told[0])
    };
    let length = match put(&mut []) {
        (0 | NO_ROOM, length) => length,
        (number, _) => return Err(number),
    };
    let mut out = vec![0; length];
    match put(&mut out) {
        (0, _) => Ok(out),
        (number, _) => Err(number),
    }
}

/// What an STL function answers: a refusal in the upper half, else a count in the lower.
fn halves(answer: u64) -> Result<usize, u32> {
    match (answer >> 32) as u32 {
        0 => Ok(answer as u32 as usize),
        number => Err(number),
    }
}

/// The vertices and triangles of a binary STL file, or its refusal.
pub(crate) fn read_stl(file: &[u8]) -> Result<(Vec<f64>, Vec<u32>), u32> {
    if !same_version() {
        return Err(OTHER_VERSION);
    }
    let count = file
        .get(80..)
        .and_then(|rest| rest.first_chunk())
        .map_or(0, |n| u32::from_le_bytes(*n));
    let count = count.min(131_070) as usize;
    let mut vertices = vec![0.; 3 * (3 * count).min(65_535)];
    let mut triangles = vec![0; 3 * count];
    let read = halves(sirmolaat_stl_read(file, &mut vertices, &mut triangles))?;
    vertices.truncate(3 * read);
    Ok((vertices, triangles))
}

/// The bytes of a mesh as binary STL, or the refusal.
pub(crate) fn write_stl(vertices: &[f64], triangles: &[u32]) -> Result<Vec<u8>, u32> {
    if !same_version() {
        return Err(OTHER_VERSION);
    }
    let mut out = vec![0; 84 + 50 * (triangles.len() / 3)];
    let written = halves(sirmolaat_stl_write(vertices, triangles, &mut out))?;
    out.truncate(written);
    Ok(out)
}
