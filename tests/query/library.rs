//! The rows of questions of the static library query_c, asked of a field in the oracle's rooms.
use oracle::job::Job;
use oracle::rooms::{Rooms, Told};

/// A function of the library, and the same for slices: each goes over as its first element and its length.
macro_rules! export {
    ($name:ident, [$($asked:ident: $a:ty),*], [$($out:ident: $o:ty),*]) => {
        fn $name(field: &Asked, $($asked: &[$a],)* $($out: &mut [$o],)*) -> u32 {
            let (job, rooms) = (field.job, field.rooms);
            export!(@call $name, field,
                [job.vertices: f64, job.triangles: u32, job.piece_kinds: u8, job.piece_faces: u32, job.piece_coords: f64,
                rooms.edge_words: u32, rooms.edge_reals: f64, rooms.triangle_words: u32, rooms.triangle_reals: f64,
                rooms.vertex: f64, rooms.words: u32, rooms.reals: f64, rooms.entry_words: u32],
                [$($asked: $a),*], [$($out: $o),*])
        }
    };
    (@call $name:ident, $field:ident, [$($of:ident.$read:ident: $r:ty),*], [$($asked:ident: $a:ty),*], [$($out:ident: $o:ty),*]) => {{
        unsafe extern "C" {
            fn $name(
                refusal: u32, told: *const u32, _: usize, $($read: *const $r, _: usize,)* $($asked: *const $a, _: usize,)*
                $($out: *mut $o, _: usize,)*
            ) -> u32;
        }
        let (refusal, told) = match $field.answer {
            Ok(told) => (0, told),
            Err(number) => (number, [1; 6]),
        };
        unsafe {
            $name(
                refusal, told.as_ptr(), told.len(), $($of.$read.as_ptr(), $of.$read.len(),)* $($asked.as_ptr(), $asked.len(),)*
                $($out.as_mut_ptr(), $out.len(),)*
            )
        }
    }};
}

export!(sirmolaat_faces_at, [asked: u32, points: f64], [numbers: u32, distances: f64]);
export!(sirmolaat_edges_at, [edges: u32, places: f64], [numbers: u32, distances: f64]);
export!(sirmolaat_vertices_at, [asked: u32], [numbers: u32, distances: f64]);
export!(sirmolaat_windows_at, [edges: u32, places: u32], [numbers: u32, ids: u32, window_words: u32, window_reals: f64]);

/// A job's answer, the job and its rooms.
pub struct Asked<'a> {
    pub answer: Result<Told, u32>,
    pub job: &'a Job,
    pub rooms: &'a Rooms,
}

/// What stands in the slices of a row before it is asked.
pub const UNWRITTEN: (u32, f64) = (77, 77.);

/// A row's number, then each question's number and distance.
pub type Row = (u32, Vec<(u32, f64)>);

/// By how much the slices for a row's answers are short.
pub type Short = [usize; 2];

fn row(n: usize, short: Short, ask: impl FnOnce(&mut [u32], &mut [f64]) -> u32) -> Row {
    let (mut numbers, mut distances) = (vec![UNWRITTEN.0; n], vec![UNWRITTEN.1; n]);
    let answer = ask(
        &mut numbers[..n.saturating_sub(short[0])],
        &mut distances[..n.saturating_sub(short[1])],
    );
    (answer, numbers.into_iter().zip(distances).collect())
}

/// A listed window: its number, and its slot of words and of reals.
pub type Listed = (u32, [u32; 4], [f64; 6]);

/// What stands in a slot before it is asked for.
pub const UNLISTED: Listed = (77, [77; 4], [77.; 6]);

impl Asked<'_> {
    pub fn faces(&self, f: &[u32], p: &[[f64; 3]]) -> Row {
        self.faces_in(f, p, [0, 0])
    }

    pub fn edges(&self, e: &[u32], x: &[f64]) -> Row {
        self.edges_in(e, x, [0, 0])
    }

    pub fn vertices(&self, k: &[u32]) -> Row {
        self.vertices_in(k, [0, 0])
    }

    pub fn faces_in(&self, f: &[u32], p: &[[f64; 3]], short: Short) -> Row {
        row(f.len(), short, |n, d| {
            sirmolaat_faces_at(self, f, p.as_flattened(), n, d)
        })
    }

    pub fn edges_in(&self, e: &[u32], x: &[f64], short: Short) -> Row {
        row(e.len(), short, |n, d| sirmolaat_edges_at(self, e, x, n, d))
    }

    pub fn vertices_in(&self, k: &[u32], short: Short) -> Row {
        row(k.len(), short, |n, d| sirmolaat_vertices_at(self, k, n, d))
    }

    /// The row's number, then each question's number and window.
    pub fn windows(&self, e: &[u32], place: &[u32], short: Short) -> (u32, Vec<(u32, Listed)>) {
        let n = e.len();
        let (mut numbers, mut ids) = (vec![77; n], vec![77; n]);
        let (mut words, mut reals) = (vec![[77; 4]; n], vec![[77.; 6]; n]);
        let answer = sirmolaat_windows_at(
            self,
            e,
            place,
            &mut numbers[..n.saturating_sub(short[0])],
            &mut ids[..n.saturating_sub(short[1])],
            words.as_flattened_mut(),
            reals.as_flattened_mut(),
        );
        let listed = |k: usize| (numbers[k], (ids[k], words[k], reals[k]));
        (answer, (0..n).map(listed).collect())
    }
}
