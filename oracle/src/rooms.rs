//! A job in the slices that are lent for it, document 01's rooms: refusal 9,
//! and what each slice holds when the job is done. Where things stand in them
//! is what crates/layout says; the buckets of the pieces' ends are those of
//! crates/piece_ends.
use crate::dump::{Contents, contents, src_parts};
use crate::exact::{Buffers, Field, Piece, Refusal, Topology};
use crate::job::{Job, Mesh};
use crate::reading::{Patched, Reading};
use crate::vector::{Vec3, norm, scale, sub};

/// Vertices, triangles and pieces of the job; edges, windows made, steps.
pub type Told = [u32; 6];

#[derive(Clone, Debug, Default)]
pub struct Rooms {
    pub vertex_words: Vec<u32>,
    pub edge_words: Vec<u32>,
    pub edge_reals: Vec<f64>,
    pub round: Vec<u32>,
    pub triangle_words: Vec<u32>,
    pub triangle_reals: Vec<f64>,
    pub piece_words: Vec<u32>,
    pub piece_reals: Vec<f64>,
    pub vertex: Vec<f64>,
    pub words: Vec<u32>,
    pub reals: Vec<f64>,
    pub keys: Vec<f64>,
    pub events: Vec<u32>,
    pub entry_words: Vec<u32>,
    pub pts: Vec<f64>,
    pub out: Vec<f64>,
    pub keep: Vec<f64>,
    pub next: Vec<f64>,
    pub scratch: Vec<u32>,
    pub other_scratch: Vec<u32>,
}

/// How many slots each room has.
#[derive(Clone, Copy, Debug, PartialEq, Eq)]
pub struct Slots {
    pub vertices: u32,
    pub edges: u32,
    pub round: u32,
    pub triangles: u32,
    pub pieces: u32,
    pub scratch: u32,
    pub other_scratch: u32,
    pub buffers: Buffers,
}

/// As many as all slices of a room have; each has a length and a stride.
fn slots(slices: &[(usize, usize)]) -> u32 {
    let most = |&(length, stride): &(usize, usize)| length / stride;
    let least = slices.iter().map(most).min().unwrap_or(0);
    least.min(u32::MAX as usize) as u32
}

impl Rooms {
    /// Rooms of so many slots, none larger than it must be.
    pub fn new(s: &Slots) -> Rooms {
        let words = |stride: usize, n: u32| vec![0; stride * n as usize];
        let reals = |stride: usize, n: u32| vec![0.; stride * n as usize];
        let lent = s.buffers;
        Rooms {
            vertex_words: words(3, s.vertices),
            edge_words: words(6, s.edges),
            edge_reals: reals(4, s.edges),
            round: words(1, s.round),
            triangle_words: words(6, s.triangles),
            triangle_reals: reals(9, s.triangles),
            piece_words: words(3, s.pieces),
            piece_reals: reals(3, s.pieces),
            vertex: reals(2, s.vertices),
            words: words(4, lent.windows),
            reals: reals(6, lent.windows),
            keys: reals(1, lent.events),
            events: words(2, lent.events),
            entry_words: words(3, lent.face_entries),
            pts: reals(1, lent.cuts),
            out: reals(2, lent.cuts),
            keep: reals(2, lent.cuts),
            next: reals(2, lent.cuts),
            scratch: words(1, s.scratch),
            other_scratch: words(1, s.other_scratch),
        }
    }

    pub fn slots(&self) -> Slots {
        let cuts = [&self.out, &self.keep, &self.next].map(|s| (s.len(), 2));
        Slots {
            vertices: slots(&[(self.vertex_words.len(), 3), (self.vertex.len(), 2)]),
            edges: slots(&[(self.edge_words.len(), 6), (self.edge_reals.len(), 4)]),
            round: slots(&[(self.round.len(), 1)]),
            triangles: slots(&[
                (self.triangle_words.len(), 6),
                (self.triangle_reals.len(), 9),
            ]),
            pieces: slots(&[(self.piece_words.len(), 3), (self.piece_reals.len(), 3)]),
            scratch: slots(&[(self.scratch.len(), 1)]),
            other_scratch: slots(&[(self.other_scratch.len(), 1)]),
            buffers: Buffers {
                windows: slots(&[(self.words.len(), 4), (self.reals.len(), 6)]),
                events: slots(&[(self.keys.len(), 1), (self.events.len(), 2)]),
                cuts: slots(&cuts).min(slots(&[(self.pts.len(), 1)])),
                face_entries: slots(&[(self.entry_words.len(), 3)]),
            },
        }
    }

    pub fn all_words(&self) -> [(&'static str, &[u32]); 10] {
        [
            ("vertex_words", &self.vertex_words),
            ("edge_words", &self.edge_words),
            ("round", &self.round),
            ("triangle_words", &self.triangle_words),
            ("piece_words", &self.piece_words),
            ("words", &self.words),
            ("events", &self.events),
            ("entry_words", &self.entry_words),
            ("scratch", &self.scratch),
            ("other_scratch", &self.other_scratch),
        ]
    }

    pub fn all_reals(&self) -> [(&'static str, &[f64]); 10] {
        [
            ("edge_reals", &self.edge_reals),
            ("triangle_reals", &self.triangle_reals),
            ("piece_reals", &self.piece_reals),
            ("vertex", &self.vertex),
            ("reals", &self.reals),
            ("keys", &self.keys),
            ("pts", &self.pts),
            ("out", &self.out),
            ("keep", &self.keep),
            ("next", &self.next),
        ]
    }

    /// In the order of `all_words`.
    pub fn all_words_mut(&mut self) -> [&mut Vec<u32>; 10] {
        [
            &mut self.vertex_words,
            &mut self.edge_words,
            &mut self.round,
            &mut self.triangle_words,
            &mut self.piece_words,
            &mut self.words,
            &mut self.events,
            &mut self.entry_words,
            &mut self.scratch,
            &mut self.other_scratch,
        ]
    }

    /// In the order of `all_reals`.
    pub fn all_reals_mut(&mut self) -> [&mut Vec<f64>; 10] {
        [
            &mut self.edge_reals,
            &mut self.triangle_reals,
            &mut self.piece_reals,
            &mut self.vertex,
            &mut self.reals,
            &mut self.keys,
            &mut self.pts,
            &mut self.out,
            &mut self.keep,
            &mut self.next,
        ]
    }

    pub fn bytes(&self) -> usize {
        let words: usize = self.all_words().iter().map(|s| 4 * s.1.len()).sum();
        let reals: usize = self.all_reals().iter().map(|s| 8 * s.1.len()).sum();
        words + reals
    }

    pub fn fill(&mut self, mut word: impl FnMut() -> u32, mut real: impl FnMut() -> f64) {
        for slice in self.all_words_mut() {
            slice.iter_mut().for_each(|n| *n = word());
        }
        for slice in self.all_reals_mut() {
            slice.iter_mut().for_each(|x| *x = real());
        }
    }
}

impl Slots {
    /// What a job must be lent: refusal 9 where a room has fewer.
    pub fn least(job: &Job, buffers: Buffers) -> Slots {
        let sides = job.triangles.len() as u32;
        Slots {
            vertices: job.flags.len() as u32,
            edges: sides,
            round: sides,
            triangles: sides / 3,
            pieces: job.piece_kinds.len() as u32,
            scratch: buffers.windows,
            other_scratch: buffers.windows,
            buffers,
        }
    }

    /// What a job that comes to this field needs, and no slot more.
    pub fn just<R: Reading>(job: &Job, field: &Field<R>) -> Slots {
        let buffers = Buffers {
            windows: field.wins.len() as u32,
            events: field.peaks.queue as u32,
            cuts: field.peaks.cuts as u32,
            face_entries: field.entries.len() as u32,
        };
        Slots::least(job, buffers)
    }

    fn fixed(&self) -> [u32; 7] {
        [
            self.vertices,
            self.edges,
            self.round,
            self.triangles,
            self.pieces,
            self.scratch,
            self.other_scratch,
        ]
    }
}

/// The link of each number, to the next of its list; 0 behind the last.
fn links(lists: &[Vec<u32>], numbers: usize) -> Vec<u32> {
    let mut links = vec![0; numbers];
    for pair in lists.iter().flat_map(|list| list.windows(2)) {
        links[pair[0] as usize] = pair[1] + 1;
    }
    links
}

fn link(number: Option<&u32>) -> u32 {
    number.map_or(0, |n| n + 1)
}

/// At the front of a slice of zeros.
fn put<T: Copy>(slice: &mut [T], numbers: impl IntoIterator<Item = T>) {
    let mut at = slice.iter_mut();
    for n in numbers {
        *at.next().expect("the room is long enough") = n;
    }
}

fn put_mesh(rooms: &mut Rooms, topo: &Topology) {
    let mut end = 0;
    let ranges = topo
        .vertex_faces
        .iter()
        .zip(&topo.pseudo)
        .flat_map(|(faces, &flag)| {
            let start = end;
            end += faces.len() as u32;
            [start, end, u32::from(flag)]
        });
    put(&mut rooms.vertex_words, ranges);
    put(
        &mut rooms.round,
        topo.vertex_faces.iter().flatten().copied(),
    );
    let frame = topo.len.iter().zip(&topo.xhat);
    put(
        &mut rooms.edge_reals,
        frame.flat_map(|(&l, &[x, y, z])| [l, x, y, z]),
    );
    let normals = topo.yhat.as_flattened().as_flattened();
    put(&mut rooms.triangle_reals, normals.iter().copied());
}

fn put_windows(rooms: &mut Rooms, topo: &Topology, held: &Contents) {
    let edges = topo.edges.iter().zip(&topo.faces).zip(&held.on_edge);
    let edge_words =
        edges.flat_map(|((&[a, b], &[f, g]), list)| [a, b, f, g, link(list.first()), 0]);
    put(&mut rooms.edge_words, edge_words);
    let links = links(&held.on_edge, held.wins.len());
    let words = held.wins.iter().zip(&links).flat_map(|(w, &link)| {
        let line = u32::from(src_parts(&w.src).0);
        let flags = line + 2 * u32::from(w.alive) + 4 * u32::from(w.queued);
        [w.edge, w.into, flags, link]
    });
    put(&mut rooms.words, words);
    let reals = held.wins.iter().flat_map(|w| {
        let [x, y, z] = src_parts(&w.src).1;
        [w.b0, w.b1, w.low, x, y, z]
    });
    put(&mut rooms.reals, reals);
    let distances = held.vertex.iter().zip(&held.emitted);
    put(&mut rooms.vertex, distances.flat_map(|(&d, &s)| [d, s]));
}

fn put_entries(rooms: &mut Rooms, topo: &Topology, held: &Contents) {
    let mut in_face = vec![vec![]; topo.tri_edges.len()];
    for (n, entry) in (0..).zip(&held.entries) {
        in_face[entry.face as usize].push(n);
    }
    let triangles = topo.tri_edges.iter().zip(&in_face);
    let words = triangles
        .flat_map(|(&[a, b, c], list)| [a, b, c, link(list.first()), link(list.last()), 0]);
    put(&mut rooms.triangle_words, words);
    let links = links(&in_face, held.entries.len());
    let entries = held.entries.iter().zip(&links);
    let words = entries.flat_map(|(x, &link)| [x.piece, x.part as u32, link]);
    put(&mut rooms.entry_words, words);
}

/// The bucket of a point, among so many.
pub fn bucket(buckets: usize, p: Vec3) -> usize {
    const GOLDEN: u64 = 2_654_435_769;
    const WORD: u64 = 4_294_967_296;
    let mixed = |h: u64, x: f64| {
        let b = x.to_bits();
        let product = (h + b % WORD) % WORD * ((b / WORD + GOLDEN) % WORD);
        (product / WORD + product % WORD) % WORD
    };
    (p.into_iter().fold(GOLDEN, mixed) * buckets as u64 / WORD) as usize
}

/// End 2 i is the first of piece i, end 2 i + 1 the second of a segment.
fn put_pieces(rooms: &mut Rooms, pieces: &[Piece]) {
    let mut ends = vec![vec![]; pieces.len()];
    let mut enter = |end: usize, p: Vec3| ends[bucket(pieces.len(), p)].push(end as u32);
    for (i, piece) in pieces.iter().enumerate() {
        match *piece {
            Piece::Point(_, p) => enter(2 * i, p),
            Piece::Segment(_, p, q) => {
                enter(2 * i, p);
                enter(2 * i + 1, q);
            }
        }
    }
    let links = links(&ends, 2 * pieces.len());
    let buckets = ends.iter().zip(links.chunks(2));
    let words = buckets.flat_map(|(list, next)| [link(list.first()), next[0], next[1]]);
    put(&mut rooms.piece_words, words);
    let directions = pieces.iter().flat_map(|piece| match *piece {
        Piece::Segment(_, p, q) if norm(sub(q, p)) > 0. => scale(sub(q, p), 1. / norm(sub(q, p))),
        _ => [0.; 3],
    });
    put(&mut rooms.piece_reals, directions);
}

/// What a finished field leaves in rooms that suffice for it.
pub fn hold(mesh: &Mesh, held: &Contents, rooms: &mut Rooms) -> Told {
    rooms.fill(|| 0, || 0.);
    put_mesh(rooms, &mesh.topo);
    put_windows(rooms, &mesh.topo, held);
    put_entries(rooms, &mesh.topo, held);
    put_pieces(rooms, &mesh.pieces);
    [
        mesh.v.len(),
        mesh.t.len(),
        mesh.pieces.len(),
        mesh.topo.edges.len(),
        held.wins.len(),
        held.steps as usize,
    ]
    .map(|n| n as u32)
}

/// Refusals 1 to 9, or the slots that the work on the job has.
pub fn check(job: &Job, rooms: &Rooms) -> Result<Buffers, Refusal> {
    job.check()?;
    let lent = rooms.slots();
    let least = Slots::least(job, lent.buffers);
    if lent.fixed().iter().zip(least.fixed()).any(|(n, m)| *n < m) {
        return Err(Refusal(9));
    }
    Ok(lent.buffers)
}

/// Every refusal of a job; 1 to 9 leave the rooms as they are, and any other
/// leaves zeros. `job.buffers` says nothing here: the rooms do.
pub fn compute(job: &Job, rooms: &mut Rooms) -> Result<Told, Refusal> {
    let buffers = check(job, rooms)?;
    rooms.fill(|| 0, || 0.);
    let mesh = Mesh::new(&Job {
        buffers,
        ..job.clone()
    })?;
    let held = contents(mesh.field::<Patched>()?);
    Ok(hold(&mesh, &held, rooms))
}
