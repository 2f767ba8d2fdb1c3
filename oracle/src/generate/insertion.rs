//! Small jobs that try insertion: points inside, on edges, at vertices and
//! far outside their face, ends that pieces share in one face and in two,
//! minus zero, segments along edges, nearly so, upright on them, of no
//! length, ending at vertices; on single, doubled, neighbouring and touching
//! triangles, flat and bent, and on the meshes of `small`. Then buffers that
//! just suffice for insertion or for the whole field, or just do not.
use super::rng::Rng;
use super::small::{self, Soup, nudge, place};
use crate::exact::{Buffers, Field, Refusal};
use crate::job::{Job, MAX_COORDINATE, Mesh};
use crate::reading::Patched;
use crate::vector::{Vec3, axpy, cross, norm, scale, sub};

/// How far a job is run.
#[derive(Clone, Copy, Debug, PartialEq, Eq)]
pub enum Stage {
    /// Until the first pop.
    Insert,
    Field,
}

impl Stage {
    pub fn run<'a>(self, mesh: &'a Mesh) -> Result<Field<'a, Patched>, Refusal> {
        match self {
            Stage::Insert => mesh.inserted(),
            Stage::Field => mesh.field(),
        }
    }
}

/// Whole numbers or any doubles, in a plane or not.
fn vertices(rng: &mut Rng, n: usize) -> Vec<Vec3> {
    let (whole, flat) = (rng.one_in(2), rng.one_in(2));
    let size = rng.pick(&[3., 3., 10., 0.05, 1e6]);
    (0..n)
        .map(|_| {
            let p = [0; 3].map(|_| {
                let x = rng.between(-size, size);
                if whole && size > 1. { x.round() } else { x }
            });
            if flat { [p[0], p[1], 0.] } else { p }
        })
        .collect()
}

/// One triangle, two on the same three vertices, two over an edge, two or
/// four that touch in a vertex, two neighbours doubled round a vertex.
fn few_triangles(rng: &mut Rng) -> Soup {
    let sets: [&[[u32; 3]]; 10] = [
        &[[0, 1, 2]],
        &[[0, 1, 2], [0, 1, 2]],
        &[[0, 1, 2], [2, 1, 0]],
        &[[0, 1, 2], [1, 2, 0]],
        &[[0, 1, 2], [1, 0, 3]],
        &[[0, 1, 2], [0, 2, 3], [0, 3, 1]],
        &[[0, 1, 2], [0, 3, 4]],
        &[[0, 1, 2], [0, 3, 4], [0, 2, 1]],
        &[[0, 1, 2], [3, 4, 0], [2, 1, 0], [4, 3, 0]],
        &[[0, 1, 2], [1, 0, 3], [3, 4, 1]],
    ];
    let mut t = rng.pick(&sets).to_vec();
    let turn = rng.below(5) as u32;
    if rng.one_in(2) {
        t.iter_mut().flatten().for_each(|k| *k = (*k + turn) % 5);
    }
    (vertices(rng, 5), t)
}

/// The mesh that pieces are placed on.
struct Ground<'a> {
    v: &'a [Vec3],
    t: &'a [[u32; 3]],
}

impl Ground<'_> {
    fn tri(&self, f: usize) -> [Vec3; 3] {
        self.t[f].map(|k| self.v[k as usize])
    }

    fn place(&self, rng: &mut Rng, f: usize) -> Vec3 {
        let tri = self.tri(f);
        match rng.below(12) {
            // far outside, in the plane and not
            0 => axpy(tri[0], rng.pick(&[-1e3, 1e5]), sub(tri[1], tri[2])),
            1 => [0; 3].map(|_| rng.pick(&[-1e6, 1e6, 0., -0., 3e5])),
            _ => place(rng, tri),
        }
    }

    /// A place on an edge of the face, often an end of it.
    fn on_edge(&self, rng: &mut Rng, [a, b]: [Vec3; 2]) -> Vec3 {
        match rng.below(6) {
            0 => a,
            1 => b,
            2 => axpy(a, 0.5, sub(b, a)),
            _ => axpy(a, rng.unit(), sub(b, a)),
        }
    }

    /// Another face that has one of the vertices of face f, if there is one.
    fn beside(&self, rng: &mut Rng, f: usize) -> usize {
        let near: Vec<usize> = (0..self.t.len())
            .filter(|&g| g != f && self.t[g].iter().any(|k| self.t[f].contains(k)))
            .collect();
        if near.is_empty() { f } else { rng.pick(&near) }
    }

    /// The second end of a segment of face f from p, or both ends.
    fn segment(&self, rng: &mut Rng, f: usize, p: Vec3) -> (Vec3, Vec3) {
        let tri = self.tri(f);
        let k = rng.below(3);
        let (a, b, c) = (tri[k], tri[(k + 1) % 3], tri[(k + 2) % 3]);
        let along = sub(b, a);
        let upright = cross(along, cross(sub(c, a), along));
        let upright = scale(upright, norm(along) / norm(upright));
        let far = rng.pick(&[1., 0.5, -0.25, 0.1, 1e-3, 3.]);
        let bit = rng.pick(&[0., 1e-16, 1e-15, 1e-13, 1e-12, -1e-12, 1e-9, 1e-6]);
        match rng.below(14) {
            // along an edge, the whole of it, close to it
            0 | 1 => (self.on_edge(rng, [a, b]), self.on_edge(rng, [a, b])),
            2 => (a, b),
            3 => {
                let off = |p: Vec3| axpy(p, bit, upright);
                let (p, q) = (self.on_edge(rng, [a, b]), self.on_edge(rng, [a, b]));
                (off(p), if rng.one_in(2) { off(q) } else { q })
            }
            // nearly parallel to an edge, nearly upright on it
            4 => (p, axpy(axpy(p, far, along), far * bit, upright)),
            5 => (p, axpy(axpy(p, far, upright), far * bit, along)),
            // no length; bits differ and the square of the length is zero
            6 => (p, p),
            7 => (p, p.map(|x| if x == 0. { 1e-170 } else { x })),
            8 => (p, axpy(p, bit, along)),
            9 => (p, tri[rng.below(3)]),
            10 => (p, self.on_edge(rng, [a, b])),
            _ => (p, self.place(rng, f)),
        }
    }
}

fn push(job: &mut Job, f: usize, ends: &[Vec3]) {
    job.piece_kinds.push(ends.len() as u8 - 1);
    job.piece_faces.push(f as u32);
    for x in ends.iter().flatten() {
        // minus zero stays: clamp compares
        job.piece_coords
            .push(x.clamp(-MAX_COORDINATE, MAX_COORDINATE));
    }
    if ends.len() == 1 {
        job.piece_coords.extend([0.; 3]);
    }
}

/// Pieces one by one, often from an end of one before, which may be listed
/// in another face then.
fn pieces(rng: &mut Rng, ground: &Ground, job: &mut Job) {
    let mut seen: Vec<(usize, Vec3)> = vec![];
    for _ in 0..rng.pick(&[0, 1, 1, 2, 2, 3, 3, 4, 6, 9]) {
        let mut f = rng.below(ground.t.len());
        let mut p = ground.place(rng, f);
        if !seen.is_empty() && rng.below(5) < 3 {
            (f, p) = if rng.one_in(2) {
                seen[seen.len() - 1]
            } else {
                rng.pick(&seen)
            };
            match rng.below(8) {
                0 => p = nudge(rng, p),
                1 => p = p.map(|x| if x == 0. { -x } else { x }),
                2 | 3 => f = ground.beside(rng, f),
                4 => f = rng.below(ground.t.len()),
                _ => (),
            }
        }
        if rng.one_in(3) {
            push(job, f, &[p]);
            seen.push((f, p));
        } else {
            let (p, q) = ground.segment(rng, f, p);
            let (p, q) = if rng.one_in(4) { (q, p) } else { (p, q) };
            push(job, f, &[p, q]);
            seen.extend([(f, p), (f, q)]);
        }
    }
}

/// A line through face f and one beside it over a place of their common
/// edge: its bits are listed in both faces.
fn crossing(rng: &mut Rng, ground: &Ground, job: &mut Job) {
    let f = rng.below(ground.t.len());
    let g = ground.beside(rng, f);
    let common: Vec<Vec3> = ground.t[f]
        .iter()
        .filter(|k| ground.t[g].contains(k))
        .map(|&k| ground.v[k as usize])
        .collect();
    let q = match common[..] {
        [a, b, ..] => ground.on_edge(rng, [a, b]),
        [a] => a,
        [] => ground.place(rng, f),
    };
    let (p, r) = (ground.place(rng, f), ground.place(rng, g));
    push(job, f, &[p, q]);
    if rng.one_in(3) {
        push(job, f, &[q]);
    }
    push(job, g, &[q, r]);
}

/// Several segments from one point of a face.
fn star(rng: &mut Rng, ground: &Ground, job: &mut Job) {
    let f = rng.below(ground.t.len());
    let p = ground.place(rng, f);
    for _ in 0..2 + rng.below(3) {
        let q = ground.place(rng, f);
        if rng.one_in(2) {
            push(job, f, &[p, q]);
        } else {
            push(job, f, &[q, p]);
        }
    }
}

/// What a job needs to be run so far, in the order windows, events, cuts,
/// face entries, steps.
fn needs(field: &Field<Patched>) -> [u32; 5] {
    [
        field.wins.len(),
        field.peaks.queue,
        field.peaks.cuts,
        field.entries.len(),
        field.steps as usize,
    ]
    .map(|n| n as u32)
}

fn lend(job: &mut Job, [windows, events, cuts, face_entries, max_steps]: [u32; 5]) {
    job.buffers = Buffers {
        windows,
        events,
        cuts,
        face_entries,
    };
    job.max_steps = max_steps;
}

/// Buffers and steps that just suffice, or one of them just not, or one of
/// them or all of them less than that; a few are generous. An error where
/// the job is refused whatever is lent.
pub fn fit(rng: &mut Rng, job: &mut Job, stage: Stage) -> Result<(), Refusal> {
    job.buffers = Buffers::UNBOUNDED;
    job.max_steps = 30_000;
    let needed = Mesh::new(job).and_then(|mesh| Ok(needs(&stage.run(&mesh)?)));
    lend(job, [0; 5].map(|_| rng.below(4) as u32));
    let mut lent = needed?;
    let known = if stage == Stage::Insert { 4 } else { 5 };
    let which = rng.below(known);
    match rng.below(8) {
        0 | 1 => (),
        2 => lent = lent.map(|n| 2 * n + 5),
        3 | 4 => lent[which] = lent[which].saturating_sub(1),
        5 | 6 => lent[which] = rng.below(lent[which] as usize + 1) as u32,
        _ => lent = lent.map(|n| n - rng.below(n as usize / 3 + 1) as u32),
    }
    lend(job, lent);
    Ok(())
}

fn soup(rng: &mut Rng) -> Soup {
    if rng.below(5) > 1 {
        few_triangles(rng)
    } else {
        small::mesh(rng)
    }
}

/// A job that passes the checks, but for its buffers.
fn unfitted(rng: &mut Rng) -> Job {
    loop {
        let (v, t) = soup(rng);
        let mut job = Job {
            vertices: v.iter().flatten().copied().collect(),
            triangles: t.iter().flatten().copied().collect(),
            flags: small::flags(rng, &v, &t),
            piece_kinds: vec![],
            piece_faces: vec![],
            piece_coords: vec![],
            limit: rng.pick(&[1e7, 1e7, 1e7, 10., 100., 5000., 3., 0.5, 0., -0., 2.5]),
            max_steps: 0,
            buffers: Buffers::UNBOUNDED,
        };
        if job.check().is_err() || t.is_empty() {
            continue;
        }
        let ground = Ground { v: &v, t: &t };
        match rng.below(6) {
            0 => crossing(rng, &ground, &mut job),
            1 => star(rng, &ground, &mut job),
            _ => (),
        }
        pieces(rng, &ground, &mut job);
        return job;
    }
}

/// The job of a seed.
pub fn job(seed: u64, stage: Stage) -> Job {
    let mut rng = Rng::new(seed);
    loop {
        let mut job = unfitted(&mut rng);
        let refused = fit(&mut rng, &mut job, stage).is_err();
        if !refused || rng.one_in(3) {
            return job;
        }
    }
}
