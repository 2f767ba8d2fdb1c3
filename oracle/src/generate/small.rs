//! Small jobs with every oddity: thin triangles, the same triangle twice,
//! bowties, points on vertices and edges and far outside their face, equal
//! bits, minus zero, segments of length zero, nearly coincident segments on
//! edges near the largest length, buffers of a few entries, and defects.
use super::rng::Rng;
use crate::exact::{Buffers, judge_pseudo};
use crate::job::Job;
use crate::vector::{Vec3, axpy, dot, norm, scale, sub};

pub type Soup = (Vec<Vec3>, Vec<[u32; 3]>);

fn lattice(rng: &mut Rng, n: usize, size: i64) -> Vec<Vec3> {
    let mut at = || (rng.below(2 * size as usize + 1) as i64 - size) as f64;
    (0..n).map(|_| [at(), at(), at()]).collect()
}

fn cloud(rng: &mut Rng, n: usize, size: f64) -> Vec<Vec3> {
    (0..n)
        .map(|_| [0; 3].map(|_| rng.between(-size, size)))
        .collect()
}

/// Triangles over any vertices, each edge in at most two of them (mostly).
fn soup(rng: &mut Rng, v: Vec<Vec3>, count: usize) -> Soup {
    let mut used = std::collections::HashMap::new();
    let mut t = vec![];
    let strict = !rng.one_in(20);
    for _ in 0..4 * count {
        let tri = [0; 3].map(|_| rng.below(v.len()) as u32);
        let keys = [0, 1, 2].map(|k| {
            let (a, b) = (tri[k], tri[(k + 1) % 3]);
            (a.min(b), a.max(b))
        });
        let distinct = tri[0] != tri[1] && tri[1] != tri[2] && tri[0] != tri[2];
        let free = keys.iter().all(|k| used.get(k).copied().unwrap_or(0) < 2);
        if distinct && (free || !strict) && t.len() < count {
            keys.iter().for_each(|&k| *used.entry(k).or_insert(0) += 1);
            t.push(tri);
        }
    }
    (v, t)
}

/// A grid of nx by ny squares, each cut in two, with heights.
pub fn grid(nx: usize, ny: usize, place: impl FnMut(usize, usize) -> Vec3) -> Soup {
    let mut place = place;
    let mut v = vec![];
    for j in 0..=ny {
        for i in 0..=nx {
            v.push(place(i, j));
        }
    }
    let at = |i: usize, j: usize| (j * (nx + 1) + i) as u32;
    let mut t = vec![];
    for j in 0..ny {
        for i in 0..nx {
            let (a, b, c, d) = (at(i, j), at(i + 1, j), at(i + 1, j + 1), at(i, j + 1));
            if (i + j) % 2 == 0 {
                t.extend([[a, b, c], [a, c, d]]);
            } else {
                t.extend([[a, b, d], [b, c, d]]);
            }
        }
    }
    (v, t)
}

fn random_grid(rng: &mut Rng) -> Soup {
    let (nx, ny) = (1 + rng.below(4), 1 + rng.below(4));
    let (step, bumps) = (
        rng.pick(&[1., 0.25, 7.3, 1000.]),
        rng.pick(&[0., 0., 1., 0.3]),
    );
    let jitter = rng.pick(&[0., 0., 0.3]);
    grid(nx, ny, |i, j| {
        let mut off = |k: f64| {
            if k == 0. {
                0.
            } else {
                rng.between(-k, k) * step
            }
        };
        [
            i as f64 * step + off(jitter),
            j as f64 * step + off(jitter),
            off(bumps),
        ]
    })
}

/// Large enough for windows to meet often.
fn noisy_grid(rng: &mut Rng) -> Soup {
    let (nx, ny) = (4 + rng.below(6), 4 + rng.below(6));
    let noise = rng.pick(&[0.1, 0.5, 2.]);
    grid(nx, ny, |i, j| {
        let mut off = |k: f64| rng.between(-k, k);
        [i as f64 + off(0.2), j as f64 + off(0.2), off(noise)]
    })
}

fn fan(rng: &mut Rng) -> Soup {
    let n = 3 + rng.below(6);
    let (turn, height) = (rng.pick(&[0.9, 1., 1.7, 2.5]), rng.pick(&[0., 0.5, -2.]));
    let mut v = vec![[0., 0., height]];
    for k in 0..n {
        let a = std::f64::consts::TAU * k as f64 / n as f64;
        let z = if turn > 1. && k % 2 == 1 { turn } else { 0. };
        v.push([2. * a.cos(), 2. * a.sin(), z]);
    }
    let closed = rng.below(4) > 0;
    let last = if closed { n } else { n - 1 };
    let t = (0..last)
        .map(|k| [0, 1 + k as u32, 1 + ((k + 1) % n) as u32])
        .collect();
    (v, t)
}

fn bowtie(rng: &mut Rng) -> Soup {
    let mut v = lattice(rng, 5, 3);
    v[0] = [0., 0., 0.];
    let mut t = vec![[0, 1, 2], [0, 3, 4]];
    if rng.one_in(2) {
        t.push([0, 1, 2]);
    }
    if rng.one_in(3) {
        t.push([3, 4, 0]);
    }
    (v, t)
}

fn tetrahedron(rng: &mut Rng) -> Soup {
    let v = if rng.one_in(2) {
        lattice(rng, 4, 2)
    } else {
        cloud(rng, 4, 5.)
    };
    (v, vec![[0, 1, 2], [0, 3, 1], [1, 3, 2], [2, 3, 0]])
}

/// A strip of triangles with altitudes down to the least allowed.
fn thin(rng: &mut Rng) -> Soup {
    let w = rng.pick(&[1.1e-6, 1e-5, 1e-3, 0.01, 2e-6, 9e-7]);
    let n = 1 + rng.below(4);
    let step = rng.pick(&[1., 0.002, 100., 3e5]);
    let (mut v, mut t) = (vec![], vec![]);
    for k in 0..=n {
        let x = k as f64 * step;
        v.extend([[x, 0., 0.], [x + rng.between(0., step), w, 0.]]);
    }
    for k in 0..n as u32 {
        t.extend([
            [2 * k, 2 * k + 2, 2 * k + 1],
            [2 * k + 1, 2 * k + 2, 2 * k + 3],
        ]);
    }
    (v, t)
}

/// Edges near 3,460,000 mm: the diagonal of the range of coordinates.
fn long(rng: &mut Rng) -> Soup {
    let m = 1_000_000.;
    let mut v = vec![[-m, -m, -m], [m, m, m]];
    for _ in 0..1 + rng.below(3) {
        v.push([0; 3].map(|_| rng.pick(&[-m, m, 0., 999_999., -500_000.25])));
    }
    let n = v.len() as u32;
    let mut t = vec![];
    for k in 2..n {
        t.push([0, 1, k]);
    }
    t.truncate(2);
    if n > 3 && rng.one_in(2) {
        t.push([1, 2, 3]);
    }
    (v, t)
}

pub fn mesh(rng: &mut Rng) -> Soup {
    match rng.below(13) {
        0 | 1 => random_grid(rng),
        12 => noisy_grid(rng),
        2 => fan(rng),
        3 => bowtie(rng),
        4 => tetrahedron(rng),
        5 => thin(rng),
        6 => long(rng),
        7 => {
            let n = 3 + rng.below(6);
            let v = lattice(rng, n, 2);
            let count = 1 + rng.below(8);
            soup(rng, v, count)
        }
        8 => {
            let n = 3 + rng.below(5);
            let v = cloud(rng, n, 10.);
            let count = 1 + rng.below(8);
            soup(rng, v, count)
        }
        9 => {
            let (v, t) = random_grid(rng);
            let twice = t[rng.below(t.len())];
            let mut t: Vec<[u32; 3]> = if rng.one_in(2) { vec![twice] } else { t };
            t.push(twice);
            (v, t)
        }
        10 => {
            let size = rng.pick(&[0.01, 1e5, 1e6]);
            let n = 3 + rng.below(3);
            let v = cloud(rng, n, size);
            soup(rng, v, 4)
        }
        _ => {
            let (v, t) = random_grid(rng);
            (
                v.into_iter()
                    .map(|p| p.map(|x| if x == 0. { -0. } else { x }))
                    .collect(),
                t,
            )
        }
    }
}

/// A place in, on, near or far outside the triangle.
pub fn place(rng: &mut Rng, tri: [Vec3; 3]) -> Vec3 {
    let k = rng.below(3);
    let (a, b, c) = (tri[k], tri[(k + 1) % 3], tri[(k + 2) % 3]);
    let (s, r) = (
        rng.pick(&[0.5, 0.25, 0., 1., 0.3]),
        rng.pick(&[0.5, 0.25, 0.125, 0.7]),
    );
    let on = axpy(a, s, sub(b, a));
    match rng.below(9) {
        0 => a,
        1 => on,
        2 => axpy(a, rng.unit(), sub(b, a)),
        3 | 4 => axpy(on, r, sub(c, on)),
        5 => axpy(on, rng.unit(), sub(c, on)),
        6 => axpy(on, rng.pick(&[1e-9, 1e-10, -1e-10, 1e-12, 3.]), sub(c, on)),
        7 => [0; 3].map(|_| rng.between(-12., 12.)),
        _ => axpy(on, rng.between(-2., 2.), sub(c, on)),
    }
}

pub fn nudge(rng: &mut Rng, p: Vec3) -> Vec3 {
    let k = rng.below(3);
    let mut q = p;
    let by = rng.pick(&[1e-10, 1e-7, 1e-4, -1e-9, 1e-16]) * (1. + p[k].abs());
    q[k] = if rng.one_in(4) { -q[k] } else { q[k] + by };
    q
}

fn pieces(rng: &mut Rng, v: &[Vec3], t: &[[u32; 3]], job: &mut Job) {
    if t.is_empty() {
        return;
    }
    let count = rng.pick(&[0, 1, 1, 1, 2, 2, 3, 4, 6, 9]);
    let mut seen: Vec<(usize, Vec3)> = vec![];
    for _ in 0..count {
        let mut f = rng.below(t.len());
        let fresh = |rng: &mut Rng, f: usize| place(rng, t[f].map(|k| v[k as usize]));
        let mut p = fresh(rng, f);
        if !seen.is_empty() && rng.one_in(3) {
            (f, p) = rng.pick(&seen);
            if rng.one_in(3) {
                p = nudge(rng, p);
            }
            if rng.one_in(6) {
                f = rng.below(t.len());
            }
        }
        let segment = rng.below(2) as u8;
        let q = if segment == 1 && rng.one_in(8) {
            p
        } else {
            fresh(rng, f)
        };
        seen.extend([(f, p), (f, q)]);
        job.piece_kinds.push(segment);
        job.piece_faces.push(f as u32);
        job.piece_coords.extend(p);
        job.piece_coords
            .extend(if segment == 1 { q } else { [0.; 3] });
    }
}

/// Segments that nearly coincide, in one face or two.
fn twin_segments(rng: &mut Rng, v: &[Vec3], t: &[[u32; 3]], job: &mut Job) {
    let f = rng.below(t.len());
    let tri = t[f].map(|k| v[k as usize]);
    let (p, q) = (place(rng, tri), place(rng, tri));
    for _ in 0..2 + rng.below(3) {
        let (a, b) = (nudge(rng, p), nudge(rng, q));
        job.piece_kinds.push(1);
        job.piece_faces.push(f as u32);
        job.piece_coords
            .extend(a.iter().chain(&b).map(|x| x.clamp(-1e6, 1e6)));
    }
}

/// Short segments that nearly coincide, beside an edge near 3,460,000 mm,
/// where a linear window's slope times the place exceeds 2^21 and its
/// constant does not: the product's last place is twice the constant's and
/// more than the tolerance of `better`, so that signs turn again and again.
fn far_twins(rng: &mut Rng, v: &[Vec3], t: &[[u32; 3]], job: &mut Job) {
    let f = rng.below(t.len());
    let [o, along, across] = [0, 1, 2].map(|k| v[t[f][k] as usize]);
    let (along, across) = (sub(along, o), sub(across, o));
    let xhat = scale(along, 1. / norm(along));
    let y = axpy(across, -dot(across, xhat), xhat);
    let yhat = scale(y, 1. / norm(y));
    let ux = rng.between(0.62, 0.95);
    let uy = (1. - ux * ux).sqrt();
    let (h, l) = (rng.between(0.05, 0.3), rng.between(0.1, 0.6));
    let x = (2097152. + 0.5 * h * uy) / ux;
    let p = axpy(axpy(o, x, xhat), h, yhat);
    let q = axpy(axpy(p, uy * l, xhat), ux * l, yhat);
    for _ in 0..2 + rng.below(4) {
        job.piece_kinds.push(1);
        job.piece_faces.push(f as u32);
        for x in p.into_iter().chain(q) {
            let x = rng.pick(&[x, x, x, x.next_up(), x.next_down()]);
            job.piece_coords.push(x.clamp(-1e6, 1e6));
        }
    }
}

pub fn flags(rng: &mut Rng, v: &[Vec3], t: &[[u32; 3]]) -> Vec<u8> {
    match rng.below(5) {
        0 => vec![0; v.len()],
        1 => vec![1; v.len()],
        2 => v.iter().map(|_| rng.below(2) as u8).collect(),
        _ => judge_pseudo(v, t).into_iter().map(u8::from).collect(),
    }
}

fn buffers(rng: &mut Rng) -> Buffers {
    if rng.below(4) > 0 {
        return Buffers {
            windows: 20_000,
            events: 20_000,
            cuts: 2_000,
            face_entries: 1_000,
        };
    }
    let mut few = |large: u32| match rng.below(3) {
        0 => large,
        1 => rng.below(8) as u32,
        _ => rng.below(60) as u32,
    };
    Buffers {
        windows: few(20_000),
        events: few(20_000),
        cuts: few(2_000),
        face_entries: few(1_000),
    }
}

/// One thing (or two) wrong with the job.
pub fn defect(rng: &mut Rng, job: &mut Job) {
    let bad = [
        f64::NAN,
        f64::INFINITY,
        -1_000_001.,
        1_000_000.0000000001,
        1e300,
    ];
    let n = job.vertices.len().max(1);
    match rng.below(14) {
        0 => job.flags.push(0),
        1 => job.flags = vec![2; job.flags.len()],
        2 => job.vertices.truncate(n - 1),
        3 => job.piece_kinds.push(0),
        4 => job.piece_kinds.iter_mut().for_each(|k| *k = 2),
        5 => job.triangles.extend([0, 1, u32::MAX]),
        6 => job.triangles.extend([0, 0, 1]),
        7 => job.triangles.extend([9, 9, 1]),
        8 => job
            .vertices
            .iter_mut()
            .take(1)
            .for_each(|x| *x = rng.pick(&bad)),
        9 => {
            let copy: Vec<f64> = job.vertices.iter().copied().take(3).collect();
            job.vertices.extend(copy);
            job.flags.push(0);
            let last = (job.vertices.len() / 3).saturating_sub(1) as u32;
            job.triangles.extend([0, 1, last]);
        }
        10 => job.piece_faces.iter_mut().for_each(|f| *f += 1_000),
        11 => job
            .piece_coords
            .iter_mut()
            .take(2)
            .for_each(|x| *x = rng.pick(&bad)),
        12 => job.limit = rng.pick(&[f64::NAN, -1e-300, 10_000_000.000000002, f64::INFINITY]),
        _ => {
            let first: Vec<u32> = job.triangles.iter().copied().take(3).collect();
            job.triangles.extend(first.iter().chain(&first));
        }
    }
}

/// The job of a seed.
pub fn job(seed: u64) -> Job {
    let mut rng = Rng::new(seed);
    let rng = &mut rng;
    let (v, t) = if rng.one_in(200) {
        (vec![], vec![])
    } else {
        mesh(rng)
    };
    let mut job = Job {
        vertices: v.iter().flatten().copied().collect(),
        triangles: t.iter().flatten().copied().collect(),
        flags: flags(rng, &v, &t),
        piece_kinds: vec![],
        piece_faces: vec![],
        piece_coords: vec![],
        limit: rng.pick(&[10., 1e7, 1e7, 3., 0.5, 100., 5000., 0., -0., 2.5]),
        max_steps: 30_000,
        buffers: buffers(rng),
    };
    let edge = |k: usize| sub(v[t[0][k] as usize], v[t[0][0] as usize]);
    if !t.is_empty() && norm(edge(1)) > 3.4e6 && rng.one_in(2) {
        far_twins(rng, &v, &t, &mut job);
    } else if rng.one_in(12) && !t.is_empty() {
        twin_segments(rng, &v, &t, &mut job);
    } else {
        pieces(rng, &v, &t, &mut job);
    }
    if rng.one_in(20) {
        job.max_steps = rng.below(40) as u32;
    }
    if rng.one_in(10) {
        defect(rng, &mut job);
        if rng.one_in(4) {
            defect(rng, &mut job);
        }
    }
    job
}
