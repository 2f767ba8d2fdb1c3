//! Meshes like those of the workshop, with start lines cut at the triangle
//! edges and flags as the Rust judges them.
use super::rng::Rng;
use super::small::grid;
use super::walk::Walker;
use crate::exact::{Buffers, Topology, judge_pseudo};
use crate::job::{Job, MAX_PIECES};
use crate::vector::{Vec3, axpy, norm, scale, sub};
use std::collections::HashMap;

#[derive(Clone, Copy, Debug, PartialEq, Eq)]
pub enum Shape {
    Terrain,
    Mould,
    Box,
    Sphere,
    Ruled,
    Noisy,
}

impl Shape {
    pub const ALL: [Shape; 6] = [
        Shape::Terrain,
        Shape::Mould,
        Shape::Box,
        Shape::Sphere,
        Shape::Ruled,
        Shape::Noisy,
    ];

    pub fn parse(name: &str) -> Option<Shape> {
        Shape::ALL
            .into_iter()
            .find(|s| format!("{s:?}").eq_ignore_ascii_case(name))
    }
}

fn smooth(x: f64) -> f64 {
    let x = x.clamp(0., 1.);
    x * x * (3. - 2. * x)
}

fn terrain_height(x: f64, y: f64, phase: f64) -> f64 {
    6. * (0.11 * x + phase).sin() * (0.083 * y).cos() + 2.5 * (0.31 * x + 0.17 * y + phase).sin()
}

/// A cavity with drafted walls and a curved floor.
fn mould_height(x: f64, y: f64, size: f64) -> f64 {
    let edge = (x.abs().max(y.abs()) - 0.5 * size) / (0.08 * size);
    let boss = 1. - smooth((x.hypot(y) - 0.12 * size) / (0.06 * size));
    -0.3 * size * (1. - smooth(edge)) + 0.15 * size * boss
}

/// The surface of a cube of n by n squares a side, moved by `place`.
fn cube(n: usize, place: impl Fn(Vec3) -> Vec3) -> (Vec<Vec3>, Vec<[u32; 3]>) {
    let (mut v, mut t) = (vec![], vec![]);
    let mut index: HashMap<[usize; 3], u32> = HashMap::new();
    for axis in 0..3 {
        for side in [0, n] {
            let mut at = |i: usize, j: usize| {
                let mut key = [0; 3];
                (key[axis], key[(axis + 1) % 3], key[(axis + 2) % 3]) = (side, i, j);
                *index.entry(key).or_insert_with(|| {
                    v.push(place(key.map(|k| 2. * k as f64 / n as f64 - 1.)));
                    (v.len() - 1) as u32
                })
            };
            for i in 0..n {
                for j in 0..n {
                    let (a, b) = (at(i, j), at(i + 1, j));
                    let (c, d) = (at(i + 1, j + 1), at(i, j + 1));
                    if side == 0 {
                        t.extend([[a, c, b], [a, d, c]]);
                    } else {
                        t.extend([[a, b, c], [a, c, d]]);
                    }
                }
            }
        }
    }
    (v, t)
}

/// A point of the cube moved to a box of half sizes `half` with rounded
/// edges of radius `r`; a fifth of the squares lie in the fillets.
fn fillet(p: Vec3, half: Vec3, r: f64) -> Vec3 {
    let stretch = |x: f64, h: f64| {
        let a = x.abs();
        let y = if a < 0.8 {
            a / 0.8 * (h - r)
        } else {
            h - r + (a - 0.8) / 0.2 * r
        };
        y.copysign(x)
    };
    let q = [0, 1, 2].map(|k| stretch(p[k], half[k]));
    let inner = [0, 1, 2].map(|k| q[k].clamp(-(half[k] - r), half[k] - r));
    let d = sub(q, inner);
    axpy(inner, r / norm(d), d)
}

pub fn mesh(shape: Shape, triangles: usize, rng: &mut Rng) -> (Vec<Vec3>, Vec<[u32; 3]>) {
    let n = ((triangles as f64 / 2.).sqrt().round() as usize).max(2);
    let m = ((triangles as f64 / 12.).sqrt().round() as usize).max(2);
    let phase = rng.between(0., 6.);
    let step = 2.;
    let middle = 0.5 * step * n as f64;
    match shape {
        Shape::Terrain => grid(n, n, |i, j| {
            let (x, y) = (i as f64 * step, j as f64 * step);
            [x, y, terrain_height(x, y, phase)]
        }),
        Shape::Noisy => grid(n, n, |i, j| {
            let (x, y) = (i as f64 * step, j as f64 * step);
            [x, y, terrain_height(x, y, phase) + rng.between(-0.4, 0.4)]
        }),
        Shape::Mould => grid(n, n, |i, j| {
            let (x, y) = (i as f64 * step - middle, j as f64 * step - middle);
            [x, y, mould_height(x, y, 2. * middle)]
        }),
        Shape::Box => cube(m, |p| fillet(p, [60., 40., 25.], 6.)),
        Shape::Sphere => cube(m, |p| scale(p, 50. / norm(p))),
        Shape::Ruled => {
            let strips = 4;
            grid(triangles / (2 * strips), strips, |i, j| {
                let (x, s) = (i as f64 * 0.5, j as f64 / strips as f64);
                let (low, high) = (10. * (0.05 * x).sin(), 14. * (0.037 * x + phase).cos());
                [x, 120. * s, (1. - s) * low + s * high]
            })
        }
    }
}

/// A job of the shape with about so many triangles and start lines.
pub fn job(shape: Shape, triangles: usize, lines: usize, limit: f64, seed: u64) -> Job {
    let mut rng = Rng::new(seed);
    let rng = &mut rng;
    let (v, t) = mesh(shape, triangles, rng);
    let pseudo = judge_pseudo(&v, &t);
    let topo = Topology::new(&v, &t, &pseudo).expect("the generated meshes are manifold");
    let walker = Walker {
        v: &v,
        t: &t,
        topo: &topo,
    };
    let mut job = Job {
        vertices: v.iter().flatten().copied().collect(),
        triangles: t.iter().flatten().copied().collect(),
        flags: pseudo.iter().map(|&b| u8::from(b)).collect(),
        piece_kinds: vec![],
        piece_faces: vec![],
        piece_coords: vec![],
        limit,
        max_steps: u32::MAX,
        buffers: Buffers::UNBOUNDED,
    };
    for _ in 0..lines {
        let f = rng.below(t.len()) as u32;
        let length = rng.between(5., 60.);
        for (f, a, b) in walker.line(rng, f, length) {
            if job.piece_kinds.len() < MAX_PIECES {
                job.piece_kinds.push(1);
                job.piece_faces.push(f);
                job.piece_coords.extend(a.iter().chain(&b));
            }
        }
    }
    job
}

/// Every shape, size and number of start lines. Long ruled triangles make
/// windows out of proportion, so large ones get a limit.
pub fn mix() -> Vec<(Shape, usize, usize, f64)> {
    let mut mix = vec![];
    for triangles in [2_000, 10_000, 30_000, 60_000] {
        for shape in Shape::ALL {
            for lines in [1, 10, 100, 300] {
                let ruled = shape == Shape::Ruled && triangles > 2_000;
                mix.push((shape, triangles, lines, if ruled { 60. } else { 1e7 }));
            }
        }
    }
    mix
}

/// Ten jobs of every shape, each with its name.
pub fn sixty() -> impl Iterator<Item = (String, Job)> {
    let chosen = |&(_, triangles, lines, _): &(Shape, usize, usize, f64)| match triangles {
        2_000 => true,
        30_000 => lines == 10 || lines == 300,
        60_000 => lines == 1 || lines == 300,
        _ => lines == 1 || lines == 100,
    };
    mix()
        .into_iter()
        .filter(chosen)
        .map(|(shape, t, lines, limit)| {
            (
                format!("{shape:?}, {t} triangles, {lines} lines"),
                job(shape, t, lines, limit, lines as u64),
            )
        })
}
