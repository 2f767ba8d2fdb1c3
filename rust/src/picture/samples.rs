//! The field sampled: triangles cut into smaller ones with the distance at each corner, and the iso-lines in them.
use super::Style;
use crate::{Field, Vec3};

/// A small triangle: points and distances of its corners.
pub type Sample = [(Vec3, f64); 3];

/// A piece of an iso-line.
pub struct Iso {
    pub level: f64,
    pub ends: [Vec3; 2],
}

/// The small triangles of each triangle, so many for each.
pub struct Samples {
    pub each: usize,
    pub all: Vec<Sample>,
}

fn mix(a: Vec3, b: Vec3, s: f64) -> Vec3 {
    [0, 1, 2].map(|k| a[k] + s * (b[k] - a[k]))
}

/// The corner number of row i, place j.
fn corner(i: usize, j: usize) -> usize {
    i * (i + 1) / 2 + j
}

/// The small triangles by their corners' numbers.
fn pattern(n: usize) -> Vec<[usize; 3]> {
    let mut out = vec![];
    for i in 0..n {
        for j in 0..=i {
            out.push([corner(i, j), corner(i + 1, j), corner(i + 1, j + 1)]);
            if j < i {
                out.push([corner(i, j), corner(i + 1, j + 1), corner(i, j + 1)]);
            }
        }
    }
    out
}

impl Samples {
    /// Distances at vertices are the field's own; the others are asked in one row.
    pub fn new(v: &[Vec3], t: &[[u32; 3]], field: &Field, style: &Style) -> Samples {
        let n = style.detail.clamp(1, 8) as usize;
        let corners = corner(n, n) + 1;
        let (mut faces, mut points) = (vec![], vec![]);
        for (f, tri) in (0..).zip(t) {
            let [a, b, c] = tri.map(|k| v.get(k as usize).copied().unwrap_or_default());
            for i in 0..=n {
                let (from, to) = (
                    mix(a, b, i as f64 / n as f64),
                    mix(a, c, i as f64 / n as f64),
                );
                for j in 0..=i {
                    points.push(mix(from, to, if i == 0 { 0. } else { j as f64 / i as f64 }));
                    faces.push(f);
                }
            }
        }
        let mut distances = if n == 1 {
            vec![f64::NAN; points.len()]
        } else {
            let row = field.faces_at(&faces, &points);
            row.map_or(vec![f64::NAN; points.len()], |row| row.distances)
        };
        for (tri, part) in t.iter().zip(distances.chunks_exact_mut(corners)) {
            for (k, at) in tri.iter().zip([0, corner(n, 0), corner(n, n)]) {
                part[at] = field.vertex_at(*k);
            }
        }
        let pattern = pattern(n);
        let sampled = points
            .chunks_exact(corners)
            .zip(distances.chunks_exact(corners));
        let all =
            sampled.flat_map(|(p, d)| pattern.iter().map(move |tri| tri.map(|k| (p[k], d[k]))));
        Samples {
            each: n * n,
            all: all.collect(),
        }
    }

    /// The largest distance that is reached.
    pub fn most(&self) -> f64 {
        let reached = self.all.iter().flatten().map(|corner| corner.1);
        reached.filter(|d| d.is_finite()).fold(0., f64::max)
    }
}

/// The iso-lines in a small triangle, straight between its sides.
pub fn isolines(sample: &Sample, spacing: f64) -> Vec<Iso> {
    let distances = sample.map(|corner| corner.1);
    let (low, high) = (
        distances.into_iter().fold(f64::INFINITY, f64::min),
        distances.into_iter().fold(0., f64::max),
    );
    if !(spacing > 0. && low.is_finite() && high.is_finite()) || (high - low) / spacing > 1e4 {
        return vec![];
    }
    let mut out = vec![];
    let mut k = (low / spacing).ceil().max(1.);
    while k * spacing < high {
        let level = k * spacing;
        let mut ends = vec![];
        for side in 0..3 {
            let ((p, a), (q, b)) = (sample[side], sample[(side + 1) % 3]);
            if (a < level) != (b < level) {
                ends.push(mix(p, q, (level - a) / (b - a)));
            }
        }
        if let [p, q] = ends[..] {
            out.push(Iso {
                level,
                ends: [p, q],
            });
        }
        k += 1.;
    }
    out
}
