//! PLY as text: the mesh with a scalar for each vertex; and the picture, whose lines are thin strips that any viewer of meshes shows.
use super::Style;
use super::colour::{bytes, colour};
use super::samples::{Samples, isolines};
use crate::{Field, Piece, Vec3};
use std::fmt::Write;

/// A vertex with its distance and colour.
struct Corner(Vec3, f64, [u8; 3]);

fn write(corners: &[Corner], triangles: impl ExactSizeIterator<Item = [u32; 3]>) -> String {
    let mut out = format!(
        "ply\nformat ascii 1.0\nelement vertex {}\nproperty double x\nproperty double y\nproperty double z\nproperty double distance\n\
         property uchar red\nproperty uchar green\nproperty uchar blue\nelement face {}\nproperty list uchar uint vertex_indices\nend_header\n",
        corners.len(),
        triangles.len()
    );
    for Corner([x, y, z], distance, [r, g, b]) in corners {
        let _ = writeln!(out, "{x} {y} {z} {distance} {r} {g} {b}");
    }
    for [a, b, c] in triangles {
        let _ = writeln!(out, "3 {a} {b} {c}");
    }
    out
}

/// The mesh with the distance of each vertex, and coloured by it; `inf` where nothing is reached.
pub fn distances_ply(v: &[Vec3], t: &[[u32; 3]], field: &Field) -> String {
    let reached = field.vertex.iter().copied().filter(|d| d.is_finite());
    let most = reached.fold(0., f64::max);
    let corner = |(&p, &d): (&Vec3, &f64)| Corner(p, d, bytes(colour(d, most), 1.));
    let corners: Vec<Corner> = v.iter().zip(&field.vertex).map(corner).collect();
    write(&corners, t.iter().copied())
}

fn cross(a: Vec3, b: Vec3) -> Vec3 {
    [
        a[1] * b[2] - a[2] * b[1],
        a[2] * b[0] - a[0] * b[2],
        a[0] * b[1] - a[1] * b[0],
    ]
}

fn scaled(a: Vec3, length: f64) -> Vec3 {
    let l = (a[0] * a[0] + a[1] * a[1] + a[2] * a[2]).sqrt();
    if l > 0. {
        a.map(|x| x * length / l)
    } else {
        [0.; 3]
    }
}

fn sub(a: Vec3, b: Vec3) -> Vec3 {
    [a[0] - b[0], a[1] - b[1], a[2] - b[2]]
}

/// A strip of this width along a segment of a face, just above it.
struct Strips {
    width: f64,
    corners: Vec<Corner>,
    triangles: Vec<[u32; 3]>,
}

impl Strips {
    fn push(&mut self, [a, b]: [Vec3; 2], normal: Vec3, distance: f64, coloured: [u8; 3]) {
        let lift = scaled(normal, self.width / 4.);
        let side = scaled(cross(normal, sub(b, a)), self.width / 2.);
        let first = self.corners.len() as u32;
        for (p, sign) in [(a, 1.), (a, -1.), (b, -1.), (b, 1.)] {
            let at = [0, 1, 2].map(|k| p[k] + lift[k] + sign * side[k]);
            self.corners.push(Corner(at, distance, coloured));
        }
        self.triangles.push([first, first + 1, first + 2]);
        self.triangles.push([first, first + 2, first + 3]);
    }
}

/// The field as a coloured mesh with iso-lines (white) and start lines (red).
pub fn picture_ply(
    v: &[Vec3],
    t: &[[u32; 3]],
    field: &Field,
    sources: &[Piece],
    style: &Style,
) -> String {
    let samples = Samples::new(v, t, field, style);
    let most = samples.most();
    let normal = |f: usize| {
        let [a, b, c] = t
            .get(f)
            .copied()
            .unwrap_or_default()
            .map(|k| v.get(k as usize).copied().unwrap_or_default());
        cross(sub(b, a), sub(c, a))
    };
    let mut strips = Strips {
        width: if style.spacing > 0. {
            style.spacing / 15.
        } else {
            most / 300.
        },
        corners: vec![],
        triangles: vec![],
    };
    for sample in &samples.all {
        strips
            .corners
            .extend(sample.map(|(p, d)| Corner(p, d, bytes(colour(d, most), 1.))));
    }
    strips.triangles = (0..samples.all.len() as u32)
        .map(|k| [3 * k, 3 * k + 1, 3 * k + 2])
        .collect();
    for (f, face) in samples.all.chunks_exact(samples.each).enumerate() {
        for iso in face
            .iter()
            .flat_map(|sample| isolines(sample, style.spacing))
        {
            strips.push(iso.ends, normal(f), iso.level, [255; 3]);
        }
    }
    strips.width *= 3.;
    for piece in sources {
        let (f, ends) = match *piece {
            Piece::Segment(f, a, b) => (f, [a, b]),
            Piece::Point(f, p) => (f, [p, [p[0] + strips.width, p[1], p[2]]]),
        };
        strips.push(ends, normal(f as usize), 0., [210, 30, 30]);
    }
    write(&strips.corners, strips.triangles.iter().copied())
}
