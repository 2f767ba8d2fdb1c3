//! SVG: triangles from the farthest to the nearest, each with the iso-lines and start pieces in it.
use super::colour::{bytes, colour};
use super::samples::{Sample, Samples, isolines};
use super::{Style, View};
use crate::{Field, Piece, Vec3};
use std::collections::HashMap;
use std::fmt::Write;

const WIDTH: f64 = 800.;
const MARGIN: f64 = 10.;

fn dot(a: Vec3, b: Vec3) -> f64 {
    a[0] * b[0] + a[1] * b[1] + a[2] * b[2]
}

/// Where a point is shown, and how near it is.
struct Camera {
    right: Vec3,
    up: Vec3,
    toward: Vec3,
    scale: f64,
    left: f64,
    top: f64,
    height: f64,
}

impl Camera {
    fn new(view: View, v: &[Vec3]) -> Camera {
        let (turn, tilt) = match view {
            View::Top => (0f64, std::f64::consts::FRAC_PI_2),
            View::Oblique => (0.6, 0.7),
        };
        let mut camera = Camera {
            right: [turn.cos(), turn.sin(), 0.],
            up: [
                -tilt.sin() * turn.sin(),
                tilt.sin() * turn.cos(),
                tilt.cos(),
            ],
            toward: [
                turn.sin() * tilt.cos(),
                -turn.cos() * tilt.cos(),
                tilt.sin(),
            ],
            scale: 1.,
            left: 0.,
            top: 0.,
            height: 0.,
        };
        let range = |axis: Vec3| {
            let along = v.iter().map(|&p| dot(p, axis));
            along.fold((f64::INFINITY, f64::NEG_INFINITY), |r, x| {
                (r.0.min(x), r.1.max(x))
            })
        };
        let ((x0, x1), (y0, y1)) = (range(camera.right), range(camera.up));
        if x0 <= x1 && y0 <= y1 {
            camera.scale = (WIDTH - 2. * MARGIN) / (x1 - x0).max(1e-9);
            (camera.left, camera.top) = (x0, y1);
            camera.height = camera.scale * (y1 - y0);
        }
        camera
    }

    fn place(&self, p: Vec3) -> String {
        let x = MARGIN + self.scale * (dot(p, self.right) - self.left);
        let y = MARGIN + self.scale * (self.top - dot(p, self.up));
        format!("{x:.1} {y:.1}")
    }

    /// How far a face is turned to the light, from 0.6 to 1.
    fn shade(&self, [a, b, c]: [Vec3; 3]) -> f64 {
        let (x, y) = (
            [0, 1, 2].map(|k| b[k] - a[k]),
            [0, 1, 2].map(|k| c[k] - a[k]),
        );
        let n = [
            x[1] * y[2] - x[2] * y[1],
            x[2] * y[0] - x[0] * y[2],
            x[0] * y[1] - x[1] * y[0],
        ];
        let l = dot(n, n).sqrt();
        let light = [-0.36, 0.48, 0.8];
        if l > 0. {
            0.6 + 0.4 * (dot(n, light) / l).abs()
        } else {
            1.
        }
    }
}

/// The small triangles of a face, those of one colour in one path.
fn fill(out: &mut String, camera: &Camera, face: &[Sample], most: f64, shade: f64) {
    let mut paths: Vec<([u8; 3], String)> = vec![];
    for sample in face {
        let mean = sample.iter().map(|corner| corner.1).sum::<f64>() / 3.;
        let coloured = bytes(colour(mean, most), shade).map(|c| c & 0xfc);
        let [a, b, c] = sample.map(|corner| camera.place(corner.0));
        let path = format!("M{a}L{b} {c}Z");
        match paths.iter_mut().find(|other| other.0 == coloured) {
            Some(other) => other.1 += &path,
            None => paths.push((coloured, path)),
        }
    }
    for ([r, g, b], path) in paths {
        let _ = writeln!(out, "<path color='#{r:02x}{g:02x}{b:02x}' d='{path}'/>");
    }
}

fn source(out: &mut String, camera: &Camera, piece: &Piece) {
    let _ = match *piece {
        Piece::Segment(_, a, b) => {
            writeln!(
                out,
                "<path class='s' d='M{}L{}'/>",
                camera.place(a),
                camera.place(b)
            )
        }
        Piece::Point(_, p) => writeln!(out, "<path class='s' d='M{0}L{0}'/>", camera.place(p)),
    };
}

/// The field as an SVG picture.
pub fn svg(v: &[Vec3], t: &[[u32; 3]], field: &Field, sources: &[Piece], style: &Style) -> String {
    let camera = Camera::new(style.view, v);
    let samples = Samples::new(v, t, field, style);
    let most = samples.most();
    let mut in_face: HashMap<u32, Vec<&Piece>> = HashMap::new();
    for piece in sources {
        let (Piece::Point(f, _) | Piece::Segment(f, ..)) = piece;
        in_face.entry(*f).or_default().push(piece);
    }
    let near = |face: &[Sample]| {
        let corners = face.iter().flatten();
        corners
            .map(|corner| dot(corner.0, camera.toward))
            .sum::<f64>()
            / face.len() as f64
    };
    let mut faces: Vec<(u32, &[Sample])> =
        (0..).zip(samples.all.chunks_exact(samples.each)).collect();
    faces.sort_by(|a, b| near(a.1).total_cmp(&near(b.1)));
    let mut out = format!(
        "<svg xmlns='http://www.w3.org/2000/svg' viewBox='0 0 {WIDTH} {:.0}'>\n<style>path{{fill:currentColor;stroke:currentColor;stroke-width:.4;stroke-linejoin:round}}.i{{fill:none;stroke:#fff;stroke-width:.8}}\
         .s{{fill:none;stroke:#d22;stroke-width:3;stroke-linecap:round}}</style>\n",
        camera.height + 2. * MARGIN
    );
    for (f, face) in faces {
        let corners = t[f as usize].map(|k| v.get(k as usize).copied().unwrap_or_default());
        fill(&mut out, &camera, face, most, camera.shade(corners));
        let lines: String = (face
            .iter()
            .flat_map(|sample| isolines(sample, style.spacing)))
        .map(|iso| {
            format!(
                "M{}L{}",
                camera.place(iso.ends[0]),
                camera.place(iso.ends[1])
            )
        })
        .collect();
        if !lines.is_empty() {
            let _ = writeln!(out, "<path class='i' d='{lines}'/>");
        }
        for piece in in_face.get(&f).into_iter().flatten() {
            source(&mut out, &camera, piece);
        }
    }
    out + "</svg>\n"
}
