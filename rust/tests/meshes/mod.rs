//! Meshes for tests: square grids, each square of two triangles.
use sirmolaat::Vec3;

pub fn grid(n: usize, height: impl Fn(f64, f64) -> f64) -> (Vec<Vec3>, Vec<[u32; 3]>) {
    let at = |i: usize, j: usize| (i * (n + 1) + j) as u32;
    let (mut v, mut t) = (vec![], vec![]);
    for i in 0..=n {
        for j in 0..=n {
            let (x, y) = (i as f64, j as f64);
            v.push([x, y, height(x, y)]);
        }
    }
    for i in 0..n {
        for j in 0..n {
            let (a, b, c, d) = (at(i, j), at(i + 1, j), at(i + 1, j + 1), at(i, j + 1));
            t.extend([[a, b, c], [a, c, d]]);
        }
    }
    (v, t)
}

#[allow(dead_code)]
pub fn plane(n: usize) -> (Vec<Vec3>, Vec<[u32; 3]>) {
    grid(n, |_, _| 0.)
}
