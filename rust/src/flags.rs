//! Which vertices shortest paths may pass through, judged as exact.rs judges it: a job hands these flags in.
use crate::Vec3;
use std::collections::HashMap;
use std::f64::consts::TAU;

fn sub(a: Vec3, b: Vec3) -> Vec3 {
    [a[0] - b[0], a[1] - b[1], a[2] - b[2]]
}

fn dot(a: Vec3, b: Vec3) -> f64 {
    a[0] * b[0] + a[1] * b[1] + a[2] * b[2]
}

fn cross(a: Vec3, b: Vec3) -> Vec3 {
    [
        a[1] * b[2] - a[2] * b[1],
        a[2] * b[0] - a[0] * b[2],
        a[0] * b[1] - a[1] * b[0],
    ]
}

/// The vertices of edges that lie in one triangle only, of `n` vertices. A triangle that names a missing vertex is passed over.
pub fn boundary(n: usize, t: &[[u32; 3]]) -> Vec<bool> {
    let mut count: HashMap<(u32, u32), u32> = HashMap::with_capacity(2 * t.len());
    for &[a, b, c] in t {
        for (a, b) in [(a, b), (b, c), (c, a)] {
            *count.entry((a.min(b), a.max(b))).or_default() += 1;
        }
    }
    let mut boundary = vec![false; n];
    for ((a, b), _) in count.into_iter().filter(|edge| edge.1 == 1) {
        for k in [a, b] {
            if let Some(flag) = boundary.get_mut(k as usize) {
                *flag = true;
            }
        }
    }
    boundary
}

/// Boundary vertices, and saddles: those whose triangles make more than a full turn, by exact.rs's arc tangents. What is missing counts as none.
pub fn saddles(v: &[Vec3], t: &[[u32; 3]], boundary: &[bool]) -> Vec<bool> {
    let mut angle = vec![0f64; v.len()];
    for tri in t {
        for k in 0..3 {
            let corners = [k, (k + 1) % 3, (k + 2) % 3].map(|i| v.get(tri[i] as usize));
            if let [Some(&p), Some(&q), Some(&r)] = corners {
                let (x, y) = (sub(q, p), sub(r, p));
                let cross = cross(x, y);
                angle[tri[k] as usize] += dot(cross, cross).sqrt().atan2(dot(x, y));
            }
        }
    }
    let judged =
        |(k, angle): (usize, f64)| boundary.get(k).copied().unwrap_or(false) || angle > TAU + 1e-9;
    angle.into_iter().enumerate().map(judged).collect()
}
