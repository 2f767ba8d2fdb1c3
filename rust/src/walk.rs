//! Lines laid on a mesh from above, as exact.rs lays them: every piece of a line lies in one triangle.
use crate::{NONE, Piece, Topology, Vec3};

fn sub(a: Vec3, b: Vec3) -> Vec3 {
    [a[0] - b[0], a[1] - b[1], a[2] - b[2]]
}

fn norm(a: Vec3) -> f64 {
    (a[0] * a[0] + a[1] * a[1] + a[2] * a[2]).sqrt()
}

fn axpy(a: Vec3, k: f64, b: Vec3) -> Vec3 {
    [a[0] + k * b[0], a[1] + k * b[1], a[2] + k * b[2]]
}

/// Where `q` lies in a triangle seen from above: its weights of the three vertices.
fn weights(tri: [Vec3; 3], q: [f64; 2]) -> Vec3 {
    let det = (tri[1][0] - tri[0][0]) * (tri[2][1] - tri[0][1])
        - (tri[2][0] - tri[0][0]) * (tri[1][1] - tri[0][1]);
    let l1 = ((q[0] - tri[0][0]) * (tri[2][1] - tri[0][1])
        - (tri[2][0] - tri[0][0]) * (q[1] - tri[0][1]))
        / det;
    let l2 = ((tri[1][0] - tri[0][0]) * (q[1] - tri[0][1])
        - (q[0] - tri[0][0]) * (tri[1][1] - tri[0][1]))
        / det;
    [1. - l1 - l2, l1, l2]
}

fn weighted(tri: [Vec3; 3], l: Vec3) -> Vec3 {
    [0, 1, 2].map(|i| l[0] * tri[0][i] + l[1] * tri[1][i] + l[2] * tri[2][i])
}

/// The mesh that a line is laid on. A number in it that is out of range ends the walk.
struct Walker<'a> {
    v: &'a [Vec3],
    t: &'a [[u32; 3]],
    topo: &'a Topology,
}

/// The edge of its face that a line leaves through, and where along it.
struct Exit {
    side: usize,
    along: f64,
}

impl Walker<'_> {
    fn vertices(&self, f: u32) -> Option<[u32; 3]> {
        self.t.get(f as usize).copied()
    }

    fn corners(&self, f: u32) -> Option<[Vec3; 3]> {
        let [a, b, c] = self.vertices(f)?.map(|k| self.v.get(k as usize));
        Some([*a?, *b?, *c?])
    }

    fn edges(&self, f: u32) -> Option<[u32; 3]> {
        self.topo.tri_edges.get(f as usize).copied()
    }

    fn lengths(&self, f: u32) -> Option<[f64; 3]> {
        let [a, b, c] = self.edges(f)?.map(|e| self.topo.len.get(e as usize));
        Some([*a?, *b?, *c?])
    }

    /// The nearest crossing ahead.
    fn exit(&self, g: u32, p: Vec3, d: [f64; 2], entry: u32) -> Option<Exit> {
        let (tri, edges) = (self.corners(g)?, self.edges(g)?);
        let mut exit: Option<(f64, Exit)> = None;
        for side in 0..3 {
            let (e0, e1) = (tri[side], tri[(side + 1) % 3]);
            let ed = [e1[0] - e0[0], e1[1] - e0[1]];
            let den = d[0] * ed[1] - d[1] * ed[0];
            if edges[side] == entry || den.abs() < 1e-300 {
                continue;
            }
            let w = [e0[0] - p[0], e0[1] - p[1]];
            let s = (w[0] * ed[1] - w[1] * ed[0]) / den;
            let u = (w[0] * d[1] - w[1] * d[0]) / den;
            let ahead = s > 1e-12 && (-1e-9..=1. + 1e-9).contains(&u);
            if ahead && exit.as_ref().is_none_or(|x| s < x.0) {
                let along = u.clamp(0., 1.);
                exit = Some((s, Exit { side, along }));
            }
        }
        exit.map(|x| x.1)
    }

    /// Through a vertex: the face around it that holds the point just ahead best; none where the line leaves the mesh there.
    fn through(&self, vertex: u32, g: u32, d: [f64; 2]) -> Option<u32> {
        let q = self.v.get(vertex as usize)?;
        let round = self.topo.vertex_faces.get(vertex as usize)?;
        let lengths = round.iter().filter_map(|&f| self.lengths(f)).flatten();
        let reach = lengths.fold(f64::INFINITY, f64::min);
        let step = 1e-7 * reach / d[0].hypot(d[1]);
        let ahead = [q[0] + step * d[0], q[1] + step * d[1]];
        let inside = |h: u32| {
            let w = self.corners(h)?;
            let side = |a: Vec3, b: Vec3| {
                let l = (b[0] - a[0]).hypot(b[1] - a[1]);
                ((b[0] - a[0]) * (ahead[1] - a[1]) - (b[1] - a[1]) * (ahead[0] - a[0])) / l
            };
            Some((
                side(w[0], w[1]).min(side(w[1], w[2])).min(side(w[2], w[0])),
                h,
            ))
        };
        let others = round.iter().copied().filter(|&h| h != g);
        let held = others
            .filter_map(inside)
            .filter(|&(m, _)| m >= -1e-9 * reach);
        held.max_by(|a, b| a.0.total_cmp(&b.0).then(b.1.cmp(&a.1)))
            .map(|(_, h)| h)
    }

    /// No edge is ahead: the point is on the face's boundary and the line leaves at once. The next face, the point and the edge that it enters by.
    fn leave(&self, g: u32, p: Vec3, d: [f64; 2], entry: u32) -> Option<(u32, Vec3, u32)> {
        let (tri, edges) = (self.corners(g)?, self.edges(g)?);
        let scale = self.lengths(g)?.into_iter().fold(0., f64::max);
        if let Some(k) = (0..3).find(|&k| norm(sub(tri[k], p)) <= 1e-9 * scale) {
            return Some((self.through(self.vertices(g)?[k], g, d)?, tri[k], NONE));
        }
        let across = |&k: &usize| {
            let (e0, e1) = (tri[k], tri[(k + 1) % 3]);
            let ed = [e1[0] - e0[0], e1[1] - e0[1]];
            let w = [p[0] - e0[0], p[1] - e0[1]];
            (ed[0] * w[1] - ed[1] * w[0]).abs() <= 1e-9 * scale * ed[0].hypot(ed[1])
                && ed[0] * d[1] - ed[1] * d[0] < 0.
                && edges[k] != entry
        };
        let e = edges[(0..3).find(across)?];
        match self.topo.other(e, g) {
            NONE => None,
            next => Some((next, p, e)),
        }
    }
}

/// The vertical projection onto the mesh of the XY segment from `a` (a point of face `f`) to `b`, split into one piece per face, which are put behind `out`.
///
/// Returns the face and point reached, or None where the segment leaves the mesh first.
pub fn walk(
    v: &[Vec3],
    t: &[[u32; 3]],
    topo: &Topology,
    f: u32,
    a: Vec3,
    b: [f64; 2],
    out: &mut Vec<Piece>,
) -> Option<(u32, Vec3)> {
    let mesh = Walker { v, t, topo };
    let (mut g, mut p, mut entry) = (f, a, NONE);
    let push = |out: &mut Vec<Piece>, g: u32, p: Vec3, q: Vec3| {
        if norm(sub(q, p)) > 0. {
            out.push(Piece::Segment(g, p, q));
        }
    };
    for _ in 0..1_000_000 {
        let tri = mesh.corners(g)?;
        let l = weights(tri, b);
        if l.iter().all(|&x| x >= -1e-12) {
            let q = weighted(tri, l);
            push(out, g, p, q);
            return Some((g, q));
        }
        let d = [b[0] - p[0], b[1] - p[1]];
        let Some(Exit { side, along }) = mesh.exit(g, p, d, entry) else {
            (g, p, entry) = mesh.leave(g, p, d, entry)?;
            continue;
        };
        if !(1e-9..=1. - 1e-9).contains(&along) {
            let k = if along < 0.5 { side } else { (side + 1) % 3 };
            let x = tri[k];
            push(out, g, p, x);
            g = mesh.through(mesh.vertices(g)?[k], g, d)?;
            (p, entry) = (x, NONE);
            continue;
        }
        let (e0, e1) = (tri[side], tri[(side + 1) % 3]);
        let x = axpy(e0, along, sub(e1, e0));
        push(out, g, p, x);
        let e = mesh.edges(g)?[side];
        let next = topo.other(e, g);
        if next == NONE {
            return None;
        }
        (g, p, entry) = (next, x, e);
    }
    None
}

/// The highest face at the place `q`, seen from above, and its point there.
pub fn face_above(v: &[Vec3], t: &[[u32; 3]], q: [f64; 2]) -> Option<(u32, Vec3)> {
    let mut best: Option<(u32, Vec3)> = None;
    for (f, tri) in (0..).zip(t) {
        let [Some(&a), Some(&b), Some(&c)] = tri.map(|k| v.get(k as usize)) else {
            continue;
        };
        let l = weights([a, b, c], q);
        if l.iter().all(|&x| x >= -1e-12) {
            let p = weighted([a, b, c], l);
            if best.is_none_or(|(_, other)| p[2] > other[2]) {
                best = Some((f, p));
            }
        }
    }
    best
}
