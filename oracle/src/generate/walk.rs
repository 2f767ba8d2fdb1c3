//! Start lines: straight walks over a mesh, cut at the triangles' edges.
use super::rng::Rng;
use crate::exact::{NONE, Topology};
use crate::vector::{Vec3, axpy, dot, norm, scale, sub};

/// Segments `(face, from, to)`; a crossing keeps clear of the edge's ends,
/// so no point lies at a vertex.
pub type Line = Vec<(u32, Vec3, Vec3)>;

pub struct Walker<'a> {
    pub v: &'a [Vec3],
    pub t: &'a [[u32; 3]],
    pub topo: &'a Topology,
}

impl Walker<'_> {
    fn inside(&self, rng: &mut Rng, f: u32) -> Vec3 {
        let [a, b, c] = self.t[f as usize].map(|k| self.v[k as usize]);
        let (s, r) = (rng.between(0.2, 0.4), rng.between(0.2, 0.4));
        axpy(axpy(a, s, sub(b, a)), r, sub(c, a))
    }

    /// The edge through which the ray leaves face `f`, and where along it.
    fn exit(&self, f: u32, p: Vec3, d: Vec3, entry: u32) -> Option<(usize, f64)> {
        let mut best: Option<(f64, usize, f64)> = None;
        for k in 0..3 {
            let e = self.topo.tri_edges[f as usize][k];
            let o = self.v[self.topo.edges[e as usize][0] as usize];
            let y = self.topo.yhat[f as usize][k];
            let (height, fall) = (dot(sub(p, o), y), -dot(d, y));
            if e == entry || fall <= 1e-9 {
                continue;
            }
            let s = height / fall;
            if best.is_none_or(|b| s < b.0) {
                let hit = axpy(p, s, d);
                let x = dot(sub(hit, o), self.topo.xhat[e as usize]);
                best = Some((s, k, x));
            }
        }
        best.map(|(_, k, x)| (k, x))
    }

    /// A walk of at most `length` from inside face `f`.
    pub fn line(&self, rng: &mut Rng, f: u32, length: f64) -> Line {
        let (mut f, mut p, mut entry) = (f, self.inside(rng, f), NONE);
        let turn = rng.between(0., std::f64::consts::TAU);
        let e = self.topo.tri_edges[f as usize][0] as usize;
        let y = self.topo.yhat[f as usize][0];
        let mut d = axpy(scale(self.topo.xhat[e], turn.cos()), turn.sin(), y);
        let (mut left, mut out) = (length, vec![]);
        for _ in 0..10_000 {
            let Some((k, x)) = self.exit(f, p, d, entry) else {
                break;
            };
            let e = self.topo.tri_edges[f as usize][k];
            let l = self.topo.len[e as usize];
            let xh = self.topo.xhat[e as usize];
            let o = self.v[self.topo.edges[e as usize][0] as usize];
            let hit = axpy(o, x.clamp(0.01 * l, 0.99 * l), xh);
            let way = norm(sub(hit, p));
            if way >= left {
                out.push((f, p, axpy(p, left / way, sub(hit, p))));
                break;
            }
            if way > 0. {
                out.push((f, p, hit));
            }
            left -= way;
            let g = self.topo.other(e, f);
            if g == NONE {
                break;
            }
            let j = (0..3).find(|&j| self.topo.tri_edges[g as usize][j] == e);
            let Some(j) = j else { break };
            // The direction, unfolded across the edge.
            let (yf, yg) = (self.topo.yhat[f as usize][k], self.topo.yhat[g as usize][j]);
            d = axpy(scale(xh, dot(d, xh)), -dot(d, yf), yg);
            (f, p, entry) = (g, hit, e);
        }
        out
    }
}
