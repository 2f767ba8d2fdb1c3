//! Vectors of insertion, propagation and the entries of faces, on values:
//! what the Rust reads of its mesh, and the windows that it offers to `add`.
//! The mesh is two faces over one edge; its lengths and frames are mostly
//! those of real triangles and often any doubles at all.
use super::Out;
use super::leaves::{likely, modest, number, src};
use crate::exact::{Buffers, Field, NONE, Op, Part, Piece, Src, Topology, Win};
use crate::generate::rng::Rng;
use crate::reading::Patched;
use crate::vector::{Vec3, axpy, norm, scale, sub};

/// Vertices 0, 1 and 2 are face 0, vertices 1, 0 and 3 face 1.
struct Pair {
    v: Vec<Vec3>,
    t: Vec<[u32; 3]>,
    topo: Topology,
}

impl Pair {
    fn new(rng: &mut Rng) -> Pair {
        loop {
            let v: Vec<Vec3> = (0..4).map(|_| vertex(rng)).collect();
            let t = if rng.one_in(4) {
                vec![[0, 1, 2]]
            } else {
                vec![[0, 1, 2], [1, 0, 3]]
            };
            if let Ok(topo) = Topology::new(&v, &t, &[false; 4]) {
                let mut pair = Pair { v, t, topo };
                pair.turn_edges(rng);
                if rng.one_in(3) {
                    pair.distort(rng);
                }
                return pair;
            }
        }
    }

    /// Each edge may start from either of its vertices.
    fn turn_edges(&mut self, rng: &mut Rng) {
        for e in 0..self.topo.edges.len() {
            if rng.one_in(2) {
                self.topo.edges[e].swap(0, 1);
                self.topo.xhat[e] = scale(self.topo.xhat[e], -1.);
            }
        }
    }

    /// Numbers that no triangle has.
    fn distort(&mut self, rng: &mut Rng) {
        let all = rng.one_in(3);
        for x in &mut self.topo.len {
            if all || rng.one_in(4) {
                *x = odd(rng);
            }
        }
        let frames = self
            .topo
            .xhat
            .iter_mut()
            .chain(self.topo.yhat.iter_mut().flatten());
        for u in frames {
            if all || rng.one_in(4) {
                *u = direction(rng);
            }
        }
    }

    fn field(&self) -> Field<'_, Patched> {
        let limit = f64::NEG_INFINITY;
        let mut field = Field::empty(&self.v, &self.t, &self.topo, limit, Buffers::UNBOUNDED);
        field.record = Some(vec![]);
        field
    }
}

/// What was offered to `add` on an edge, in order.
fn offered(field: &Field<'_, Patched>, e: u32) -> Vec<Win> {
    field
        .record
        .iter()
        .flatten()
        .filter_map(|op| match op {
            Op::Add(w) if w.edge == e => Some(*w),
            _ => None,
        })
        .collect()
}

/// 1 for a point and 2 for a line, and three numbers.
fn source(out: &mut Out, src: &Src) {
    let (kind, numbers) = crate::dump::src_parts(src);
    out.f64(f64::from(kind) + 1.);
    out.f64s(&numbers);
}

/// A window's ends and its source; zeros where there is none.
fn answer(out: &mut Out, w: Option<&Win>) {
    match w {
        Some(w) => {
            out.f64s(&[w.b0, w.b1]);
            source(out, &w.src);
        }
        None => out.f64s(&[0.; 6]),
    }
}

fn odd(rng: &mut Rng) -> f64 {
    match rng.below(4) {
        0 => rng.pick(&[0., -0., 1., 1e-12, 1e12, f64::INFINITY, f64::NAN, -1.]),
        1 => number(rng),
        _ => modest(rng).abs(),
    }
}

fn vertex(rng: &mut Rng) -> Vec3 {
    let flat = rng.one_in(2);
    let grid = rng.one_in(3);
    [0, 1, 2].map(|k| {
        if flat && k == 2 {
            0.
        } else if grid {
            rng.below(9) as f64 - 4.
        } else {
            modest(rng)
        }
    })
}

fn direction(rng: &mut Rng) -> Vec3 {
    match rng.below(5) {
        0 => rng.pick(&[
            [1., -0., -0.],
            [0., 1., 0.],
            [-0., 1., -0.],
            [-1., 0., 0.],
            [0., 0., 0.],
        ]),
        1 => [odd(rng), odd(rng), odd(rng)],
        _ => {
            let d = [0, 1, 2].map(|_| modest(rng));
            scale(d, 1. / norm(d))
        }
    }
}

/// A number and those beside it.
fn beside(rng: &mut Rng, x: f64) -> f64 {
    rng.pick(&[x, x.next_up(), x.next_down()])
}

/// A source for a window on an edge of length l, at the bounds of the
/// tests of `propagate` among others.
fn window_source(rng: &mut Rng, l: f64, c: (f64, f64)) -> Src {
    match rng.below(8) {
        0 => Src::Point {
            x: modest(rng),
            y: beside(rng, -1e-12 * l),
            s: modest(rng).abs(),
        },
        1 => Src::Line {
            ux: rng.pick(&[1., -1.]),
            uy: beside(rng, 1e-12),
            c: modest(rng),
        },
        // On the line through an end of the edge and the opposite vertex:
        // nothing of it is seen across the next edge.
        2 => {
            let (end, k) = (rng.pick(&[0., l]), -rng.between(0., 2.));
            Src::Point {
                x: end + k * (c.0 - end),
                y: k * c.1,
                s: 0.,
            }
        }
        3 => {
            let end = rng.pick(&[0., l]);
            let (x, y) = (c.0 - end, c.1);
            let n = x.hypot(y);
            Src::Line {
                ux: x / n,
                uy: y / n,
                c: 0.,
            }
        }
        4 => src(rng),
        _ => likely(rng),
    }
}

fn window_range(rng: &mut Rng, l: f64) -> (f64, f64) {
    let (a, b) = (rng.between(0., 1.) * l, rng.between(0., 1.) * l);
    match rng.below(6) {
        0 => (0., l),
        1 => (a, a + 1e-12 * l * rng.between(0.5, 1.5)),
        2 => (number(rng), number(rng)),
        3 => (modest(rng), modest(rng)),
        _ => (a.min(b), a.max(b)),
    }
}

/// 0 and 1 for the ends of the window's edge, 2 for the opposite vertex.
fn name(k: u32, [a, b]: [u32; 2]) -> f64 {
    if k == a {
        0.
    } else if k == b {
        1.
    } else {
        2.
    }
}

pub fn propagate(rng: &mut Rng, out: &mut Out) {
    let pair = Pair::new(rng);
    let mut field = pair.field();
    let l = pair.topo.len[0];
    let c = field.coords(0, 0, pair.v[2]);
    let src = window_source(rng, l, c);
    let (b0, b1) = window_range(rng, l);
    field
        .propagate(Win {
            edge: 0,
            into: 0,
            b0,
            b1,
            src,
            alive: true,
            queued: false,
            low: 0.,
        })
        .expect("the buffers have no bounds");
    source(out, &src);
    out.f64s(&[b0, b1, l, c.0, c.1]);
    let ends = pair.topo.edges[0];
    let next: Vec<u32> = ends
        .iter()
        .map(|&side| {
            *pair.topo.tri_edges[0][1..]
                .iter()
                .find(|&&e| pair.topo.edges[e as usize].contains(&side))
                .expect("two of a face's edges meet at each vertex")
        })
        .collect();
    for &e in &next {
        let [p, q] = pair.topo.edges[e as usize];
        out.f64s(&[name(p, ends), name(q, ends), pair.topo.len[e as usize]]);
    }
    for &e in &next {
        answer(out, offered(&field, e).first());
    }
}

pub fn emit(rng: &mut Rng, out: &mut Out) {
    let pair = Pair::new(rng);
    let mut field = pair.field();
    let d = if rng.one_in(4) {
        number(rng)
    } else {
        modest(rng).abs()
    };
    field.emit(2, d).expect("the buffers have no bounds");
    let (x, y) = field.coords(0, 0, pair.v[2]);
    out.f64s(&[x, y, pair.topo.len[0], d]);
    answer(out, offered(&field, 0).first());
}

/// A point of face 0: inside, on an edge, at a vertex, or anywhere.
fn place(rng: &mut Rng, pair: &Pair) -> Vec3 {
    let (k, s) = (rng.below(3), rng.between(0., 1.));
    let (a, b) = (pair.v[k], pair.v[(k + 1) % 3]);
    let on_edge = axpy(a, s, sub(b, a));
    match rng.below(8) {
        0 => a,
        1 | 2 => on_edge,
        3 => vertex(rng),
        _ => axpy(
            on_edge,
            rng.between(0., 1.),
            sub(pair.v[(k + 2) % 3], on_edge),
        ),
    }
}

fn directions(rng: &mut Rng, xhat: Vec3) -> Vec<Vec3> {
    (0..rng.below(3))
        .map(|_| match rng.below(6) {
            0 => xhat,
            1 => scale(xhat, -1.),
            2 => [-xhat[1], xhat[0], 0.],
            _ => direction(rng),
        })
        .collect()
}

/// Two directions, those not there zero.
fn list(out: &mut Out, directions: &[Vec3]) {
    out.f64(directions.len() as f64);
    for k in 0..2 {
        out.f64s(&directions.get(k).copied().unwrap_or_default());
    }
}

/// One edge of one carrier of a point, with the directions of the wedge
/// there: the carrier's own, and those of the other face to be unfolded.
pub fn point(rng: &mut Rng, out: &mut Out) {
    while !try_point(rng, out) {}
}

/// False where two carriers share the edge and one of them offered nothing:
/// the windows do not say whose they are.
fn try_point(rng: &mut Rng, out: &mut Out) -> bool {
    let pair = Pair::new(rng);
    let topo = &pair.topo;
    let mut field = pair.field();
    let p = place(rng, &pair);
    let key = p.map(f64::to_bits);
    let xhat = topo.xhat[rng.below(topo.xhat.len())];
    let behind = [directions(rng, xhat), directions(rng, xhat)];
    for (f, list) in behind.iter().enumerate() {
        field.behind.insert((f as u32, key), list.clone());
    }
    let carriers = field.carrier(0, p);
    let which = rng.below(carriers.len());
    let (g, h) = (carriers[which], carriers[carriers.len() - 1 - which]);
    let (own, other) = (&behind[g as usize], &behind[h as usize]);
    let other = if g == h { &vec![] } else { other };
    field
        .source_point(0, p, 0, Part::EndA)
        .expect("the buffers have no bounds");
    let e = topo.tri_edges[g as usize][rng.below(3)];
    let windows = offered(&field, e);
    let w = if g != h && e == 0 {
        if windows.len() == 1 {
            return false;
        }
        windows.get(which)
    } else {
        windows.first()
    };
    let (x, y) = field.coords(e, g, p);
    out.f64s(&[x, y, topo.len[e as usize]]);
    out.f64s(&pair.v[topo.edges[e as usize][0] as usize]);
    out.f64s(&p);
    out.f64s(&topo.xhat[e as usize]);
    // The faces' common edge is edge 0.
    out.f64s(&topo.xhat[0]);
    out.f64s(&topo.yhat[g as usize][topo.local(g, 0)]);
    out.f64s(&topo.yhat[h as usize][topo.local(h, 0)]);
    list(out, own);
    list(out, other);
    out.f64(w.is_some_and(|w| !w.queued).into());
    answer(out, w);
    true
}

/// A second end for a segment from a: along an edge, upright on one, close,
/// or anywhere.
fn second_end(rng: &mut Rng, pair: &Pair, a: Vec3) -> Vec3 {
    let k = rng.below(3);
    let (u, n) = (pair.topo.xhat[k], pair.topo.yhat[0][k]);
    let r = modest(rng);
    match rng.below(8) {
        0 => axpy(a, r, u),
        1 => axpy(a, r, n),
        2 => axpy(axpy(a, r, n), 1e-15 * r * rng.between(-2., 2.), u),
        3 => axpy(axpy(a, r, u), 1e-12 * r * rng.between(-2., 2.), n),
        4 => axpy(a, 1e-12 * pair.topo.len[0] * rng.between(0.5, 1.5), u),
        5 => a,
        _ => place(rng, pair),
    }
}

/// One edge: the windows of both sides, in order, as many as there are.
pub fn segment(rng: &mut Rng, out: &mut Out) {
    let pair = Pair::new(rng);
    let mut field = pair.field();
    let a = place(rng, &pair);
    let b = second_end(rng, &pair, a);
    field
        .source_segment(0, a, b, 0)
        .expect("the buffers have no bounds");
    let e = pair.topo.tri_edges[0][rng.below(3)];
    let ((ax, ay), (bx, by)) = (field.coords(e, 0, a), field.coords(e, 0, b));
    out.f64s(&[ax, ay, bx, by, pair.topo.len[e as usize]]);
    let windows = offered(&field, e);
    answer(out, windows.first());
    answer(out, windows.get(1));
}

/// `at` with one entry of the face, with one vertex, with a vertex and a
/// window; `edge_at` of an edge without windows.
pub fn entry(rng: &mut Rng, out: &mut Out) {
    let mut pair = Pair::new(rng);
    if rng.one_in(4) {
        pair.v[0] = [number(rng), number(rng), number(rng)];
    }
    let mut field = pair.field();
    let p = if rng.one_in(4) {
        [number(rng), number(rng), number(rng)]
    } else {
        place(rng, &pair)
    };
    let a = place(rng, &pair);
    let b = second_end(rng, &pair, a);
    let (s, l) = (src(rng), pair.topo.len[0]);
    let (b0, b1) = window_range(rng, l);
    let low = s.lowest::<Patched>(b0, b1);
    let (da, db) = (odd(rng), odd(rng));
    let (mut x, y) = field.coords(0, 0, p);
    let case = rng.below(5) as u32;
    match case {
        0 => {
            field.in_face.insert(0, vec![Piece::Point(0, a)]);
        }
        1 => {
            field.in_face.insert(0, vec![Piece::Segment(0, a, b)]);
        }
        2 => field.vertex[0] = da,
        3 => {
            field.vertex[0] = da;
            field.on_edge[0] = vec![0];
            field.wins.push(Win {
                edge: 0,
                into: NONE,
                b0,
                b1,
                src: s,
                alive: true,
                queued: false,
                low,
            });
        }
        _ => {
            let [i, j] = pair.topo.edges[0];
            field.vertex[i as usize] = da;
            field.vertex[j as usize] = db;
            x = window_range(rng, l).0;
        }
    }
    let d = if case < 4 {
        field.at(0, p)
    } else {
        field.edge_at(0, x)
    };
    out.f64(f64::from(case));
    out.f64s(&p);
    out.f64s(if case < 2 { &a } else { &pair.v[0] });
    out.f64s(&b);
    out.f64s(&[da, db, b0, b1, low]);
    source(out, &s);
    out.f64s(&[x, y, l, d]);
}
