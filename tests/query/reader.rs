//! A field as rooms say it is, damaged or not: refusal 20 of document 01, and the queries as the Rust answers them.
use oracle::exact::{Src, Win, clamp};
use oracle::job::Job;
use oracle::reading::{Patched, Reading};
use oracle::rooms::{Rooms, Told};
use oracle::vector::{Vec3, axpy, dot, norm, sub};

const NONE: u32 = u32::MAX;

pub struct Reader<'a> {
    pub told: Told,
    pub job: &'a Job,
    pub rooms: &'a Rooms,
}

fn three(list: &[f64], at: usize) -> Vec3 {
    [list[at], list[at + 1], list[at + 2]]
}

/// The numbers from a link on, at most so many.
fn chain(link: u32, most: usize, next: impl Fn(u32) -> u32) -> Vec<u32> {
    let behind = |&n: &u32| Some(next(n)).filter(|&l| l > 0).map(|l| l - 1);
    std::iter::successors(link.checked_sub(1), behind)
        .take(most)
        .collect()
}

impl Reader<'_> {
    fn edge(&self, e: u32, k: usize) -> u32 {
        self.rooms.edge_words[6 * e as usize + k]
    }

    fn triangle(&self, f: u32, k: usize) -> u32 {
        self.rooms.triangle_words[6 * f as usize + k]
    }

    fn window(&self, i: u32, k: usize) -> u32 {
        self.rooms.words[4 * i as usize + k]
    }

    fn entry(&self, n: u32, k: usize) -> u32 {
        self.rooms.entry_words[3 * n as usize + k]
    }

    fn places(&self) -> usize {
        self.rooms.entry_words.len() / 3
    }

    /// At most one link more than there are places.
    pub fn on_edge(&self, e: u32) -> Vec<u32> {
        chain(self.edge(e, 4), self.told[4] as usize + 1, |i| {
            self.window(i, 3)
        })
    }

    fn in_face(&self, f: u32) -> Vec<u32> {
        chain(self.triangle(f, 3), self.places() + 1, |n| self.entry(n, 2))
    }

    pub fn win(&self, i: u32) -> Win {
        let reals = &self.rooms.reals[6 * i as usize..];
        let [x, y, z] = three(reals, 3);
        let flags = self.window(i, 2);
        let point = Src::Point { x, y, s: z };
        let line = Src::Line { ux: x, uy: y, c: z };
        Win {
            edge: self.window(i, 0),
            into: self.window(i, 1),
            b0: reals[0],
            b1: reals[1],
            src: if flags & 1 == 1 { line } else { point },
            alive: flags & 2 == 2,
            queued: flags & 4 == 4,
            low: reals[2],
        }
    }

    /// A window as a slot of a window buffer has it; of the flags those that there are.
    pub fn slot(&self, i: u32) -> ([u32; 4], [f64; 6]) {
        let at = 6 * i as usize;
        let flags = self.window(i, 2) % 8;
        let words = [
            self.window(i, 0),
            self.window(i, 1),
            flags,
            self.window(i, 3),
        ];
        let reals = self.rooms.reals[at..at + 6].try_into().expect("six");
        (words, reals)
    }

    /// The window at a place in an edge's list.
    pub fn window_at(&self, e: u32, place: u32) -> Result<u32, u32> {
        if e >= self.told[3] {
            return Err(23);
        }
        self.on_edge(e).get(place as usize).copied().ok_or(26)
    }

    fn too_few(&self) -> bool {
        let ([v, t, _, e, w, _], lent) = (self.told, self.rooms.slots());
        // of the vertices only the distances are lent again
        let distances = self.rooms.vertex.len() / 2;
        lent.edges < e || lent.triangles < t || distances < v as usize || lent.buffers.windows < w
    }

    fn counts_differ(&self) -> bool {
        let ([v, t, p, ..], job) = (self.told.map(|n| n as usize), self.job);
        job.vertices.len() != 3 * v
            || job.triangles.len() != 3 * t
            || job.piece_kinds.len() != p
            || job.piece_faces.len() != p
            || job.piece_coords.len() != 6 * p
    }

    fn points_outside(&self) -> bool {
        let [v, t, _, e, w, _] = self.told;
        let face = |f: u32| f >= t && f != NONE;
        let entry = |l: u32| l as usize > self.places();
        let edges = (0..e).any(|k| {
            self.edge(k, 0) >= v
                || self.edge(k, 1) >= v
                || face(self.edge(k, 2))
                || face(self.edge(k, 3))
                || self.edge(k, 4) > w
        });
        let sides = |f: u32| (0..3).any(|k| self.triangle(f, k) >= e);
        let triangles =
            |f: u32| sides(f) || entry(self.triangle(f, 3)) || entry(self.triangle(f, 4));
        let windows =
            |i: u32| self.window(i, 0) >= e || face(self.window(i, 1)) || self.window(i, 3) > w;
        edges || (0..t).any(triangles) || (0..w).any(windows)
    }

    fn lists_unsound(&self) -> bool {
        let [_, t, pieces, e, w, _] = self.told;
        let lists: Vec<Vec<u32>> = (0..e).map(|k| self.on_edge(k)).collect();
        if lists.iter().map(Vec::len).sum::<usize>() > w as usize {
            return true;
        }
        let listed = |i: u32| !(self.win(i).b0 < self.win(i).b1);
        let rising = |p: &[u32]| self.win(p[0]).b0 < self.win(p[1]).b0;
        if lists
            .iter()
            .any(|l| l.iter().any(|&i| listed(i)) || !l.windows(2).all(rising))
        {
            return true;
        }
        // a number that points outside ends the walk
        let outside = |n: u32| {
            self.entry(n, 0) >= pieces
                || self.entry(n, 1) > 2
                || self.entry(n, 2) as usize > self.places()
        };
        let mut left = self.places();
        (0..t).any(|f| {
            let mut link = self.triangle(f, 3);
            while link > 0 {
                if left == 0 || outside(link - 1) {
                    return true;
                }
                left -= 1;
                link = self.entry(link - 1, 2);
            }
            false
        })
    }

    /// Refusal 20.
    pub fn unsound(&self) -> bool {
        self.too_few()
            || self.counts_differ()
            || self.job.check().is_err()
            || self.points_outside()
            || self.lists_unsound()
    }

    fn distance(&self, k: u32) -> f64 {
        self.rooms.vertex[2 * k as usize]
    }

    fn length(&self, e: u32) -> f64 {
        self.rooms.edge_reals[4 * e as usize]
    }

    pub fn vertex(&self, k: u32) -> (u32, f64) {
        if k >= self.told[0] {
            (25, f64::NAN)
        } else {
            (0, self.distance(k))
        }
    }

    /// The Rust's `edge_at`.
    pub fn edge_at(&self, e: u32, x: f64) -> (u32, f64) {
        if e >= self.told[3] {
            return (23, f64::NAN);
        }
        let l = self.length(e);
        if !(0. ..=l).contains(&x) {
            return (24, f64::NAN);
        }
        let (a, b) = (
            self.distance(self.edge(e, 0)),
            self.distance(self.edge(e, 1)),
        );
        let mut d = Patched::min(a + x, b + l - x);
        let list: Vec<Win> = self.on_edge(e).into_iter().map(|i| self.win(i)).collect();
        let i = list.partition_point(|w| w.b0 <= x);
        if let Some(w) = list.get(i) {
            d = Patched::min(d, w.eval::<Patched>(x, 0.));
        }
        for w in list[..i].iter().rev() {
            d = Patched::min(d, w.eval::<Patched>(x, 0.));
            if w.b1 < x {
                break;
            }
        }
        (0, d)
    }

    fn coords(&self, e: u32, f: u32, p: Vec3) -> (f64, f64) {
        let w = sub(p, three(&self.job.vertices, 3 * self.edge(e, 0) as usize));
        let local = (0..3)
            .find(|&k| self.triangle(f, k) == e)
            .expect("its edge");
        let (xhat, yhat) = (4 * e as usize + 1, 9 * f as usize + 3 * local);
        (
            dot(w, three(&self.rooms.edge_reals, xhat)),
            dot(w, three(&self.rooms.triangle_reals, yhat)),
        )
    }

    fn to_entry(&self, n: u32, p: Vec3) -> f64 {
        let at = 6 * self.entry(n, 0) as usize;
        let (a, b) = (
            three(&self.job.piece_coords, at),
            three(&self.job.piece_coords, at + 3),
        );
        match self.entry(n, 1) {
            0 => norm(sub(p, a)),
            1 => norm(sub(p, b)),
            _ => {
                let ab = sub(b, a);
                let s = clamp(
                    dot(sub(p, a), ab) / Patched::max(dot(ab, ab), 1e-300),
                    0.,
                    1.,
                );
                norm(sub(p, axpy(a, s, ab)))
            }
        }
    }

    /// The Rust's `at`.
    pub fn at(&self, f: u32, p: Vec3) -> (u32, f64) {
        if f >= self.told[1] {
            return (21, f64::NAN);
        }
        if !p.iter().all(|x| x.abs() <= 1_000_000.) {
            return (22, f64::NAN);
        }
        let mut d = f64::INFINITY;
        for k in 0..3 {
            let k = self.job.triangles[3 * f as usize + k];
            d = Patched::min(
                d,
                norm(sub(p, three(&self.job.vertices, 3 * k as usize))) + self.distance(k),
            );
        }
        for k in 0..3 {
            let e = self.triangle(f, k);
            let (x, y) = self.coords(e, f, p);
            let y = Patched::max(y, 0.);
            for w in self.on_edge(e).into_iter().map(|i| self.win(i)) {
                if w.alive && y + w.low < d {
                    d = Patched::min(d, w.eval::<Patched>(x, y));
                }
            }
        }
        for n in self.in_face(f) {
            d = Patched::min(d, self.to_entry(n, p));
        }
        (0, d)
    }
}
