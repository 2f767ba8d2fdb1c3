//! What a refusal is about: the library answers a number alone, so the first that meets it is looked for again. A sentence hangs on this, and nothing else.
use crate::input::Input;
use crate::refusal::{About, Refusal};
use std::collections::HashMap;

const MOST: f64 = 1_000_000.;
const SHORTEST: f64 = 0.001;
const LOWEST: f64 = 1e-6;

fn three(list: &[f64]) -> [f64; 3] {
    [list[0], list[1], list[2]]
}

fn in_range(list: &[f64]) -> bool {
    list.iter().all(|x| x.abs() <= MOST)
}

fn sub(a: [f64; 3], b: [f64; 3]) -> [f64; 3] {
    [a[0] - b[0], a[1] - b[1], a[2] - b[2]]
}

fn dot(a: [f64; 3], b: [f64; 3]) -> f64 {
    a[0] * b[0] + a[1] * b[1] + a[2] * b[2]
}

impl Input<'_> {
    fn tris(&self) -> impl Iterator<Item = [u32; 3]> {
        self.triangles.chunks_exact(3).map(|t| [t[0], t[1], t[2]])
    }

    fn vertex(&self, k: u32) -> Option<[f64; 3]> {
        self.vertices.get(3 * k as usize..)?.get(..3).map(three)
    }

    /// As the library computes it: each edge from its lower vertex.
    fn degenerate(&self, tri: [u32; 3]) -> Option<bool> {
        for k in 0..3 {
            let (a, b) = (tri[k].min(tri[(k + 1) % 3]), tri[k].max(tri[(k + 1) % 3]));
            let o = self.vertex(a)?;
            let d = sub(self.vertex(b)?, o);
            let l = dot(d, d).sqrt();
            let xhat = d.map(|x| x * (1. / l));
            let w = sub(self.vertex(tri[(k + 2) % 3])?, o);
            let along = -dot(w, xhat);
            let p = [0, 1, 2].map(|i| w[i] + along * xhat[i]);
            if !(l >= SHORTEST && dot(p, p).sqrt() >= LOWEST) {
                return Some(true);
            }
        }
        Some(false)
    }

    fn used(&self, piece: usize) -> &[f64] {
        let length = if self.kinds[piece] == 0 { 3 } else { 6 };
        &self.coords[6 * piece..6 * piece + length]
    }

    fn malformed(&self) -> About {
        let vertices = self.vertices.len() / 3;
        if vertices > 65_535 {
            About::Count("vertices", vertices, 65_535)
        } else if self.triangles.len() / 3 > 131_070 {
            About::Count("triangles", self.triangles.len() / 3, 131_070)
        } else if self.kinds.len() > 65_535 {
            About::Count("pieces", self.kinds.len(), 65_535)
        } else {
            About::Flags(self.flags.len(), vertices)
        }
    }

    fn missing(&self) -> Option<About> {
        let n = self.flags.len();
        let named = self
            .tris()
            .enumerate()
            .flat_map(|(k, tri)| tri.map(|v| (k, v)));
        let mut missing = named.filter(|&(_, v)| v as usize >= n);
        missing.next().map(|(k, v)| About::Names(k, v))
    }

    fn repeated(&self) -> Option<About> {
        let twice = |[a, b, c]: [u32; 3]| {
            if a == b || a == c {
                Some(a)
            } else {
                (b == c).then_some(b)
            }
        };
        let mut found = self
            .tris()
            .enumerate()
            .filter_map(|(k, tri)| Some((k, twice(tri)?)));
        found.next().map(|(k, v)| About::Names(k, v))
    }

    fn third_face(&self) -> Option<About> {
        let mut count: HashMap<(u32, u32), u32> = HashMap::new();
        for [a, b, c] in self.tris() {
            for (a, b) in [(a, b), (b, c), (c, a)] {
                let key = (a.min(b), a.max(b));
                let n = count.entry(key).or_default();
                *n += 1;
                if *n > 2 {
                    return Some(About::Edge(key.0, key.1));
                }
            }
        }
        None
    }

    /// The first segment that ends at the very coordinates of a vertex of its face.
    fn ends_on_vertex(&self) -> Option<About> {
        let ends = |piece: usize| self.used(piece).chunks_exact(3).map(three);
        let corners = |piece: usize| {
            let at = 3 * self.faces[piece] as usize;
            let tri = self.triangles.get(at..at + 3).unwrap_or_default();
            tri.iter()
                .filter_map(|&k| self.vertex(k))
                .collect::<Vec<_>>()
        };
        let on_vertex = |&piece: &usize| {
            self.kinds[piece] == 1 && ends(piece).any(|p| corners(piece).contains(&p))
        };
        (0..self.kinds.len()).find(on_vertex).map(About::Piece)
    }

    fn culprit(&self, number: u32) -> Option<About> {
        let pieces = 0..self.kinds.len();
        match number {
            1 => Some(self.malformed()),
            2 => self.missing(),
            3 => self.repeated(),
            4 => {
                let mut vertices = self.vertices.chunks_exact(3);
                vertices.position(|v| !in_range(v)).map(About::Vertex)
            }
            5 => {
                let mut tris = self.tris();
                tris.position(|tri| self.degenerate(tri) == Some(true))
                    .map(About::Triangle)
            }
            6 => {
                let n = self.triangles.len() / 3;
                self.faces
                    .iter()
                    .position(|&f| f as usize >= n)
                    .map(About::Piece)
            }
            7 => pieces
                .into_iter()
                .find(|&k| !in_range(self.used(k)))
                .map(About::Piece),
            8 => Some(About::Limit(self.limit)),
            10 => self.third_face(),
            11 => self.ends_on_vertex(),
            15 => Some(About::Steps(self.max_steps)),
            _ => None,
        }
    }
}

/// A refusal with what it is about.
pub(crate) fn find(number: u32, input: &Input) -> Refusal {
    Refusal::new(number, input.culprit(number).unwrap_or(About::Job))
}
