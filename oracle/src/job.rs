//! A job as it is handed in: exact slices and counts, checked before any
//! work (refusals 1 to 8), then topology (10) and the field (11 on).
use crate::exact::{Buffers, Field, Piece, Refusal, Topology};
use crate::reading::Reading;
use crate::vector::{Vec3, axpy, dot, norm, scale, sub};

pub const MAX_VERTICES: usize = 65_535;
pub const MAX_TRIANGLES: usize = 131_070;
pub const MAX_PIECES: usize = 65_535;
pub const MAX_COORDINATE: f64 = 1_000_000.;
pub const MAX_LIMIT: f64 = 10_000_000.;
pub const MIN_LENGTH: f64 = 0.001;
pub const MIN_ALTITUDE: f64 = 1e-6;

#[derive(Clone, Debug, PartialEq)]
pub struct Job {
    /// Three coordinates a vertex.
    pub vertices: Vec<f64>,
    /// Three vertex numbers a triangle.
    pub triangles: Vec<u32>,
    /// One byte a vertex.
    pub flags: Vec<u8>,
    /// 0 for a point, 1 for a segment.
    pub piece_kinds: Vec<u8>,
    pub piece_faces: Vec<u32>,
    /// Six coordinates a piece; a point uses the first three.
    pub piece_coords: Vec<f64>,
    pub limit: f64,
    pub max_steps: u32,
    pub buffers: Buffers,
}

fn in_range(x: f64) -> bool {
    x.abs() <= MAX_COORDINATE
}

fn refuse_if(refused: bool, number: u32) -> Result<(), Refusal> {
    if refused {
        Err(Refusal(number))
    } else {
        Ok(())
    }
}

/// The coordinates of a piece that its kind uses.
fn used(kind: u8, coords: &[f64]) -> &[f64] {
    if kind == 0 { &coords[..3] } else { coords }
}

/// The Rust's edge lengths and altitudes of a triangle, without an edge
/// table: each edge starts at its lower-numbered vertex.
fn degenerate(v: &[Vec3], tri: [u32; 3]) -> bool {
    (0..3).any(|k| {
        let (a, b) = (tri[k].min(tri[(k + 1) % 3]), tri[k].max(tri[(k + 1) % 3]));
        let o = v[a as usize];
        let l = norm(sub(v[b as usize], o));
        let xhat = scale(sub(v[b as usize], o), 1. / l);
        let w = sub(v[tri[(k + 2) % 3] as usize], o);
        let p = axpy(w, -dot(w, xhat), xhat);
        !(l >= MIN_LENGTH && norm(p) >= MIN_ALTITUDE)
    })
}

impl Job {
    pub fn vec3s(&self) -> Vec<Vec3> {
        self.vertices
            .chunks_exact(3)
            .map(|c| [c[0], c[1], c[2]])
            .collect()
    }

    pub fn tris(&self) -> Vec<[u32; 3]> {
        self.triangles
            .chunks_exact(3)
            .map(|c| [c[0], c[1], c[2]])
            .collect()
    }

    pub fn pieces(&self) -> Vec<Piece> {
        self.piece_kinds
            .iter()
            .zip(&self.piece_faces)
            .zip(self.piece_coords.chunks_exact(6))
            .map(|((&kind, &f), c)| match kind {
                0 => Piece::Point(f, [c[0], c[1], c[2]]),
                _ => Piece::Segment(f, [c[0], c[1], c[2]], [c[3], c[4], c[5]]),
            })
            .collect()
    }

    fn shape(&self) -> bool {
        let pieces = self.piece_kinds.len();
        self.vertices.len().is_multiple_of(3)
            && self.triangles.len().is_multiple_of(3)
            && self.vertices.len() / 3 <= MAX_VERTICES
            && self.triangles.len() / 3 <= MAX_TRIANGLES
            && pieces <= MAX_PIECES
            && self.flags.len() == self.vertices.len() / 3
            && self.piece_faces.len() == pieces
            && self.piece_coords.len() == 6 * pieces
            && self.flags.iter().all(|&b| b <= 1)
            && self.piece_kinds.iter().all(|&b| b <= 1)
    }

    /// Refusals 1 to 8, each over the whole job before the next.
    pub fn check(&self) -> Result<(), Refusal> {
        refuse_if(!self.shape(), 1)?;
        let n = self.flags.len() as u32;
        let (v, t) = (self.vec3s(), self.tris());
        refuse_if(self.triangles.iter().any(|&k| k >= n), 2)?;
        refuse_if(t.iter().any(|&[a, b, c]| a == b || b == c || a == c), 3)?;
        refuse_if(!self.vertices.iter().all(|&x| in_range(x)), 4)?;
        refuse_if(t.iter().any(|&tri| degenerate(&v, tri)), 5)?;
        refuse_if(self.piece_faces.iter().any(|&f| f as usize >= t.len()), 6)?;
        let coords = self
            .piece_kinds
            .iter()
            .zip(self.piece_coords.chunks_exact(6));
        let far = coords
            .into_iter()
            .any(|(&kind, c)| !used(kind, c).iter().all(|&x| in_range(x)));
        refuse_if(far, 7)?;
        refuse_if(!(0. ..=MAX_LIMIT).contains(&self.limit), 8)
    }
}

/// A checked job's mesh with its topology, and its source pieces.
pub struct Mesh {
    pub v: Vec<Vec3>,
    pub t: Vec<[u32; 3]>,
    pub topo: Topology,
    pub pieces: Vec<Piece>,
    limit: f64,
    max_steps: u32,
    buffers: Buffers,
}

impl Mesh {
    /// Refusals 1 to 8 and 10.
    pub fn new(job: &Job) -> Result<Mesh, Refusal> {
        job.check()?;
        let (v, t) = (job.vec3s(), job.tris());
        let pseudo: Vec<bool> = job.flags.iter().map(|&b| b == 1).collect();
        let topo = Topology::new(&v, &t, &pseudo)?;
        Ok(Mesh {
            v,
            t,
            topo,
            pieces: job.pieces(),
            limit: job.limit,
            max_steps: job.max_steps,
            buffers: job.buffers,
        })
    }

    pub fn empty<R: Reading>(&self) -> Field<'_, R> {
        Field::empty(&self.v, &self.t, &self.topo, self.limit, self.buffers)
    }

    /// The state before the first pop; refusals 11 to 14 and 17.
    pub fn inserted<R: Reading>(&self) -> Result<Field<'_, R>, Refusal> {
        let mut field = self.empty();
        field.start(&self.pieces)?;
        Ok(field)
    }

    /// Refusals 11 to 15 and 17.
    pub fn field<R: Reading>(&self) -> Result<Field<'_, R>, Refusal> {
        let mut field = self.empty();
        field.run(&self.pieces, self.max_steps.into())?;
        Ok(field)
    }

    /// The distance in a face; 21, 22.
    pub fn at<R: Reading>(&self, field: &Field<R>, f: u32, p: Vec3) -> Result<f64, Refusal> {
        refuse_if(f as usize >= self.t.len(), 21)?;
        refuse_if(!p.iter().all(|&x| in_range(x)), 22)?;
        Ok(field.at(f, p))
    }

    /// The distance on an edge; 23, 24.
    pub fn edge_at<R: Reading>(&self, field: &Field<R>, e: u32, x: f64) -> Result<f64, Refusal> {
        refuse_if(e as usize >= self.topo.edges.len(), 23)?;
        refuse_if(!(0. ..=self.topo.len[e as usize]).contains(&x), 24)?;
        Ok(field.edge_at(e, x))
    }
}
