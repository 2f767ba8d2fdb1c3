//! A job as the library takes it: rows of numbers.
use crate::{Piece, Vec3};

/// The mesh is borrowed as it is; flags and pieces are written out.
#[derive(Clone, Debug)]
pub(crate) struct Input<'a> {
    pub vertices: &'a [f64],
    pub triangles: &'a [u32],
    pub flags: Vec<u8>,
    pub kinds: Vec<u8>,
    pub faces: Vec<u32>,
    pub coords: Vec<f64>,
    pub limit: f64,
    pub max_steps: u32,
}

impl<'a> Input<'a> {
    pub(crate) fn new(
        v: &'a [Vec3],
        t: &'a [[u32; 3]],
        flags: &[bool],
        sources: &[Piece],
        limit: f64,
        max_steps: u32,
    ) -> Self {
        let mut input = Input {
            vertices: v.as_flattened(),
            triangles: t.as_flattened(),
            flags: flags.iter().map(|&flag| u8::from(flag)).collect(),
            kinds: Vec::with_capacity(sources.len()),
            faces: Vec::with_capacity(sources.len()),
            coords: Vec::with_capacity(6 * sources.len()),
            limit,
            max_steps,
        };
        for &piece in sources {
            let (kind, face, a, b) = match piece {
                Piece::Point(face, a) => (0, face, a, [0.; 3]),
                Piece::Segment(face, a, b) => (1, face, a, b),
            };
            input.kinds.push(kind);
            input.faces.push(face);
            input.coords.extend(a);
            input.coords.extend(b);
        }
        input
    }
}
