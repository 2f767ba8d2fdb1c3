//! Exact geodesic distance fields over triangle meshes, from start points and start lines on them, by the window propagation of Mitchell, Mount and Papadimitriou.
//!
//! The work is done by a library that is proved: every job ends in a field or in a numbered refusal, and a field equals to the bit that of the Rust module exact.rs (stevecad/camlib), with
//! its hypot, min and max as document 01 fixes them. This interface has that module's names and shapes. The package lends the memory, lets it grow, and says a refusal in a sentence.
//!
//! ```
//! use sirmolaat::{Field, Options, Piece, Topology};
//!
//! let v = [[0., 0., 0.], [3., 0., 0.], [0., 4., 0.]];
//! let t = [[0, 1, 2]];
//! let topo = Topology::new(&v, &t, &[false; 3])?;
//! let field = Field::compute(&v, &t, &topo, &[Piece::Point(0, v[0])], 10., &Options::default())?;
//! assert!((field.vertex_at(2) - 4.).abs() < 1e-9);
//! assert!((field.at(0, [1., 0., 0.]) - 1.).abs() < 1e-9);
//! # Ok::<(), sirmolaat::Refusal>(())
//! ```
#![deny(unsafe_code, missing_docs)]

mod buffers;
mod culprit;
mod ffi;
mod field;
pub mod files;
mod flags;
mod input;
mod job;
pub mod picture;
mod refusal;
pub mod slip;
mod topology;
mod walk;

pub use buffers::Slots;
pub use field::{Field, Options, Row, Src, Win};
pub use flags::{boundary, saddles};
pub use job::{Job, Progress, Turn};
pub use refusal::{About, Refusal};
pub use topology::Topology;
pub use walk::{face_above, walk};

/// A point or a vector: three coordinates, in millimetres.
pub type Vec3 = [f64; 3];

/// No face: an edge's second face at the boundary, and what a window that goes into no face has.
pub const NONE: u32 = u32::MAX;

/// A source on the mesh: a point, or a straight segment, in the (closed) face given.
#[derive(Clone, Copy, Debug, PartialEq)]
pub enum Piece {
    /// In this face, at this point.
    Point(u32, Vec3),
    /// In this face, from the first point to the second.
    Segment(u32, Vec3, Vec3),
}
