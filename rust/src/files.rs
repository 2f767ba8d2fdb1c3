//! Meshes and start lines from files: OFF, PLY, STL, and text. A file may hold anything; what cannot be read is a [`Problem`], never a panic.
mod ascii_stl;
mod off;
mod ply;
mod sources;
mod stl;
mod words;

pub use ascii_stl::{binary_stl, is_ascii_stl};
pub use off::read_off;
pub use ply::read_ply;
pub use sources::read_sources;
pub use stl::{read_stl, write_stl};

use crate::Vec3;
use std::fmt;

/// Vertices and triangles, as a file has them.
#[derive(Clone, Debug, Default, PartialEq)]
pub struct Mesh {
    /// Coordinates of each vertex.
    pub v: Vec<Vec3>,
    /// The three vertices of each triangle.
    pub t: Vec<[u32; 3]>,
}

impl Mesh {
    /// A face of three vertices or more, as the triangles round its first.
    fn push_face(&mut self, corners: &[u32]) {
        for pair in corners.windows(2).skip(1) {
            self.t.push([corners[0], pair[0], pair[1]]);
        }
    }
}

/// What is wrong with a file, in a sentence.
#[derive(Clone, Debug, PartialEq, Eq)]
pub struct Problem(pub(crate) String);

impl fmt::Display for Problem {
    fn fmt(&self, to: &mut fmt::Formatter) -> fmt::Result {
        to.write_str(&self.0)
    }
}

impl std::error::Error for Problem {}

fn problem<T>(sentence: impl Into<String>) -> Result<T, Problem> {
    Err(Problem(sentence.into()))
}

/// A mesh of the bytes of an OFF or a PLY file, by how it begins.
///
/// # Errors
/// The bytes are neither, or break off.
pub fn read_mesh(bytes: &[u8]) -> Result<Mesh, Problem> {
    if bytes.starts_with(b"ply") {
        read_ply(bytes)
    } else if bytes.starts_with(b"OFF") || bytes.starts_with(b"COFF") || bytes.starts_with(b"NOFF")
    {
        read_off(bytes)
    } else {
        problem("this is neither OFF nor PLY: the first line of the one is OFF, of the other ply")
    }
}
