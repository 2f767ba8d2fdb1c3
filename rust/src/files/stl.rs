//! Binary STL, read and written by the library.
use super::Mesh;
use crate::refusal::{About, Refusal};
use crate::{Vec3, ffi};

/// A mesh of the bytes of a binary STL file. Corners whose coordinates compare equal are one vertex, numbered as they are met.
///
/// # Errors
/// 40 and 41: the length is not that of an STL file; 42: a coordinate is not finite; 43: too many vertices or triangles.
pub fn read_stl(bytes: &[u8]) -> Result<Mesh, Refusal> {
    let (vertices, triangles) =
        ffi::read_stl(bytes).map_err(|number| Refusal::new(number, About::Job))?;
    Ok(Mesh {
        v: vertices
            .chunks_exact(3)
            .map(|p| [p[0], p[1], p[2]])
            .collect(),
        t: triangles
            .chunks_exact(3)
            .map(|t| [t[0], t[1], t[2]])
            .collect(),
    })
}

/// The bytes of a mesh as binary STL, its normals zero.
///
/// # Errors
/// 1: too many vertices or triangles; 2: a triangle names a missing vertex; 44: a coordinate is no f32.
pub fn write_stl(v: &[Vec3], t: &[[u32; 3]]) -> Result<Vec<u8>, Refusal> {
    ffi::write_stl(v.as_flattened(), t.as_flattened())
        .map_err(|number| Refusal::new(number, About::Job))
}
