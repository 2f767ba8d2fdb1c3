//! OFF: the word OFF, counts of vertices, faces and edges, then the vertices and the faces.
use super::words::{Words, text};
use super::{Mesh, Problem};

/// A mesh of the bytes of an OFF file. Colours are passed over; a face of more than three vertices becomes triangles round its first.
///
/// # Errors
/// The bytes are no OFF, or break off.
pub fn read_off(bytes: &[u8]) -> Result<Mesh, Problem> {
    let mut words = Words::new(text(bytes)?);
    match words.next() {
        Some("OFF" | "COFF" | "NOFF") => {}
        _ => return words.problem("an OFF file begins with the word OFF"),
    }
    let vertices: usize = words.number("the number of vertices")?;
    let faces: usize = words.number("the number of faces")?;
    words.end_line();
    let mut mesh = Mesh::default();
    for _ in 0..vertices {
        let what = "a coordinate";
        mesh.v.push([
            words.number(what)?,
            words.number(what)?,
            words.number(what)?,
        ]);
        words.end_line();
    }
    let mut corners = vec![];
    for _ in 0..faces {
        let n: usize = words.number("the number of a face's vertices")?;
        if n < 3 {
            return words.problem("a face has three vertices at least");
        }
        corners.clear();
        for _ in 0..n {
            corners.push(words.number("the number of a vertex")?);
        }
        words.end_line();
        mesh.push_face(&corners);
    }
    Ok(mesh)
}
