//! Start points and lines as text, a line for each.
use super::words::text;
use super::{Problem, problem};
use crate::walk::{face_above, walk};
use crate::{Piece, Topology, Vec3};

fn numbers(words: &[&str]) -> Option<Vec<f64>> {
    words.iter().map(|word| word.parse().ok()).collect()
}

fn vertex_piece(k: u32, v: &[Vec3], topo: &Topology) -> Result<Piece, String> {
    let (Some(&p), Some(round)) = (v.get(k as usize), topo.vertex_faces.get(k as usize)) else {
        return Err(format!("there is no vertex {k}"));
    };
    match round.first() {
        Some(&f) => Ok(Piece::Point(f, p)),
        None => Err(format!("vertex {k} is in no triangle")),
    }
}

/// The pieces of a polyline in XY, seen from above.
fn line_pieces(
    places: &[f64],
    v: &[Vec3],
    t: &[[u32; 3]],
    topo: &Topology,
) -> Result<Vec<Piece>, String> {
    let mut places = places.chunks_exact(2).map(|p| [p[0], p[1]]);
    let first = places.next().unwrap_or_default();
    let Some((mut f, mut p)) = face_above(v, t, first) else {
        return Err(format!("{} {} is not above the mesh", first[0], first[1]));
    };
    let mut pieces = vec![];
    for to in places {
        match walk(v, t, topo, f, p, to, &mut pieces) {
            Some(reached) => (f, p) = reached,
            None => {
                return Err(format!(
                    "the line leaves the mesh before {} {}",
                    to[0], to[1]
                ));
            }
        }
    }
    Ok(pieces)
}

fn pieces(line: &str, v: &[Vec3], t: &[[u32; 3]], topo: &Topology) -> Result<Vec<Piece>, String> {
    let words: Vec<&str> = line.split_whitespace().collect();
    let Some((&name, rest)) = words.split_first() else {
        return Ok(vec![]);
    };
    let wrong = || format!("not understood: {line}");
    let face = |word: &str| word.parse::<u32>().map_err(|_| wrong());
    match (name, rest) {
        ("vertex", [k]) => vertex_piece(face(k)?, v, topo).map(|piece| vec![piece]),
        ("point", [f, at @ ..]) if at.len() == 3 => {
            let p = numbers(at).ok_or_else(wrong)?;
            Ok(vec![Piece::Point(face(f)?, [p[0], p[1], p[2]])])
        }
        ("segment", [f, at @ ..]) if at.len() == 6 => {
            let p = numbers(at).ok_or_else(wrong)?;
            Ok(vec![Piece::Segment(
                face(f)?,
                [p[0], p[1], p[2]],
                [p[3], p[4], p[5]],
            )])
        }
        ("line", at) if at.len() >= 4 && at.len().is_multiple_of(2) => {
            line_pieces(&numbers(at).ok_or_else(wrong)?, v, t, topo)
        }
        _ => Err(wrong()),
    }
}

/// The pieces of a text of start points and lines on a mesh. A line is one of
///
/// - `point FACE X Y Z`, a point of that triangle;
/// - `segment FACE X Y Z X Y Z`, a segment in that triangle;
/// - `vertex K`, a vertex of the mesh;
/// - `line X Y X Y ..`, a polyline as seen from above: it is laid on the mesh and cut at the triangles' edges.
///
/// # Errors
/// A line that is none of these, or that leaves the mesh.
pub fn read_sources(
    bytes: &[u8],
    v: &[Vec3],
    t: &[[u32; 3]],
    topo: &Topology,
) -> Result<Vec<Piece>, Problem> {
    let mut all = vec![];
    for (at, line) in text(bytes)?.lines().enumerate() {
        let line = line.split('#').next().unwrap_or("");
        match pieces(line, v, t, topo) {
            Ok(found) => all.extend(found),
            Err(what) => return problem(format!("line {}: {what}", at + 1)),
        }
    }
    Ok(all)
}
