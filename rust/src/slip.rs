//! Slips: jobs as bytes in one of two forms, read, written and moved from either form to the other by the library.
use crate::input::Input;
use crate::refusal::{About, Refusal};
use crate::{Piece, Vec3, ffi};

/// The most that a job may have: a slip with more is refused by 33.
const MOST: [u32; 3] = [65_535, 131_070, 65_535];

/// How a slip holds its numbers. It does not say so itself: the first byte of either form may be 2.
#[derive(Clone, Copy, Debug, PartialEq, Eq)]
pub enum Form {
    /// Four bytes each.
    Plain,
    /// Groups of seven bits, as few as hold the number, behind a first byte 2.
    Groups,
}

impl Form {
    /// The form that a slip is moved to.
    pub fn other(self) -> Form {
        match self {
            Form::Plain => Form::Groups,
            Form::Groups => Form::Plain,
        }
    }
}

/// A job as a slip holds it.
#[derive(Clone, Debug, PartialEq)]
pub struct Slip {
    /// Coordinates of each vertex.
    pub v: Vec<Vec3>,
    /// The three vertices of each triangle.
    pub t: Vec<[u32; 3]>,
    /// For each vertex whether shortest paths may pass through it.
    pub flags: Vec<bool>,
    /// The sources.
    pub pieces: Vec<Piece>,
    /// The limit.
    pub limit: f64,
}

/// The slices that a slip is read to.
pub(crate) struct Rows {
    pub vertices: Vec<f64>,
    pub triangles: Vec<u32>,
    pub flags: Vec<u8>,
    pub kinds: Vec<u8>,
    pub faces: Vec<u32>,
    pub coords: Vec<f64>,
    pub limit: f64,
}

/// A number at the front of a slip's rest, and what is behind it; none where the slip is refused for it.
fn number(form: Form, bytes: &[u8]) -> Option<(u32, &[u8])> {
    if form == Form::Plain {
        let (n, rest) = bytes.split_first_chunk()?;
        return Some((u32::from_le_bytes(*n), rest));
    }
    let last = bytes.iter().take(5).position(|&byte| byte < 128)?;
    if last > 0 && bytes[last] == 0 {
        return None;
    }
    let (groups, rest) = bytes.split_at(last + 1);
    let n = groups
        .iter()
        .rev()
        .fold(0, |n, &byte| n << 7 | u64::from(byte & 127));
    Some((u32::try_from(n).ok()?, rest))
}

/// The counts that a slip begins with; none where it is refused before they are read.
fn counts(form: Form, bytes: &[u8]) -> Option<[u32; 3]> {
    let bytes = match form {
        Form::Plain => bytes,
        Form::Groups => bytes.strip_prefix(&[2])?,
    };
    let (vertices, bytes) = number(form, bytes)?;
    let (triangles, bytes) = number(form, bytes)?;
    let (pieces, _) = number(form, bytes)?;
    Some([vertices, triangles, pieces])
}

fn points(list: &[f64]) -> impl Iterator<Item = Vec3> + '_ {
    list.chunks_exact(3).map(|p| [p[0], p[1], p[2]])
}

/// The rows of a slip.
fn rows(form: Form, bytes: &[u8]) -> Result<Rows, Refusal> {
    // of what has no counts nothing is read
    let claimed = counts(form, bytes).unwrap_or([0; 3]);
    let [vertices, triangles, pieces] = [0, 1, 2].map(|k| claimed[k].min(MOST[k]) as usize);
    let mut rows = Rows {
        vertices: vec![0.; 3 * vertices],
        triangles: vec![0; 3 * triangles],
        flags: vec![0; vertices],
        kinds: vec![0; pieces],
        faces: vec![0; pieces],
        coords: vec![0.; 6 * pieces],
        limit: 0.,
    };
    ffi::read_slip(form, bytes, &mut rows).map_err(|number| Refusal::new(number, About::Job))?;
    Ok(rows)
}

/// The job of a slip of this form, of any size that document 01 allows.
///
/// # Errors
/// 30 to 33, of groups also 34 and 35, where the bytes are no slip of the form; 1 where a flag is neither 0 nor 1.
pub fn read_slip(form: Form, bytes: &[u8]) -> Result<Slip, Refusal> {
    let rows = rows(form, bytes)?;
    if let Some(k) = rows.flags.iter().position(|&flag| flag > 1) {
        return Err(Refusal::new(1, About::Vertex(k)));
    }
    let ends: Vec<Vec3> = points(&rows.coords).collect();
    let piece = |((&kind, &face), ends): ((&u8, &u32), &[Vec3])| match kind {
        0 => Piece::Point(face, ends[0]),
        _ => Piece::Segment(face, ends[0], ends[1]),
    };
    Ok(Slip {
        v: points(&rows.vertices).collect(),
        t: rows
            .triangles
            .chunks_exact(3)
            .map(|t| [t[0], t[1], t[2]])
            .collect(),
        flags: rows.flags.iter().map(|&flag| flag == 1).collect(),
        pieces: rows
            .kinds
            .iter()
            .zip(&rows.faces)
            .zip(ends.chunks_exact(2))
            .map(piece)
            .collect(),
        limit: rows.limit,
    })
}

/// The slip of a job, in this form.
///
/// # Errors
/// 1 where there is not one flag for each vertex.
pub fn write_slip(form: Form, slip: &Slip) -> Result<Vec<u8>, Refusal> {
    let input = Input::new(&slip.v, &slip.t, &slip.flags, &slip.pieces, slip.limit, 0);
    if slip.flags.len() != slip.v.len() {
        return Err(Refusal::new(
            1,
            About::Flags(slip.flags.len(), slip.v.len()),
        ));
    }
    let length = 12 + 25 * slip.v.len() + 12 * slip.t.len() + 53 * slip.pieces.len() + 8;
    let plain =
        ffi::write_slip(&input, length).map_err(|number| Refusal::new(number, About::Job))?;
    match form {
        Form::Plain => Ok(plain),
        Form::Groups => move_slip(Form::Plain, &plain),
    }
}

/// The bytes of a slip of one form in the other form. Moved back they are the same, and it does not matter whether the job is sound.
///
/// ```
/// use sirmolaat::slip::{Form, move_slip};
///
/// let plain = [0; 20]; // no vertices, triangles or pieces, and a limit of 0
/// let groups = move_slip(Form::Plain, &plain)?;
/// assert_eq!(groups, [2, 0, 0, 0, 0, 0, 0, 0, 0, 0, 0, 0]);
/// assert_eq!(move_slip(Form::Groups, &groups)?, plain);
/// # Ok::<(), sirmolaat::Refusal>(())
/// ```
///
/// # Errors
/// 30 to 32, of groups also 34 and 35, where the bytes are no slip of the form.
pub fn move_slip(from: Form, bytes: &[u8]) -> Result<Vec<u8>, Refusal> {
    ffi::move_slip(from, bytes).map_err(|number| Refusal::new(number, About::Job))
}
