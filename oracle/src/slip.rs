//! The slip, its reader (refusals 30 to 33, of groups 34 and 35), and the
//! print-out.
use crate::exact::{Buffers, Field, Refusal};
use crate::form::{Bytes, Form};
use crate::job::{Job, Mesh};
use crate::reading::Reading;

/// The most that a reader takes, and the buffers and steps that a job read
/// by it gets.
#[derive(Clone, Copy, Debug)]
pub struct Sizes {
    pub vertices: u32,
    pub triangles: u32,
    pub pieces: u32,
    pub buffers: Buffers,
    pub max_steps: u32,
}

impl Sizes {
    /// The program `fieldslip`.
    pub const FIELDSLIP: Sizes = Sizes {
        vertices: 64,
        triangles: 96,
        pieces: 32,
        buffers: Buffers {
            windows: 400,
            events: 600,
            cuts: 100,
            face_entries: 1000,
        },
        max_steps: 100_000,
    };
    pub const UNBOUNDED: Sizes = Sizes {
        vertices: u32::MAX,
        triangles: u32::MAX,
        pieces: u32::MAX,
        buffers: Buffers::UNBOUNDED,
        max_steps: u32::MAX,
    };
}

fn read_piece(bytes: &mut Bytes, job: &mut Job) -> Result<(), Refusal> {
    let kind = bytes.byte()?;
    if kind > 1 {
        return Err(Refusal(32));
    }
    job.piece_kinds.push(kind);
    job.piece_faces.push(bytes.u32()?);
    for k in 0..6 {
        let x = if kind == 0 && k >= 3 {
            0.
        } else {
            bytes.f64()?
        };
        job.piece_coords.push(x);
    }
    Ok(())
}

pub fn read(slip: &[u8], sizes: &Sizes) -> Result<Job, Refusal> {
    read_form(Form::Plain, slip, sizes)
}

pub fn read_form(form: Form, slip: &[u8], sizes: &Sizes) -> Result<Job, Refusal> {
    let mut bytes = Bytes::new(form, slip)?;
    let (vertices, triangles, pieces) = (bytes.u32()?, bytes.u32()?, bytes.u32()?);
    if vertices > sizes.vertices || triangles > sizes.triangles || pieces > sizes.pieces {
        return Err(Refusal(33));
    }
    let mut job = Job {
        vertices: vec![],
        triangles: vec![],
        flags: vec![],
        piece_kinds: vec![],
        piece_faces: vec![],
        piece_coords: vec![],
        limit: 0.,
        max_steps: sizes.max_steps,
        buffers: sizes.buffers,
    };
    for _ in 0..3 * u64::from(vertices) {
        job.vertices.push(bytes.f64()?);
    }
    for _ in 0..3 * u64::from(triangles) {
        job.triangles.push(bytes.u32()?);
    }
    for _ in 0..vertices {
        job.flags.push(bytes.byte()?);
    }
    for _ in 0..pieces {
        read_piece(&mut bytes, &mut job)?;
    }
    job.limit = bytes.f64()?;
    bytes.end()?;
    Ok(job)
}

/// The slip of a job whose slices agree.
pub fn write(job: &Job) -> Vec<u8> {
    let mut out = vec![];
    let counts = [
        job.vertices.len() / 3,
        job.triangles.len() / 3,
        job.piece_kinds.len(),
    ];
    for n in counts {
        out.extend((n as u32).to_le_bytes());
    }
    job.vertices
        .iter()
        .for_each(|x| out.extend(x.to_le_bytes()));
    job.triangles
        .iter()
        .for_each(|k| out.extend(k.to_le_bytes()));
    out.extend(&job.flags);
    let coords = job.piece_coords.chunks_exact(6);
    for ((&kind, f), c) in job.piece_kinds.iter().zip(&job.piece_faces).zip(coords) {
        out.push(kind);
        out.extend(f.to_le_bytes());
        let used = if kind == 0 { &c[..3] } else { c };
        used.iter().for_each(|x| out.extend(x.to_le_bytes()));
    }
    out.extend(job.limit.to_le_bytes());
    out
}

/// Thousandths, nearest, halves up; `far` for infinity.
pub fn thousandths(x: f64) -> String {
    if x == f64::INFINITY {
        return "far".into();
    }
    if !x.is_finite() {
        return "nan".into();
    }
    let bits = x.abs().to_bits();
    let exponent = (bits >> 52).max(1) as i32 - 1075;
    let mantissa = (bits & ((1 << 52) - 1)) | if bits >> 52 > 0 { 1 << 52 } else { 0 };
    let negative = x < 0.;
    if exponent >= 0 {
        return format!("{x:.0}000");
    }
    // floor(1000 x + 1/2) over whole numbers; below 2^-100 only the sign
    // of 1000 x + 1/2 would matter, and it is plus.
    let shift = (-exponent).min(120) as u32;
    let mantissa = if -exponent > 120 {
        0
    } else {
        i128::from(mantissa) * 1000
    };
    let signed = if negative { -mantissa } else { mantissa };
    ((signed + (1 << (shift - 1))) >> shift).to_string()
}

pub fn print_out<R: Reading>(mesh: &Mesh, field: &Field<R>) -> String {
    let live = field.wins.iter().filter(|w| w.alive).count();
    let mut out = format!(
        "edges {}\nwindows {} live {live} steps {}\n",
        mesh.topo.edges.len(),
        field.wins.len(),
        field.steps
    );
    for (k, &d) in field.vertex.iter().enumerate() {
        out += &format!("corner {k} {}\n", thousandths(d));
    }
    out + "end\n"
}

pub fn refused(refusal: Refusal) -> String {
    format!("refused {}\n", refusal.0)
}

/// What the program prints for a slip.
pub fn program<R: Reading>(slip: &[u8], sizes: &Sizes) -> String {
    let answer = read(slip, sizes).and_then(|job| {
        let mesh = Mesh::new(&job)?;
        let field = mesh.field::<R>()?;
        Ok(print_out(&mesh, &field))
    });
    answer.unwrap_or_else(refused)
}
