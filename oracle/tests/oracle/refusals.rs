//! One job for each refusal, and the order in which they are tried.
use oracle::exact::Refusal;
use oracle::job::{Job, Mesh};
use oracle::reading::Patched;
use oracle::slip::{Sizes, read, write};

/// Two triangles on a square, and a point in the first.
fn square() -> Job {
    Job {
        vertices: vec![0., 0., 0., 4., 0., 0., 4., 4., 0., 0., 4., 0.],
        triangles: vec![0, 1, 2, 0, 2, 3],
        flags: vec![1; 4],
        piece_kinds: vec![0],
        piece_faces: vec![0],
        piece_coords: vec![2., 1., 0., 0., 0., 0.],
        limit: 100.,
        max_steps: 1_000,
        buffers: Sizes::FIELDSLIP.buffers,
    }
}

fn answer(job: &Job) -> Result<u64, Refusal> {
    let mesh = Mesh::new(job)?;
    Ok(mesh.field::<Patched>()?.steps)
}

type Defect = (u32, fn(&mut Job));

/// Defects that can stand together in one job, by rising number.
const DEFECTS: [Defect; 9] = [
    (1, |j| j.flags[0] = 2),
    (2, |j| j.triangles.extend([0, 1, 99])),
    (3, |j| j.triangles.extend([0, 1, 1])),
    (4, |j| {
        j.vertices.extend([0., 1_000_000.0000000001, 0.]);
        j.flags.push(0);
    }),
    (5, |j| {
        j.vertices.extend([0.0009, 0., 0.]);
        j.flags.push(0);
        let last = j.flags.len() as u32 - 1;
        j.triangles.extend([0, 1, last]);
    }),
    (6, |j| {
        j.piece_kinds.push(0);
        j.piece_faces.push(77);
        j.piece_coords.extend([1.; 6]);
    }),
    (7, |j| j.piece_coords[1] = f64::NAN),
    (8, |j| j.limit = -1.),
    (10, |j| j.triangles.extend([0, 1, 2, 0, 1, 2])),
];

#[test]
fn each_defect_and_each_pair() {
    assert!(answer(&square()).is_ok());
    for (i, (a, first)) in DEFECTS.iter().enumerate() {
        let mut job = square();
        first(&mut job);
        assert_eq!(answer(&job), Err(Refusal(*a)));
        for (b, second) in &DEFECTS[i + 1..] {
            for swapped in [false, true] {
                let mut job = square();
                let (x, y) = if swapped {
                    (second, first)
                } else {
                    (first, second)
                };
                x(&mut job);
                y(&mut job);
                assert_eq!(answer(&job), Err(Refusal(*a)), "{a} and {b}");
            }
        }
    }
}

#[test]
fn shapes_of_slices() {
    let cases: [fn(&mut Job); 7] = [
        |j| j.vertices.push(0.),
        |j| j.triangles.push(0),
        |j| j.flags.push(0),
        |j| j.piece_kinds.push(0),
        |j| j.piece_faces.push(0),
        |j| j.piece_coords.push(0.),
        |j| j.piece_kinds[0] = 2,
    ];
    for case in cases {
        let mut job = square();
        case(&mut job);
        assert_eq!(answer(&job), Err(Refusal(1)));
    }
}

#[test]
fn counts_at_and_over_their_bounds() {
    let mut job = square();
    job.flags.resize(65_535, 0);
    job.vertices.resize(3 * 65_535, 1.);
    assert_eq!(job.check(), Ok(()));
    job.flags.push(0);
    job.vertices.extend([0.; 3]);
    assert_eq!(job.check(), Err(Refusal(1)));
    let mut job = square();
    let tri: Vec<u32> = job.triangles[..3].to_vec();
    job.triangles = tri.repeat(131_070);
    assert_eq!(job.check(), Ok(()));
    assert_eq!(answer(&job), Err(Refusal(10)));
    job.triangles.extend(tri);
    assert_eq!(job.check(), Err(Refusal(1)));
}

#[test]
fn no_vertex_no_triangle_no_piece() {
    let mut job = square();
    job.piece_kinds.clear();
    job.piece_faces.clear();
    job.piece_coords.clear();
    assert_eq!(answer(&job), Ok(0));
    job.triangles.clear();
    assert_eq!(answer(&job), Ok(0));
    job.vertices.clear();
    job.flags.clear();
    assert_eq!(answer(&job), Ok(0));
}

/// A fan of four triangles about vertex 0.
fn fan() -> Job {
    let mut job = square();
    job.vertices = vec![0., 0., 0., 2., 0., 0., 0., 2., 0., -2., 0., 0., 0., -2., 0.];
    job.triangles = vec![0, 1, 2, 0, 2, 3, 0, 3, 4, 0, 4, 1];
    job.flags = vec![0; 5];
    job
}

#[test]
fn a_segment_that_ends_at_a_vertex() {
    let mut job = fan();
    job.piece_kinds = vec![1];
    job.piece_coords = vec![0., 0., 0., 0.5, 0.5, 0.];
    assert_eq!(answer(&job), Err(Refusal(11)));
    // A point alone at the vertex is entered.
    job.piece_kinds = vec![0];
    assert!(answer(&job).is_ok());
    // A segment of length zero lists no direction.
    job.piece_kinds = vec![1];
    job.piece_coords = vec![0.; 6];
    assert!(answer(&job).is_ok());
    // Minus zero is another point: nothing is listed at its bits.
    job.piece_kinds = vec![0, 1];
    job.piece_faces = vec![0, 0];
    job.piece_coords = vec![-0., 0., 0., 0., 0., 0., 0.1, 0.1, 0., 0.5, 0.5, 0.];
    assert!(answer(&job).is_ok());
    // Refused before any piece is entered: no buffer is looked at.
    let mut job = fan();
    job.buffers.windows = 0;
    job.buffers.face_entries = 0;
    job.piece_kinds = vec![0, 1];
    job.piece_faces = vec![0, 0];
    job.piece_coords = vec![0.5, 0.5, 0., 0., 0., 0., 0., 0., 0., 0.5, 0.25, 0.];
    assert_eq!(answer(&job), Err(Refusal(11)));
}

#[test]
fn buffers_and_steps() {
    let full = |f: fn(&mut Job)| {
        let mut job = square();
        f(&mut job);
        answer(&job)
    };
    assert_eq!(full(|j| j.buffers.windows = 2), Err(Refusal(12)));
    assert_eq!(full(|j| j.buffers.events = 2), Err(Refusal(13)));
    assert_eq!(full(|j| j.buffers.cuts = 0), Err(Refusal(14)));
    assert_eq!(full(|j| j.buffers.cuts = 1), Err(Refusal(14)));
    assert_eq!(full(|j| j.buffers.face_entries = 0), Err(Refusal(17)));
    assert_eq!(full(|j| j.max_steps = 0), Err(Refusal(15)));
    let steps = answer(&square()).unwrap();
    let mut job = square();
    job.max_steps = steps as u32;
    assert_eq!(answer(&job), Ok(steps));
    job.max_steps -= 1;
    assert_eq!(answer(&job), Err(Refusal(15)));
}

#[test]
fn slips() {
    let good = write(&square());
    assert!(read(&good, &Sizes::FIELDSLIP).is_ok());
    let read_fieldslip = |bytes: &[u8]| read(bytes, &Sizes::FIELDSLIP).err();
    for n in 0..good.len() {
        assert_eq!(read_fieldslip(&good[..n]), Some(Refusal(30)));
    }
    let mut long = good.clone();
    long.push(0);
    assert_eq!(read_fieldslip(&long), Some(Refusal(31)));
    // The kind byte stands behind counts, vertices, triangles and flags.
    let at = 12 + 4 * 24 + 2 * 12 + 4;
    let mut kind = good.clone();
    kind[at] = 2;
    assert_eq!(read_fieldslip(&kind), Some(Refusal(32)));
    assert_eq!(read_fieldslip(&kind[..at + 1]), Some(Refusal(32)));
    kind.push(0);
    assert_eq!(read_fieldslip(&kind), Some(Refusal(32)));
    for (at, count) in [(0, 65u32), (4, 97), (8, 33)] {
        let mut bytes = good.clone();
        bytes[at..at + 4].copy_from_slice(&count.to_le_bytes());
        assert_eq!(read_fieldslip(&bytes), Some(Refusal(33)));
        assert_eq!(read_fieldslip(&bytes[..12]), Some(Refusal(33)));
        assert_eq!(read_fieldslip(&bytes[..11]), Some(Refusal(30)));
        bytes[at..at + 4].copy_from_slice(&(count - 1).to_le_bytes());
        assert_ne!(read_fieldslip(&bytes), Some(Refusal(33)));
    }
}
