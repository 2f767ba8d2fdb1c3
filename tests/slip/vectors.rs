//! Writes stored slips with the length and the check sum of what the Rust's print-out is: vectors DIRECTORY EVENTS. EVENTS is a slip that meets refusal 13. tests/README.md has the format, under "Stored slips".
//! - refused: a slip for each refusal that a slip can meet, by document 01, and each two defects of different refusals together.
//! - damaged: good slips cut at every length, and with one byte damaged.
//! - fresh: slips of `oracle vectors slips`, a third of them damaged, few of them long.
use oracle::exact::Buffers;
use oracle::generate::rng::Rng;
use oracle::generate::small;
use oracle::job::Job;
use oracle::reading::Patched;
use oracle::slip::{self, Sizes};
use oracle::vectors;
use std::collections::BTreeSet;

/// No byte is damaged: past the end of every slip.
const WHOLE: u32 = u32::MAX;
/// The most bytes that a slip is stored with.
const LONGEST: usize = 8192;
const GOOD: usize = 12;
/// So many slips are made; of those longer than LONG bytes the first MOST_LONG are kept.
const FRESH: u32 = 3300;
const LONG: usize = 600;
const MOST_LONG: usize = 80;
/// The most bytes of a file that the program which replays it has room for.
const FILE: usize = 1_048_576;

fn check_sum(bytes: &[u8]) -> u32 {
    let next = |s: u64, &n: &u8| (s * 65_599 + u64::from(n)) % 4_294_967_291;
    bytes.iter().fold(0, next) as u32
}

fn printed(slip: &[u8]) -> String {
    slip::program::<Patched>(slip, &Sizes::FIELDSLIP)
}

/// A slip, and its cases: how many bytes of it are given, and which byte is damaged and how.
struct Record {
    slip: Vec<u8>,
    cases: Vec<(usize, u32)>,
}

impl Record {
    fn whole(slip: Vec<u8>) -> Record {
        let cases = vec![(slip.len(), WHOLE)];
        Record { slip, cases }
    }
    fn numbers(&self) -> Vec<u32> {
        assert!(self.slip.len() <= LONGEST);
        let mut row = vec![0, self.slip.len() as u32, self.cases.len() as u32];
        for part in self.slip.chunks(4) {
            let mut bytes = [0; 4];
            bytes[..part.len()].copy_from_slice(part);
            row.push(u32::from_le_bytes(bytes));
        }
        for &(given, damage) in &self.cases {
            let mut slip = self.slip[..given].to_vec();
            if let Some(byte) = slip.get_mut(damage as usize / 256) {
                *byte = (damage % 256) as u8;
            }
            let text = printed(&slip);
            row.extend([given as u32, damage, text.len() as u32, check_sum(text.as_bytes())]);
        }
        row[0] = row.len() as u32;
        row
    }
}

fn store(directory: &str, name: &str, records: &[Record]) {
    let bytes: Vec<u8> = records.iter().flat_map(Record::numbers).flat_map(u32::to_le_bytes).collect();
    assert!(bytes.len() <= FILE);
    std::fs::write(format!("{directory}/{name}"), bytes).unwrap();
}

fn job(vertices: Vec<f64>, triangles: Vec<u32>, flag: u8, limit: f64) -> Job {
    Job {
        flags: vec![flag; vertices.len() / 3],
        vertices,
        triangles,
        piece_kinds: vec![],
        piece_faces: vec![],
        piece_coords: vec![],
        limit,
        max_steps: 0,
        buffers: Buffers::UNBOUNDED,
    }
}

fn point(job: &mut Job, face: u32, p: [f64; 3]) {
    job.piece_kinds.push(0);
    job.piece_faces.push(face);
    job.piece_coords.extend([p[0], p[1], p[2], 0., 0., 0.]);
}

fn segment(job: &mut Job, face: u32, a: [f64; 3], b: [f64; 3]) {
    job.piece_kinds.push(1);
    job.piece_faces.push(face);
    job.piece_coords.extend(a.into_iter().chain(b));
}

/// Document 01's slip of 136 bytes.
fn of_document() -> Job {
    let mut job = job(vec![0., 0., 0., 3., 0., 0., 0., 4., 0.], vec![0, 1, 2], 0, 10.);
    point(&mut job, 0, [0.; 3]);
    job
}

/// Two triangles, a point and a segment.
fn sound() -> Job {
    let v = vec![0., 0., 0., 3., 0., 0., 0., 4., 0., 3., 4., 1.];
    let mut job = job(v, vec![0, 1, 2, 2, 1, 3], 1, 10.);
    point(&mut job, 0, [0.; 3]);
    segment(&mut job, 1, [1., 1., 0.5], [2., 2., 1.]);
    job
}

/// So many triangles round a vertex.
fn fan(triangles: u32, limit: f64) -> Job {
    let mut v = vec![0.; 3];
    for k in 0..triangles {
        let angle = std::f64::consts::TAU * f64::from(k) / f64::from(triangles);
        v.extend([100. * angle.cos(), 100. * angle.sin(), 0.]);
    }
    let t = (0..triangles).flat_map(|k| [0, 1 + k, 1 + (k + 1) % triangles]);
    job(v, t.collect(), 1, limit)
}

type Defect = (u32, fn(&mut Job));

/// What document 01 refuses before any window is made, each with its number.
const DEFECTS: [Defect; 18] = [
    (1, |j| j.flags[3] = 2),
    (1, |j| j.flags[0] = 255),
    (2, |j| j.triangles[0] = 4),
    (2, |j| j.triangles[4] = u32::MAX),
    (3, |j| j.triangles[1] = 0),
    (3, |j| j.triangles[5] = 2),
    (4, |j| j.vertices[11] = 1_000_000f64.next_up()),
    (4, |j| j.vertices[5] = f64::NEG_INFINITY),
    (5, |j| j.vertices[9..].copy_from_slice(&[1.5, 2., 0.])),
    (6, |j| j.piece_faces[0] = 4),
    (6, |j| j.piece_faces[1] = u32::MAX),
    (7, |j| j.piece_coords[2] = f64::NAN),
    (7, |j| j.piece_coords[11] = (-1_000_000f64).next_down()),
    (8, |j| j.limit = -f64::from_bits(1)),
    (8, |j| j.limit = f64::NAN),
    (8, |j| j.limit = 10_000_000f64.next_up()),
    // a third triangle on an edge
    (10, |j| j.triangles.extend([1, 2, 3])),
    // a point on a vertex of three triangles, at which a segment ends
    (11, |j| {
        j.triangles.extend([0, 1, 3]);
        segment(j, 0, [3., 0., 0.], [1., 1., 0.]);
    }),
];

/// The byte so far behind the first piece's kind, in a slip of few vertices and triangles.
fn first_kind(slip: &mut [u8], behind: usize) -> &mut u8 {
    let at = 12 + 25 * usize::from(slip[0]) + 12 * usize::from(slip[4]) + behind;
    &mut slip[at]
}

/// Damage to the bytes of a slip that makes it none.
const BROKEN: [(u32, fn(&mut Vec<u8>)); 9] = [
    (30, |s| s.truncate(11)),
    (30, |s| s.truncate(s.len() - 1)),
    (31, |s| s.push(0)),
    (31, |s| s.extend([1; 9])),
    (32, |s| *first_kind(s, 0) = 2),
    (32, |s| *first_kind(s, 29) = 255),
    (33, |s| s[0] = 65),
    (33, |s| s[4] = 97),
    (33, |s| s[8] = 33),
];

/// What runs out while a job is computed: windows, events, cuts, face entries.
fn crowded(events: Vec<u8>) -> Vec<(u32, Vec<u8>)> {
    let slips = (0..).map(|seed| slip::write(&small::job(seed)));
    let windows = { slips }.find(|s| printed(s) == "refused 12\n").unwrap();
    let mut entries = fan(62, 0.);
    for k in 0..32 {
        point(&mut entries, 0, [f64::from(k) * 1e-12, 0., 0.]);
    }
    vec![
        (12, windows),
        (13, events),
        (14, slip::write(&small::job(39906))),
        (17, slip::write(&entries)),
    ]
}

fn refused(events: Vec<u8>) -> Vec<Record> {
    let (mut records, mut met) = (vec![], BTreeSet::new());
    let mut add = |number: u32, slip: Vec<u8>| {
        assert_eq!(printed(&slip), format!("refused {number}\n"));
        met.insert(number);
        records.push(Record::whole(slip));
    };
    for (number, slip) in crowded(events) {
        add(number, slip);
    }
    for (k, &(number, defect)) in DEFECTS.iter().enumerate() {
        let mut job = sound();
        defect(&mut job);
        add(number, slip::write(&job));
        for &(other, later) in &DEFECTS[k + 1..] {
            if other != number {
                let mut both = sound();
                later(&mut both);
                defect(&mut both);
                add(number, slip::write(&both));
            }
        }
        for (other, broken) in BROKEN {
            let mut bytes = slip::write(&job);
            broken(&mut bytes);
            add(other, bytes);
        }
    }
    // all but 9, for which the buffers are long enough, and 15: 400 windows make far fewer events than there are steps
    assert_eq!(met.into_iter().collect::<Vec<_>>(), [1, 2, 3, 4, 5, 6, 7, 8, 10, 11, 12, 13, 14, 17, 30, 31, 32, 33]);
    records
}

/// Good slips of all kinds, no longer than so.
fn good(rng: &mut Rng) -> Vec<Vec<u8>> {
    let mut slips = vec![slip::write(&of_document()), slip::write(&sound())];
    while slips.len() < GOOD {
        let bytes = slip::write(&small::job(rng.u64()));
        if (200..700).contains(&bytes.len()) && printed(&bytes).starts_with("edges") {
            slips.push(bytes);
        }
    }
    slips
}

fn damaged() -> Vec<Record> {
    let mut rng = Rng::new(18);
    let mut records = vec![];
    for (k, slip) in good(&mut rng).into_iter().enumerate() {
        let n = slip.len();
        let mut cases: Vec<(usize, u32)> = (0..=n).map(|given| (given, WHOLE)).collect();
        for (at, &byte) in slip.iter().enumerate() {
            let flips: Vec<u8> = match k {
                0 => (0..8).map(|bit| byte ^ (1 << bit)).collect(),
                _ => vec![byte ^ (1 << rng.below(8)), rng.u64() as u8],
            };
            cases.extend(flips.iter().map(|&x| (n, 256 * at as u32 + u32::from(x))));
        }
        records.push(Record { slip, cases });
    }
    records
}

fn fresh() -> Vec<Record> {
    let stored = vectors::make("slips", 1800, FRESH).unwrap();
    let mut rest = &stored[4..];
    let mut part = || {
        let (length, behind) = rest.split_first_chunk::<4>().unwrap();
        let (bytes, behind) = behind.split_at(u32::from_le_bytes(*length) as usize);
        rest = behind;
        bytes.to_vec()
    };
    let (mut records, mut long) = (vec![], 0);
    for _ in 0..FRESH {
        let (slip, text) = (part(), part());
        assert_eq!(printed(&slip).as_bytes(), text);
        long += usize::from(slip.len() > LONG);
        if slip.len() <= LONG || long <= MOST_LONG {
            records.push(Record::whole(slip));
        }
    }
    records
}

fn main() {
    let [directory, events] = [1, 2].map(|k| std::env::args().nth(k).expect("vectors DIRECTORY EVENTS"));
    store(&directory, "refused", &refused(std::fs::read(events).unwrap()));
    store(&directory, "damaged", &damaged());
    store(&directory, "fresh", &fresh());
}
