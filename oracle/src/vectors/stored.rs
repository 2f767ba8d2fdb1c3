//! Jobs as stored records: what is handed in and lent, and what insertion
//! alone or the whole job leaves. README.md has the layout.
use super::Out;
use crate::dump::{Contents, bits, contents, src_parts};
use crate::exact::Refusal;
use crate::job::{Job, Mesh};
use crate::reading::Patched;
use crate::rooms::{Rooms, Slots, compute};

/// The most numbers that are stored of what a job leaves; of longer lists
/// their check sums.
const IN_FULL: usize = 400;

/// A row of numbers.
#[derive(Default)]
struct Row(Vec<u32>);

impl Row {
    fn u32(&mut self, n: u32) {
        self.0.push(n);
    }
    fn count(&mut self, n: usize) {
        self.u32(n as u32);
    }
    /// The low half first.
    fn f64(&mut self, x: f64) {
        self.0.extend([bits(x) as u32, (bits(x) >> 32) as u32]);
    }
    fn f64s(&mut self, list: &[f64]) {
        list.iter().for_each(|&x| self.f64(x));
    }
    fn bytes(&mut self, list: &[u8]) {
        self.0.extend(list.iter().map(|&b| u32::from(b)));
    }
    fn check_sum(&self) -> u32 {
        let next = |s: u64, &n: &u32| (s * 65_599 + u64::from(n)) % 4_294_967_291;
        self.0.iter().fold(0, next) as u32
    }
}

fn row(fill: impl FnOnce(&mut Row)) -> Row {
    let mut row = Row::default();
    fill(&mut row);
    row
}

fn window_words(row: &mut Row, held: &Contents) {
    for w in &held.wins {
        let (line, _) = src_parts(&w.src);
        let flags = u32::from(line) + 2 * u32::from(w.alive) + 4 * u32::from(w.queued);
        row.0.extend([w.edge, w.into, flags]);
    }
}

fn window_reals(row: &mut Row, held: &Contents) {
    for w in &held.wins {
        row.f64s(&[w.b0, w.b1, w.low]);
        row.f64s(&src_parts(&w.src).1);
    }
}

/// Numbers as links: each plus one, and 0 behind the last.
fn links(row: &mut Row, lists: &[Vec<u32>]) {
    for list in lists {
        row.0.extend(list.iter().map(|n| n + 1));
        row.u32(0);
    }
}

fn vertices(row: &mut Row, held: &Contents) {
    for (&distance, &emitted) in held.vertex.iter().zip(&held.emitted) {
        row.f64s(&[distance, emitted]);
    }
}

fn events(row: &mut Row, held: &Contents) {
    for &(key, number, vertex) in &held.events {
        row.f64(key);
        row.0.extend([number, u32::from(vertex)]);
    }
}

fn entries(row: &mut Row, held: &Contents) {
    for entry in &held.entries {
        row.0.extend([entry.piece, entry.part as u32]);
    }
}

/// The numbers of each face's entries.
fn in_face(held: &Contents, faces: usize) -> Vec<Vec<u32>> {
    let mut lists = vec![vec![]; faces];
    for (n, entry) in (0..).zip(&held.entries) {
        lists[entry.face as usize].push(n);
    }
    lists
}

/// Four counts, then seven lists or their check sums; and which it is.
fn answer(held: &Contents, faces: usize) -> (u32, Row) {
    let lists = [
        row(|r| window_words(r, held)),
        row(|r| window_reals(r, held)),
        row(|r| links(r, &held.on_edge)),
        row(|r| vertices(r, held)),
        row(|r| events(r, held)),
        row(|r| entries(r, held)),
        row(|r| links(r, &in_face(held, faces))),
    ];
    let full = lists.iter().map(|l| l.0.len()).sum::<usize>() <= IN_FULL;
    let detail = if full { 1 } else { 2 };
    let answer = row(|r| {
        r.count(held.wins.len());
        r.count(held.events.len());
        r.count(held.entries.len());
        r.u32(held.steps as u32);
        for list in &lists {
            if full {
                r.0.extend(&list.0);
            } else {
                r.u32(list.check_sum());
            }
        }
    });
    (detail, answer)
}

/// What is handed in, and the slots of the rooms that have to suffice.
fn handed_in(row: &mut Row, job: &Job, lent: &Slots) {
    row.count(job.vertices.len());
    row.count(job.triangles.len());
    row.count(job.flags.len());
    row.count(job.piece_kinds.len());
    row.count(job.piece_faces.len());
    row.count(job.piece_coords.len());
    row.0.extend([
        lent.vertices,
        lent.edges,
        lent.round,
        lent.triangles,
        lent.pieces,
        lent.buffers.windows,
        lent.scratch,
        lent.other_scratch,
    ]);
    row.f64(job.limit);
    row.f64s(&job.vertices);
    row.0.extend(&job.triangles);
    row.bytes(&job.flags);
    row.bytes(&job.piece_kinds);
    row.0.extend(&job.piece_faces);
    row.f64s(&job.piece_coords);
}

fn write(refusal: u32, detail: u32, rest: &Row, out: &mut Out) {
    out.u32(refusal);
    out.u32(detail);
    out.count(3 + rest.0.len());
    rest.0.iter().for_each(|&n| out.u32(n));
}

/// A record of insertion.
pub fn inserted(job: &Job, out: &mut Out) {
    let held: Result<Contents, Refusal> =
        Mesh::new(job).and_then(|mesh| Ok(contents(mesh.inserted::<Patched>()?)));
    let refusal = held.as_ref().err().map_or(0, |r| r.0);
    let faces = job.triangles.len() / 3;
    let (detail, answer) = held.map_or((0, Row::default()), |held| answer(&held, faces));
    let lent = job.buffers;
    let rest = row(|r| {
        handed_in(r, job, &Slots::least(job, lent));
        r.0.extend([lent.events, lent.cuts, lent.face_entries, job.max_steps]);
        r.0.extend(&answer.0);
    });
    write(refusal, detail, &rest, out);
}

/// A record of the whole job in rooms of these lengths, with 7 everywhere.
pub fn whole(job: &Job, rooms: &mut Rooms, out: &mut Out) {
    rooms.fill(|| 7, || 7.);
    let lent = rooms.slots();
    let answer = compute(job, rooms);
    let rest = row(|r| {
        handed_in(r, job, &lent);
        r.u32(job.max_steps);
        rooms.all_words().iter().for_each(|s| r.count(s.1.len()));
        rooms.all_reals().iter().for_each(|s| r.count(s.1.len()));
        r.0.extend(answer.unwrap_or_default());
        for (_, words) in rooms.all_words() {
            r.u32(row(|sum| sum.0.extend(words)).check_sum());
        }
        for (_, reals) in rooms.all_reals() {
            r.u32(row(|sum| sum.f64s(reals)).check_sum());
        }
    });
    write(answer.err().map_or(0, |r| r.0), 2, &rest, out);
}
