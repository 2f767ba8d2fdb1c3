//! Single questions to a field, with the Rust's answers: points of faces, places on edges, ends of windows and one double beside them, and what is refused.
use crate::library;
use oracle::dump::bits;
use oracle::exact::{Field, Refusal};
use oracle::generate::rng::Rng;
use oracle::job::{Job, Mesh};
use oracle::reading::Patched;
use oracle::rooms::{Rooms, Told};

/// How many of each kind a field is asked.
const EACH: usize = 12;

pub struct Questions {
    faces: Vec<(u32, [f64; 3], (u32, f64))>,
    edges: Vec<(u32, f64, (u32, f64))>,
}

fn told(answer: Result<f64, Refusal>) -> (u32, f64) {
    answer.map_or_else(|refusal| (refusal.0, f64::NAN), |d| (0, d))
}

/// A number below the count; now and then none.
fn number(rng: &mut Rng, count: usize) -> u32 {
    match rng.below(20) {
        0 => rng.pick(&[count as u32, u32::MAX]),
        _ => rng.below(count.max(1)) as u32,
    }
}

fn point(rng: &mut Rng, mesh: &Mesh, f: u32) -> [f64; 3] {
    let Some(corners) = mesh.t.get(f as usize) else {
        return [0.; 3];
    };
    let [a, b, c] = corners.map(|k| mesh.v[k as usize]);
    let (s, t) = match rng.below(6) {
        0 => rng.pick(&[(0., 0.), (1., 0.), (0., 1.), (0.5, 0.5)]),
        1 => (rng.between(-1., 2.), rng.between(-1., 2.)),
        _ => (0.5 * rng.unit(), 0.5 * rng.unit()),
    };
    let mut p = [0, 1, 2].map(|k| a[k] + s * (b[k] - a[k]) + t * (c[k] - a[k]));
    if rng.one_in(20) {
        p[rng.below(3)] = rng.pick(&[f64::NAN, f64::INFINITY, 1e6, 1_000_000.000_000_000_1, -0.]);
    }
    p
}

fn place(rng: &mut Rng, mesh: &Mesh, field: &Field<Patched>, e: u32) -> f64 {
    let len = *mesh.topo.len.get(e as usize).unwrap_or(&1.);
    let list = field.on_edge.get(e as usize).map_or(&[][..], |list| list);
    let x = match rng.below(8) {
        0 => rng.pick(&[0., len, -0., f64::NAN, -1., f64::INFINITY]),
        1..5 if !list.is_empty() => {
            let w = &field.wins[rng.pick(list) as usize];
            rng.pick(&[w.b0, w.b1])
        }
        _ => rng.between(0., len),
    };
    match rng.below(4) {
        0 => x.next_up(),
        1 => x.next_down(),
        _ => x,
    }
}

impl Questions {
    pub fn new(seed: u64, mesh: &Mesh, field: &Field<Patched>) -> Questions {
        let rng = &mut Rng::new(!seed);
        let mut questions = Questions {
            faces: vec![],
            edges: vec![],
        };
        for _ in 0..EACH {
            let f = number(rng, mesh.t.len());
            let p = point(rng, mesh, f);
            questions.faces.push((f, p, told(mesh.at(field, f, p))));
            let e = number(rng, mesh.topo.edges.len());
            let x = place(rng, mesh, field, e);
            questions
                .edges
                .push((e, x, told(mesh.edge_at(field, e, x))));
        }
        questions
    }

    pub fn count(&self) -> u64 {
        (self.faces.len() + self.edges.len()) as u64
    }

    /// The first that the library answers otherwise.
    pub fn difference(&self, job: &Job, rooms: &Rooms, counts: &Told) -> Option<String> {
        let same = |ours: (u32, f64), theirs: (u32, f64)| {
            (ours.0, bits(ours.1)) == (theirs.0, bits(theirs.1))
        };
        for &(f, p, theirs) in &self.faces {
            let ours = library::at(counts, job, rooms, f, p);
            if !same(ours, theirs) {
                return Some(format!("at({f}, {p:?}) is {ours:?} and not {theirs:?}"));
            }
        }
        for &(e, x, theirs) in &self.edges {
            let ours = library::edge_at(counts, job, rooms, e, x);
            if !same(ours, theirs) {
                return Some(format!(
                    "edge_at({e}, {x:?}) is {ours:?} and not {theirs:?}"
                ));
            }
        }
        None
    }
}
