//! Fields of small jobs, and where they are asked: vertices, edge ends, places on window ends and one double beside them, points in, on and outside faces, numbers that are none.
use oracle::dump::{Contents, contents};
use oracle::exact::{Field, Piece};
use oracle::generate::rng::Rng;
use oracle::generate::rooms;
use oracle::job::{Job, Mesh};
use oracle::reading::Patched;
use oracle::rooms::{Rooms, Told, check, hold};

/// A field with what it was made of.
pub struct Known<'a> {
    pub mesh: &'a Mesh,
    pub field: &'a Field<'a, Patched>,
    pub held: &'a Contents,
    pub told: Told,
}

/// A small job, its rooms as the field leaves them, and the field or the refusal.
pub fn with_field(seed: u64, with: impl FnOnce(&Job, Rooms, Result<Known, u32>)) {
    let (job, mut rooms) = rooms::job(seed);
    let checked = check(&job, &rooms).and_then(|buffers| {
        Mesh::new(&Job {
            buffers,
            ..job.clone()
        })
    });
    let mesh = match checked {
        Ok(mesh) => mesh,
        Err(refusal) => return with(&job, rooms, Err(refusal.0)),
    };
    let field = match mesh.field::<Patched>() {
        Ok(field) => field,
        Err(refusal) => return with(&job, rooms, Err(refusal.0)),
    };
    let held = contents(mesh.field::<Patched>().expect("the same field"));
    let known = Known {
        mesh: &mesh,
        field: &field,
        held: &held,
        told: hold(&mesh, &held, &mut rooms),
    };
    with(&job, rooms, Ok(known));
}

const ODD: [f64; 12] = [
    f64::NAN,
    f64::INFINITY,
    f64::NEG_INFINITY,
    -0.,
    0.,
    5e-324,
    -5e-324,
    1e6,
    -1e6,
    1_000_000.000_000_000_1,
    1e300,
    -1.,
];

/// The double itself or one beside it.
fn beside(rng: &mut Rng, x: f64) -> f64 {
    match rng.below(4) {
        0 => x.next_up(),
        1 => x.next_down(),
        _ => x,
    }
}

/// A number below the count; now and then none.
pub fn number(rng: &mut Rng, count: usize) -> u32 {
    let n = count as u32;
    match rng.below(25) {
        0 => rng.pick(&[n, n + 1, u32::MAX]),
        1 => rng.u64() as u32,
        _ => rng.below(count.max(1)) as u32,
    }
}

impl Known<'_> {
    pub fn place(&self, rng: &mut Rng, e: u32) -> f64 {
        let len = *self.mesh.topo.len.get(e as usize).unwrap_or(&1.);
        let list = self.held.on_edge.get(e as usize).map_or(&[][..], |l| l);
        match rng.below(10) {
            0 => rng.pick(&ODD),
            1 => beside(rng, 0.),
            2 => beside(rng, len),
            3..6 if !list.is_empty() => {
                let w = &self.held.wins[rng.pick(list) as usize];
                let end = rng.pick(&[w.b0, w.b1]);
                beside(rng, end)
            }
            6 => rng.between(-len, 2. * len),
            _ => rng.between(0., len),
        }
    }

    fn on_edge(&self, rng: &mut Rng, face: usize) -> [f64; 3] {
        let topo = &self.mesh.topo;
        let e = rng.pick(&topo.tri_edges[face]);
        let x = self.place(rng, e);
        let (o, d) = (topo.edges[e as usize][0], topo.xhat[e as usize]);
        [0, 1, 2].map(|k| self.mesh.v[o as usize][k] + x * d[k])
    }

    fn on_piece(&self, rng: &mut Rng) -> [f64; 3] {
        let t = rng.pick(&[0., 1., 0.5, -0.25, 1.5]);
        match self.mesh.pieces[rng.below(self.mesh.pieces.len())] {
            Piece::Point(_, a) => a,
            Piece::Segment(_, a, b) => [0, 1, 2].map(|k| a[k] + t * (b[k] - a[k])),
        }
    }

    pub fn point(&self, rng: &mut Rng, f: u32) -> [f64; 3] {
        let Some(&corners) = self.mesh.t.get(f as usize) else {
            return [rng.pick(&ODD), 0., 1.];
        };
        let [a, b, c] = corners.map(|k| self.mesh.v[k as usize]);
        let mut p = match rng.below(8) {
            0 => rng.pick(&[a, b, c]),
            1 => self.on_edge(rng, f as usize),
            2 if !self.mesh.pieces.is_empty() => self.on_piece(rng),
            3 => [0; 3].map(|_| rng.between(-8., 8.)),
            n => {
                let (mut s, mut t) = (rng.unit(), rng.unit());
                if n < 7 && s + t > 1. {
                    (s, t) = (1. - s, 1. - t);
                }
                [0, 1, 2].map(|k| a[k] + s * (b[k] - a[k]) + t * (c[k] - a[k]))
            }
        };
        if rng.one_in(10) {
            p[rng.below(3)] = rng.pick(&ODD);
        }
        p.map(|x| if rng.one_in(8) { beside(rng, x) } else { x })
    }
}
