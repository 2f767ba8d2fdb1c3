//! Questions to sound fields: vertices, edge ends, places on window ends and one double beside them, points in, on and outside faces, numbers that are none, and what is missing.
use crate::fields::{Known, number, with_field};
use crate::library::{Asked, Listed, Row, UNLISTED, UNWRITTEN};
use crate::{Tally, same};
use oracle::dump::{bits, src_parts};
use oracle::exact::Refusal;
use oracle::generate::rng::Rng;

/// How many points of faces, and how many places on edges, a field is asked for.
const EACH: usize = 60;

impl Known<'_> {
    fn ask(&self, name: &str, asked: &Asked, rng: &mut Rng, tally: &mut Tally) {
        let mesh = self.mesh;
        let f: Vec<u32> = (0..EACH).map(|_| number(rng, mesh.t.len())).collect();
        let p: Vec<_> = f.iter().map(|&f| self.point(rng, f)).collect();
        let theirs = f.iter().zip(&p).map(|(&f, &p)| mesh.at(self.field, f, p));
        compare(tally, name, "face", asked.faces(&f, &p), theirs);
        let edges = mesh.topo.edges.len();
        let e: Vec<u32> = (0..EACH).map(|_| number(rng, edges)).collect();
        let x: Vec<f64> = e.iter().map(|&e| self.place(rng, e)).collect();
        let theirs = e.iter().zip(&x);
        let theirs = theirs.map(|(&e, &x)| mesh.edge_at(self.field, e, x));
        compare(tally, name, "edge", asked.edges(&e, &x), theirs);
        let n = mesh.v.len() as u32;
        let k: Vec<u32> = (0..n).chain([n, n + 1, u32::MAX]).collect();
        let distance = |&k: &u32| self.held.vertex.get(k as usize).copied();
        let theirs = k.iter().map(|k| distance(k).ok_or(Refusal(25)));
        compare(tally, name, "vertex", asked.vertices(&k), theirs);
        self.ask_windows(name, asked, rng, tally);
        let short = [[1, 0], [0, 1]].into_iter().flat_map(|less| {
            [
                asked.faces_in(&f, &p, less),
                asked.edges_in(&e, &x, less),
                asked.vertices_in(&k, less),
            ]
        });
        for row in short {
            let wrong = row.0 != 74 || row.1.iter().any(|a| *a != UNWRITTEN);
            tally.add("short", 74, wrong.then(|| format!("{name}: {row:?}")));
        }
    }

    /// The window of a number as a slot of a window buffer has it, `next` being the one behind it in its list.
    fn listed(&self, id: u32, next: Option<&u32>) -> Listed {
        let w = &self.held.wins[id as usize];
        let (line, s) = src_parts(&w.src);
        let flags = u32::from(line) + 2 * u32::from(w.alive) + 4 * u32::from(w.queued);
        let link = next.map_or(0, |n| n + 1);
        let reals = [w.b0, w.b1, w.low, s[0], s[1], s[2]];
        (id, [w.edge, w.into, flags, link], reals)
    }

    /// Every place of some edges' lists, and one past their ends.
    fn ask_windows(&self, name: &str, asked: &Asked, rng: &mut Rng, tally: &mut Tally) {
        let edges: Vec<u32> = (0..4)
            .map(|_| number(rng, self.held.on_edge.len()))
            .collect();
        let list = |e: u32| self.held.on_edge.get(e as usize);
        let places = |&e: &u32| (0..=list(e).map_or(0, Vec::len) as u32).map(move |k| (e, k));
        let (e, k): (Vec<u32>, Vec<u32>) = edges.iter().flat_map(places).unzip();
        let ours = asked.windows(&e, &k, [0, 0]);
        for (i, ours_at) in ours.1.iter().enumerate() {
            let none = (0, UNLISTED.1, UNLISTED.2);
            let theirs = match list(e[i]) {
                None => (23, none),
                Some(list) => match list.get(k[i] as usize) {
                    None => (26, none),
                    Some(&id) => (0, self.listed(id, list.get(k[i] as usize + 1))),
                },
            };
            let key = |a: &(u32, Listed)| (a.0, a.1.0, a.1.1, a.1.2.map(bits));
            let wrong = ours.0 != 0 || key(ours_at) != key(&theirs);
            let text = || format!("{name}, window question {i}: {ours_at:?} and not {theirs:?}");
            tally.add("window", theirs.0, wrong.then(text));
        }
        for less in [[1, 0], [0, 1]] {
            let row = asked.windows(&e, &k, less);
            let wrong = row.0 != 74 || row.1.iter().any(|a| *a != (77, UNLISTED));
            tally.add("short", 74, wrong.then(|| format!("{name}: {row:?}")));
        }
    }
}

fn compare(
    tally: &mut Tally,
    name: &str,
    kind: &'static str,
    ours: Row,
    theirs: impl Iterator<Item = Result<f64, Refusal>>,
) {
    let told = |answer: Result<f64, Refusal>| answer.map_or_else(|r| (r.0, f64::NAN), |d| (0, d));
    for (i, theirs) in theirs.map(told).enumerate() {
        let one = (ours.0, vec![ours.1[i]]);
        let wrong = !same(&one, &[theirs]);
        let text =
            wrong.then(|| format!("{name}, {kind} question {i}: {one:?} and not {theirs:?}"));
        tally.add(kind, theirs.0, text);
    }
}

/// 20, and nothing is written.
fn refused(name: &str, asked: &Asked, tally: &mut Tally) {
    let rows = [
        asked.faces(&[0], &[[0.; 3]]),
        asked.edges(&[0], &[0.]),
        asked.vertices(&[0]),
    ];
    let windows = asked.windows(&[0], &[0], [0, 0]);
    let wrong = rows.iter().any(|row| *row != (20, vec![UNWRITTEN]))
        || windows != (20, vec![(77, UNLISTED)]);
    tally.add("no field", 20, wrong.then(|| format!("{name}: {rows:?}")));
}

pub fn run(first: u64, count: u64) -> Tally {
    let mut tally = Tally::default();
    for seed in first..first + count {
        with_field(seed, |job, rooms, known| {
            let asked = Asked {
                answer: known.as_ref().map(|k| k.told).map_err(|number| *number),
                job,
                rooms: &rooms,
            };
            let name = format!("seed {seed}");
            let mut rng = Rng::new(!seed);
            match known {
                Ok(known) => known.ask(&name, &asked, &mut rng, &mut tally),
                Err(_) => refused(&name, &asked, &mut tally),
            }
        });
    }
    tally
}
