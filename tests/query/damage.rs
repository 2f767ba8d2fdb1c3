//! Damaged fields: every word of small fields' rooms, of their counts and of their jobs, one at a time.
use crate::fields::{Known, with_field};
use crate::library::{Asked, Listed, UNLISTED, UNWRITTEN};
use crate::reader::Reader;
use crate::{Tally, same};
use oracle::dump::bits;
use oracle::generate::rng::Rng;
use oracle::job::Job;
use oracle::rooms::{Rooms, Told};

/// Larger fields are left out: each damage takes a pass over all.
const TRIANGLES: u32 = 12;
const WINDOWS: u32 = 40;

const REALS: [f64; 8] = [
    f64::NAN,
    f64::INFINITY,
    f64::NEG_INFINITY,
    -0.,
    0.,
    -1.,
    1.,
    1e9,
];

/// The rooms that a query reads, by their places in `all_words` and `all_reals`.
const ROOMS_OF_WORDS: [usize; 4] = [1, 3, 5, 7];
const ROOMS_OF_REALS: [usize; 4] = [0, 1, 3, 4];

/// A field that is asked the same questions after every damage.
struct Damaged {
    seed: u64,
    rng: Rng,
    told: Told,
    job: Job,
    rooms: Rooms,
    faces: Vec<u32>,
    points: Vec<[f64; 3]>,
    edges: Vec<u32>,
    places: Vec<f64>,
    vertices: Vec<u32>,
    /// Edges of which a place in the list is asked for.
    lists: Vec<u32>,
    ranks: Vec<u32>,
}

impl Damaged {
    fn new(seed: u64, known: &Known, job: &Job, rooms: Rooms) -> Damaged {
        let mut rng = Rng::new(!seed);
        let [vertices, triangles, _, edges, ..] = known.told;
        let faces: Vec<u32> = (0..=triangles).collect();
        let edges: Vec<u32> = (0..=edges).flat_map(|e| [e, e]).collect();
        Damaged {
            points: faces.iter().map(|&f| known.point(&mut rng, f)).collect(),
            places: edges.iter().map(|&e| known.place(&mut rng, e)).collect(),
            vertices: (0..=vertices).collect(),
            ranks: edges.iter().map(|_| rng.below(3) as u32).collect(),
            lists: edges.clone(),
            seed,
            rng,
            told: known.told,
            job: job.clone(),
            rooms,
            faces,
            edges,
        }
    }

    /// 20 with nothing written, or every answer as it is read from the rooms.
    fn ask(&self, tally: &mut Tally, kind: &'static str, at: usize) {
        let (told, job, rooms) = (self.told, &self.job, &self.rooms);
        let answer = Ok(told);
        let asked = Asked { answer, job, rooms };
        let reader = Reader { told, job, rooms };
        let rows = [
            asked.faces(&self.faces, &self.points),
            asked.edges(&self.edges, &self.places),
            asked.vertices(&self.vertices),
        ];
        let windows = asked.windows(&self.lists, &self.ranks, [0, 0]);
        let unsound = reader.unsound();
        let wrong_windows = if unsound {
            windows.0 != 20 || windows.1.iter().any(|w| *w != (77, UNLISTED))
        } else {
            let key = |a: &(u32, Listed)| (a.0, a.1.0, a.1.1, a.1.2.map(bits));
            let asked = self.lists.iter().zip(&self.ranks);
            let theirs = asked.map(|(&e, &place)| match reader.window_at(e, place) {
                Err(number) => (number, (0, UNLISTED.1, UNLISTED.2)),
                Ok(id) => {
                    let (words, reals) = reader.slot(id);
                    (0, (id, words, reals))
                }
            });
            windows.0 != 0 || !windows.1.iter().map(key).eq(theirs.map(|t| key(&t)))
        };
        let wrong = if unsound {
            let untouched = |row: &[(u32, f64)]| row.iter().all(|a| *a == UNWRITTEN);
            rows.iter().any(|row| row.0 != 20 || !untouched(&row.1))
        } else {
            let faces = self.faces.iter().zip(&self.points);
            let edges = self.edges.iter().zip(&self.places);
            !same(
                &rows[0],
                &faces.map(|(&f, &p)| reader.at(f, p)).collect::<Vec<_>>(),
            ) || !same(
                &rows[1],
                &edges
                    .map(|(&e, &x)| reader.edge_at(e, x))
                    .collect::<Vec<_>>(),
            ) || !same(
                &rows[2],
                &self
                    .vertices
                    .iter()
                    .map(|&k| reader.vertex(k))
                    .collect::<Vec<_>>(),
            )
        };
        let number = if unsound { 20 } else { 0 };
        let text = || {
            format!(
                "seed {}, {kind}[{at}], 20 is {unsound}: {rows:?}",
                self.seed
            )
        };
        tally.add(kind, number, (wrong || wrong_windows).then(text));
    }

    /// What stands in place of a word: small and large numbers, and those round the counts.
    fn words(&mut self) -> Vec<u32> {
        let round = self.told[..5]
            .iter()
            .flat_map(|&n| [n.wrapping_sub(1), n, n + 1]);
        let mut list: Vec<u32> = [0, 1, 2, 3, u32::MAX - 1, u32::MAX]
            .into_iter()
            .chain(round)
            .collect();
        list.push(self.rng.u64() as u32);
        list.sort_unstable();
        list.dedup();
        list
    }

    /// What stands in place of a double; another of its slice may.
    fn reals(&mut self, kept: f64, other: f64) -> Vec<f64> {
        let any = f64::from_bits(self.rng.u64());
        REALS
            .into_iter()
            .chain([other, -kept, kept.next_up(), any])
            .collect()
    }

    fn damage_words(
        &mut self,
        tally: &mut Tally,
        kind: &'static str,
        of: impl Fn(&mut Damaged) -> &mut [u32],
    ) {
        for at in 0..of(self).len() {
            let kept = of(self)[at];
            for damage in self.words() {
                of(self)[at] = damage;
                self.ask(tally, kind, at);
                of(self)[at] = kept;
            }
        }
    }

    fn damage_reals(
        &mut self,
        tally: &mut Tally,
        kind: &'static str,
        of: impl Fn(&mut Damaged) -> &mut [f64],
    ) {
        let n = of(self).len();
        for at in 0..n {
            let other = self.rng.below(n);
            let (kept, other) = (of(self)[at], of(self)[other]);
            for damage in self.reals(kept, other) {
                of(self)[at] = damage;
                self.ask(tally, kind, at);
                of(self)[at] = kept;
            }
        }
    }

    fn damage_kinds(&mut self, tally: &mut Tally) {
        for at in 0..self.job.piece_kinds.len() {
            let kept = self.job.piece_kinds[at];
            for damage in [0, 1, 2, 255] {
                self.job.piece_kinds[at] = damage;
                self.ask(tally, "kinds", at);
            }
            self.job.piece_kinds[at] = kept;
        }
    }

    fn run(mut self, tally: &mut Tally) {
        self.ask(tally, "undamaged", 0);
        for k in ROOMS_OF_WORDS {
            let name = self.rooms.all_words()[k].0;
            self.damage_words(tally, name, |d| {
                &mut d.rooms.all_words_mut().into_iter().nth(k).expect("a room")[..]
            });
        }
        for k in ROOMS_OF_REALS {
            let name = self.rooms.all_reals()[k].0;
            self.damage_reals(tally, name, |d| {
                &mut d.rooms.all_reals_mut().into_iter().nth(k).expect("a room")[..]
            });
        }
        self.damage_words(tally, "counts", |d| &mut d.told);
        self.damage_words(tally, "triangles", |d| &mut d.job.triangles);
        self.damage_words(tally, "faces", |d| &mut d.job.piece_faces);
        self.damage_reals(tally, "vertices", |d| &mut d.job.vertices);
        self.damage_reals(tally, "coords", |d| &mut d.job.piece_coords);
        self.damage_kinds(tally);
    }
}

pub fn run(first: u64, count: u64) -> Tally {
    let mut tally = Tally::default();
    for seed in first..first + count {
        with_field(seed, |job, rooms, known| {
            let small = known
                .ok()
                .filter(|k| k.told[1] <= TRIANGLES && k.told[4] <= WINDOWS);
            if let Some(known) = small {
                Damaged::new(seed, &known, job, rooms).run(&mut tally);
            }
        });
    }
    tally
}
