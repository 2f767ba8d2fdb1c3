//! Writes stored questions to fields of small jobs, with the answers: those of the Rust to the field as it is, those of reader.rs to the field damaged in one word.
//! tests/README.md has the format, under "Stored questions". Usage: vectors FIRST COUNT
mod fields;
mod reader;

use fields::{Known, number, with_field};
use oracle::dump::bits;
use oracle::exact::Refusal;
use oracle::generate::rng::Rng;
use oracle::job::Job;
use oracle::rooms::{Rooms, Told};
use reader::Reader;
use std::io::Write;

/// The most elements of each list that the program which replays them has room for: the job's slices, the field's, the questions.
const MOST: [usize; 20] = [
    96, 96, 16, 16, 96, 384, 256, 192, 288, 64, 512, 768, 96, 60, 180, 60, 60, 60, 24, 24,
];

/// The questions of a row for distances, and of one for windows.
const ROW: usize = 60;
const SLOTS: usize = 24;

/// Which list a case damages: one of the first thirteen, the counts, or none.
const COUNTS: u32 = 13;
const NONE: u32 = 20;

const CASES: usize = 40;

/// The numbers of a record.
#[derive(Default)]
struct Row(Vec<u32>);

impl Row {
    fn f64s(&mut self, list: &[f64]) {
        for &x in list {
            self.0.extend([bits(x) as u32, (bits(x) >> 32) as u32]);
        }
    }
    fn sum(&self) -> u32 {
        let next = |s: u64, &n: &u32| (s * 65_599 + u64::from(n)) % 4_294_967_291;
        self.0.iter().fold(0, next) as u32
    }
}

fn sum_of(words: &[u32]) -> u32 {
    Row(words.to_vec()).sum()
}

fn sum_of_reals(reals: &[f64]) -> u32 {
    let mut row = Row::default();
    row.f64s(reals);
    row.sum()
}

struct Questions {
    faces: Vec<u32>,
    points: Vec<[f64; 3]>,
    edges: Vec<u32>,
    places: Vec<f64>,
    vertices: Vec<u32>,
    lists: Vec<u32>,
    ranks: Vec<u32>,
}

fn questions(known: &Known, rng: &mut Rng) -> Questions {
    let mesh = known.mesh;
    let edges = mesh.topo.edges.len();
    let faces: Vec<u32> = (0..ROW).map(|_| number(rng, mesh.t.len())).collect();
    let asked: Vec<u32> = (0..ROW).map(|_| number(rng, edges)).collect();
    let n = mesh.v.len();
    let lists: Vec<u32> = (0..SLOTS).map(|_| number(rng, edges)).collect();
    let rank = |&e: &u32| {
        let n = known.held.on_edge.get(e as usize).map_or(0, Vec::len);
        rng.below(n + 1) as u32
    };
    let ranks = lists.iter().map(rank).collect();
    Questions {
        points: faces.iter().map(|&f| known.point(rng, f)).collect(),
        places: asked.iter().map(|&e| known.place(rng, e)).collect(),
        faces,
        edges: asked,
        vertices: (0..ROW)
            .map(|k| if k < n { k as u32 } else { number(rng, n) })
            .collect(),
        lists,
        ranks,
    }
}

/// A field, the questions, and by how much the slices for the answers are short.
struct Case<'a> {
    refusal: u32,
    reader: Reader<'a>,
    asked: &'a Questions,
    short: [usize; 2],
}

type Answers = [Vec<(u32, f64)>; 3];

impl Case<'_> {
    fn read(&self) -> Answers {
        let q = self.asked;
        let faces = q.faces.iter().zip(&q.points);
        let edges = q.edges.iter().zip(&q.places);
        [
            faces.map(|(&f, &p)| self.reader.at(f, p)).collect(),
            edges.map(|(&e, &x)| self.reader.edge_at(e, x)).collect(),
            q.vertices.iter().map(|&k| self.reader.vertex(k)).collect(),
        ]
    }

    /// The number of a row of so many questions: 20, then 74.
    fn number(&self, questions: usize) -> u32 {
        if self.refusal != 0 || self.reader.unsound() {
            20
        } else if questions > 0 && self.short != [0, 0] {
            74
        } else {
            0
        }
    }

    /// The row's number, and the check sums of its slices.
    fn distances(&self, row: &mut Row, answers: &[(u32, f64)]) {
        let number = self.number(answers.len());
        let (mut numbers, mut distances) = ([77; ROW], [77.; ROW]);
        if number == 0 {
            for (k, &(number, distance)) in answers.iter().enumerate() {
                (numbers[k], distances[k]) = (number, distance);
            }
        }
        row.0
            .extend([number, sum_of(&numbers), sum_of_reals(&distances)]);
    }

    fn windows(&self, row: &mut Row) {
        let q = self.asked;
        let number = self.number(q.lists.len());
        let (mut numbers, mut ids) = ([77; SLOTS], [77; SLOTS]);
        let (mut words, mut reals) = ([77; 4 * SLOTS], [77.; 6 * SLOTS]);
        if number == 0 {
            for (k, (&e, &place)) in q.lists.iter().zip(&q.ranks).enumerate() {
                match self.reader.window_at(e, place) {
                    Err(number) => (numbers[k], ids[k]) = (number, 0),
                    Ok(id) => {
                        let slot = self.reader.slot(id);
                        (numbers[k], ids[k]) = (0, id);
                        words[4 * k..4 * k + 4].copy_from_slice(&slot.0);
                        reals[6 * k..6 * k + 6].copy_from_slice(&slot.1);
                    }
                }
            }
        }
        row.0.extend([number, sum_of(&numbers), sum_of(&ids)]);
        row.0.extend([sum_of(&words), sum_of_reals(&reals)]);
    }

    fn write(&self, row: &mut Row, answers: &Answers) {
        answers.iter().for_each(|a| self.distances(row, a));
        self.windows(row);
    }
}

/// What the Rust answers.
fn oracle(known: &Known, q: &Questions) -> Answers {
    let told = |answer: Result<f64, Refusal>| answer.map_or_else(|r| (r.0, f64::NAN), |d| (0, d));
    let (mesh, field) = (known.mesh, known.field);
    let faces = q.faces.iter().zip(&q.points);
    let edges = q.edges.iter().zip(&q.places);
    let vertex = |&k: &u32| known.held.vertex.get(k as usize).copied();
    [
        faces.map(|(&f, &p)| told(mesh.at(field, f, p))).collect(),
        edges
            .map(|(&e, &x)| told(mesh.edge_at(field, e, x)))
            .collect(),
        q.vertices
            .iter()
            .map(|k| told(vertex(k).ok_or(Refusal(25))))
            .collect(),
    ]
}

/// The thirteen lists that a query is lent.
fn words_of<'a>(job: &'a mut Job, rooms: &'a mut Rooms, list: usize) -> Option<&'a mut [u32]> {
    match list {
        1 => Some(&mut job.triangles),
        3 => Some(&mut job.piece_faces),
        5 => Some(&mut rooms.edge_words),
        7 => Some(&mut rooms.triangle_words),
        10 => Some(&mut rooms.words),
        12 => Some(&mut rooms.entry_words),
        _ => None,
    }
}

fn reals_of<'a>(job: &'a mut Job, rooms: &'a mut Rooms, list: usize) -> Option<&'a mut [f64]> {
    match list {
        0 => Some(&mut job.vertices),
        4 => Some(&mut job.piece_coords),
        6 => Some(&mut rooms.edge_reals),
        8 => Some(&mut rooms.triangle_reals),
        9 => Some(&mut rooms.vertex),
        11 => Some(&mut rooms.reals),
        _ => None,
    }
}

/// One element changed: the list, the element, and what stands there then.
fn damage(rng: &mut Rng, told: &mut Told, job: &mut Job, rooms: &mut Rooms) -> [u32; 4] {
    let counts = *told;
    let [v, t, p, e, w, _] = counts;
    let word = rng.pick(&[0, 1, 2, v, t, p, e, w, w + 1, e - 1, u32::MAX]);
    let real = rng.pick(&[f64::NAN, f64::INFINITY, -0., 0., -1., 1., 1e9, 3.5]);
    loop {
        let list = rng.below(14);
        if list == 13 {
            let at = rng.below(5);
            told[at] = word;
            return [COUNTS, at as u32, word, 0];
        }
        if list == 2 && !job.piece_kinds.is_empty() {
            let at = rng.below(job.piece_kinds.len());
            job.piece_kinds[at] = word as u8;
            return [2, at as u32, u32::from(word as u8), 0];
        }
        if let Some(words) = words_of(job, rooms, list).filter(|s| !s.is_empty()) {
            let at = rng.below(words.len());
            words[at] = word;
            return [list as u32, at as u32, word, 0];
        }
        if let Some(reals) = reals_of(job, rooms, list).filter(|s| !s.is_empty()) {
            let at = rng.below(reals.len());
            reals[at] = real;
            let halves = [bits(real) as u32, (bits(real) >> 32) as u32];
            return [list as u32, at as u32, halves[0], halves[1]];
        }
    }
}

/// The lists of a record and how many elements each has.
fn lists(job: &Job, rooms: &Rooms, q: &Questions, cases: Row) -> Vec<(usize, Row)> {
    let words = |list: &[u32]| (list.len(), Row(list.to_vec()));
    let reals = |list: &[f64]| {
        let mut row = Row::default();
        row.f64s(list);
        (list.len(), row)
    };
    let kinds: Vec<u32> = job.piece_kinds.iter().map(|&k| u32::from(k)).collect();
    vec![
        reals(&job.vertices),
        words(&job.triangles),
        words(&kinds),
        words(&job.piece_faces),
        reals(&job.piece_coords),
        words(&rooms.edge_words),
        reals(&rooms.edge_reals),
        words(&rooms.triangle_words),
        reals(&rooms.triangle_reals),
        reals(&rooms.vertex),
        words(&rooms.words),
        reals(&rooms.reals),
        words(&rooms.entry_words),
        words(&q.faces),
        reals(q.points.as_flattened()),
        words(&q.edges),
        reals(&q.places),
        words(&q.vertices),
        words(&q.lists),
        words(&q.ranks),
        (cases.0.len(), cases),
    ]
}

fn record(refusal: u32, told: Told, cases: usize, lists: &[(usize, Row)], out: &mut Vec<u8>) {
    let mut table = Row(vec![refusal, cases as u32, 0]);
    table.0.extend(told);
    let mut at = 9 + 2 * lists.len();
    for (elements, list) in lists {
        table.0.extend([at as u32, *elements as u32]);
        at += list.0.len();
    }
    table.0[2] = at as u32;
    let numbers = table.0.iter().chain(lists.iter().flat_map(|l| &l.1.0));
    numbers.for_each(|n| out.extend(n.to_le_bytes()));
}

fn field(
    seed: u64,
    refusal: u32,
    job: &Job,
    rooms: &Rooms,
    known: &Known,
    out: &mut Vec<u8>,
) -> bool {
    let mut rng = Rng::new(!seed);
    let rng = &mut rng;
    let q = questions(known, rng);
    let sound = lists(job, rooms, &q, Row::default());
    if sound.iter().zip(MOST).any(|(list, most)| list.0 > most) || known.told[3] == 0 {
        return false;
    }
    let mut cases = Row::default();
    for k in 0..CASES {
        let (mut told, mut job, mut rooms) = (known.told, job.clone(), rooms.clone());
        let short = [[0, 0], [1, 0], [0, 1]][if k < 3 { k } else { 0 }];
        let damaged = if k < 3 {
            [NONE, 0, 0, 0]
        } else {
            damage(rng, &mut told, &mut job, &mut rooms)
        };
        let case = Case {
            refusal,
            reader: Reader {
                told,
                job: &job,
                rooms: &rooms,
            },
            asked: &q,
            short,
        };
        let answers = if case.reader.unsound() {
            [(); 3].map(|()| vec![])
        } else {
            case.read()
        };
        if k == 0 {
            let theirs = oracle(known, &q);
            let key = |a: &Answers| {
                a.each_ref()
                    .map(|l| l.iter().map(|a| (a.0, bits(a.1))).collect::<Vec<_>>())
            };
            assert_eq!(key(&theirs), key(&answers), "seed {seed}");
        }
        cases.0.extend(damaged);
        cases.0.extend(short.map(|n| n as u32));
        case.write(&mut cases, &answers);
    }
    record(
        refusal,
        known.told,
        CASES,
        &lists(job, rooms, &q, cases),
        out,
    );
    true
}

fn main() {
    let words: Vec<String> = std::env::args().skip(1).collect();
    let number = |k: usize| words[k].parse::<u64>().expect("usage: vectors FIRST COUNT");
    let (mut seed, mut left) = (number(0), number(1));
    let mut out = vec![];
    while left > 0 {
        with_field(seed, |job, rooms, known| {
            // the last as if its job had been refused
            let refusal = if left == 1 { 15 } else { 0 };
            if let Ok(known) = known
                && field(seed, refusal, job, &rooms, &known, &mut out)
            {
                left -= 1;
            }
        });
        seed += 1;
    }
    std::io::stdout().write_all(&out).expect("written");
}
