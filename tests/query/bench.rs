//! Asks workshop fields for random points of faces and places on edges, in rows by the static library and one by one by the published Rust, by turns in one run.
//! Usage: bench [SHAPE TRIANGLES LINES]
#[path = "../clock.rs"]
mod clock;
// rows of windows and short rows are not timed
#[allow(dead_code)]
mod library;

use clock::{clock, print_load};
use library::Asked;
use oracle::dump::{bits, contents};
use oracle::generate::rng::Rng;
use oracle::generate::workshop::{self, Shape};
use oracle::job::{Job, Mesh};
use oracle::reading::Patched;
use oracle::rooms::{Rooms, Slots, hold};
use oracle::upstream::Ready;
use std::hint::black_box;

const QUESTIONS: usize = 100_000;
const TURNS: usize = 7;
const LIMIT: f64 = 1e7;

fn timed<T>(least: &mut f64, f: impl FnOnce() -> T) -> T {
    let start = clock();
    let made = black_box(f());
    *least = least.min(clock() - start);
    made
}

struct Asks {
    faces: Vec<u32>,
    points: Vec<[f64; 3]>,
    edges: Vec<u32>,
    places: Vec<f64>,
}

fn asks(mesh: &Mesh) -> Asks {
    let mut rng = Rng::new(QUESTIONS as u64);
    let rng = &mut rng;
    let number = |rng: &mut Rng, n: usize| rng.below(n) as u32;
    let faces: Vec<u32> = (0..QUESTIONS).map(|_| number(rng, mesh.t.len())).collect();
    let edges: Vec<u32> = (0..QUESTIONS)
        .map(|_| number(rng, mesh.topo.edges.len()))
        .collect();
    let point = |&f: &u32| {
        let [a, b, c] = mesh.t[f as usize].map(|k| mesh.v[k as usize]);
        let (s, t) = (rng.unit(), rng.unit());
        let (s, t) = if s + t > 1. { (1. - s, 1. - t) } else { (s, t) };
        [0, 1, 2].map(|k| a[k] + s * (b[k] - a[k]) + t * (c[k] - a[k]))
    };
    let points = faces.iter().map(point).collect();
    let place = |&e: &u32| rng.between(0., mesh.topo.len[e as usize]);
    let places = edges.iter().map(place).collect();
    Asks {
        faces,
        points,
        edges,
        places,
    }
}

/// How many answers differ from the patched reading's, which must be none, and from the published.
fn compare(name: &str, ours: &[(u32, f64)], patched: &[f64], published: &[f64]) -> usize {
    let unlike = |theirs: &[f64]| {
        let pairs = ours.iter().zip(theirs);
        pairs
            .filter(|(a, d)| a.0 != 0 || bits(a.1) != bits(**d))
            .count()
    };
    assert_eq!(unlike(patched), 0, "{name}: answers differ from the Rust's");
    unlike(published)
}

fn measure(name: &str, job: Job) {
    let mesh = Mesh::new(&job).expect("a sound job");
    let field = mesh.field::<Patched>().expect("no bounds");
    let mut rooms = Rooms::new(&Slots::just(&job, &field));
    let held = contents(mesh.field::<Patched>().expect("no bounds"));
    let told = hold(&mesh, &held, &mut rooms);
    let flags = &mesh.topo.pseudo;
    let ready = Ready::new(&mesh.v, &mesh.t, flags, &mesh.pieces, job.limit).expect("sound");
    let solved = ready.compute().expect("a field");
    let asked = Asked {
        answer: Ok(told),
        job: &job,
        rooms: &rooms,
    };
    let q = asks(&mesh);
    let faces = || q.faces.iter().zip(&q.points);
    let edges = || q.edges.iter().zip(&q.places);
    let [mut check, mut faces_ours, mut faces_theirs] = [f64::INFINITY; 3];
    let [mut edges_ours, mut edges_theirs] = [f64::INFINITY; 2];
    let mut unlike = [0; 2];
    for _ in 0..TURNS {
        timed(&mut check, || asked.vertices(&[]));
        let ours = timed(&mut faces_ours, || asked.faces(&q.faces, &q.points));
        let theirs: Vec<f64> = timed(&mut faces_theirs, || {
            faces().map(|(&f, &p)| solved.at(f, p)).collect()
        });
        let patched: Vec<f64> = faces().map(|(&f, &p)| field.at(f, p)).collect();
        unlike[0] = compare(name, &ours.1, &patched, &theirs);
        let ours = timed(&mut edges_ours, || asked.edges(&q.edges, &q.places));
        let theirs: Vec<f64> = timed(&mut edges_theirs, || {
            edges().map(|(&e, &x)| solved.edge_at(e, x)).collect()
        });
        let patched: Vec<f64> = edges().map(|(&e, &x)| field.edge_at(e, x)).collect();
        unlike[1] = compare(name, &ours.1, &patched, &theirs);
    }
    let row = |kind: &str, ours: f64, theirs: f64, unlike: usize| {
        println!(
            "| {name} | {} | {kind} | {:.2} | {:.2} | {:.2} | {:.2} | {:.2} | {unlike} |",
            held.wins.len(),
            1e3 * theirs,
            1e3 * ours,
            1e3 * check,
            ours / theirs,
            (ours - check) / theirs,
        );
    };
    row("faces", faces_ours, faces_theirs, unlike[0]);
    row("edges", edges_ours, edges_theirs, unlike[1]);
}

fn main() {
    let words: Vec<String> = std::env::args().skip(1).collect();
    let words: Vec<&str> = words.iter().map(String::as_str).collect();
    let number = |text: &str| text.parse::<usize>().expect("a number");
    let jobs = match words[..] {
        [] => vec![(Shape::Terrain, 60_000, 10), (Shape::Ruled, 10_000, 1)],
        [shape, triangles, lines] => {
            let shape = Shape::parse(shape).expect("a shape");
            vec![(shape, number(triangles), number(lines))]
        }
        _ => panic!("usage: bench [SHAPE TRIANGLES LINES]"),
    };
    print_load();
    println!(
        "| field | windows | {QUESTIONS} of | the Rust, ms | ours, ms | of it the check, ms | times | times, the check aside | answers unlike the published |"
    );
    println!("|---|---|---|---|---|---|---|---|---|");
    for (shape, triangles, lines) in jobs {
        let job = workshop::job(shape, triangles, lines, LIMIT, lines as u64);
        let name = format!("{shape:?} {triangles}, {lines} lines");
        measure(&name, job);
    }
}
