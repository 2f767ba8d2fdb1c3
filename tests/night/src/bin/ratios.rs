//! What a user of the package in rust/ gets beside the published Rust: topology, insertion, fields, single questions and memory, by turns in one run, as a table of ratios.
//! Usage: ratios [SHAPE TRIANGLES LINES]
#[path = "../../../clock.rs"]
mod clock;

use clock::{clock, print_load};
use oracle::exact::Piece as TheirPiece;
use oracle::generate::rng::Rng;
use oracle::generate::workshop::{self, Shape};
use oracle::job::{Job, Mesh};
use oracle::reading::Published;
use oracle::upstream::Ready;
use sirmolaat::{Field, Job as Turns, Options, Piece, Topology};
use std::alloc::{GlobalAlloc, Layout, System};
use std::hint::black_box;
use std::sync::atomic::{AtomicUsize, Ordering::Relaxed};

const TURNS: usize = 3;
const QUESTIONS: usize = 20_000;

/// The system's allocator, with the bytes that are out and the most that were.
struct Counted;
static LIVE: AtomicUsize = AtomicUsize::new(0);
static MOST: AtomicUsize = AtomicUsize::new(0);

fn count(taken: usize, given: usize) {
    let live = LIVE.load(Relaxed).wrapping_add(taken).wrapping_sub(given);
    LIVE.store(live, Relaxed);
    MOST.store(MOST.load(Relaxed).max(live), Relaxed);
}

unsafe impl GlobalAlloc for Counted {
    unsafe fn alloc(&self, layout: Layout) -> *mut u8 {
        count(layout.size(), 0);
        unsafe { System.alloc(layout) }
    }
    unsafe fn dealloc(&self, at: *mut u8, layout: Layout) {
        count(0, layout.size());
        unsafe { System.dealloc(at, layout) }
    }
    unsafe fn realloc(&self, at: *mut u8, layout: Layout, size: usize) -> *mut u8 {
        count(size, layout.size());
        unsafe { System.realloc(at, layout, size) }
    }
}

#[global_allocator]
static ALLOCATOR: Counted = Counted;

/// What is made, with the least of its times and the most bytes that it had out.
struct Least {
    seconds: f64,
    bytes: usize,
}

impl Least {
    const NONE: Least = Least {
        seconds: f64::INFINITY,
        bytes: 0,
    };

    fn of<T>(&mut self, make: impl FnOnce() -> T) -> T {
        let before = LIVE.load(Relaxed);
        MOST.store(before, Relaxed);
        let start = clock();
        let made = black_box(make());
        self.seconds = self.seconds.min(clock() - start);
        self.bytes = self.bytes.max(MOST.load(Relaxed) - before);
        made
    }
}

/// Ours, then theirs.
type Pair = [Least; 2];

fn ratio([ours, theirs]: &Pair) -> f64 {
    ours.seconds / theirs.seconds
}

struct Asks {
    faces: Vec<(u32, [f64; 3])>,
    edges: Vec<(u32, f64)>,
}

fn asks(mesh: &Mesh) -> Asks {
    let rng = &mut Rng::new(QUESTIONS as u64);
    let mut asks = Asks {
        faces: vec![],
        edges: vec![],
    };
    for _ in 0..QUESTIONS {
        let f = rng.below(mesh.t.len());
        let [a, b, c] = mesh.t[f].map(|k| mesh.v[k as usize]);
        let (s, t) = (0.5 * rng.unit(), 0.5 * rng.unit());
        let p = [0, 1, 2].map(|k| a[k] + s * (b[k] - a[k]) + t * (c[k] - a[k]));
        asks.faces.push((f as u32, p));
        let e = rng.below(mesh.topo.edges.len());
        asks.edges.push((e as u32, mesh.topo.len[e] * rng.unit()));
    }
    asks
}

fn measure(name: &str, lines: usize, job: &Job) {
    let mesh = Mesh::new(job).expect("a sound job");
    let piece = |piece: &TheirPiece| match *piece {
        TheirPiece::Point(f, a) => Piece::Point(f, a),
        TheirPiece::Segment(f, a, b) => Piece::Segment(f, a, b),
    };
    let pieces: Vec<Piece> = mesh.pieces.iter().map(piece).collect();
    let (v, t, flags, options) = (&mesh.v, &mesh.t, &mesh.topo.pseudo, Options::default());
    let ready = Ready::new(v, t, flags, &mesh.pieces, job.limit).expect("a sound mesh");
    let asks = asks(&mesh);
    let mut all: [Pair; 5] = [const { [Least::NONE; 2] }; 5];
    let [topology, insertion, fields, at, edge_at] = &mut all;
    let (mut windows, mut held) = (0, 0);
    for _ in 0..TURNS {
        let topo = topology[0].of(|| Topology::new(v, t, flags).expect("a sound mesh"));
        topology[1].of(|| oracle::exact::Topology::new(v, t, flags).expect("a sound mesh"));
        insertion[0]
            .of(|| Turns::begin(v, t, &topo, &pieces, job.limit, &options).expect("a sound job"));
        insertion[1].of(|| {
            drop(oracle::exact::Topology::new(v, t, flags).expect("a sound mesh"));
            mesh.inserted::<Published>().expect("no bounds")
        });
        let ours = fields[0]
            .of(|| Field::compute(v, t, &topo, &pieces, job.limit, &options).expect("a field"));
        let theirs = fields[1].of(|| ready.compute().expect("a field"));
        at[0].of(|| asks.faces.iter().map(|&(f, p)| ours.at(f, p)).sum::<f64>());
        at[1].of(|| {
            asks.faces
                .iter()
                .map(|&(f, p)| theirs.at(f, p))
                .sum::<f64>()
        });
        edge_at[0].of(|| {
            asks.edges
                .iter()
                .map(|&(e, x)| ours.edge_at(e, x))
                .sum::<f64>()
        });
        edge_at[1].of(|| {
            asks.edges
                .iter()
                .map(|&(e, x)| theirs.edge_at(e, x))
                .sum::<f64>()
        });
        (windows, held) = (ours.windows(), ours.bytes());
    }
    let mib = |bytes: usize| bytes as f64 / (1 << 20) as f64;
    println!(
        "| {name} | {} | {lines} | {windows} | {:.2} | {:.2} | {:.2} | {:.1} | {:.2} | {:.2} | {:.0} | {:.0} | {:.0} |",
        t.len(),
        ratio(topology),
        ratio(insertion),
        ratio(fields),
        1e3 * fields[0].seconds,
        ratio(at),
        ratio(edge_at),
        mib(fields[0].bytes),
        mib(fields[1].bytes),
        mib(held),
    );
}

fn main() {
    let words: Vec<String> = std::env::args().skip(1).collect();
    let words: Vec<&str> = words.iter().map(String::as_str).collect();
    let number = |text: &str| text.parse::<usize>().expect("a number");
    print_load();
    let jobs = match words[..] {
        [] => workshop::mix(),
        [shape, triangles, lines] => {
            let shape = Shape::parse(shape).expect("a shape");
            let limit = if shape == Shape::Ruled { 60. } else { 1e7 };
            vec![(shape, number(triangles), number(lines), limit)]
        }
        _ => panic!("usage: ratios [SHAPE TRIANGLES LINES]"),
    };
    println!(
        "Times of rust/ as parts of those of the published Rust; peaks of memory while the field is computed, and what ours holds then, in MiB:\n"
    );
    println!(
        "| mesh | triangles | lines | windows | topology | the same and insertion | field | field, ms | at | edge_at | ours, peak | theirs, peak | ours, held |"
    );
    println!("|---|---:|---:|---:|---:|---:|---:|---:|---:|---:|---:|---:|---:|");
    for (shape, triangles, lines, limit) in jobs {
        let job = workshop::job(shape, triangles, lines, limit, lines as u64);
        measure(&format!("{shape:?}").to_lowercase(), lines, &job);
    }
}
