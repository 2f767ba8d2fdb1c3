//! Runs workshop jobs by the static library, in one call and in parts, and by the published Rust's `Field::compute`, by turns in one run.
//! Usage: bench [SHAPE TRIANGLES LINES LIMIT] | bench alone SHAPE TRIANGLES LINES LIMIT TURNS
#[path = "../clock.rs"]
mod clock;
#[macro_use]
mod library;
mod parts;

use clock::{clock, print_load};
use oracle::exact::Topology;
use oracle::generate::workshop::{self, Shape};
use oracle::job::{Job, Mesh};
use oracle::reading::{Patched, Published, Reading};
use oracle::rooms::{Rooms, Slots};
use oracle::upstream::Ready;
use std::alloc::{GlobalAlloc, Layout, System};
use std::cell::Cell;
use std::cmp::Ordering;
use std::hint::black_box;
use std::sync::atomic::{AtomicBool, AtomicUsize, Ordering::Relaxed};
use std::time::Instant;

/// At least three turns of each program, and no more than TURNS where they take long.
const TURNS: usize = 16;
const SECONDS: f64 = 3.;

/// The system's allocator; while COUNTING, how many bytes are out, and the most that were.
struct Counted;
static COUNTING: AtomicBool = AtomicBool::new(false);
static LIVE: AtomicUsize = AtomicUsize::new(0);
static MOST: AtomicUsize = AtomicUsize::new(0);

fn count(taken: usize, given: usize) {
    if COUNTING.load(Relaxed) {
        let live = LIVE.load(Relaxed).wrapping_add(taken).wrapping_sub(given);
        LIVE.store(live, Relaxed);
        MOST.store(MOST.load(Relaxed).max(live), Relaxed);
    }
}

unsafe impl GlobalAlloc for Counted {
    unsafe fn alloc(&self, layout: Layout) -> *mut u8 {
        count(layout.size(), 0);
        unsafe { System.alloc(layout) }
    }
    unsafe fn dealloc(&self, at: *mut u8, layout: Layout) {
        count(0, layout.size());
        unsafe { System.dealloc(at, layout) }
    }
    unsafe fn realloc(&self, at: *mut u8, layout: Layout, size: usize) -> *mut u8 {
        count(size, layout.size());
        unsafe { System.realloc(at, layout, size) }
    }
}

#[global_allocator]
static ALLOCATOR: Counted = Counted;

/// The most bytes out at once while f runs, beside those that were out before.
fn most_bytes<T>(f: impl FnOnce() -> T) -> usize {
    LIVE.store(0, Relaxed);
    MOST.store(0, Relaxed);
    COUNTING.store(true, Relaxed);
    drop(black_box(f()));
    COUNTING.store(false, Relaxed);
    MOST.load(Relaxed)
}

thread_local! {
    static HYPOTS: Cell<u64> = const { Cell::new(0) };
}

/// The published reading, counting its calls of hypot.
struct Counting;

impl Reading for Counting {
    fn hypot(x: f64, y: f64) -> f64 {
        HYPOTS.set(HYPOTS.get() + 1);
        Published::hypot(x, y)
    }
    fn min(x: f64, y: f64) -> f64 {
        Published::min(x, y)
    }
    fn max(x: f64, y: f64) -> f64 {
        Published::max(x, y)
    }
    fn square(x: f64) -> f64 {
        Published::square(x)
    }
    fn total_cmp(x: f64, y: f64) -> Ordering {
        Published::total_cmp(x, y)
    }
}

fn hypots(mesh: &Mesh) -> u64 {
    HYPOTS.set(0);
    drop(mesh.field::<Counting>().expect("no bounds"));
    HYPOTS.get()
}

/// Seconds of f, without the time that it takes to drop what it makes.
fn timed<T>(f: impl FnOnce() -> T) -> f64 {
    let start = clock();
    let made = black_box(f());
    let seconds = clock() - start;
    drop(made);
    seconds
}

/// Rooms that just suffice, each of which was written to.
fn lent(slots: &Slots) -> Rooms {
    let mut rooms = Rooms::new(slots);
    rooms.fill(|| 7, || 7.);
    rooms
}

fn ours(job: &Job, rooms: &mut Rooms) -> f64 {
    timed(|| library::compute(job, rooms).expect("a field"))
}

fn in_parts(job: &Job, rooms: &mut Rooms) -> f64 {
    timed(|| parts::compute(job, rooms).expect("a field"))
}

struct Measured {
    triangles: usize,
    windows: usize,
    theirs: f64,
    ours: f64,
    parts: f64,
}

fn measure(name: &str, lines: usize, job: Job) -> Measured {
    let mesh = Mesh::new(&job).expect("a sound job");
    let field = mesh.field::<Patched>().expect("no bounds");
    let (slots, windows, steps) = (Slots::just(&job, &field), field.wins.len(), field.steps);
    drop(field);
    let job = Job {
        max_steps: steps as u32,
        ..job
    };
    let bare = Job {
        piece_kinds: vec![],
        piece_faces: vec![],
        piece_coords: vec![],
        ..job.clone()
    };
    let flags = &mesh.topo.pseudo;
    let ready = Ready::new(&mesh.v, &mesh.t, flags, &mesh.pieces, job.limit).expect("sound");
    let [mut rooms, mut others] = [0; 2].map(|_| lent(&slots));
    let mut empty = lent(&Slots::just(&bare, &mesh.empty::<Patched>()));
    let [mut theirs, mut topology, mut all, mut parts, mut alone] = [f64::INFINITY; 5];
    let start = Instant::now();
    for turn in 0..TURNS {
        if turn >= 3 && start.elapsed().as_secs_f64() > SECONDS {
            break;
        }
        theirs = theirs.min(timed(|| ready.compute().expect("a field")));
        topology = topology.min(timed(|| {
            Topology::new(&mesh.v, &mesh.t, flags).expect("sound")
        }));
        all = all.min(ours(&job, &mut rooms));
        parts = parts.min(in_parts(&job, &mut others));
        alone = alone.min(ours(&bare, &mut empty));
    }
    assert!(
        library::same(&rooms, &others),
        "the parts come to another field"
    );
    let bytes = most_bytes(|| ready.compute().expect("a field"));
    let triangles = mesh.t.len();
    println!(
        "| {name} | {triangles} | {lines} | {} | {windows} | {steps} | {:.2} | {:.2} | {:.2} | {:.2} | {:.2} | {:.2} | {:.2} | {:.2} | {} | {:.0} | {:.0} |",
        mesh.pieces.len(),
        1e3 * theirs,
        1e3 * all,
        all / theirs,
        1e3 * parts,
        parts / theirs,
        1e3 * topology,
        1e3 * alone,
        parts / (theirs + topology),
        hypots(&mesh),
        bytes as f64 / windows as f64,
        rooms.bytes() as f64 / windows as f64,
    );
    Measured {
        triangles,
        windows,
        theirs,
        ours: all,
        parts,
    }
}

fn print_head() {
    println!(
        "| mesh | triangles | lines | pieces | windows made | steps | Field::compute, ms | compute, ms | ratio | in parts, ms | ratio | Topology::new, ms | mesh alone, ms | in parts / both | the Rust's hypots | its bytes a window | bytes lent a window |"
    );
    println!(
        "|---|---:|---:|---:|---:|---:|---:|---:|---:|---:|---:|---:|---:|---:|---:|---:|---:|"
    );
}

/// Every shape, size and number of lines; then growth, from the smallest mesh with the largest one's limit on.
fn all() {
    print_head();
    let mix = workshop::mix();
    let made: Vec<Measured> = (mix.iter())
        .map(|&(shape, triangles, lines, limit)| {
            let job = workshop::job(shape, triangles, lines, limit, lines as u64);
            measure(&format!("{shape:?}").to_lowercase(), lines, job)
        })
        .collect();
    println!("\nGrowth as a power of the number of triangles, up to the largest mesh:\n");
    println!("| mesh | lines | from | windows made | Field::compute | compute | in parts |");
    println!("|---|---:|---:|---:|---:|---:|---:|");
    for (&(shape, triangles, lines, limit), last) in mix.iter().zip(&made) {
        if triangles < 60_000 {
            continue;
        }
        let alike = |k: &usize| mix[*k].0 == shape && mix[*k].2 == lines && mix[*k].3 == limit;
        let first = &made[(0..mix.len()).find(alike).expect("itself at least")];
        let power =
            |a: f64, b: f64| (b / a).ln() / (last.triangles as f64 / first.triangles as f64).ln();
        println!(
            "| {} | {lines} | {} | {:.3} | {:.3} | {:.3} | {:.3} |",
            format!("{shape:?}").to_lowercase(),
            first.triangles,
            power(first.windows as f64, last.windows as f64),
            power(first.theirs, last.theirs),
            power(first.ours, last.ours),
            power(first.parts, last.parts)
        );
    }
}

fn main() {
    let words: Vec<String> = std::env::args().skip(1).collect();
    let words: Vec<&str> = words.iter().map(String::as_str).collect();
    let number = |text: &str| text.parse::<usize>().expect("a number");
    let job = |shape: &str, triangles: &str, lines: &str, limit: &str| {
        let shape = Shape::parse(shape).expect("a shape");
        let limit: f64 = limit.parse().expect("a number");
        workshop::job(
            shape,
            number(triangles),
            number(lines),
            limit,
            number(lines) as u64,
        )
    };
    match words[..] {
        [] => {
            print_load();
            all();
        }
        [shape, triangles, lines, limit] => {
            print_head();
            measure(shape, number(lines), job(shape, triangles, lines, limit));
        }
        // for a profile: the library's call and nothing else, so many times
        ["alone", shape, triangles, lines, limit, turns] => {
            let job = job(shape, triangles, lines, limit);
            let mesh = Mesh::new(&job).expect("a sound job");
            let field = mesh.field::<Published>().expect("no bounds");
            // the readings differ by some windows in a thousand
            let mut slots = Slots::just(&job, &field);
            slots.buffers.windows += slots.buffers.windows / 100 + 100;
            slots.buffers.events += slots.buffers.events / 100 + 100;
            slots.buffers.cuts += 1_000;
            let mut rooms = lent(&Slots::least(&job, slots.buffers));
            drop(field);
            for _ in 0..number(turns) {
                println!("{:.4} s", ours(&job, &mut rooms));
            }
        }
        _ => panic!(
            "usage: bench [SHAPE TRIANGLES LINES LIMIT] | bench alone SHAPE TRIANGLES LINES LIMIT TURNS"
        ),
    }
}
