//! A night of the workshop: fields over meshes of 2,000 to 60,000 triangles on two threads, by the package in rust/ and by the published Rust, each in a process of its own.
//! Usage: night [MESHES FIELDS]
#[path = "../../clock.rs"]
mod clock;

use clock::{clock, print_load};
use oracle::exact::Piece as TheirPiece;
use oracle::generate::workshop::{self, Shape};
use oracle::job::{Job, Mesh};
use oracle::upstream::Ready;
use sirmolaat::{Field, Options, Piece, Topology};
use std::hint::black_box;
use std::process::Command;
use std::sync::atomic::{AtomicU64, AtomicUsize, Ordering::Relaxed};

const THREADS: usize = 2;
const LINES: [usize; 4] = [1, 10, 100, 300];

/// Job k of so many, on mesh k % meshes: the meshes' sizes rise by one factor from 2,000 to 60,000 triangles.
fn job(k: usize, meshes: usize) -> Job {
    let mesh = k % meshes;
    let share = mesh as f64 / (meshes.max(2) - 1) as f64;
    let triangles = (2_000. * 30f64.powf(share)) as usize;
    let shape = Shape::ALL[mesh % Shape::ALL.len()];
    // long ruled triangles make windows out of proportion
    let limit = if shape == Shape::Ruled { 60. } else { 1e7 };
    workshop::job(
        shape,
        triangles,
        LINES[k / meshes % LINES.len()],
        limit,
        k as u64,
    )
}

fn ours(mesh: &Mesh, limit: f64) -> u64 {
    let piece = |piece: &TheirPiece| match *piece {
        TheirPiece::Point(f, a) => Piece::Point(f, a),
        TheirPiece::Segment(f, a, b) => Piece::Segment(f, a, b),
    };
    let pieces: Vec<Piece> = mesh.pieces.iter().map(piece).collect();
    let topo = Topology::new(&mesh.v, &mesh.t, &mesh.topo.pseudo).expect("a sound mesh");
    let field = Field::compute(&mesh.v, &mesh.t, &topo, &pieces, limit, &Options::default());
    black_box(field.expect("a field").at(0, mesh.v[0]));
    1
}

fn theirs(mesh: &Mesh, limit: f64) -> u64 {
    let ready =
        Ready::new(&mesh.v, &mesh.t, &mesh.topo.pseudo, &mesh.pieces, limit).expect("a sound mesh");
    let field = ready.compute().expect("a field");
    // one question, so that the field is made
    black_box(field.at(0, mesh.v[0]));
    1
}

/// The most memory that this process had, in MiB.
fn peak() -> u64 {
    let status = std::fs::read_to_string("/proc/self/status").unwrap_or_default();
    let line = status.lines().find_map(|line| line.strip_prefix("VmHWM:"));
    let kib = line.and_then(|text| text.split_whitespace().next()?.parse::<u64>().ok());
    kib.unwrap_or(0) / 1024
}

/// All fields, by so many threads; each takes the next job.
fn run(meshes: usize, fields: usize, solve: fn(&Mesh, f64) -> u64) {
    let (next, made, busy) = (AtomicUsize::new(0), AtomicU64::new(0), AtomicU64::new(0));
    std::thread::scope(|scope| {
        for _ in 0..THREADS {
            scope.spawn(|| {
                loop {
                    let k = next.fetch_add(1, Relaxed);
                    if k >= fields {
                        return;
                    }
                    let job = job(k, meshes);
                    let mesh = Mesh::new(&job).expect("a sound job");
                    let start = clock();
                    made.fetch_add(solve(&mesh, job.limit), Relaxed);
                    busy.fetch_add((1e6 * (clock() - start)) as u64, Relaxed);
                }
            });
        }
    });
    let seconds = busy.load(Relaxed) as f64 / 1e6 / THREADS as f64;
    println!("{seconds:.2} {} {}", peak(), made.load(Relaxed));
}

/// One of the two in a process of its own: seconds, peak and fields.
fn alone(who: &str, meshes: usize, fields: usize) -> (f64, u64, u64) {
    let program = std::env::current_exe().expect("this program");
    let made = Command::new(program)
        .args([who, &meshes.to_string(), &fields.to_string()])
        .output();
    let text = String::from_utf8(made.expect("it runs").stdout).expect("text");
    let mut words = text.split_whitespace();
    let mut word = || words.next().expect("three numbers");
    let (seconds, peak, fields) = (word(), word(), word());
    let number = |text: &str| text.parse::<u64>().expect("a number");
    (
        seconds.parse().expect("a number"),
        number(peak),
        number(fields),
    )
}

fn both(meshes: usize, fields: usize) {
    print_load();
    println!("| meshes | fields | threads | program | seconds | peak, MiB |");
    println!("|---:|---:|---:|---|---:|---:|");
    let [published, ours] = ["theirs", "ours"].map(|who| alone(who, meshes, fields));
    for (name, (seconds, peak, made)) in [("published Rust", published), ("rust/", ours)] {
        println!("| {meshes} | {made} | {THREADS} | {name} | {seconds:.1} | {peak} |");
    }
    println!(
        "\nRatio of the times: {:.2}; of the peaks: {:.2}.",
        ours.0 / published.0,
        ours.1 as f64 / published.1 as f64
    );
}

fn main() {
    let words: Vec<String> = std::env::args().skip(1).collect();
    let words: Vec<&str> = words.iter().map(String::as_str).collect();
    let number = |text: &str| text.parse::<usize>().expect("a number");
    match words[..] {
        [] => both(40, 600),
        ["ours", meshes, fields] => run(number(meshes), number(fields), ours),
        ["theirs", meshes, fields] => run(number(meshes), number(fields), theirs),
        [meshes, fields] => both(number(meshes), number(fields)),
        _ => panic!("usage: night [MESHES FIELDS]"),
    }
}
