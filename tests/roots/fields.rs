//! Computes the workshop jobs of 10,000 triangles with two libraries, which differ in their roots alone, and by the published Rust, by turns in one run.
//! Usage: fields [SHAPE LINES TURNS]
#[path = "../clock.rs"]
mod clock;
/// tests/field/library.rs with the names of the other library; fields.sh makes it.
#[path = "../../target/tests/earlier.rs"]
mod earlier;
#[path = "../field/library.rs"]
mod library;

use clock::{clock, print_load};
use oracle::generate::workshop;
use oracle::job::{Job, Mesh};
use oracle::reading::Patched;
use oracle::rooms::{Rooms, Slots};
use oracle::upstream::Ready;
use std::hint::black_box;

const TURNS: &str = "24";

/// Seconds of f, without the time that it takes to drop what it makes.
fn timed<T>(f: impl FnOnce() -> T) -> f64 {
    let start = clock();
    let made = black_box(f());
    let seconds = clock() - start;
    drop(made);
    seconds
}

/// The least times of the Rust, of the library with the earlier roots, and of the library.
fn measure(job: Job, turns: usize) -> [f64; 3] {
    let mesh = Mesh::new(&job).expect("a sound job");
    let field = mesh.field::<Patched>().expect("no bounds");
    let (slots, steps) = (Slots::just(&job, &field), field.steps);
    drop(field);
    let job = Job {
        max_steps: steps as u32,
        ..job
    };
    let ready =
        Ready::new(&mesh.v, &mesh.t, &mesh.topo.pseudo, &mesh.pieces, job.limit).expect("sound");
    let [mut before, mut now] = [0; 2].map(|_| {
        let mut rooms = Rooms::new(&slots);
        rooms.fill(|| 7, || 7.);
        rooms
    });
    let mut least = [f64::INFINITY; 3];
    for _ in 0..turns {
        let times = [
            timed(|| ready.compute().expect("a field")),
            timed(|| earlier::compute(&job, &mut before).expect("a field")),
            timed(|| library::compute(&job, &mut now).expect("a field")),
        ];
        least = std::array::from_fn(|k| least[k].min(times[k]));
    }
    assert!(library::same(&before, &now), "the fields differ");
    least
}

fn main() {
    let words: Vec<String> = std::env::args().skip(1).collect();
    let word = |k: usize, all: &'static str| words.get(k).map_or(all, String::as_str).to_string();
    let [chosen, number, turns] = [word(0, ""), word(1, ""), word(2, TURNS)];
    let turns: usize = turns.parse().expect("a number of turns");
    print_load();
    println!(
        "| mesh | lines | Field::compute, ms | earlier roots, ms | these roots, ms | these / earlier |"
    );
    println!("|---|---:|---:|---:|---:|---:|");
    let [mut logarithms, mut jobs] = [0.; 2];
    for (shape, triangles, lines, limit) in workshop::mix() {
        let name = format!("{shape:?}").to_lowercase();
        let asked = chosen.is_empty() || (chosen == name && number == lines.to_string());
        if triangles != 10_000 || !asked {
            continue;
        }
        let job = workshop::job(shape, triangles, lines, limit, lines as u64);
        let [rust, before, now] = measure(job, turns);
        println!(
            "| {name} | {lines} | {:.2} | {:.2} | {:.2} | {:.2} |",
            1e3 * rust,
            1e3 * before,
            1e3 * now,
            now / before
        );
        logarithms += (now / before).ln();
        jobs += 1.;
    }
    println!(
        "\nThe geometric mean of the ratios is {:.3}.",
        (logarithms / jobs).exp()
    );
}
