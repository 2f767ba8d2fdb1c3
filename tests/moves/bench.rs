//! Times moves of 100 MB of workshop slips through the static library, both ways, beside a copy of as many bytes; every byte is compared. Usage: bench [ROUNDS]
#[path = "../clock.rs"]
mod clock;
#[allow(dead_code)]
mod library;
use clock::{clock, print_load};
use oracle::form::{Form, moved};
use oracle::generate::workshop::{self, Shape};
use oracle::slip;

/// The least time over the rounds, in seconds, of moving all slips, each to a slice that it just fits.
fn measure(from: Form, slips: &[Vec<u8>], wanted: &[Vec<u8>], rounds: usize) -> f64 {
    let mut outs: Vec<Vec<u8>> = wanted.iter().map(|w| vec![0; w.len()]).collect();
    let mut least = f64::MAX;
    for _ in 0..rounds {
        let start = clock();
        for (s, out) in slips.iter().zip(&mut outs) {
            assert_eq!(library::move_slip(from, s, out), (0, out.len()));
        }
        least = least.min(clock() - start);
        assert!(outs == wanted);
        outs.iter_mut().for_each(|out| out.fill(0));
    }
    least
}

fn copying(slips: &[Vec<u8>], rounds: usize) -> f64 {
    let mut outs = slips.to_vec();
    let mut least = f64::MAX;
    for _ in 0..rounds {
        let start = clock();
        for (s, out) in slips.iter().zip(&mut outs) {
            std::hint::black_box(out).copy_from_slice(std::hint::black_box(s));
        }
        least = least.min(clock() - start);
    }
    least
}

fn main() {
    let rounds = std::env::args().nth(1).map_or(5, |n| n.parse().unwrap());
    print_load();
    let mut made = Vec::new();
    for (k, shape) in Shape::ALL.into_iter().enumerate() {
        for triangles in [2_000, 10_000, 60_000] {
            made.push(slip::write(&workshop::job(shape, triangles, 20, 50.0, k as u64)));
        }
    }
    let (mut plain, mut bytes) = (Vec::new(), 0);
    while bytes < 100_000_000 {
        let next = made[plain.len() % made.len()].clone();
        bytes += next.len();
        plain.push(next);
    }
    let grouped: Vec<Vec<u8>> = plain.iter().map(|s| moved(Form::Plain, s).unwrap_or_default()).collect();
    let after: usize = grouped.iter().map(Vec::len).sum();
    let speed = |bytes: usize, seconds: f64| bytes as f64 / 1e6 / seconds;
    println!("{} slips, {bytes} bytes plain, {after} in groups\n", plain.len());
    println!("| move | MB read | MB written | s | MB/s read |\n|---|---|---|---|---|");
    let line = |name: &str, read: usize, written: usize, t: f64| println!("| {name} | {:.1} | {:.1} | {t:.3} | {:.0} |", read as f64 / 1e6, written as f64 / 1e6, speed(read, t));
    line("plain to groups", bytes, after, measure(Form::Plain, &plain, &grouped, rounds));
    line("groups to plain", after, bytes, measure(Form::Groups, &grouped, &plain, rounds));
    line("a copy", bytes, bytes, copying(&plain, rounds));
}
