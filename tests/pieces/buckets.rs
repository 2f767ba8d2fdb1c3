//! How full the buckets of the pieces' ends get, and how many steps it takes to ask of every end whether it is the first of its bits. `bucket` is `pointBucket` of
//! crates/piece_ends/specs/Table.antt. Usage: buckets
use oracle::rooms::bucket;
use std::collections::HashMap;

type Point = [f64; 3];

/// The segments of a job: points, most different in a bucket, most ends in a bucket, steps for each end.
fn count(name: &str, segments: &[(Point, Point)]) {
    let size = segments.len();
    let mut chains: Vec<Vec<[u64; 3]>> = vec![vec![]; segments.len()];
    let mut points: HashMap<[u64; 3], usize> = HashMap::new();
    let mut different = vec![0usize; segments.len()];
    let (mut steps, mut ends) = (0u64, 0u64);
    for p in segments.iter().flat_map(|&(a, b)| [a, b]) {
        let (b, bits) = (bucket(size, p), p.map(f64::to_bits));
        let place = *points.entry(bits).or_insert_with(|| {
            different[b] += 1;
            chains[b].len()
        });
        chains[b].push(bits);
        steps += place as u64 + 1;
        ends += 1;
    }
    let most = chains.iter().map(Vec::len).max().unwrap_or(0);
    println!(
        "| {name} | {} | {} | {} | {most} | {:.2} |",
        segments.len(),
        points.len(),
        different.iter().max().unwrap_or(&0),
        steps as f64 / ends as f64
    );
}

fn lines(n: usize, m: usize, at: impl Fn(usize, usize) -> Point) -> Vec<(Point, Point)> {
    (0..n)
        .flat_map(|i| (0..m).map(move |j| (i, j)))
        .map(|(i, j)| (at(i, j), at(i, j + 1)))
        .collect()
}

fn main() {
    println!(
        "| segments | how many | points | most points in a bucket | most ends in a bucket | steps an end |"
    );
    println!("|---|---|---|---|---|---|");
    let f = |i: usize| i as f64;
    count(
        "300 lines of 100, whole numbers",
        &lines(300, 100, |i, j| [f(j), f(i), 0.]),
    );
    count(
        "300 lines of 100, tenths",
        &lines(300, 100, |i, j| [f(j) * 0.1, f(i) * 0.1, 5.]),
    );
    count(
        "300 circles of 100",
        &lines(300, 100, |i, j| {
            let t = f(j) * 0.0628;
            [f(i + 1) * t.cos(), f(i + 1) * t.sin(), 0.]
        }),
    );
    count("one line along x", &lines(1, 65_535, |_, j| [f(j), 0., 0.]));
    count(
        "one line along z",
        &lines(1, 65_535, |_, j| [0., 0., f(j) / 1024.]),
    );
    count("one diagonal", &lines(1, 65_535, |_, j| [f(j), -f(j), 1.]));
    // A remainder by 65,535 would put these into two buckets: the upper half of 133.24 and the golden number add up to a multiple of it.
    count(
        "a flat grid of tenths, z = 133.24",
        &lines(255, 257, |i, j| [f(j) * 0.1, f(i) * 0.1, 133.24]),
    );
    count(
        "a flat grid of tenths, y = 133.24",
        &lines(100, 257, |i, j| [f(j) * 0.1, 133.24, f(i) * 0.1]),
    );
    count(
        "one line along x, y = 133.24",
        &lines(1, 65_535, |_, j| [f(j) * 0.1, 133.24, 0.]),
    );
    let star: Vec<_> = (0..65_535)
        .map(|j| ([1.5, 2.5, 0.], [f(j), 3.25, 0.5]))
        .collect();
    count("all from one end", &star);
    let back: Vec<_> = star.iter().map(|&(a, b)| (b, a)).collect();
    count("all to one end", &back);
}
