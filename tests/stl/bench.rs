//! Times reading STL files through the static library and by a HashMap, by turns; every mesh is compared. Usage: bench [ROUNDS]
#[path = "../clock.rs"]
mod clock;
mod library;
mod reader;
use clock::{clock, print_load};

/// The least times of both over the rounds, in milliseconds.
fn measure(points: &[[f32; 3]], rounds: usize) -> (f64, f64, usize) {
    let file = reader::file_of(points);
    let (mut vertices, mut triangles) = (vec![0f64; 3 * 65_535], vec![0u32; 3 * 131_070]);
    let (mut ours, mut theirs, mut count) = (f64::MAX, f64::MAX, 0);
    for _ in 0..rounds {
        let start = clock();
        let mesh = reader::read(&file).map_err(|n| n.to_string()).unwrap();
        let middle = clock();
        count = library::read(&file, &mut vertices, &mut triangles).unwrap();
        let end = clock();
        theirs = theirs.min(middle - start);
        ours = ours.min(end - middle);
        assert!(mesh.vertices.iter().zip(&vertices).all(|(x, y)| x.to_bits() == y.to_bits()) && mesh.vertices.len() == 3 * count);
        assert!(mesh.triangles == triangles[..mesh.triangles.len()]);
    }
    (1e3 * ours, 1e3 * theirs, count)
}

fn mixed(h: u32, x: u32) -> u32 {
    let p = h.wrapping_add(x) as u64 * 2654435769;
    ((p >> 32) as u32).wrapping_add(p as u32)
}

/// Points on a line whose bits the library's buckets put into one: at first coordinates, since the others are zero.
fn crowded(n: usize) -> Vec<[f32; 3]> {
    let bucket = |b: u32| mixed(mixed(mixed(0, b), 0), 0) >> 15;
    let wanted = bucket(0x3f80_0000);
    let found = (0x3f80_0000..0x7f00_0000).filter(|&b| bucket(b) == wanted).take(n);
    let mut points: Vec<_> = found.map(|b| [f32::from_bits(b), 0.0, 0.0]).collect();
    points.truncate(points.len() / 3 * 3);
    points
}

fn main() {
    let rounds = std::env::args().nth(1).map_or(15, |n| n.parse().unwrap());
    print_load();
    println!("| file | vertices | triangles | read, ms | HashMap, ms | ratio |\n|---|---|---|---|---|---|");
    let mut line = |name: &str, points: &[[f32; 3]]| {
        let (ours, theirs, count) = measure(points, rounds);
        println!("| {name} | {count} | {} | {ours:.2} | {theirs:.2} | {:.2} |", points.len() / 3, ours / theirs);
        ours
    };
    let large = line("torus", &reader::torus(255, 257));
    line("sheet", &reader::sheet(254, 256));
    let middle = line("torus", &reader::torus(64, 64));
    let small = line("torus", &reader::torus(32, 32));
    line("torus", &reader::torus(6, 6));
    let worst = crowded(3_000);
    line("points of one bucket", &worst);
    let growth = |n: f64, m: f64, steps: f64| (n / m).ln() / steps.ln();
    println!("\nGrowth with the number n of triangles: n^{:.2} from 8,192 to 131,070, n^{:.2} from 2,048 to 8,192.", growth(large, middle, 131_070.0 / 8_192.0), growth(middle, small, 4.0));
}
