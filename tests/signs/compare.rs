//! Compares signs of two sources, and the bounds that they are first asked of, with the Rust's distances: random cases of every kind, then the windows of
//! real fields, with the share of signs that bounds decide. Usage: compare SEED MILLIONS.
use oracle::exact::Src;
use oracle::generate::rng::Rng;
use oracle::generate::workshop::{self, Shape};
use oracle::job::Mesh;
use oracle::reading::Patched;

unsafe extern "C" {
    #[rustfmt::skip]
    fn sirmolaat_sign(p: u32, p0: f64, p1: f64, p2: f64, q: u32, q0: f64, q1: f64, q2: f64, x: f64) -> u32;
    fn sirmolaat_lower(kind: u32, a: f64, b: f64, c: f64, x: f64) -> f64;
    fn sirmolaat_upper(kind: u32, a: f64, b: f64, c: f64, x: f64) -> f64;
}

const SPECIAL: [f64; 22] = [
    0.,
    -0.,
    1.,
    -1.,
    -1. - f64::EPSILON,
    -1. + f64::EPSILON / 2.,
    f64::MIN_POSITIVE,
    5e-324,
    -5e-324,
    1e-162,
    1e-155,
    1e-50,
    1e-49,
    1e49,
    1e50,
    1e100,
    -1e100,
    1e154,
    f64::MAX,
    f64::INFINITY,
    f64::NEG_INFINITY,
    f64::NAN,
];

fn parts(src: &Src) -> (u32, [f64; 3]) {
    match *src {
        Src::Point { x, y, s } => (0, [x, y, s]),
        Src::Line { ux, uy, c } => (1, [ux, uy, c]),
    }
}

/// Any double, those of real fields more often than others.
fn number(rng: &mut Rng) -> f64 {
    match rng.below(10) {
        0 => rng.pick(&SPECIAL),
        1 => f64::from_bits(rng.u64()),
        2 => rng.below(21) as f64 - 10.,
        3 => rng.between(-1., 1.) * 10f64.powi(rng.below(320) as i32 - 160),
        4 => {
            let x = rng.pick(&SPECIAL);
            rng.pick(&[x.next_up(), x.next_down(), x * (1. + 1e-12)])
        }
        _ => rng.between(-1., 1.) * 10f64.powi(rng.below(8) as i32 - 3),
    }
}

fn source(rng: &mut Rng) -> Src {
    let [a, b, c] = match rng.below(4) {
        0 => [number(rng), number(rng), number(rng)],
        1 => [number(rng), number(rng), rng.between(-1.5, 1e4)],
        _ => {
            let k = 10f64.powi(rng.below(7) as i32 - 2);
            let s = rng.unit() * rng.pick(&[0., 1., k]);
            [rng.between(-k, k), rng.between(-k, 0.), s]
        }
    };
    if rng.one_in(3) {
        let turn = rng.between(0., std::f64::consts::PI);
        return Src::Line {
            ux: if rng.one_in(3) { a } else { turn.cos() },
            uy: turn.sin(),
            c,
        };
    }
    Src::Point { x: a, y: b, s: c }
}

/// A source whose distance at x is d, or beside it by about the tolerance or a few units in the last place.
fn tied(rng: &mut Rng, q: &Src, x: f64) -> Src {
    let d = q.edge::<Patched>(x);
    let tolerance = 1e-10 * (1. + d);
    let mut p = if rng.one_in(2) { source(rng) } else { *q };
    let off = match rng.below(6) {
        0 => 0.,
        1 => tolerance,
        2 => -tolerance,
        3 => tolerance * (1. + rng.between(-1e-11, 1e-11)),
        4 => -tolerance * (1. + rng.between(-1e-4, 1e-4)),
        _ => tolerance * rng.between(-2., 2.),
    };
    let by = d - p.edge::<Patched>(x) + off;
    let units = rng.below(5) as f64 - 2.;
    match &mut p {
        Src::Point { s, .. } => *s += by + units * f64::EPSILON * s.abs(),
        Src::Line { c, .. } => *c += by + units * f64::EPSILON * c.abs(),
    }
    p
}

#[derive(Default)]
struct Tally {
    signs: u64,
    of: [u64; 3],
    bounded: u64,
    decided: u64,
    differ: u64,
}

impl Tally {
    fn bounds(&mut self, src: &Src, x: f64) -> Option<(f64, f64)> {
        let (kind, [a, b, c]) = parts(src);
        let lo = unsafe { sirmolaat_lower(kind, a, b, c, x) };
        let hi = unsafe { sirmolaat_upper(kind, a, b, c, x) };
        if lo.is_nan() && hi.is_nan() {
            return None;
        }
        let d = src.edge::<Patched>(x);
        if !(-1. <= lo && lo <= d && d <= hi && hi <= 1e100) {
            self.differ += 1;
            println!("bounds {lo:e} {hi:e} of {d:e}: {src:?} at {x:e}");
        }
        Some((lo, hi))
    }

    fn compare(&mut self, p: &Src, q: &Src, x: f64) {
        let (dp, dq) = (p.edge::<Patched>(x), q.edge::<Patched>(x));
        let expected = if dp < dq - 1e-10 * (1. + dq) {
            0
        } else if dp > dq + 1e-10 * (1. + dq) {
            2
        } else {
            1
        };
        let ((k, [p0, p1, p2]), (l, [q0, q1, q2])) = (parts(p), parts(q));
        let found = unsafe { sirmolaat_sign(k, p0, p1, p2, l, q0, q1, q2, x) };
        if found != expected {
            self.differ += 1;
            println!("sign {found} for {expected}: {p:?} {q:?} at {x:e}");
        }
        self.signs += 1;
        self.of[expected as usize] += 1;
        if let (Some((pl, pu)), Some((ql, qu))) = (self.bounds(p, x), self.bounds(q, x)) {
            self.bounded += 1;
            let (most, least) = (1e-10 * (1. + qu), 1e-10 * (1. + ql));
            let equal = pl >= qu - least && pu <= ql + least;
            self.decided += u64::from(pu < ql - most || pl > qu + most || equal);
        }
    }

    fn print(&self, name: &str) {
        let share = |n: u64| 100. * n as f64 / self.signs as f64;
        println!(
            "| {name} | {} | {} | {} | {} | {:.3} | {:.3} | {} |",
            self.signs,
            self.of[0],
            self.of[1],
            self.of[2],
            share(self.bounded),
            share(self.decided),
            self.differ
        );
    }
}

fn random(seed: u64, count: u64) -> Tally {
    let (rng, mut tally) = (&mut Rng::new(seed), Tally::default());
    for _ in 0..count {
        let (q, x) = (source(rng), number(rng));
        let p = match rng.below(3) {
            0 => source(rng),
            _ => tied(rng, &q, x),
        };
        tally.compare(&p, &q, x);
    }
    tally
}

/// Each window of a field beside the three made before it on its edge, at the ends of what they share and at its middle.
fn real(shape: Shape, triangles: usize, lines: usize, limit: f64) -> Tally {
    let mesh = Mesh::new(&workshop::job(shape, triangles, lines, limit, 1)).expect("a mesh");
    let mut field = mesh.empty::<Patched>();
    field.run(&mesh.pieces, u64::MAX).expect("a field");
    let (mut on_edge, mut tally) = (vec![vec![]; field.on_edge.len()], Tally::default());
    for w in &field.wins {
        let list: &mut Vec<_> = &mut on_edge[w.edge as usize];
        for old in list.iter().rev().take(3) {
            let old: &oracle::exact::Win = old;
            let (lo, hi) = (w.b0.max(old.b0), w.b1.min(old.b1));
            if lo < hi {
                for x in [lo, hi, (lo + hi) / 2.] {
                    tally.compare(&w.src, &old.src, x);
                }
            }
        }
        list.push(*w);
    }
    tally
}

fn main() {
    let given: Vec<u64> = (std::env::args().skip(1))
        .map(|a| a.parse().expect("a number"))
        .collect();
    println!("| cases | signs | shorter | equal | longer | both bounded, % | decided by bounds, % | differ |");
    println!("|---|---|---|---|---|---|---|---|");
    let random = random(given[0], 1_000_000 * given[1]);
    random.print("random");
    let mut differ = random.differ;
    for (shape, lines, limit) in [
        (Shape::Terrain, 1, 1e7),
        (Shape::Terrain, 100, 1e7),
        (Shape::Mould, 10, 1e7),
        (Shape::Ruled, 10, 60.),
        (Shape::Noisy, 10, 1e7),
    ] {
        let tally = real(shape, 2_000, lines, limit);
        tally.print(&format!("{shape:?}, {lines}").to_lowercase());
        differ += tally.differ;
    }
    std::process::exit(i32::from(differ > 0));
}
