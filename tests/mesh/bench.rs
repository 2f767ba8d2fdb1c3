//! Times the topology of the static library and the Rust's `Topology::new` on the same meshes and compares every number. Usage: bench
use oracle::exact::{Buffers, NONE, Topology};
use oracle::generate::rng::Rng;
use oracle::generate::workshop::{self, Shape};
use oracle::job::Job;
use oracle::vector::Vec3;
use std::{hint::black_box, time::Instant};

const TURNS: usize = 30;
const ROW: usize = 6;

unsafe extern "C" {
    /// The refusals 1 to 5, 0 for none.
    fn sirmolaat_mesh_check(
        vertices: *const f64,
        vertices_len: usize,
        triangles: *const u32,
        triangles_len: usize,
        flags: *const u8,
        flags_len: usize,
    ) -> u32;
    /// The refusals and the topology: a refusal in the upper 32 bits, or else the number of edges in the lower.
    fn sirmolaat_mesh_build(
        vertices: *const f64,
        vertices_len: usize,
        triangles: *const u32,
        triangles_len: usize,
        flags: *const u8,
        flags_len: usize,
        vertex_words: *mut u32,
        vertex_words_len: usize,
        edge_words: *mut u32,
        edge_words_len: usize,
        edge_reals: *mut f64,
        edge_reals_len: usize,
        round: *mut u32,
        round_len: usize,
        triangle_words: *mut u32,
        triangle_words_len: usize,
        triangle_reals: *mut f64,
        triangle_reals_len: usize,
    ) -> u64;
}

type Mesh = (Vec<Vec3>, Vec<[u32; 3]>);

/// A grid of hills with at most 65,535 vertices.
fn terrain(triangles: usize) -> Mesh {
    let nx = ((triangles / 2) as f64).sqrt().ceil() as usize;
    let ny = (triangles / 2 / nx).min(65_535 / (nx + 1) - 1);
    let (mut v, mut t) = (vec![], vec![]);
    for j in 0..=ny {
        for i in 0..=nx {
            let (x, y) = (2. * i as f64, 2. * j as f64);
            v.push([x, y, 6. * (0.11 * x).sin() * (0.083 * y).cos()]);
        }
    }
    let at = |i, j| (j * (nx + 1) + i) as u32;
    for j in 0..ny {
        for i in 0..nx {
            let (a, b, c, d) = (at(i, j), at(i + 1, j), at(i + 1, j + 1), at(i, j + 1));
            t.extend([[a, b, c], [a, c, d]]);
        }
    }
    (v, t)
}

/// Two hubs over and under a ring: half of the triangles at each.
fn fan(triangles: usize) -> Mesh {
    let n = (triangles / 2).min(65_533);
    let radius = 0.05 * n as f64;
    let mut v = vec![[0., 0., 10.], [0., 0., -10.]];
    v.extend((0..n).map(|k| {
        let turn = std::f64::consts::TAU * k as f64 / n as f64;
        [radius * turn.cos(), radius * turn.sin(), 0.]
    }));
    let ring = |k: usize| (2 + k % n) as u32;
    let t = (0..n).flat_map(|k| [[0, ring(k), ring(k + 1)], [1, ring(k + 1), ring(k)]]);
    (v, t.collect())
}

/// Few vertices, almost every two joined: the triangles a < b < c with a + b + c a multiple of the number of vertices.
fn dense(triangles: usize) -> Mesh {
    let n = (6. * triangles as f64).sqrt() as usize;
    let mut rng = Rng::new(2);
    let v = (0..n).map(|_| [0; 3].map(|_| rng.between(-100., 100.)));
    let v = v.collect();
    let mut t = vec![];
    for a in 0..n {
        for b in a + 1..n {
            let c = (2 * n - a - b) % n;
            if b < c {
                t.push([a as u32, b as u32, c as u32]);
            }
        }
    }
    (v, t)
}

/// The same mesh with its vertices renumbered and its triangles in another order.
fn shuffled((v, t): Mesh) -> Mesh {
    let mut rng = Rng::new(1);
    let mut shuffle = |n: usize| {
        let mut order: Vec<usize> = (0..n).collect();
        for i in (1..n).rev() {
            order.swap(i, rng.below(i + 1));
        }
        order
    };
    let (of, order) = (shuffle(v.len()), shuffle(t.len()));
    let mut moved = vec![[0.; 3]; v.len()];
    of.iter().zip(&v).for_each(|(&to, &p)| moved[to] = p);
    let renumber = |k: u32| of[k as usize] as u32;
    (moved, order.iter().map(|&i| t[i].map(renumber)).collect())
}

/// In milliseconds, without the time that it takes to drop what was made.
fn time<T>(run: impl FnOnce() -> T) -> f64 {
    let start = Instant::now();
    let made = black_box(run());
    let elapsed = start.elapsed();
    drop(made);
    elapsed.as_secs_f64() * 1e3
}

fn job((v, t): &Mesh) -> Job {
    Job {
        vertices: v.iter().flatten().copied().collect(),
        triangles: t.iter().flatten().copied().collect(),
        flags: vec![0; v.len()],
        piece_kinds: vec![],
        piece_faces: vec![],
        piece_coords: vec![],
        limit: 0.,
        max_steps: 0,
        buffers: Buffers::UNBOUNDED,
    }
}

struct Lent {
    vertex_words: Vec<u32>,
    edge_words: Vec<u32>,
    edge_reals: Vec<f64>,
    round: Vec<u32>,
    triangle_words: Vec<u32>,
    triangle_reals: Vec<f64>,
}

impl Lent {
    fn new(job: &Job) -> Lent {
        let (n, sides) = (job.flags.len(), job.triangles.len());
        Lent {
            vertex_words: vec![7; 3 * n],
            edge_words: vec![7; 6 * sides],
            edge_reals: vec![7.; 4 * sides],
            round: vec![7; sides],
            triangle_words: vec![7; 2 * sides],
            triangle_reals: vec![7.; 3 * sides],
        }
    }

    fn check(job: &Job) -> u32 {
        let (v, t, f) = (&job.vertices, &job.triangles, &job.flags);
        unsafe {
            sirmolaat_mesh_check(
                v.as_ptr(),
                v.len(),
                t.as_ptr(),
                t.len(),
                f.as_ptr(),
                f.len(),
            )
        }
    }

    fn build(&mut self, job: &Job) -> u64 {
        let (v, t, f) = (&job.vertices, &job.triangles, &job.flags);
        unsafe {
            sirmolaat_mesh_build(
                v.as_ptr(),
                v.len(),
                t.as_ptr(),
                t.len(),
                f.as_ptr(),
                f.len(),
                self.vertex_words.as_mut_ptr(),
                self.vertex_words.len(),
                self.edge_words.as_mut_ptr(),
                self.edge_words.len(),
                self.edge_reals.as_mut_ptr(),
                self.edge_reals.len(),
                self.round.as_mut_ptr(),
                self.round.len(),
                self.triangle_words.as_mut_ptr(),
                self.triangle_words.len(),
                self.triangle_reals.as_mut_ptr(),
                self.triangle_reals.len(),
            )
        }
    }

    /// Every number of the Rust's, to the bit.
    fn compare(&self, topo: &Topology) {
        let same = |a: &[f64], b: &[f64]| a.iter().zip(b).all(|(x, y)| x.to_bits() == y.to_bits());
        for e in 0..topo.edges.len() {
            let w = &self.edge_words[6 * e..6 * e + 6];
            assert_eq!(w[..2], topo.edges[e]);
            assert_eq!(w[2..4], topo.faces[e]);
            assert_eq!(w[4..], [0; 2]);
            let r = &self.edge_reals[4 * e..4 * e + 4];
            assert!(
                same(&r[..1], &[topo.len[e]]) && same(&r[1..], &topo.xhat[e]),
                "edge {e}"
            );
        }
        assert!(
            self.edge_words[6 * topo.edges.len()..]
                .iter()
                .all(|&x| x == 0)
        );
        for f in 0..topo.tri_edges.len() {
            let w = &self.triangle_words[6 * f..6 * f + 6];
            assert_eq!(w[..3], topo.tri_edges[f]);
            assert_eq!(w[3..], [0; 3]);
            assert!(
                same(
                    &self.triangle_reals[9 * f..9 * f + 9],
                    topo.yhat[f].as_flattened()
                ),
                "face {f}"
            );
        }
        for (k, faces) in topo.vertex_faces.iter().enumerate() {
            let (start, end) = (self.vertex_words[3 * k], self.vertex_words[3 * k + 1]);
            assert_eq!(&self.round[start as usize..end as usize], &faces[..]);
            assert_eq!(self.vertex_words[3 * k + 2] == 1, topo.pseudo[k]);
        }
    }
}

/// How many edges the fullest bucket has: `bucketOf` of crates/edge_table/specs/Words.antt.
fn fullest_bucket(topo: &Topology, triangles: usize) -> u32 {
    let size = 3 * triangles as u64;
    let mut full = vec![0; 3 * triangles];
    for e in &topo.edges {
        let [low, high] = e.map(u64::from);
        let base = (high - low) / 8 * 2_654_435_761 % (1 << 32) * size >> 32;
        full[((4 * low + (high - low) % 8 + base) % size) as usize] += 1;
    }
    full.into_iter().max().unwrap_or(0)
}

/// The least times of four programs: TURNS turns of each, turn by turn, or ROW turns of one after the other before the next.
fn least(turn_by_turn: bool, mut programs: [&mut dyn FnMut() -> f64; 4]) -> [f64; 4] {
    let turns = if turn_by_turn { 1 } else { ROW };
    let mut least = [f64::INFINITY; 4];
    for _ in 0..TURNS / turns {
        for (least, program) in least.iter_mut().zip(&mut programs) {
            for _ in 0..turns {
                *least = least.min(program());
            }
        }
    }
    least
}

/// Two lines, one for each way to take turns; the answer is the time of the library's topology, without the checks, by turns and in a row.
/// Both programs read the same memory.
fn measure(name: &str, mesh: &Mesh) -> [f64; 2] {
    let job = job(mesh);
    job.check().expect("a sound job");
    let (v, t) = (job.vertices.as_chunks().0, job.triangles.as_chunks().0);
    let pseudo = vec![false; v.len()];
    let topo = Topology::new(v, t, &pseudo).expect("at most two faces an edge");
    assert!(topo.faces.iter().all(|f| f[0] != NONE));
    let mut lent = Lent::new(&job);
    assert_eq!(lent.build(&job), topo.edges.len() as u64);
    lent.compare(&topo);
    let bucket = fullest_bucket(&topo, t.len());
    let times = [true, false].map(|turn_by_turn| {
        least(
            turn_by_turn,
            [
                &mut || time(|| Topology::new(v, t, &pseudo)),
                &mut || time(|| job.check()),
                &mut || time(|| lent.build(&job)),
                &mut || time(|| Lent::check(&job)),
            ],
        )
    });
    let checks = times[0][3].min(times[1][3]);
    [0, 1].map(|way| {
        let [new, check, all, _] = times[way];
        let ours = all - checks;
        println!(
            "| {name} | {} | {} | {bucket} | {} | {new:.2} | {ours:.2} | {:.2} | {check:.2} | {checks:.2} | {:.2} |",
            t.len(),
            topo.edges.len(),
            ["by turns", "in a row"][way],
            ours / new,
            all / (new + check)
        );
        ours
    })
}

fn main() {
    let load = std::fs::read_to_string("/proc/loadavg").unwrap_or_default();
    println!(
        "- other work as the run began: a load of {} on {} processors\n",
        load.split(' ').next().unwrap_or("?"),
        std::thread::available_parallelism().map_or(0, |n| n.get())
    );
    println!(
        "| mesh | triangles | edges | longest bucket | turns | Topology::new, ms | topology, ms | ratio | the oracle's checks, ms | checks, ms | all / all |"
    );
    println!("|---|---:|---:|---:|---|---:|---:|---:|---:|---:|---:|");
    let sizes = [2_000, 30_000, 131_070];
    // 104 by 104 squares a side at most: the next larger one passes the bound on triangles.
    let sphere = |n: usize| workshop::mesh(Shape::Sphere, n.min(129_792), &mut Rng::new(1));
    type Make<'a> = (&'a str, &'a dyn Fn(usize) -> Mesh);
    let meshes: [Make; 5] = [
        ("terrain", &terrain),
        ("sphere", &sphere),
        ("two fans", &fan),
        ("sphere, shuffled", &|n| shuffled(sphere(n))),
        ("dense", &dense),
    ];
    let mut growth = vec![];
    for (name, make) in meshes {
        let times = sizes.map(|n| {
            let mesh = make(n);
            (mesh.1.len() as f64, measure(name, &mesh))
        });
        let power = |a: usize, b: usize, way: usize| {
            (times[b].1[way] / times[a].1[way]).ln() / (times[b].0 / times[a].0).ln()
        };
        growth.push(format!(
            "| {name} | {:.3} | {:.3} | {:.3} | {:.3} |",
            power(0, 1, 0),
            power(0, 1, 1),
            power(1, 2, 0),
            power(1, 2, 1)
        ));
    }
    println!(
        "\nGrowth of the library's time, without its checks, as a power of the number of triangles:\n"
    );
    println!(
        "| mesh | 2,000 to 30,000, by turns | in a row | 30,000 to the largest, by turns | in a row |"
    );
    println!("|---|---:|---:|---:|---:|");
    growth.iter().for_each(|line| println!("{line}"));
}
