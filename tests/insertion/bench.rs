//! Inserts the pieces of the same jobs by the static library and by the Rust (`Mesh::inserted`, published reading) by turns, in one run, and compares all that they leave.
//! Usage: bench | bench once, which calls the library once for each job of lines and once without its pieces, for tests/insertion/profile.sh.
#[path = "../clock.rs"]
mod clock;

use clock::{clock, print_load};
use oracle::exact::{Buffers, Field, Src, Topology, Win, judge_pseudo};
use oracle::generate::rng::Rng;
use oracle::generate::walk::Walker;
use oracle::generate::workshop::{self, Shape};
use oracle::job::{Job, Mesh};
use oracle::reading::{Patched, Published, Reading};
use oracle::vector::{Vec3, axpy, scale, sub};
use std::{hint::black_box, time::Instant};

/// At least three turns of each program, and no more than TURNS where they take long.
const TURNS: usize = 16;
const SECONDS: f64 = 4.;
/// Entries of each list of an addition.
const CUTS: usize = 4_096;

unsafe extern "C" {
    /// The answer is 0 or the refusal; `told` then has the edges, the windows made, the events queued and the entries of faces.
    fn sirmolaat_insert(
        vertices: *const f64,
        vertices_len: usize,
        triangles: *const u32,
        triangles_len: usize,
        flags: *const u8,
        flags_len: usize,
        kinds: *const u8,
        kinds_len: usize,
        faces: *const u32,
        faces_len: usize,
        coords: *const f64,
        coords_len: usize,
        limit: f64,
        vertex_words: *mut u32,
        vertex_words_len: usize,
        edge_words: *mut u32,
        edge_words_len: usize,
        edge_reals: *mut f64,
        edge_reals_len: usize,
        round: *mut u32,
        round_len: usize,
        triangle_words: *mut u32,
        triangle_words_len: usize,
        triangle_reals: *mut f64,
        triangle_reals_len: usize,
        piece_words: *mut u32,
        piece_words_len: usize,
        piece_reals: *mut f64,
        piece_reals_len: usize,
        vertex: *mut f64,
        vertex_len: usize,
        words: *mut u32,
        words_len: usize,
        reals: *mut f64,
        reals_len: usize,
        keys: *mut f64,
        keys_len: usize,
        events: *mut u32,
        events_len: usize,
        entry_words: *mut u32,
        entry_words_len: usize,
        pts: *mut f64,
        pts_len: usize,
        out: *mut f64,
        out_len: usize,
        keep: *mut f64,
        keep_len: usize,
        next: *mut f64,
        next_len: usize,
        told: *mut u32,
        told_len: usize,
    ) -> u32;
}

/// Buffers for a job, each of which was written to.
struct Lent {
    vertex_words: Vec<u32>,
    edge_words: Vec<u32>,
    edge_reals: Vec<f64>,
    round: Vec<u32>,
    triangle_words: Vec<u32>,
    triangle_reals: Vec<f64>,
    piece_words: Vec<u32>,
    piece_reals: Vec<f64>,
    vertex: Vec<f64>,
    words: Vec<u32>,
    reals: Vec<f64>,
    keys: Vec<f64>,
    events: Vec<u32>,
    entry_words: Vec<u32>,
    cuts: [Vec<f64>; 4],
    told: Vec<u32>,
}

fn source(src: Src) -> (u32, [f64; 3]) {
    match src {
        Src::Point { x, y, s } => (0, [x, y, s]),
        Src::Line { ux, uy, c } => (1, [ux, uy, c]),
    }
}

impl Lent {
    fn new(job: &Job, windows: usize, events: usize, entries: usize) -> Lent {
        let (n, sides, pieces) = (job.flags.len(), job.triangles.len(), job.piece_kinds.len());
        Lent {
            vertex_words: vec![7; 3 * n],
            edge_words: vec![7; 6 * sides],
            edge_reals: vec![7.; 4 * sides],
            round: vec![7; sides],
            triangle_words: vec![7; 2 * sides],
            triangle_reals: vec![7.; 3 * sides],
            piece_words: vec![7; 3 * pieces],
            piece_reals: vec![7.; 3 * pieces],
            vertex: vec![7.; 2 * n],
            words: vec![7; 4 * windows],
            reals: vec![7.; 6 * windows],
            keys: vec![7.; events],
            events: vec![7; 2 * events],
            entry_words: vec![7; 3 * entries],
            cuts: [1, 2, 2, 2].map(|k| vec![7.; k * CUTS]),
            told: vec![7; 4],
        }
    }

    /// Seconds.
    fn insert(&mut self, job: &Job) -> f64 {
        let [pts, out, keep, next] = &mut self.cuts;
        let start = clock();
        let refusal = unsafe {
            sirmolaat_insert(
                job.vertices.as_ptr(),
                job.vertices.len(),
                job.triangles.as_ptr(),
                job.triangles.len(),
                job.flags.as_ptr(),
                job.flags.len(),
                job.piece_kinds.as_ptr(),
                job.piece_kinds.len(),
                job.piece_faces.as_ptr(),
                job.piece_faces.len(),
                job.piece_coords.as_ptr(),
                job.piece_coords.len(),
                job.limit,
                self.vertex_words.as_mut_ptr(),
                self.vertex_words.len(),
                self.edge_words.as_mut_ptr(),
                self.edge_words.len(),
                self.edge_reals.as_mut_ptr(),
                self.edge_reals.len(),
                self.round.as_mut_ptr(),
                self.round.len(),
                self.triangle_words.as_mut_ptr(),
                self.triangle_words.len(),
                self.triangle_reals.as_mut_ptr(),
                self.triangle_reals.len(),
                self.piece_words.as_mut_ptr(),
                self.piece_words.len(),
                self.piece_reals.as_mut_ptr(),
                self.piece_reals.len(),
                self.vertex.as_mut_ptr(),
                self.vertex.len(),
                self.words.as_mut_ptr(),
                self.words.len(),
                self.reals.as_mut_ptr(),
                self.reals.len(),
                self.keys.as_mut_ptr(),
                self.keys.len(),
                self.events.as_mut_ptr(),
                self.events.len(),
                self.entry_words.as_mut_ptr(),
                self.entry_words.len(),
                pts.as_mut_ptr(),
                pts.len(),
                out.as_mut_ptr(),
                out.len(),
                keep.as_mut_ptr(),
                keep.len(),
                next.as_mut_ptr(),
                next.len(),
                self.told.as_mut_ptr(),
                self.told.len(),
            )
        };
        let seconds = clock() - start;
        assert_eq!(refusal, 0);
        seconds
    }

    fn same_window(&self, k: usize, w: &Win) {
        let (kind, [x, y, s]) = source(w.src);
        let low = w.src.lowest::<Patched>(w.b0, w.b1);
        let reals = [w.b0, w.b1, low, x, y, s].map(f64::to_bits);
        let stored: Vec<u64> = self.reals[6 * k..6 * k + 6]
            .iter()
            .map(|r| r.to_bits())
            .collect();
        assert_eq!(stored, reals, "window {k}");
        let flags = kind + 2 * u32::from(w.alive) + 4 * u32::from(w.queued);
        assert_eq!(
            self.words[4 * k..4 * k + 3],
            [w.edge, w.into, flags],
            "window {k}"
        );
    }

    /// The numbers of a chain, whose links stand in `words` at a stride.
    fn chain(words: &[u32], stride: usize, at: usize, head: u32) -> Vec<u32> {
        let mut link = head;
        let mut list = vec![];
        while link != 0 {
            list.push(link - 1);
            link = words[stride * (link as usize - 1) + at];
        }
        list
    }

    /// All windows made, each edge's chain, the vertices, the events and the entries, against the reading that is proved.
    fn compare(&self, field: &Field<Patched>, edges: usize) {
        let (wins, queue, entries) = (&field.wins, &field.queue, &field.entries);
        let counts = [edges, wins.len(), queue.len(), entries.len()];
        assert_eq!(self.told[..], counts.map(|n| n as u32));
        (wins.iter().enumerate()).for_each(|(k, w)| self.same_window(k, w));
        for (e, list) in field.on_edge.iter().enumerate() {
            let head = self.edge_words[6 * e + 4];
            assert_eq!(&Self::chain(&self.words, 4, 3, head), list, "edge {e}");
        }
        for (v, d) in field.vertex.iter().enumerate() {
            assert_eq!(self.vertex[2 * v].to_bits(), d.to_bits(), "vertex {v}");
        }
        let mut theirs: Vec<(u64, u32, u32)> = (queue.iter())
            .map(|e| (e.0.to_bits(), e.1, u32::from(e.2)))
            .collect();
        let mut ours: Vec<(u64, u32, u32)> = (self.keys.iter().zip(self.events.chunks(2)))
            .map(|(k, e)| (k.to_bits(), e[0], e[1]))
            .take(queue.len())
            .collect();
        theirs.sort_unstable();
        ours.sort_unstable();
        assert!(theirs == ours, "events");
        let mut of_face: Vec<Vec<u32>> = vec![vec![]; self.triangle_words.len() / 6];
        for (k, x) in entries.iter().enumerate() {
            of_face[x.face as usize].push(k as u32);
            assert_eq!(self.entry_words[3 * k..3 * k + 2], [x.piece, x.part as u32]);
        }
        for (f, list) in of_face.iter().enumerate() {
            let head = self.triangle_words[6 * f + 3];
            assert_eq!(
                &Self::chain(&self.entry_words, 3, 2, head),
                list,
                "face {f}"
            );
        }
    }
}

/// Seconds, without the time that it takes to drop the field.
fn rust<R: Reading>(mesh: &Mesh) -> f64 {
    let start = clock();
    let field = black_box(mesh.inserted::<R>().expect("no bound"));
    let seconds = clock() - start;
    drop(field);
    seconds
}

fn without_pieces(job: &Job) -> Job {
    Job {
        piece_kinds: vec![],
        piece_faces: vec![],
        piece_coords: vec![],
        ..job.clone()
    }
}

/// Least seconds of the Rust and of the library's insertion: those of its whole call, less those of a call with no pieces and no slots beside the mesh's.
fn measure(name: &str, job: &Job) -> [f64; 2] {
    let mesh = Mesh::new(job).expect("a sound job");
    let made = mesh.inserted::<Patched>().expect("no bound");
    let bare = without_pieces(job);
    let mut lent = Lent::new(job, made.wins.len(), made.queue.len(), made.entries.len());
    let mut empty = Lent::new(&bare, 0, 0, 0);
    let [mut theirs, mut all, mut alone] = [f64::INFINITY; 3];
    let start = Instant::now();
    for turn in 0..TURNS {
        if turn >= 3 && start.elapsed().as_secs_f64() > SECONDS {
            break;
        }
        theirs = theirs.min(rust::<Published>(&mesh));
        all = all.min(lent.insert(job));
        alone = alone.min(empty.insert(&bare));
    }
    lent.compare(&made, mesh.topo.edges.len());
    let live: usize = made.on_edge.iter().map(Vec::len).sum();
    let ours = all - alone;
    println!(
        "| {name} | {} | {} | {} | {live} | {} | {:.2} | {:.2} | {:.2} | {:.2} |",
        job.piece_kinds.len(),
        job.triangles.len() / 3,
        made.wins.len(),
        made.entries.len(),
        1e3 * theirs,
        1e3 * ours,
        ours / theirs,
        1e3 * alone
    );
    [theirs, ours]
}

fn on_mesh(triangles: usize, limit: f64) -> (Job, Topology) {
    let (v, t) = workshop::mesh(Shape::Terrain, triangles, &mut Rng::new(1));
    let pseudo = judge_pseudo(&v, &t);
    let topo = Topology::new(&v, &t, &pseudo).expect("at most two faces an edge");
    let job = Job {
        vertices: v.as_flattened().to_vec(),
        triangles: t.as_flattened().to_vec(),
        flags: pseudo.iter().map(|&b| u8::from(b)).collect(),
        piece_kinds: vec![],
        piece_faces: vec![],
        piece_coords: vec![],
        limit,
        max_steps: 0,
        buffers: Buffers::UNBOUNDED,
    };
    (job, topo)
}

fn push(job: &mut Job, (f, a, b): (u32, Vec3, Vec3)) {
    job.piece_kinds.push(1);
    job.piece_faces.push(f);
    job.piece_coords.extend(a.iter().chain(&b));
}

/// So many straight lines of 100 segments across a mesh.
fn lines(n: usize, triangles: usize) -> Job {
    let (mut job, topo) = on_mesh(triangles, 1e7);
    let (v, t) = (job.vec3s(), job.tris());
    let walker = Walker {
        v: &v,
        t: &t,
        topo: &topo,
    };
    let mut rng = Rng::new(1);
    let mut made = 0;
    while made < n {
        let f = rng.below(t.len()) as u32;
        let line = walker.line(&mut rng, f, 400.);
        if line.len() >= 100 {
            made += 1;
            line.into_iter().take(100).for_each(|p| push(&mut job, p));
        }
    }
    job
}

/// A point of a triangle, a tenth of the way to its middle at least.
fn inside(rng: &mut Rng, [a, b, c]: [Vec3; 3], middle: Vec3) -> Vec3 {
    let (x, y) = (rng.unit(), rng.unit());
    let side = axpy(scale(sub(b, a), 1. - y), y, sub(c, a));
    axpy(middle, 0.9, sub(axpy(a, x, side), middle))
}

/// So many segments in one face, apart or from its middle. Behind a border the first three lie along the sides, before all others.
fn in_face(n: usize, shared: bool, border: bool) -> Job {
    let (mut job, _) = on_mesh(200, 1e7);
    let (v, t) = (job.vec3s(), job.tris());
    let f = t.len() / 2;
    let corners = t[f].map(|k| v[k as usize]);
    let sum = corners.iter().fold([0.; 3], |s, &p| axpy(s, 1., p));
    let middle = scale(sum, 1. / 3.);
    let near = corners.map(|p| axpy(p, 0.01, sub(middle, p)));
    let mut rng = Rng::new(1);
    for k in 0..n {
        let (a, b) = if border && k < 3 {
            (near[k], near[(k + 1) % 3])
        } else if shared {
            (middle, inside(&mut rng, corners, middle))
        } else {
            (
                inside(&mut rng, corners, middle),
                inside(&mut rng, corners, middle),
            )
        };
        push(&mut job, (f as u32, a, b));
    }
    job
}

/// Two calls, the second without the pieces; their names are printed in this order.
fn once(name: &str, job: &Job) {
    let mesh = Mesh::new(job).expect("a sound job");
    let made = mesh.inserted::<Patched>().expect("no bound");
    let bare = without_pieces(job);
    let mut lent = Lent::new(job, made.wins.len(), made.queue.len(), made.entries.len());
    lent.insert(job);
    lent.compare(&made, mesh.topo.edges.len());
    Lent::new(&bare, 0, 0, 0).insert(&bare);
    let triangles = job.triangles.len() / 3;
    println!(
        "{name}|{}|{triangles}|{}",
        job.piece_kinds.len(),
        made.wins.len()
    );
}

fn main() {
    if std::env::args().nth(1).as_deref() == Some("once") {
        for n in [75, 150, 300] {
            once("lines of 100", &lines(n, 60_000));
            once("lines of 100, as many a triangle", &lines(n, 200 * n));
        }
        return;
    }
    print_load();
    println!(
        "| pieces | how many | triangles | windows made | live | entries | the Rust's, ms | insertion, ms | ratio | mesh, ms |"
    );
    println!("|---|---:|---:|---:|---:|---:|---:|---:|---:|---:|");
    type Make<'a> = (&'a str, &'a dyn Fn(usize) -> Job, [usize; 3]);
    let many = [4_096, 16_384, 65_535];
    let jobs: [Make; 5] = [
        ("lines of 100", &|n| lines(n, 60_000), [75, 150, 300]),
        (
            "lines of 100, as many a triangle",
            &|n| lines(n, 200 * n),
            [75, 150, 300],
        ),
        ("in one face", &|n| in_face(n, false, true), many),
        ("from one end", &|n| in_face(n, true, true), many),
        (
            "in one face, open",
            &|n| in_face(n, false, false),
            [1_024, 2_048, 4_096],
        ),
    ];
    let mut growth = vec![];
    for (name, make, sizes) in jobs {
        let times = sizes.map(|n| measure(name, &make(n)));
        let power = |a: usize, b: usize, who: usize| {
            (times[b][who] / times[a][who]).ln() / (sizes[b] as f64 / sizes[a] as f64).ln()
        };
        growth.push(format!(
            "| {name} | {:.3} | {:.3} | {:.3} | {:.3} |",
            power(0, 1, 1),
            power(1, 2, 1),
            power(0, 2, 1),
            power(0, 2, 0)
        ));
    }
    println!("\nGrowth of the times as a power of the number of pieces:\n");
    println!(
        "| pieces | insertion, first to second | second to third | first to third | the Rust's, first to third |"
    );
    println!("|---|---:|---:|---:|---:|");
    growth.iter().for_each(|line| println!("{line}"));
}
