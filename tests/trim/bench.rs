//! Replays the candidates and pops of real fields through the Rust's `add`, published reading, and through that of the static library, in one run.
//! Usage: bench.
use oracle::exact::{Buffers, Field, Src, Topology, Win};
use oracle::generate::workshop::{self, Shape};
use oracle::reading::{Patched, Published, Reading};
use oracle::vectors;
use std::{hint::black_box, time::Instant};

const TURNS: usize = 12;

enum Step {
    Add(Win),
    Pop,
}

/// A list of the oracle, as its README has it.
struct List {
    limit: f64,
    topo: Topology,
    steps: Vec<Step>,
}

struct Reader<'a>(&'a [u8]);

impl Reader<'_> {
    fn take<const N: usize>(&mut self) -> [u8; N] {
        let (head, rest) = self.0.split_first_chunk().expect("the list goes on");
        self.0 = rest;
        *head
    }
    fn u8(&mut self) -> u8 {
        self.take::<1>()[0]
    }
    fn u32(&mut self) -> u32 {
        u32::from_le_bytes(self.take())
    }
    fn f64(&mut self) -> f64 {
        f64::from_le_bytes(self.take())
    }

    fn win(&mut self) -> Win {
        let (edge, into, queued) = (self.u32(), self.u32(), self.u8() == 1);
        let (b0, b1, kind) = (self.f64(), self.f64(), self.u8());
        let [x, y, s] = [self.f64(), self.f64(), self.f64()];
        let src = match kind {
            0 => Src::Point { x, y, s },
            _ => Src::Line { ux: x, uy: y, c: s },
        };
        Win {
            edge,
            into,
            b0,
            b1,
            src,
            alive: true,
            queued,
            low: 0.,
        }
    }

    fn list(&mut self) -> List {
        self.u32();
        let limit = self.f64();
        let vertices = self.u32();
        let pseudo = (0..vertices).map(|_| self.u8() == 1).collect();
        let edges = self.u32();
        let (mut ends, mut len) = (vec![], vec![]);
        for _ in 0..edges {
            ends.push([self.u32(), self.u32()]);
            len.push(self.f64());
        }
        self.take::<13>();
        let count = self.u32();
        let mut steps = vec![];
        for _ in 0..count {
            if self.u8() == 0 {
                steps.push(Step::Add(self.win()));
                self.u8();
            } else {
                steps.push(Step::Pop);
                self.take::<14>();
            }
        }
        List {
            limit,
            topo: Topology {
                edges: ends,
                len,
                pseudo,
                ..Topology::default()
            },
            steps,
        }
    }
}

/// The Rust's: seconds, and the field afterwards.
fn rust<R: Reading>(list: &List) -> (f64, Field<'_, R>) {
    let mut field = Field::<R>::empty(&[], &[], &list.topo, list.limit, Buffers::UNBOUNDED);
    let start = Instant::now();
    for step in &list.steps {
        match step {
            Step::Add(w) => field.add(*w).expect("no bound"),
            Step::Pop => {
                if let Some(event) = field.pop() {
                    let i = event.1 as usize;
                    if !event.2 && field.wins[i].alive {
                        field.wins[i].queued = false;
                    }
                }
            }
        }
    }
    (start.elapsed().as_secs_f64(), black_box(field))
}

mod lent {
    use super::{List, Patched, Step};
    use oracle::exact::{Field, Src, Win};
    use std::time::Instant;

    /// Entries of each list of an addition.
    const CUTS: usize = 4_096;

    unsafe extern "C" {
        /// The answer is 0 or the refusal; `told` has the windows made and the events queued, or the refused operation.
        fn sirmolaat_trim_run(
            limit: f64,
            ops: *const u32,
            ops_len: usize,
            args: *const f64,
            args_len: usize,
            ends: *const u32,
            ends_len: usize,
            lens: *const f64,
            lens_len: usize,
            vertex_words: *const u32,
            vertex_words_len: usize,
            edges: *mut u32,
            edges_len: usize,
            words: *mut u32,
            words_len: usize,
            reals: *mut f64,
            reals_len: usize,
            keys: *mut f64,
            keys_len: usize,
            events: *mut u32,
            events_len: usize,
            vertex: *mut f64,
            vertex_len: usize,
            pts: *mut f64,
            pts_len: usize,
            out: *mut f64,
            out_len: usize,
            keep: *mut f64,
            keep_len: usize,
            next: *mut f64,
            next_len: usize,
            told: *mut u32,
            told_len: usize,
        ) -> u32;
    }

    fn source(src: Src) -> (u32, [f64; 3]) {
        match src {
            Src::Point { x, y, s } => (0, [x, y, s]),
            Src::Line { ux, uy, c } => (1, [ux, uy, c]),
        }
    }

    /// A list and its buffers, each of which was written to.
    pub struct Lent {
        limit: f64,
        ops: Vec<u32>,
        args: Vec<f64>,
        ends: Vec<u32>,
        lens: Vec<f64>,
        vertex_words: Vec<u32>,
        edges: Vec<u32>,
        words: Vec<u32>,
        reals: Vec<f64>,
        keys: Vec<f64>,
        events: Vec<u32>,
        vertex: Vec<f64>,
        pts: Vec<f64>,
        out: Vec<f64>,
        keep: Vec<f64>,
        next: Vec<f64>,
        told: Vec<u32>,
    }

    impl Lent {
        pub fn new(list: &List, windows: usize) -> Lent {
            let (n, events) = (list.topo.edges.len(), list.steps.len() + windows);
            let (mut ops, mut args) = (vec![], vec![]);
            for step in &list.steps {
                if let Step::Add(w) = step {
                    let (kind, [x, y, s]) = source(w.src);
                    ops.extend([kind, w.edge, w.into, w.queued.into()]);
                    args.extend([w.b0, w.b1, x, y, s]);
                } else {
                    ops.extend([2, 0, 0, 0]);
                    args.extend([0.; 5]);
                }
            }
            Lent {
                limit: list.limit,
                ops,
                args,
                ends: list.topo.edges.concat(),
                lens: list.topo.len.clone(),
                vertex_words: (list.topo.pseudo.iter())
                    .flat_map(|&b| [0, 0, b.into()])
                    .collect(),
                edges: vec![7; 6 * n],
                words: vec![7; 4 * windows],
                reals: vec![7.; 6 * windows],
                keys: vec![7.; events],
                events: vec![7; 2 * events],
                vertex: vec![f64::INFINITY; 2 * list.topo.pseudo.len()],
                pts: vec![7.; CUTS],
                out: vec![7.; 2 * CUTS],
                keep: vec![7.; 2 * CUTS],
                next: vec![7.; 2 * CUTS],
                told: vec![7; 2],
            }
        }

        /// Seconds.
        pub fn run(&mut self) -> f64 {
            let start = Instant::now();
            let refusal = unsafe {
                sirmolaat_trim_run(
                    self.limit,
                    self.ops.as_ptr(),
                    self.ops.len(),
                    self.args.as_ptr(),
                    self.args.len(),
                    self.ends.as_ptr(),
                    self.ends.len(),
                    self.lens.as_ptr(),
                    self.lens.len(),
                    self.vertex_words.as_ptr(),
                    self.vertex_words.len(),
                    self.edges.as_mut_ptr(),
                    self.edges.len(),
                    self.words.as_mut_ptr(),
                    self.words.len(),
                    self.reals.as_mut_ptr(),
                    self.reals.len(),
                    self.keys.as_mut_ptr(),
                    self.keys.len(),
                    self.events.as_mut_ptr(),
                    self.events.len(),
                    self.vertex.as_mut_ptr(),
                    self.vertex.len(),
                    self.pts.as_mut_ptr(),
                    self.pts.len(),
                    self.out.as_mut_ptr(),
                    self.out.len(),
                    self.keep.as_mut_ptr(),
                    self.keep.len(),
                    self.next.as_mut_ptr(),
                    self.next.len(),
                    self.told.as_mut_ptr(),
                    self.told.len(),
                )
            };
            let seconds = start.elapsed().as_secs_f64();
            assert_eq!(refusal, 0, "operation {}", self.told[0]);
            seconds
        }

        fn same_window(&self, id: u32, w: Win) {
            let (k, (kind, [x, y, s])) = (id as usize, source(w.src));
            let low = w.src.lowest::<Patched>(w.b0, w.b1);
            let reals = [w.b0, w.b1, low, x, y, s].map(f64::to_bits);
            let stored: Vec<u64> = self.reals[6 * k..6 * k + 6]
                .iter()
                .map(|r| r.to_bits())
                .collect();
            assert_eq!(stored, reals, "window {id}");
            let flags = kind + 2 * u32::from(w.alive) + 4 * u32::from(w.queued);
            assert_eq!(
                self.words[4 * k..4 * k + 3],
                [w.edge, w.into, flags],
                "window {id}"
            );
        }

        /// The windows made, each edge's chain, the distances of the vertices and how many events are left, against the reading that is proved.
        pub fn compare(&self, field: &Field<Patched>) {
            assert_eq!(self.told[0] as usize, field.wins.len(), "windows made");
            for (e, list) in field.on_edge.iter().enumerate() {
                let mut link = self.edges[6 * e + 4];
                for &id in list {
                    assert_eq!(link, id + 1, "edge {e}");
                    self.same_window(id, field.wins[id as usize]);
                    link = self.words[4 * id as usize + 3];
                }
                assert_eq!(link, 0, "edge {e}");
            }
            for (v, d) in field.vertex.iter().enumerate() {
                assert_eq!(self.vertex[2 * v].to_bits(), d.to_bits(), "vertex {v}");
            }
            assert_eq!(self.told[1] as usize, field.queue.len(), "events left");
        }
    }
}

fn measure(name: &str, shape: Shape, triangles: usize, lines: usize, limit: f64) {
    let job = workshop::job(shape, triangles, lines, limit, 1);
    let bytes = vectors::stream(&job).expect("a field");
    let list = Reader(&bytes).list();
    let adds = list.steps.iter().filter(|s| matches!(s, Step::Add(_)));
    let adds = adds.count();
    let made = rust::<Patched>(&list).1;
    let live: usize = made.on_edge.iter().map(Vec::len).sum();
    let windows = made.wins.len();
    let (mut published, mut ours) = (f64::INFINITY, f64::INFINITY);
    for _ in 0..TURNS {
        published = published.min(rust::<Published>(&list).0);
        let mut lent = lent::Lent::new(&list, windows);
        ours = ours.min(lent.run());
        lent.compare(&made);
    }
    println!(
        "| {name} | {adds} | {windows} | {live} | {:.1} | {:.1} | {:.2} |",
        1e9 * published / adds as f64,
        1e9 * ours / adds as f64,
        ours / published
    );
}

fn main() {
    println!(
        "| field | candidates | windows made | live | the Rust's, ns a candidate | add, ns a candidate | ratio |"
    );
    println!("|---|---:|---:|---:|---:|---:|---:|");
    measure("terrain, one line", Shape::Terrain, 10_000, 1, 1e7);
    measure("terrain, 10 lines", Shape::Terrain, 10_000, 10, 1e7);
    measure("terrain, 100 lines", Shape::Terrain, 10_000, 100, 1e7);
    measure("mould, one line", Shape::Mould, 10_000, 1, 1e7);
    measure("ruled, one line", Shape::Ruled, 2_000, 1, 1e7);
    measure("noisy, one line", Shape::Noisy, 10_000, 1, 1e7);
    measure("noisy, 300 lines", Shape::Noisy, 10_000, 300, 1e7);
}
