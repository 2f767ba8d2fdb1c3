//! The published file, compiled as it is beside the copy, with stubs for
//! what it imports, and a way to read its private state.
use crate::exact::{Piece, Win};
use crate::vector::{Vec3, cross, dot, norm, sub};
use std::cell::RefCell;

thread_local! {
    static LAST_LINE: RefCell<String> = const { RefCell::new(String::new()) };
}

/// The trace is off, but for the last line: the step count stands in it and
/// nowhere else.
mod trace {
    pub(super) fn on() -> bool {
        false
    }
    pub(super) fn line(text: impl FnOnce() -> String) {
        super::LAST_LINE.set(text());
    }
}

#[allow(dead_code, clippy::all)]
mod exact {
    include!(concat!(env!("OUT_DIR"), "/exact.rs"));

    use crate::exact as copy;

    fn src(s: Src) -> copy::Src {
        match s {
            Src::Point { x, y, s } => copy::Src::Point { x, y, s },
            Src::Line { ux, uy, c } => copy::Src::Line { ux, uy, c },
        }
    }
    fn piece(p: &Piece) -> copy::Piece {
        match *p {
            Piece::Point(f, a) => copy::Piece::Point(f, a),
            Piece::Segment(f, a, b) => copy::Piece::Segment(f, a, b),
        }
    }
    fn win(w: &Win) -> copy::Win {
        copy::Win {
            edge: w.edge,
            into: w.into,
            b0: w.b0,
            b1: w.b1,
            src: src(w.src),
            alive: w.alive,
            queued: w.queued,
            low: w.low,
        }
    }

    impl Field<'_> {
        pub(super) fn state(&self) -> super::State {
            let mut in_face: Vec<(u32, Vec<copy::Piece>)> = self
                .in_face
                .iter()
                .map(|(&f, list)| (f, list.iter().map(piece).collect()))
                .collect();
            in_face.sort_by_key(|x| x.0);
            super::State {
                wins: self.wins.iter().map(win).collect(),
                on_edge: self.on_edge.clone(),
                vertex: self.vertex.clone(),
                emitted: self.emitted.clone(),
                in_face,
                steps: 0,
            }
        }
    }
}

/// All that a finished field holds.
#[derive(Clone, Debug)]
pub struct State {
    pub wins: Vec<Win>,
    pub on_edge: Vec<Vec<u32>>,
    pub vertex: Vec<f64>,
    pub emitted: Vec<f64>,
    pub in_face: Vec<(u32, Vec<Piece>)>,
    pub steps: u64,
}

struct Never;
impl crate::stock::CancelSignal for Never {
    fn is_cancelled(&self) -> bool {
        false
    }
}

/// The published answers: the field's state, the vertices that the Rust
/// itself would judge to be pseudosources, and the two queries.
pub struct Answers {
    pub state: State,
    pub judged: Vec<bool>,
    pub topology: crate::exact::Topology,
    pub at: Vec<f64>,
    pub edge_at: Vec<f64>,
}

/// What to ask a finished field.
#[derive(Clone, Debug, Default)]
pub struct Questions {
    pub at: Vec<(u32, Vec3)>,
    pub edge_at: Vec<(u32, f64)>,
}

/// A job as the published file takes it, its topology made, with the flags
/// in place of that file's own judgement.
pub struct Ready<'a> {
    v: &'a [Vec3],
    t: &'a [[u32; 3]],
    topo: exact::Topology,
    judged: Vec<bool>,
    pieces: Vec<exact::Piece>,
    limit: f64,
}

impl<'a> Ready<'a> {
    pub fn new(
        v: &'a [Vec3],
        t: &'a [[u32; 3]],
        flags: &[bool],
        sources: &[Piece],
        limit: f64,
    ) -> Result<Self, String> {
        let mut topo = exact::Topology::new(v, t, &boundary(v.len(), t))?;
        let judged = std::mem::replace(&mut topo.pseudo, flags.to_vec());
        let pieces = sources
            .iter()
            .map(|p| match *p {
                Piece::Point(f, a) => exact::Piece::Point(f, a),
                Piece::Segment(f, a, b) => exact::Piece::Segment(f, a, b),
            })
            .collect();
        Ok(Ready {
            v,
            t,
            topo,
            judged,
            pieces,
            limit,
        })
    }

    fn field(&self) -> Result<exact::Field<'_>, String> {
        exact::Field::compute(self.v, self.t, &self.topo, &self.pieces, self.limit, &Never)
    }

    /// `Field::compute` alone, to be timed; the answer is the field.
    pub fn compute(&self) -> Result<Solved<'_>, String> {
        self.field().map(Solved)
    }
}

/// A finished field of the published file, and its two queries.
pub struct Solved<'a>(exact::Field<'a>);

impl Solved<'_> {
    pub fn at(&self, f: u32, p: Vec3) -> f64 {
        self.0.at(f, p)
    }

    pub fn edge_at(&self, e: u32, x: f64) -> f64 {
        self.0.edge_at(e, x)
    }
}

/// Runs the published file. It has neither refusals nor a bound on its
/// steps: the job must be one that ends in a field.
pub fn solve(
    v: &[Vec3],
    t: &[[u32; 3]],
    flags: &[bool],
    sources: &[Piece],
    limit: f64,
    questions: &Questions,
) -> Result<Answers, String> {
    let ready = Ready::new(v, t, flags, sources, limit)?;
    let field = ready.field()?;
    let mut state = field.state();
    state.steps = steps(&LAST_LINE.take()).ok_or("no step count in the trace")?;
    let at = questions.at.iter().map(|&(f, p)| field.at(f, p)).collect();
    let edge_at = questions
        .edge_at
        .iter()
        .map(|&(e, x)| field.edge_at(e, x))
        .collect();
    drop(field);
    let Ready { topo, judged, .. } = ready;
    let topology = crate::exact::Topology {
        edges: topo.edges,
        len: topo.len,
        xhat: topo.xhat,
        faces: topo.faces,
        tri_edges: topo.tri_edges,
        yhat: topo.yhat,
        vertex_faces: topo.vertex_faces,
        pseudo: topo.pseudo,
    };
    Ok(Answers {
        state,
        judged,
        topology,
        at,
        edge_at,
    })
}

/// The number before " steps" in the last trace line.
fn steps(line: &str) -> Option<u64> {
    let (head, _) = line.split_once(" steps in ")?;
    head.rsplit(' ').next()?.parse().ok()
}

fn boundary(n: usize, t: &[[u32; 3]]) -> Vec<bool> {
    let mut count = std::collections::HashMap::new();
    for tri in t {
        for k in 0..3 {
            let (a, b) = (tri[k], tri[(k + 1) % 3]);
            *count.entry((a.min(b), a.max(b))).or_insert(0) += 1;
        }
    }
    let mut boundary = vec![false; n];
    for ((a, b), n) in count {
        if n == 1 {
            boundary[a as usize] = true;
            boundary[b as usize] = true;
        }
    }
    boundary
}
