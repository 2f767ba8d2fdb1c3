//! All that a field holds, as values to compare and as text.
use crate::exact::{FaceEntry, Field, Piece, Src, Win};
use crate::job::Mesh;
use crate::reading::Reading;
use crate::upstream::State;
use std::fmt::Write;

/// The bits of a double; one NaN for all.
pub fn bits(x: f64) -> u64 {
    if x.is_nan() {
        0x7ff8_0000_0000_0000
    } else {
        x.to_bits()
    }
}

/// A finished field, of the copy or of the published file.
pub struct View<'a> {
    pub wins: &'a [Win],
    pub on_edge: &'a [Vec<u32>],
    pub vertex: &'a [f64],
    pub emitted: &'a [f64],
    /// By rising face.
    pub in_face: Vec<(u32, &'a [Piece])>,
    pub steps: u64,
}

pub fn view<'a, R: Reading>(field: &'a Field<R>) -> View<'a> {
    let mut in_face: Vec<(u32, &[Piece])> = field
        .in_face
        .iter()
        .map(|(&f, list)| (f, &list[..]))
        .collect();
    in_face.sort_by_key(|x| x.0);
    View {
        wins: &field.wins,
        on_edge: &field.on_edge,
        vertex: &field.vertex,
        emitted: &field.emitted,
        in_face,
        steps: field.steps,
    }
}

impl State {
    pub fn view(&self) -> View<'_> {
        View {
            wins: &self.wins,
            on_edge: &self.on_edge,
            vertex: &self.vertex,
            emitted: &self.emitted,
            in_face: self
                .in_face
                .iter()
                .map(|(f, list)| (*f, &list[..]))
                .collect(),
            steps: self.steps,
        }
    }
}

/// Kind 0 for a point, 1 for a line, and its three numbers.
pub fn src_parts(src: &Src) -> (u8, [f64; 3]) {
    match *src {
        Src::Point { x, y, s } => (0, [x, y, s]),
        Src::Line { ux, uy, c } => (1, [ux, uy, c]),
    }
}

/// Every field of a window as whole numbers.
pub fn win_bits(w: &Win) -> [u64; 11] {
    let (kind, s) = src_parts(&w.src);
    [
        w.edge.into(),
        w.into.into(),
        bits(w.b0),
        bits(w.b1),
        kind.into(),
        bits(s[0]),
        bits(s[1]),
        bits(s[2]),
        w.alive.into(),
        w.queued.into(),
        bits(w.low),
    ]
}

pub fn piece_bits(p: &Piece) -> Vec<u64> {
    match p {
        Piece::Point(f, a) => [u64::from(*f)].into_iter().chain(a.map(bits)).collect(),
        Piece::Segment(f, a, b) => [u64::from(*f)]
            .into_iter()
            .chain(a.map(bits))
            .chain(b.map(bits))
            .collect(),
    }
}

fn hex(list: impl IntoIterator<Item = f64>) -> String {
    list.into_iter()
        .map(|x| format!(" {:016x}", bits(x)))
        .collect()
}

/// All that a field holds, after insertion alone or when it is done: what a
/// port's buffers must hold. Windows have `low` as the last pass sets it.
#[derive(Clone, Debug)]
pub struct Contents {
    pub wins: Vec<Win>,
    pub on_edge: Vec<Vec<u32>>,
    pub vertex: Vec<f64>,
    pub emitted: Vec<f64>,
    /// Key, number and whether it is a vertex, in the order of pops: the
    /// queue as a sorted multiset.
    pub events: Vec<(f64, u32, bool)>,
    /// In the order of entry, whatever the face.
    pub entries: Vec<FaceEntry>,
    pub steps: u64,
}

pub fn contents<R: Reading>(field: Field<R>) -> Contents {
    let events = field.queue.into_sorted_vec();
    let low = |w: &Win| Win {
        low: w.src.lowest::<R>(w.b0, w.b1),
        ..*w
    };
    Contents {
        wins: field.wins.iter().map(low).collect(),
        on_edge: field.on_edge,
        vertex: field.vertex,
        emitted: field.emitted,
        events: events.iter().rev().map(|e| (e.0, e.1, e.2)).collect(),
        entries: field.entries,
        steps: field.steps,
    }
}

/// One line for the counts, each edge, face, vertex, window, chain, event
/// and entry; doubles as bits.
pub fn text(mesh: &Mesh, held: &Contents) -> String {
    let (topo, mut out) = (&mesh.topo, String::new());
    let _ = writeln!(
        out,
        "windows {} events {} entries {} steps {}",
        held.wins.len(),
        held.events.len(),
        held.entries.len(),
        held.steps
    );
    for (e, [a, b]) in topo.edges.iter().enumerate() {
        let frame = hex([topo.len[e]].into_iter().chain(topo.xhat[e]));
        let [f, g] = topo.faces[e].map(|f| f as i32);
        let _ = writeln!(out, "edge {e} {a} {b} {f} {g}{frame}");
    }
    for (f, [a, b, c]) in topo.tri_edges.iter().enumerate() {
        let yhat = hex(topo.yhat[f].into_iter().flatten());
        let _ = writeln!(out, "face {f} {a} {b} {c}{yhat}");
    }
    for (k, &d) in held.vertex.iter().enumerate() {
        let flag = u8::from(topo.pseudo[k]);
        let _ = writeln!(out, "vertex {k} {flag}{}", hex([d, held.emitted[k]]));
    }
    for (i, w) in held.wins.iter().enumerate() {
        let (kind, s) = src_parts(&w.src);
        let ends = hex([w.b0, w.b1, w.low].into_iter().chain(s));
        let (alive, queued) = (u8::from(w.alive), u8::from(w.queued));
        let (e, into) = (w.edge, w.into as i32);
        let _ = writeln!(out, "window {i} {e} {into} {alive} {queued} {kind}{ends}");
    }
    for (e, list) in held.on_edge.iter().enumerate() {
        let list: String = list.iter().map(|i| format!(" {i}")).collect();
        let _ = writeln!(out, "chain {e}{list}");
    }
    for &(key, number, vertex) in &held.events {
        let _ = writeln!(out, "event{} {number} {}", hex([key]), u8::from(vertex));
    }
    for entry in &held.entries {
        let (f, piece, part) = (entry.face, entry.piece, entry.part as u8);
        let _ = writeln!(out, "entry {f} {piece} {part}");
    }
    out
}
