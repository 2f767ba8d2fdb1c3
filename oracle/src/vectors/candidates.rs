//! Lists of candidate windows through `add`, with pops and touches between.
use super::Out;
use super::leaves::{likely, near, number, src};
use crate::exact::{Buffers, Field, NONE, Op, Refusal, Src, Topology, Win};
use crate::generate::rng::Rng;
use crate::job::{Job, Mesh};
use crate::reading::Patched;

/// A path of edges without faces: edge e joins vertices e and e + 1.
fn path(rng: &mut Rng) -> Topology {
    let n = 1 + rng.below(3);
    let lengths = [4., 1., 0.001, 3_464_101.615137755, 10., 0.37, 1234.5];
    Topology {
        edges: (0..n as u32).map(|e| [e, e + 1]).collect(),
        len: (0..n).map(|_| rng.pick(&lengths)).collect(),
        pseudo: (0..=n).map(|_| rng.one_in(2)).collect(),
        ..Topology::default()
    }
}

/// A source in the scale of the edge; carried distances fall as `left` does,
/// so that later windows still win ground. The first six kinds can take a
/// whole edge for good.
fn source(rng: &mut Rng, l: f64, left: f64, wild: bool, last: &Src) -> Src {
    let kind = if wild {
        rng.below(12)
    } else {
        4 + rng.below(8)
    };
    match kind {
        0 => src(rng),
        1 => Src::Point {
            x: number(rng),
            y: number(rng),
            s: number(rng),
        },
        2 | 3 => near(rng, last),
        4 => *last,
        5 if wild => likely(rng),
        5 | 6 => {
            let turn = rng.between(0., std::f64::consts::PI);
            Src::Line {
                ux: turn.cos(),
                uy: turn.sin(),
                c: rng.between(1., 2.) * l * left,
            }
        }
        7 => Src::Line {
            ux: rng.pick(&[1., -1., 0.]),
            uy: 0.,
            c: rng.between(1., 2.) * l * left,
        },
        8 => {
            let y = rng.pick(&[-0., 0., -l]);
            Src::Point {
                x: rng.pick(&[0., l, l / 2.]),
                y,
                s: 2. * l * left,
            }
        }
        _ => {
            let s = rng.between(0.99, 1.01) * l * left;
            Src::Point {
                x: rng.between(-0.2 * l, 1.2 * l),
                y: -rng.between(0., 0.1 * l),
                s,
            }
        }
    }
}

/// An end from 0 to l: places of older ends, those exactly tiny away from
/// them and beside that, the edge's own ends, minus zero.
fn end(rng: &mut Rng, l: f64, seen: &[f64]) -> f64 {
    let tiny = 1e-11 * l;
    let old = if seen.is_empty() {
        l / 2.
    } else {
        rng.pick(seen)
    };
    let x = match rng.below(9) {
        0 => old,
        1 => old + rng.pick(&[tiny, -tiny, 2. * tiny, 0.5 * tiny]),
        2 => rng.pick(&[
            (old + tiny).next_up(),
            (old + tiny).next_down(),
            old.next_up(),
        ]),
        3 => 0.,
        4 => rng.pick(&[-0., l, tiny, l - tiny]),
        5 => l * rng.below(9) as f64 / 8.,
        _ => rng.unit() * l,
    };
    if (0. ..=l).contains(&x) { x } else { l }
}

fn candidate(
    rng: &mut Rng,
    topo: &Topology,
    (left, wild): (f64, bool),
    seen: &mut [Vec<f64>],
    last: &mut Src,
) -> Win {
    let e = rng.below(topo.edges.len());
    let l = topo.len[e];
    *last = source(rng, l, left, wild, last);
    let (a, b) = (end(rng, l, &seen[e]), end(rng, l, &seen[e]));
    let whole = rng.one_in(6);
    let (b0, b1) = if whole {
        (0., l)
    } else if b < a && !rng.one_in(20) {
        (b, a)
    } else {
        (a, b)
    };
    seen[e].extend([b0, b1]);
    let into = if rng.one_in(4) {
        NONE
    } else {
        rng.below(5) as u32
    };
    let (edge, queued) = (e as u32, into != NONE);
    Win {
        edge,
        into,
        b0,
        b1,
        src: *last,
        alive: true,
        queued,
        low: 0.,
    }
}

fn buffers(rng: &mut Rng, length: usize) -> Buffers {
    let enough = 20 * length as u32;
    let mut few = || match rng.below(8) {
        0 => rng.below(length) as u32,
        1 => rng.below(12) as u32,
        _ => enough,
    };
    if length > 100 {
        return Buffers {
            windows: enough,
            events: enough,
            cuts: enough,
            face_entries: 0,
        };
    }
    Buffers {
        windows: few(),
        events: few(),
        cuts: few(),
        face_entries: 0,
    }
}

/// The chain of an edge: numbers and ends.
fn chain(out: &mut Out, field: &Field<Patched>, e: usize) {
    out.count(field.on_edge[e].len());
    for &id in &field.on_edge[e] {
        let w = field.wins[id as usize];
        out.u32(id);
        out.f64s(&[w.b0, w.b1]);
    }
}

fn add(out: &mut Out, field: &mut Field<Patched>, w: Win, detail: bool) -> Result<(), Refusal> {
    out.u8(0);
    out.u32(w.edge);
    out.u32(w.into);
    out.u8(w.queued.into());
    out.f64s(&[w.b0, w.b1]);
    out.src(&w.src);
    let answer = field.add(w);
    out.u8(answer.err().map_or(0, |r| r.0 as u8));
    if detail && answer.is_ok() {
        chain(out, field, w.edge as usize);
    }
    answer
}

/// As the search pops: a live, queued window is queued no more.
fn pop(out: &mut Out, field: &mut Field<Patched>) {
    out.u8(1);
    let event = field.pop();
    out.u8(event.is_some().into());
    let some = event.is_some();
    let (key, id, vertex) = event.map_or((0., 0, false), |e| (e.0, e.1, e.2));
    out.f64(key);
    out.u32(id);
    out.u8(vertex.into());
    if some && !vertex && field.wins[id as usize].alive {
        field.wins[id as usize].queued = false;
    }
}

fn touch(rng: &mut Rng, out: &mut Out, field: &mut Field<Patched>) -> Result<(), Refusal> {
    out.u8(2);
    let vx = rng.below(field.vertex.len()) as u32;
    let d = if rng.one_in(4) {
        number(rng)
    } else {
        rng.between(0., 10.)
    };
    out.u32(vx);
    out.f64(d);
    let answer = field.touch(vx, d);
    out.u8(answer.err().map_or(0, |r| r.0 as u8));
    out.f64(field.vertex[vx as usize]);
    answer
}

/// The state after the list, or after the last step that was not refused.
fn state(out: &mut Out, field: &mut Field<Patched>, topo: &Topology) {
    out.count(field.wins.len());
    for w in field.wins.clone() {
        out.win(&Win {
            low: w.src.lowest::<Patched>(w.b0, w.b1),
            ..w
        });
    }
    for e in 0..topo.edges.len() {
        chain(out, field, e);
        let slivers = field.slivers.as_ref().map_or(&[][..], |s| &s[e]);
        out.count(slivers.len());
        slivers.iter().for_each(|&(a, b)| out.f64s(&[a, b]));
        out.u32(field.sliver_bound[e] as u32);
    }
    out.f64s(&field.vertex);
    out.count(field.queue.len());
    while let Some(event) = field.queue.pop() {
        out.f64(event.0);
        out.u32(event.1);
        out.u8(event.2.into());
    }
}

/// What a list starts from.
fn start(out: &mut Out, topo: &Topology, limit: f64, capacity: Buffers, detail: bool) {
    out.f64(limit);
    out.count(topo.pseudo.len());
    topo.pseudo.iter().for_each(|&b| out.u8(b.into()));
    out.count(topo.edges.len());
    for (&[a, b], &l) in topo.edges.iter().zip(&topo.len) {
        out.u32(a);
        out.u32(b);
        out.f64(l);
    }
    for n in [capacity.windows, capacity.events, capacity.cuts] {
        out.u32(n);
    }
    out.u8(detail.into());
}

fn field(topo: &Topology, limit: f64, capacity: Buffers) -> Field<'_, Patched> {
    let mut field = Field::empty(&[], &[], topo, limit, capacity);
    field.slivers = Some(vec![vec![]; topo.edges.len()]);
    field.sliver_bound = vec![0; topo.edges.len()];
    field
}

pub fn list(rng: &mut Rng, out: &mut Out, most: usize, detail: bool) {
    let topo = path(rng);
    let limit = rng.pick(&[10., 10., 1e7, 1e7, 1., 0., 4_000_000., 2.5]);
    let length = if detail { 1 + rng.below(most) } else { most };
    let capacity = buffers(rng, most);
    start(out, &topo, limit, capacity, detail);
    let mut field = field(&topo, limit, capacity);
    let mut seen = vec![vec![]; topo.edges.len()];
    let wild = detail || rng.one_in(4);
    let mut last = likely(rng);
    let mut ops = Out::default();
    let mut done = 0;
    let mut answer = Ok(());
    while done < length && answer.is_ok() {
        let left = 1. - done as f64 / length as f64;
        done += 1;
        answer = match rng.below(12) {
            0 => {
                pop(&mut ops, &mut field);
                Ok(())
            }
            1 => touch(rng, &mut ops, &mut field),
            _ => {
                let w = candidate(rng, &topo, (left, wild), &mut seen, &mut last);
                add(&mut ops, &mut field, w, detail)
            }
        };
    }
    out.count(done);
    out.0.extend(ops.0);
    out.u8(answer.is_ok().into());
    // What a refused step leaves is not compared: only its number.
    if answer.is_ok() {
        state(out, &mut field, &topo);
    }
}

/// The scope's example: on an edge of length 4, limit 10, a candidate 0 to 4
/// from (0, -1), then one from (4, -1), then that once more, as far as `steps`.
pub fn example(steps: usize, out: &mut Out) {
    let topo = Topology {
        edges: vec![[0, 1]],
        len: vec![4.],
        pseudo: vec![false, true],
        ..Topology::default()
    };
    let capacity = Buffers {
        windows: 100,
        events: 100,
        cuts: 100,
        face_entries: 0,
    };
    start(out, &topo, 10., capacity, true);
    let mut field = field(&topo, 10., capacity);
    out.count(steps);
    for x in [0., 4., 4.].into_iter().take(steps) {
        let w = Win {
            edge: 0,
            into: NONE,
            b0: 0.,
            b1: 4.,
            src: Src::Point { x, y: -1., s: 0. },
            alive: true,
            queued: false,
            low: 0.,
        };
        add(out, &mut field, w, true).expect("the buffers suffice");
    }
    out.u8(1);
    state(out, &mut field, &topo);
}

/// The candidates and pops of a whole field, in the format of a list.
pub fn stream(job: &Job, out: &mut Out) -> Result<(), Refusal> {
    let mesh = Mesh::new(job)?;
    let mut real = mesh.empty::<Patched>();
    real.record = Some(vec![]);
    real.run(&mesh.pieces, job.max_steps.into())?;
    let ops = real.record.take().unwrap_or_default();
    let capacity = Buffers {
        windows: u32::MAX,
        events: u32::MAX,
        cuts: u32::MAX,
        face_entries: 0,
    };
    start(out, &mesh.topo, job.limit, capacity, false);
    let mut field = field(&mesh.topo, job.limit, capacity);
    out.count(ops.len());
    for op in ops {
        match op {
            Op::Add(w) => add(out, &mut field, w, false)?,
            Op::Pop => pop(out, &mut field),
        }
    }
    out.u8(1);
    state(out, &mut field, &mesh.topo);
    Ok(())
}

#[cfg(test)]
mod tests {
    use super::*;
    use crate::generate::workshop::{self, Shape};

    /// The claim about a list, on one edge: order, widths, shared parts,
    /// the bound on slivers, and the cover at every end ever offered.
    fn check(field: &Field<Patched>, topo: &Topology, e: usize, admitted: &[(f64, f64)]) {
        let tiny = 1e-11 * topo.len[e];
        let live: Vec<(f64, f64)> = field.on_edge[e]
            .iter()
            .map(|&i| (field.wins[i as usize].b0, field.wins[i as usize].b1))
            .collect();
        let slivers = &field.slivers.as_ref().expect("slivers are noted")[e];
        assert!(live.iter().all(|w| w.1 - w.0 > tiny));
        for (k, u) in live.iter().enumerate() {
            for w in &live[k + 1..] {
                assert!(u.0 < w.0 && u.1 < w.1 && u.1.min(w.1) - u.0.max(w.0) <= tiny);
            }
        }
        assert!(slivers.len() as u64 <= field.sliver_bound[e]);
        assert!(slivers.iter().all(|s| s.1 - s.0 > 0. && s.1 - s.0 <= tiny));
        let holds = |list: &[(f64, f64)], x: f64| list.iter().any(|w| w.0 <= x && x <= w.1);
        for &(a, b) in admitted {
            let ends = live.iter().chain(slivers).flat_map(|&(a, b)| [a, b]);
            for x in ends
                .flat_map(|x| [x, x.next_up(), x.next_down()])
                .chain([a, b, (a + b) / 2.])
            {
                if a <= x && x <= b {
                    assert!(holds(&live, x) || holds(slivers, x), "{x} of {a} to {b}");
                }
            }
        }
    }

    #[test]
    fn the_claim_holds_after_every_candidate() {
        for seed in 0..400 {
            let mut rng = Rng::new(seed);
            let rng = &mut rng;
            let topo = path(rng);
            let mut field = field(&topo, 1e7, Buffers::UNBOUNDED);
            let mut seen = vec![vec![]; topo.edges.len()];
            let mut admitted = vec![vec![]; topo.edges.len()];
            let mut last = likely(rng);
            for k in 0..60 {
                let mix = (1. - k as f64 / 60., seed % 2 == 0);
                let w = candidate(rng, &topo, mix, &mut seen, &mut last);
                let e = w.edge as usize;
                let narrow = w.b1 - w.b0 <= 1e-11 * topo.len[e];
                let far = w.src.lowest::<Patched>(w.b0, w.b1) > 1e7;
                if !narrow && !far {
                    admitted[e].push((w.b0, w.b1));
                }
                field.add(w).expect("the buffers have no bound");
                check(&field, &topo, e, &admitted[e]);
            }
        }
    }

    #[test]
    fn a_stream_makes_the_windows_of_its_field() {
        let job = workshop::job(Shape::Noisy, 400, 3, 1e7, 2);
        let mesh = Mesh::new(&job).expect("a good job");
        let mut real = mesh.empty::<Patched>();
        real.record = Some(vec![]);
        real.run(&mesh.pieces, 1_000_000).expect("a field");
        let mut field = field(&mesh.topo, job.limit, Buffers::UNBOUNDED);
        let mut out = Out::default();
        for op in real.record.take().expect("the record") {
            match op {
                Op::Add(w) => add(&mut out, &mut field, w, false).expect("no bound"),
                Op::Pop => pop(&mut out, &mut field),
            }
        }
        assert!(field.queue.is_empty() && field.wins.len() > 1_000);
        assert_eq!(field.on_edge, real.on_edge);
        let plain = |w: &Win| Win { low: 0., ..*w };
        assert!(field.wins.iter().map(plain).eq(real.wins.iter().map(plain)));
    }
}
