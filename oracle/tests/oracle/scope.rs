//! The scope document's own examples.
use oracle::exact::{Buffers, Field, NONE, Refusal, Src, Topology, Win, roots, ties};
use oracle::job::Job;
use oracle::reading::{Patched, Published, Reading, hypot};
use oracle::slip::{Sizes, program, thousandths, write};

fn roots_of<R: Reading>(a: f64, b: f64, c: f64) -> Vec<u64> {
    let mut out = vec![];
    roots::<R>(a, b, c, &mut out);
    out.into_iter().map(f64::to_bits).collect()
}

fn bits(list: &[f64]) -> Vec<u64> {
    list.iter().map(|x| x.to_bits()).collect()
}

fn point(x: f64, y: f64, s: f64) -> Src {
    Src::Point { x, y, s }
}

fn p1_to_p13<R: Reading>() {
    assert_eq!(25f64.sqrt().to_bits(), 5f64.to_bits());
    assert!((-1f64).sqrt().is_nan());
    assert_eq!(R::hypot(3., 4.).to_bits(), 5f64.to_bits());
    assert_eq!(R::hypot(5., 12.).to_bits(), 13f64.to_bits());
    assert_eq!(roots_of::<R>(0., 0., 0.), bits(&[]));
    assert_eq!(roots_of::<R>(0., 2., -6.), bits(&[3.]));
    assert_eq!(roots_of::<R>(1., -3., 2.), bits(&[2., 1.]));
    assert_eq!(roots_of::<R>(1., 0., 1.), bits(&[]));
    assert_eq!(roots_of::<R>(1., 2., 1.), bits(&[-1., -1.]));
    assert_eq!(roots_of::<R>(1., 0., 0.), bits(&[-0.]));
    let mut out = vec![];
    ties::<R>(&point(0., -1., 0.), &point(4., -1., 0.), &mut out);
    assert_eq!(bits(&out), bits(&[2.]));
    assert_eq!(point(1., -2., 0.5).lowest::<R>(0., 3.), 2.5);
    assert_eq!(point(0., -4., 0.).lowest::<R>(3., 5.), 5.);
}

#[test]
fn worked_values() {
    p1_to_p13::<Patched>();
    p1_to_p13::<Published>();
}

#[test]
fn infinity_beats_nan() {
    for x in [f64::INFINITY, f64::NEG_INFINITY] {
        assert_eq!(hypot(x, f64::NAN), f64::INFINITY);
        assert_eq!(hypot(f64::NAN, x), f64::INFINITY);
        assert_eq!(hypot(1., x), f64::INFINITY);
    }
    assert!(hypot(f64::NAN, 1.).is_nan());
    assert_eq!(hypot(-0., -0.).to_bits(), 0);
}

#[test]
fn min_and_max_give_the_left_operand() {
    for (x, y) in [(0., -0.), (-0., 0.)] {
        assert_eq!(Patched::min(x, y).to_bits(), f64::to_bits(x));
        assert_eq!(Patched::max(x, y).to_bits(), f64::to_bits(x));
    }
    assert_eq!(Patched::min(f64::NAN, 1.), 1.);
    assert_eq!(Patched::min(1., f64::NAN), 1.);
    assert_eq!(Patched::max(f64::NAN, 1.), 1.);
    assert_eq!(Patched::max(1., f64::NAN), 1.);
}

/// An edge of length 4 on its own.
fn one_edge() -> Topology {
    Topology {
        edges: vec![[0, 1]],
        len: vec![4.],
        pseudo: vec![false, false],
        ..Topology::default()
    }
}

fn candidate(x: f64) -> Win {
    Win {
        edge: 0,
        into: NONE,
        b0: 0.,
        b1: 4.,
        src: point(x, -1., 0.),
        alive: true,
        queued: false,
        low: 0.,
    }
}

#[test]
fn two_candidates_on_one_edge() {
    let topo = one_edge();
    let mut field: Field<Patched> = Field::empty(&[], &[], &topo, 10., Buffers::UNBOUNDED);
    field.slivers = Some(vec![vec![]]);
    field.add(candidate(0.)).unwrap();
    field.add(candidate(4.)).unwrap();
    let ends = |f: &Field<Patched>| -> Vec<(u32, f64, f64)> {
        let list = &f.on_edge[0];
        list.iter()
            .map(|&i| (i, f.wins[i as usize].b0, f.wins[i as usize].b1))
            .collect()
    };
    assert_eq!(ends(&field), [(0, 0., 2.), (1, 2., 4.)]);
    assert_eq!(field.slivers, Some(vec![vec![]]));
    let before = field.wins.clone();
    field.add(candidate(4.)).unwrap();
    assert_eq!(field.wins, before);
    assert_eq!(ends(&field), [(0, 0., 2.), (1, 2., 4.)]);
}

pub fn right_triangle() -> Job {
    Job {
        vertices: vec![0., 0., 0., 3., 0., 0., 0., 4., 0.],
        triangles: vec![0, 1, 2],
        flags: vec![0, 0, 0],
        piece_kinds: vec![0],
        piece_faces: vec![0],
        piece_coords: vec![0.; 6],
        limit: 10.,
        max_steps: 100_000,
        buffers: Sizes::FIELDSLIP.buffers,
    }
}

#[test]
fn the_slip_prints_what_the_scope_document_prints() {
    let slip = write(&right_triangle());
    assert_eq!(slip.len(), 136);
    let text = "edges 3\nwindows 3 live 3 steps 1\ncorner 0 0\ncorner 1 3000\ncorner 2 4000\nend\n";
    assert_eq!(program::<Patched>(&slip, &Sizes::FIELDSLIP), text);
    assert_eq!(program::<Published>(&slip, &Sizes::FIELDSLIP), text);
}

#[test]
fn a_missing_vertex_comes_before_one_named_twice() {
    let mut job = right_triangle();
    job.vertices.extend([1., 1., 1.]);
    job.flags.push(0);
    job.triangles = vec![9, 9, 1];
    assert_eq!(job.check(), Err(Refusal(2)));
}

#[test]
fn thousandths_round_halves_up() {
    let cases = [
        (0.0005, "1"),
        (0.0004999999999999999, "0"),
        (0.0625, "63"),
        (-0.0625, "-62"),
        (-0.0004, "0"),
        (-0.0, "0"),
        (5e-324, "0"),
        (1.5, "1500"),
        (9007199254740993.0, "9007199254740992000"),
        (f64::INFINITY, "far"),
    ];
    for (x, text) in cases {
        assert_eq!(thousandths(x), text, "{x}");
    }
}
