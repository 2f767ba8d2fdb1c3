//! Fields by the library: document 01's slip, plane meshes whose distances are known, buffers that grow, rows, threads.
mod meshes;

use meshes::{grid, plane};
use sirmolaat::slip::{Form, Slip, read_slip, write_slip};
use sirmolaat::{
    Field, Job, NONE, Options, Piece, Slots, Src, Topology, Turn, Vec3, boundary, saddles,
};

fn distance(a: Vec3, b: Vec3) -> f64 {
    let square = |k: usize| (a[k] - b[k]) * (a[k] - b[k]);
    (square(0) + square(1) + square(2)).sqrt()
}

fn topology(v: &[Vec3], t: &[[u32; 3]]) -> Topology {
    Topology::new(v, t, &saddles(v, t, &boundary(v.len(), t))).expect("a sound mesh")
}

#[test]
fn the_slip_of_document_01() {
    let slip = Slip {
        v: vec![[0., 0., 0.], [3., 0., 0.], [0., 4., 0.]],
        t: vec![[0, 1, 2]],
        flags: vec![false; 3],
        pieces: vec![Piece::Point(0, [0.; 3])],
        limit: 10.,
    };
    for (form, length) in [(Form::Plain, 136), (Form::Groups, 116)] {
        let bytes = write_slip(form, &slip).expect("a slip");
        assert_eq!(bytes.len(), length);
        assert_eq!(read_slip(form, &bytes), Ok(slip.clone()));
    }
    let topo = Topology::new(&slip.v, &slip.t, &slip.flags).expect("a sound mesh");
    let field = Field::compute(
        &slip.v,
        &slip.t,
        &topo,
        &slip.pieces,
        slip.limit,
        &Options::default(),
    );
    let field = field.expect("a field");
    assert_eq!(
        field.print_out(),
        "edges 3\nwindows 3 live 3 steps 1\ncorner 0 0\ncorner 1 3000\ncorner 2 4000\nend\n"
    );
    assert_eq!((field.windows(), field.steps()), (3, 1));
}

#[test]
fn the_topology_of_two_triangles() {
    let v = [[0., 0., 0.], [1., 0., 0.], [0., 1., 0.], [1., 1., 0.]];
    let topo = topology(&v, &[[0, 1, 2], [2, 1, 3]]);
    assert_eq!(topo.edges, [[0, 1], [1, 2], [0, 2], [1, 3], [2, 3]]);
    assert_eq!(
        topo.faces,
        [[0, NONE], [0, 1], [0, NONE], [1, NONE], [1, NONE]]
    );
    assert_eq!(topo.tri_edges, [[0, 1, 2], [1, 3, 4]]);
    assert_eq!(
        topo.vertex_faces,
        [vec![0], vec![0, 1], vec![0, 1], vec![1]]
    );
    assert_eq!(topo.yhat[0][0], [0., 1., 0.]);
    assert_eq!(
        (topo.other(1, 0), topo.other(1, 1), topo.other(9, 0)),
        (1, 0, NONE)
    );
    assert_eq!(topo.pseudo, [true; 4]);
}

/// On a plane the distance is the straight one.
#[test]
fn a_point_on_a_plane() {
    let (v, t) = plane(12);
    let topo = topology(&v, &t);
    let p = [3.3, 4.1, 0.];
    let (f, p) = sirmolaat::face_above(&v, &t, [p[0], p[1]]).expect("on the plane");
    let field = Field::compute(
        &v,
        &t,
        &topo,
        &[Piece::Point(f, p)],
        1e7,
        &Options::default(),
    );
    let field = field.expect("a field");
    for (k, &q) in v.iter().enumerate() {
        assert!((field.vertex_at(k as u32) - distance(p, q)).abs() < 1e-9);
    }
    for (f, tri) in (0..).zip(&t) {
        let [a, b, c] = tri.map(|k| v[k as usize]);
        let q = [0, 1, 2].map(|k| (a[k] + b[k] + c[k]) / 3.);
        assert!((field.at(f, q) - distance(p, q)).abs() < 1e-9);
    }
    for (e, &[a, b]) in (0..).zip(&topo.edges) {
        let (o, l) = (v[a as usize], topo.len[e as usize]);
        let q = [0, 1, 2].map(|k| (o[k] + v[b as usize][k]) / 2.);
        assert!((field.edge_at(e, l / 2.) - distance(p, q)).abs() < 1e-9);
    }
}

/// Windows of an edge stand in order, and each gives at its ends no less than the field.
#[test]
fn windows_and_rows_agree_with_single_questions() {
    let (v, t) = grid(14, |x, y| (0.7 * x).sin() * (0.9 * y).cos());
    let topo = topology(&v, &t);
    let mut pieces = vec![];
    let (f, p) = sirmolaat::face_above(&v, &t, [1.21, 1.34]).expect("on the mesh");
    sirmolaat::walk(&v, &t, &topo, f, p, [9.17, 6.61], &mut pieces).expect("on the mesh");
    assert!(pieces.len() > 10);
    let field = Field::compute(&v, &t, &topo, &pieces, 1e7, &Options::default()).expect("a field");
    let mut live = 0;
    let (mut edges, mut places) = (vec![], vec![]);
    for e in 0..topo.edges.len() as u32 {
        let windows = field.edge_windows(e);
        live += windows.len();
        assert!(windows.windows(2).all(|pair| pair[0].1 < pair[1].1));
        for (src, b0, b1) in windows {
            assert!(b0 < b1);
            let at = |x: f64| match src {
                Src::Point { x: sx, y, s } => (x - sx).hypot(y) + s,
                Src::Line { ux, c, .. } => c + ux * x,
            };
            assert!(field.edge_at(e, b0) <= at(b0) + 1e-9 && field.edge_at(e, b1) <= at(b1) + 1e-9);
            edges.extend([e, e]);
            places.extend([b0, b1]);
        }
    }
    let alive = (0..field.windows()).filter(|&i| field.window(i).is_some_and(|w| w.alive));
    assert_eq!(alive.count(), live);
    assert_eq!(field.window(field.windows()), None);
    let row = field.edges_at(&edges, &places).expect("a sound field");
    for (i, (&e, &x)) in edges.iter().zip(&places).enumerate() {
        assert_eq!(row.distances[i].to_bits(), field.edge_at(e, x).to_bits());
    }
    let faces: Vec<u32> = (0..t.len() as u32).chain([t.len() as u32]).collect();
    let points: Vec<Vec3> = faces.iter().map(|&f| v[f as usize % v.len()]).collect();
    let row = field.faces_at(&faces, &points).expect("a sound field");
    for (i, (&f, &p)) in faces.iter().zip(&points).enumerate() {
        assert_eq!(row.get(i), Some(field.try_at(f, p)));
    }
    assert_eq!(row.get(faces.len()), None);
}

#[test]
fn buffers_grow_until_they_suffice() {
    let (v, t) = grid(10, |x, y| 0.3 * (x * y).sin());
    let topo = topology(&v, &t);
    let (f, p) = sirmolaat::face_above(&v, &t, [4.3, 5.4]).expect("on the mesh");
    let pieces = [Piece::Point(f, p)];
    let field = Field::compute(&v, &t, &topo, &pieces, 1e7, &Options::default()).expect("a field");
    let none = Slots {
        windows: 1,
        events: 1,
        cuts: 1,
        entries: 1,
    };
    let tight = Options::default().slots(none);
    let grown = Field::compute(&v, &t, &topo, &pieces, 1e7, &tight).expect("a field");
    assert_eq!(
        (grown.windows(), grown.steps(), &grown.vertex),
        (field.windows(), field.steps(), &field.vertex)
    );
    let refused = Field::compute(&v, &t, &topo, &pieces, 1e7, &tight.memory(100_000))
        .expect_err("too little memory");
    assert!([12, 13, 14, 17].contains(&refused.number()), "{refused}");
    let spent = Field::compute(
        &v,
        &t,
        &topo,
        &pieces,
        1e7,
        &Options::default().steps(field.steps() - 1),
    );
    assert_eq!(spent.expect_err("a step is lacking").number(), 15);
    let enough = Options::default().steps(field.steps()).slots(field.slots());
    assert!(Field::compute(&v, &t, &topo, &pieces, 1e7, &enough).is_ok());
}

#[test]
fn threads_have_nothing_in_common() {
    fn shared<T: Send + Sync>(_: &T) {}
    let (v, t) = grid(12, |x, y| 0.2 * (x - y).cos());
    let topo = topology(&v, &t);
    let starts: Vec<Piece> = (0..8u32)
        .map(|k| Piece::Point(9 * k, v[t[9 * k as usize][0] as usize]))
        .collect();
    let compute = |piece: &Piece| {
        let field = Field::compute(
            &v,
            &t,
            &topo,
            std::slice::from_ref(piece),
            1e7,
            &Options::default(),
        );
        field.expect("a field")
    };
    let alone: Vec<Field> = starts.iter().map(compute).collect();
    shared(&alone[0]);
    std::thread::scope(|scope| {
        let running: Vec<_> = starts
            .iter()
            .map(|piece| scope.spawn(move || compute(piece)))
            .collect();
        for (field, thread) in alone.iter().zip(running) {
            assert_eq!(field.vertex, thread.join().expect("no panic").vertex);
        }
        // one field asked by many
        for k in 0..4 {
            let (field, v, t) = (&alone[0], &v, &t);
            scope.spawn(move || {
                let p = v[t[k][1] as usize];
                assert_eq!(field.at(k as u32, p), field.vertex_at(t[k][1]));
            });
        }
    });
}

/// A job in turns comes to the field of a single run, whatever the turns are, and can be given up between them.
#[test]
fn a_job_in_turns() {
    let (v, t) = grid(12, |x, y| 0.4 * (0.8 * x).sin() * y.cos());
    let topo = topology(&v, &t);
    let pieces = [
        Piece::Point(17, v[t[17][0] as usize]),
        Piece::Point(100, v[t[100][2] as usize]),
    ];
    let whole = Field::compute(&v, &t, &topo, &pieces, 1e7, &Options::default()).expect("a field");
    let begin =
        |options: &Options| Job::begin(&v, &t, &topo, &pieces, 1e7, options).expect("a sound job");
    for steps in [1, 7, 1000, u32::MAX] {
        let mut told = 0;
        let field = begin(&Options::default()).run(steps, |progress| {
            assert!(progress.steps > told && progress.waiting > 0);
            told = progress.steps;
            true
        });
        let field = field.expect("no refusal").expect("not given up");
        assert_eq!(
            (field.steps(), field.windows(), &field.vertex),
            (whole.steps(), whole.windows(), &whole.vertex)
        );
        for i in 0..whole.windows() {
            assert_eq!(field.window(i), whole.window(i));
        }
        for e in 0..topo.edges.len() as u32 {
            assert!(field.on_edge(e).eq(whole.on_edge(e)));
        }
        assert!(field.edges_at(&[0], &[0.]).is_ok(), "refusal 20 passes it");
    }
    let given_up = begin(&Options::default()).run(5, |progress| progress.steps < 20);
    assert!(given_up.expect("no refusal").is_none());
    let spent = begin(&Options::default().steps(whole.steps() - 1)).run(9, |_| true);
    assert_eq!(spent.expect_err("a step is lacking").number(), 15);
    let few = Slots {
        windows: 50,
        events: 20,
        cuts: 4,
        entries: 1,
    };
    let mut job = begin(&Options::default().slots(few));
    let mut restarts = 0;
    let field = loop {
        restarts = restarts.max(job.progress().restarts);
        match job.advance(40).expect("no refusal") {
            Turn::On(on) => job = on,
            Turn::Done(field) => break field,
        }
    };
    assert!(restarts > 1);
    assert_eq!(field.vertex, whole.vertex);
}

/// Buffers with no slot more than insertion takes are lengthened between turns: the job never begins again, and its field is that of buffers which suffice from the start.
#[test]
fn buffers_are_lengthened_between_turns() {
    let (v, t) = grid(16, |x, y| 0.5 * (0.7 * x).cos() * (0.9 * y).sin());
    let topo = topology(&v, &t);
    let pieces = [
        Piece::Point(40, v[t[40][1] as usize]),
        Piece::Point(301, v[t[301][0] as usize]),
    ];
    let begin =
        |options: &Options| Job::begin(&v, &t, &topo, &pieces, 1e7, options).expect("a sound job");
    let inserted = begin(&Options::default()).progress();
    let whole = Field::compute(&v, &t, &topo, &pieces, 1e7, &Options::default()).expect("a field");
    let few = Slots {
        windows: inserted.windows,
        events: inserted.waiting,
        ..whole.slots()
    };
    let mut told = inserted;
    let field = begin(&Options::default().slots(few)).run(50, |progress| {
        told = progress;
        true
    });
    let field = field.expect("no refusal").expect("not given up");
    assert_eq!(told.restarts, 0);
    assert!(told.lengthened > 1);
    assert!(field.windows() > 8 * inserted.windows);
    assert_eq!(
        (field.steps(), field.windows(), &field.vertex),
        (whole.steps(), whole.windows(), &whole.vertex)
    );
    for i in 0..whole.windows() {
        assert_eq!(field.window(i), whole.window(i));
    }
}
