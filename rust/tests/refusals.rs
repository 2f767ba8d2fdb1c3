//! Every refusal that a caller can meet, with its number, its name and what it is about.
use sirmolaat::slip::{Form, read_slip};
use sirmolaat::{About, Field, Options, Piece, Refusal, Topology, Vec3};

const V: [Vec3; 4] = [[0., 0., 0.], [3., 0., 0.], [0., 4., 0.], [3., 4., 0.]];
const T: [[u32; 3]; 2] = [[0, 1, 2], [2, 1, 3]];

fn mesh(v: &[Vec3], t: &[[u32; 3]]) -> Result<Topology, Refusal> {
    Topology::new(v, t, &vec![false; v.len()])
}

fn refused(v: &[Vec3], t: &[[u32; 3]]) -> (u32, About) {
    let refusal = mesh(v, t).expect_err("refused");
    (refusal.number(), refusal.about())
}

fn job(pieces: &[Piece], limit: f64, max_steps: u32) -> (u32, About) {
    let topo = mesh(&V, &T).expect("sound");
    let options = Options::default().steps(max_steps);
    let refusal = Field::compute(&V, &T, &topo, pieces, limit, &options).expect_err("refused");
    (refusal.number(), refusal.about())
}

#[test]
fn of_the_mesh() {
    let flags = Topology::new(&V, &T, &[false; 3]).expect_err("a flag lacks");
    assert_eq!((flags.number(), flags.about()), (1, About::Flags(3, 4)));
    let many = vec![[0.; 3]; 65_536];
    assert_eq!(
        refused(&many, &[]),
        (1, About::Count("vertices", 65_536, 65_535))
    );
    assert_eq!(
        refused(&V, &[[0, 1, 2], [1, 2, 4]]),
        (2, About::Names(1, 4))
    );
    assert_eq!(
        refused(&V, &[[0, 1, 2], [1, 2, 1]]),
        (3, About::Names(1, 1))
    );
    for bad in [f64::NAN, f64::INFINITY, 1_000_000.1, -1e300] {
        let mut v = V;
        v[2][1] = bad;
        assert_eq!(refused(&v, &T), (4, About::Vertex(2)));
    }
    let mut v = V;
    v[3] = [1.5, 2., 0.];
    assert_eq!(refused(&v, &T), (5, About::Triangle(1)));
    let fan = [[0, 1, 2], [1, 0, 3], [0, 1, 4]];
    let v = [V[0], V[1], V[2], V[3], [1., 1., 5.]];
    assert_eq!(refused(&v, &fan), (10, About::Edge(0, 1)));
}

#[test]
fn of_the_job() {
    let inside = Piece::Point(0, [0.5, 0.5, 0.]);
    assert_eq!(
        job(&[inside, Piece::Point(2, V[0])], 1., 9),
        (6, About::Piece(1))
    );
    let far = Piece::Segment(1, V[1], [f64::NAN, 0., 0.]);
    assert_eq!(job(&[inside, far], 1., 9), (7, About::Piece(1)));
    assert_eq!(job(&[inside], -1., 9), (8, About::Limit(-1.)));
    assert_eq!(job(&[inside], f64::NAN, 9).0, 8);
    assert_eq!(job(&[inside], 10., 0), (15, About::Steps(0)));
    let topo = mesh(&V, &T).expect("sound");
    let many = vec![inside; 65_536];
    let refusal =
        Field::compute(&V, &T, &topo, &many, 1., &Options::default()).expect_err("refused");
    assert_eq!(
        (refusal.number(), refusal.about()),
        (1, About::Count("pieces", 65_536, 65_535))
    );
}

/// A line that ends on a vertex inside the mesh, where six triangles meet.
#[test]
fn of_a_line_that_ends_on_a_vertex() {
    let v = [
        [0., 0., 0.],
        [2., 0., 0.],
        [1., 2., 0.],
        [-1., 2., 0.],
        [-2., 0., 0.],
        [-1., -2., 0.],
        [1., -2., 0.],
    ];
    let t = [
        [0, 1, 2],
        [0, 2, 3],
        [0, 3, 4],
        [0, 4, 5],
        [0, 5, 6],
        [0, 6, 1],
    ];
    let topo = mesh(&v, &t).expect("sound");
    let line = Piece::Segment(0, [1., 0.5, 0.], v[0]);
    let refusal =
        Field::compute(&v, &t, &topo, &[line], 10., &Options::default()).expect_err("refused");
    assert_eq!((refusal.number(), refusal.about()), (11, About::Piece(0)));
    assert_eq!(
        refusal.to_string(),
        "refused by 11, line end on a vertex: piece 0; a start line ends on a vertex of the mesh: move its end a little off the vertex"
    );
}

#[test]
fn of_questions() {
    let topo = mesh(&V, &T).expect("sound");
    let field = Field::compute(
        &V,
        &T,
        &topo,
        &[Piece::Point(0, V[0])],
        10.,
        &Options::default(),
    );
    let field = field.expect("a field");
    let number = |answer: Result<f64, Refusal>| answer.map_err(|refusal| refusal.number());
    assert_eq!(number(field.try_at(2, V[0])), Err(21));
    assert_eq!(number(field.try_at(0, [0., f64::NAN, 0.])), Err(22));
    assert_eq!(number(field.try_edge_at(5, 0.)), Err(23));
    assert_eq!(number(field.try_edge_at(0, -1.)), Err(24));
    assert_eq!(number(field.try_edge_at(0, 3.1)), Err(24));
    assert!(
        field.at(9, V[0]).is_nan()
            && field.edge_at(0, f64::NAN).is_nan()
            && field.vertex_at(4).is_nan()
    );
    assert!(field.edge_windows(77).is_empty());
    assert_eq!(
        field
            .faces_at(&[0, 1], &[V[0]])
            .expect_err("unlike")
            .number(),
        74
    );
    assert_eq!(number(field.try_at(0, V[1])), Ok(3.));
}

#[test]
fn of_slips() {
    let number = |bytes: &[u8]| read_slip(Form::Plain, bytes).map_err(|refusal| refusal.number());
    assert_eq!(number(&[]), Err(30));
    assert_eq!(number(&[255; 12]), Err(33));
    assert_eq!(number(&[0; 19]), Err(30));
    assert!(number(&[0; 20]).is_ok());
    assert_eq!(number(&[0; 21]), Err(31));
    let mut kind = vec![0; 12];
    kind[8] = 1;
    kind.extend([2; 50]);
    assert_eq!(number(&kind), Err(32));
}

#[test]
fn an_empty_mesh_has_an_empty_field() {
    let topo = mesh(&[], &[]).expect("sound");
    let field = Field::compute(&[], &[], &topo, &[], 1., &Options::default()).expect("a field");
    assert_eq!(
        (field.vertex.len(), field.windows(), field.steps()),
        (0, 0, 0)
    );
    assert_eq!(
        field.print_out(),
        "edges 0\nwindows 0 live 0 steps 0\nend\n"
    );
}
