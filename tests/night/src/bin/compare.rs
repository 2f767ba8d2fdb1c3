//! Computes the 96 workshop jobs by the package in rust/, with the buffers that it begins with and lengthens, and holds each field to the Rust as document 01 reads it (oracle/):
//! steps, every window made, the distance of every vertex, bit for bit. Usage: compare
use oracle::exact::{Piece as TheirPiece, Src as TheirSrc, Win as TheirWin};
use oracle::generate::workshop;
use oracle::job::{Job, Mesh};
use oracle::reading::Patched;
use sirmolaat::{Field, Job as Turns, Options, Piece, Src, Topology, Win};

fn pieces(mesh: &Mesh) -> Vec<Piece> {
    let piece = |piece: &TheirPiece| match *piece {
        TheirPiece::Point(f, a) => Piece::Point(f, a),
        TheirPiece::Segment(f, a, b) => Piece::Segment(f, a, b),
    };
    mesh.pieces.iter().map(piece).collect()
}

fn same_window(ours: &Win, theirs: &TheirWin) -> bool {
    let (line, source) = match ours.src {
        Src::Point { x, y, s } => (false, [x, y, s]),
        Src::Line { ux, uy, c } => (true, [ux, uy, c]),
    };
    let (their_line, their_source) = match theirs.src {
        TheirSrc::Point { x, y, s } => (false, [x, y, s]),
        TheirSrc::Line { ux, uy, c } => (true, [ux, uy, c]),
    };
    let bits = |b0: f64, b1: f64, src: [f64; 3]| [b0, b1, src[0], src[1], src[2]].map(f64::to_bits);
    line == their_line
        && (ours.edge, ours.into, ours.alive) == (theirs.edge, theirs.into, theirs.alive)
        && bits(ours.b0, ours.b1, source) == bits(theirs.b0, theirs.b1, their_source)
}

/// Whether the fields are the same, how often buffers were lengthened, and how often the job began again.
fn compare(job: &Job) -> (bool, u32, u32) {
    let mesh = Mesh::new(job).expect("a sound job");
    let theirs = mesh.field::<Patched>().expect("no bounds");
    let topo = Topology::new(&mesh.v, &mesh.t, &mesh.topo.pseudo).expect("a sound mesh");
    let pieces = pieces(&mesh);
    let begun = Turns::begin(
        &mesh.v,
        &mesh.t,
        &topo,
        &pieces,
        job.limit,
        &Options::default(),
    );
    let [mut lengthened, mut restarts] = [0; 2];
    let ours: Field = begun
        .expect("a sound job")
        .run(1_000, |progress| {
            (lengthened, restarts) = (progress.lengthened, progress.restarts);
            true
        })
        .expect("no refusal")
        .expect("not given up");
    let windows = (0..).map_while(|i| ours.window(i));
    let vertex = |list: &[f64]| list.iter().map(|d| d.to_bits()).collect::<Vec<_>>();
    let same = ours.steps() as usize == theirs.steps as usize
        && ours.windows() as usize == theirs.wins.len()
        && windows.zip(&theirs.wins).all(|(a, b)| same_window(&a, b))
        && vertex(&ours.vertex) == vertex(&theirs.vertex);
    (same, lengthened, restarts)
}

fn main() {
    let [mut jobs, mut unequal, mut lengthened, mut again] = [0; 4];
    for (shape, triangles, lines, limit) in workshop::mix() {
        let job = workshop::job(shape, triangles, lines, limit, lines as u64);
        let (same, longer, restarts) = compare(&job);
        jobs += 1;
        lengthened += u32::from(longer > 0);
        again += u32::from(restarts > 0);
        if !same {
            unequal += 1;
            println!("{shape:?}, {triangles} triangles, {lines} lines: another field");
        }
    }
    println!(
        "{jobs} jobs, {lengthened} in buffers that were lengthened, {again} begun again: {unequal} differences"
    );
    assert_eq!(unequal, 0);
}
