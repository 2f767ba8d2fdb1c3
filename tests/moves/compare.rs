//! Moves slips and reads them through the static library and by oracle/. Usage: compare [FIRST [COUNT]]
//! COUNT slips of either form from small jobs on, a third of them damaged: the answers, the lengths told, every lent byte, there and back; and every lent element of what a slip
//! of either form is read to. What is refused changes nothing.
#[allow(dead_code)]
mod library;
use library::Rooms;
use oracle::form::{Form, move_into};
use oracle::slip::{Sizes, read_form};
use oracle::vectors::random_form;
use std::collections::BTreeMap;

/// The answers of both for so many lent bytes; the bytes then.
fn moving(from: Form, slip: &[u8], lent: usize) -> (u32, Vec<u8>) {
    let (mut ours, mut theirs) = (vec![7u8; lent], vec![7u8; lent]);
    let (answer, length) = library::move_slip(from, slip, &mut ours);
    let wanted = move_into(from, slip, &mut theirs);
    assert_eq!(answer, wanted.0);
    if answer == 0 || answer == 36 {
        assert_eq!(length, wanted.1);
    } else {
        assert_eq!(length, 7);
    }
    assert!(ours == theirs);
    ours.truncate(wanted.1);
    (answer, ours)
}

fn same(xs: &[f64], ys: &[f64]) -> bool {
    let bits = |x: f64| if x.is_nan() { f64::NAN.to_bits() } else { x.to_bits() };
    xs.len() == ys.len() && xs.iter().zip(ys).all(|(&x, &y)| bits(x) == bits(y))
}

/// Reads a slip by both into rooms of so many vertices, triangles and pieces.
fn reading(form: Form, slip: &[u8], [v, t, p]: [usize; 3]) -> u32 {
    let (mut ours, mut theirs) = (Rooms::new(v, t, p), Rooms::new(v, t, p));
    let number = if form == Form::Plain { 1 } else { 2 };
    let answer = library::read(number, slip, &mut ours);
    let sizes = Sizes { vertices: v as u32, triangles: t as u32, pieces: p as u32, ..Sizes::UNBOUNDED };
    let wanted = read_form(form, slip, &sizes);
    assert_eq!(answer, wanted.as_ref().err().map_or(0, |r| r.0));
    if let Ok(job) = wanted {
        theirs.vertices[..job.vertices.len()].copy_from_slice(&job.vertices);
        theirs.triangles[..job.triangles.len()].copy_from_slice(&job.triangles);
        theirs.flags[..job.flags.len()].copy_from_slice(&job.flags);
        theirs.kinds[..job.piece_kinds.len()].copy_from_slice(&job.piece_kinds);
        theirs.faces[..job.piece_faces.len()].copy_from_slice(&job.piece_faces);
        theirs.coords[..job.piece_coords.len()].copy_from_slice(&job.piece_coords);
        theirs.told = [job.flags.len(), job.triangles.len() / 3, job.piece_kinds.len()].map(|n| n as u32);
        theirs.limit = job.limit;
    }
    assert!(same(&ours.vertices, &theirs.vertices) && same(&ours.coords, &theirs.coords) && same(&[ours.limit], &[theirs.limit]));
    assert!(ours.triangles == theirs.triangles && ours.faces == theirs.faces);
    assert!(ours.flags == theirs.flags && ours.kinds == theirs.kinds && ours.told == theirs.told);
    answer
}

fn main() {
    let mut arguments = std::env::args().skip(1).map(|n| n.parse::<u64>().unwrap());
    let (first, count) = (arguments.next().unwrap_or(0), arguments.next().unwrap_or(200_000));
    let mut answers: BTreeMap<(&str, u32), u64> = BTreeMap::new();
    let mut add = |name: &'static str, answer: u32| *answers.entry((name, answer)).or_insert(0) += 1;
    for seed in first..first + count {
        let (form, slip) = random_form(seed);
        let names = if form == Form::Plain { ["to groups", "plain read"] } else { ["from groups", "groups read"] };
        let (answer, moved) = moving(form, &slip, 4 * slip.len() + 64);
        add(names[0], answer);
        if answer == 0 {
            assert_eq!(moving(form.other(), &moved, slip.len() + 3), (0, slip.clone()));
            for less in [1, 1 + seed as usize % moved.len(), moved.len()] {
                assert_eq!(moving(form, &slip, moved.len() - less).0, 36);
            }
        }
        let rooms = if seed % 3 == 0 { [9, 12, 4] } else { [80, 120, 40] };
        add(names[1], reading(form, &slip, rooms));
    }
    let mut other = Rooms::new(3, 3, 3);
    println!("a form that there is not: {}", library::read(3, &[0; 20], &mut other));
    let mut line = String::new();
    for ((name, answer), n) in &answers {
        line += &format!("{name} {answer}: {n}; ");
    }
    println!("{count} slips by their answers: {line}0 differences");
}
