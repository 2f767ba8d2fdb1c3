//! Whole jobs with their fields and queries, and slips with print-outs.
use super::Out;
use crate::compare::questions;
use crate::dump::view;
use crate::exact::{Field, Piece};
use crate::generate::rng::Rng;
use crate::generate::small;
use crate::job::{Job, Mesh};
use crate::reading::Patched;
use crate::slip::{self, Sizes};

fn field(mesh: &Mesh, field: &Field<Patched>, out: &mut Out) {
    out.u32(field.steps as u32);
    out.f64s(&field.vertex);
    out.count(field.wins.len());
    field.wins.iter().for_each(|w| out.win(w));
    out.count(field.on_edge.len());
    for list in &field.on_edge {
        out.count(list.len());
        list.iter().for_each(|&i| out.u32(i));
    }
    let entries = view(field).in_face;
    out.count(entries.iter().map(|x| x.1.len()).sum());
    for (f, list) in entries {
        for piece in list {
            let (kind, ends) = match *piece {
                Piece::Point(_, a) => (0, [a, [0.; 3]]),
                Piece::Segment(_, a, b) => (1, [a, b]),
            };
            out.u32(f);
            out.u8(kind);
            ends.iter().for_each(|p| out.f64s(p));
        }
    }
    let q = questions(mesh, &mut Rng::new(field.steps), 12);
    out.count(q.at.len());
    for &(f, p) in &q.at {
        out.u32(f);
        out.f64s(&p);
        out.f64(field.at(f, p));
    }
    out.count(q.edge_at.len());
    for &(e, x) in &q.edge_at {
        out.u32(e);
        out.f64s(&[x, field.edge_at(e, x)]);
    }
}

/// A small job whose slip reads back as it is.
fn slip_of(rng: &mut Rng) -> (Job, Vec<u8>) {
    loop {
        let job = small::job(rng.u64());
        let bytes = slip::write(&job);
        let back = slip::read(&bytes, &Sizes::UNBOUNDED);
        if job.vertices.len().is_multiple_of(3) && back.is_ok_and(|b| slip::write(&b) == bytes) {
            return (job, bytes);
        }
    }
}

pub fn job(rng: &mut Rng, out: &mut Out) {
    let (job, bytes) = slip_of(rng);
    out.count(bytes.len());
    out.0.extend(bytes);
    let b = job.buffers;
    for n in [b.windows, b.events, b.cuts, b.face_entries, job.max_steps] {
        out.u32(n);
    }
    let answer = Mesh::new(&job).and_then(|mesh| {
        let mut answer = Out::default();
        field(&mesh, &mesh.field::<Patched>()?, &mut answer);
        Ok(answer)
    });
    match answer {
        Err(r) => out.u32(r.0),
        Ok(answer) => {
            out.u32(0);
            out.0.extend(answer.0);
        }
    }
}

/// Damage of every kind to a good slip.
fn damage(rng: &mut Rng, bytes: &mut Vec<u8>) {
    match rng.below(6) {
        0 => bytes.truncate(rng.below(bytes.len() + 1)),
        1 => bytes.extend((0..1 + rng.below(9)).map(|k| k as u8)),
        2 => {
            let at = rng.below(bytes.len());
            bytes[at] ^= 1 << rng.below(8);
        }
        3 => {
            let at = rng.below(12);
            bytes[at] = rng.u64() as u8;
        }
        4 => {
            let count = rng.pick(&[65u32, 97, 33, 64, 96, 32]);
            let at = 4 * rng.below(3);
            bytes[at..at + 4].copy_from_slice(&count.to_le_bytes());
        }
        _ => *bytes = (0..rng.below(200)).map(|_| rng.u64() as u8).collect(),
    }
}

fn printed(bytes: &[u8], out: &mut Out) {
    let text = slip::program::<Patched>(bytes, &Sizes::FIELDSLIP);
    out.count(bytes.len());
    out.0.extend(bytes);
    out.count(text.len());
    out.0.extend(text.as_bytes());
}

pub fn slip(rng: &mut Rng, out: &mut Out) {
    let (_, mut bytes) = slip_of(rng);
    if rng.one_in(3) {
        damage(rng, &mut bytes);
    }
    printed(&bytes, out);
}

pub fn damaged_slip(rng: &mut Rng, out: &mut Out) {
    let (_, mut bytes) = slip_of(rng);
    damage(rng, &mut bytes);
    printed(&bytes, out);
}
