//! Bad input gets a refusal number, never a panic.
use oracle::exact::Refusal;
use oracle::generate::rng::Rng;
use oracle::generate::small;
use oracle::job::{Job, Mesh};
use oracle::reading::{Patched, Published};
use oracle::slip::{Sizes, program, write};
use std::panic::catch_unwind;

fn is_answer(text: &str) -> bool {
    let refused = text
        .strip_prefix("refused ")
        .and_then(|n| n.trim_end().parse::<u32>().ok());
    let known = |n: u32| (1..=17).contains(&n) && n != 9 && n != 16 || (30..=33).contains(&n);
    refused.map_or(text.starts_with("edges ") && text.ends_with("end\n"), known)
}

fn answers(bytes: &[u8]) {
    let text = catch_unwind(|| {
        let published = program::<Published>(bytes, &Sizes::FIELDSLIP);
        assert!(is_answer(&published), "{published}");
        program::<Patched>(bytes, &Sizes::FIELDSLIP)
    });
    let text = text.unwrap_or_else(|_| panic!("a panic on the slip {bytes:?}"));
    assert!(is_answer(&text), "{text}");
}

#[test]
fn random_bytes_and_damaged_slips() {
    let mut rng = Rng::new(1);
    for _ in 0..20_000 {
        let bytes: Vec<u8> = (0..rng.below(300)).map(|_| rng.u64() as u8).collect();
        answers(&bytes);
    }
    for seed in 0..20_000 {
        let mut bytes = write(&small::job(seed));
        for _ in 0..rng.below(4) {
            let at = rng.below(bytes.len());
            bytes[at] = rng.u64() as u8;
        }
        if rng.one_in(5) {
            bytes.truncate(rng.below(bytes.len()));
        }
        answers(&bytes);
    }
}

/// Any doubles and numbers at all in a job's slices.
fn scramble(rng: &mut Rng, job: &mut Job) {
    for _ in 0..1 + rng.below(3) {
        let x = f64::from_bits(rng.u64());
        let y = rng.between(-1e6, 1e6);
        let any = rng.u64() as u32;
        let n = rng.pick(&[0, 1, 2, 7, u32::MAX, any]);
        let count = job.vertices.len() + 1;
        match rng.below(8) {
            0 => job
                .vertices
                .iter_mut()
                .skip(rng.below(count))
                .take(1)
                .for_each(|v| *v = x),
            1 => job
                .vertices
                .iter_mut()
                .skip(rng.below(count))
                .take(1)
                .for_each(|v| *v = y),
            2 => job
                .triangles
                .iter_mut()
                .skip(rng.below(count))
                .take(1)
                .for_each(|t| *t = n),
            3 => job
                .piece_coords
                .iter_mut()
                .skip(rng.below(count))
                .take(1)
                .for_each(|v| *v = x),
            4 => job
                .piece_coords
                .iter_mut()
                .skip(rng.below(count))
                .take(1)
                .for_each(|v| *v = y),
            5 => job.piece_faces.iter_mut().take(1).for_each(|f| *f = n),
            6 => job.limit = x,
            _ => job.vertices.truncate(rng.below(count)),
        }
    }
}

fn run(job: &Job) -> Result<(), Refusal> {
    let mesh = Mesh::new(job)?;
    let field = mesh.field::<Patched>()?;
    for k in [0, 1, 2, 1_000, u32::MAX] {
        for x in [0., -0., 0.5, 1e7, f64::NAN, f64::INFINITY] {
            let _ = mesh.at(&field, k, [x, 0.5, -x]);
            let _ = mesh.edge_at(&field, k, x);
        }
    }
    Ok(())
}

#[test]
fn scrambled_jobs() {
    let mut rng = Rng::new(2);
    let mut met = [0; 18];
    for seed in 0..40_000 {
        let mut job = small::job(seed);
        if rng.one_in(2) {
            scramble(&mut rng, &mut job);
        }
        let answer = catch_unwind(|| run(&job));
        let answer =
            answer.unwrap_or_else(|_| panic!("a panic on the job of seed {seed}: {job:?}"));
        met[answer.err().map_or(0, |r| r.0 as usize)] += 1;
    }
    for (number, &count) in met.iter().enumerate() {
        assert_eq!(
            count > 0,
            number != 9 && number != 16,
            "refusal {number}: {count}"
        );
    }
}
