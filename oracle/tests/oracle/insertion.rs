//! The jobs for insertion: that buffers that just suffice do, and one slot
//! less does not; what the jobs meet; the published file on them.
use oracle::compare::{Tally, faithful};
use oracle::dump::{contents, win_bits};
use oracle::exact::{Buffers, NONE, Piece, Refusal};
use oracle::generate::insertion::{Stage, job};
use oracle::job::{Job, Mesh};
use oracle::reading::Patched;
use oracle::vector::{norm, sub};
use std::collections::{BTreeMap, BTreeSet};

fn answer(job: &Job, stage: Stage) -> Result<String, Refusal> {
    let mesh = Mesh::new(job)?;
    let held = contents(stage.run(&mesh)?);
    let wins: Vec<_> = held.wins.iter().map(win_bits).collect();
    Ok(format!(
        "{wins:?} {:?} {:?} {:?} {:?} {:?} {}",
        held.on_edge, held.vertex, held.emitted, held.events, held.entries, held.steps
    ))
}

#[test]
fn just_enough_and_one_less() {
    let mut jobs = 0;
    for (stage, seed) in (0..2_000).flat_map(|n| [(Stage::Insert, n), (Stage::Field, n)]) {
        let mut job = job(seed, stage);
        job.buffers = Buffers::UNBOUNDED;
        job.max_steps = 30_000;
        let Ok(whole) = answer(&job, stage) else {
            continue;
        };
        let mesh = Mesh::new(&job).expect("a good job");
        let field = stage.run(&mesh).expect("no bounds");
        let just = Buffers {
            windows: field.wins.len() as u32,
            events: field.peaks.queue as u32,
            cuts: field.peaks.cuts as u32,
            face_entries: field.entries.len() as u32,
        };
        (job.buffers, job.max_steps) = (just, field.steps as u32);
        assert_eq!(answer(&job, stage), Ok(whole), "seed {seed}");
        let less = |n: u32| n.checked_sub(1);
        let mut short = vec![];
        short.extend(less(just.windows).map(|windows| (12, Buffers { windows, ..just })));
        short.extend(less(just.events).map(|events| (13, Buffers { events, ..just })));
        short.extend(less(just.cuts).map(|cuts| (14, Buffers { cuts, ..just })));
        short.extend(less(just.face_entries).map(|face_entries| {
            let lent = Buffers {
                face_entries,
                ..just
            };
            (17, lent)
        }));
        for (number, buffers) in short {
            job.buffers = buffers;
            assert_eq!(answer(&job, stage), Err(Refusal(number)), "seed {seed}");
        }
        job.buffers = just;
        if let Some(max_steps) = less(job.max_steps) {
            job.max_steps = max_steps;
            assert_eq!(answer(&job, stage), Err(Refusal(15)), "seed {seed}");
        }
        jobs += 1;
    }
    assert!(jobs > 3_000, "{jobs}");
}

#[test]
fn every_refusal_is_met() {
    for (stage, known) in [
        (Stage::Insert, vec![0, 10, 11, 12, 13, 14, 17]),
        (Stage::Field, vec![0, 10, 11, 12, 13, 14, 15, 17]),
    ] {
        let mut met = BTreeMap::new();
        for seed in 0..10_000 {
            let refusal = answer(&job(seed, stage), stage).err().map_or(0, |r| r.0);
            *met.entry(refusal).or_insert(0) += 1;
        }
        assert_eq!(met.keys().copied().collect::<Vec<u32>>(), known);
        assert!(met.values().all(|&n| n >= 50), "{met:?}");
    }
}

/// What the jobs are for; how many of those that are inserted meet it.
fn met(job: &Job, met: &mut BTreeMap<&str, u64>) {
    let Ok(mesh) = Mesh::new(job) else { return };
    let Ok(field) = mesh.inserted::<Patched>() else {
        return;
    };
    let mut note = |name, holds: bool| *met.entry(name).or_insert(0) += u64::from(holds);
    note("jobs", true);
    note("a window is dead", field.wins.iter().any(|w| !w.alive));
    note("a window goes nowhere", {
        field.wins.iter().any(|w| w.into == NONE && !w.queued)
    });
    note("an edge has three windows", {
        field.on_edge.iter().any(|list| list.len() > 2)
    });
    note("a list of intervals has four", field.peaks.cuts > 3);
    note("a window is narrower than its edge from the start", {
        field
            .wins
            .iter()
            .any(|w| w.b0 > 0. && w.b1 < mesh.topo.len[w.edge as usize])
    });
    note("an event is a vertex's", field.queue.iter().any(|e| e.2));
    let keys: BTreeSet<u64> = field.queue.iter().map(|e| e.0.to_bits()).collect();
    note("two events have one key", keys.len() < field.queue.len());
    let mut ends = vec![];
    for piece in &mesh.pieces {
        match *piece {
            Piece::Point(f, p) => ends.push((f, p)),
            Piece::Segment(f, a, b) => ends.extend([(f, a), (f, b)]),
        }
    }
    let bits = |p: [f64; 3]| p.map(f64::to_bits);
    let pairs = || {
        ends.iter()
            .enumerate()
            .flat_map(|(i, x)| ends[i + 1..].iter().map(move |y| (x, y)))
    };
    note("an end is met again", {
        pairs().any(|(x, y)| bits(x.1) == bits(y.1))
    });
    note("an end is met again in another face", {
        pairs().any(|(x, y)| x.0 != y.0 && bits(x.1) == bits(y.1))
    });
    note("two ends differ in the sign of zero", {
        pairs().any(|(x, y)| x.1 == y.1 && bits(x.1) != bits(y.1))
    });
    let carriers: Vec<Vec<u32>> = ends.iter().map(|&(f, p)| field.carrier(f, p)).collect();
    note("a point has one carrier", {
        carriers.iter().any(|list| list.len() == 1)
    });
    note(
        "a point has two",
        carriers.iter().any(|list| list.len() == 2),
    );
    note(
        "a point has three",
        carriers.iter().any(|list| list.len() > 2),
    );
    let common = |list: &[u32]| match *list {
        [g, h] => {
            let sides = mesh.topo.tri_edges[g as usize];
            let shared = |e: &&u32| mesh.topo.faces[**e as usize].contains(&h);
            Some(sides.iter().filter(shared).count())
        }
        _ => None,
    };
    for (name, edges) in [
        ("two carriers share a vertex only", 0),
        ("two carriers share one edge", 1),
        ("two carriers share three edges", 3),
    ] {
        note(name, carriers.iter().any(|c| common(c) == Some(edges)));
    }
    note("a point is behind a segment", !field.behind.is_empty());
    note("a point is behind two in a face", {
        field.behind.values().any(|list| list.len() > 1)
    });
    note("bits differ and the computed length is zero", {
        mesh.pieces.iter().any(|piece| match *piece {
            Piece::Segment(_, a, b) => bits(a) != bits(b) && norm(sub(b, a)) == 0.,
            Piece::Point(..) => false,
        })
    });
}

#[test]
fn what_the_jobs_meet() {
    let mut all = BTreeMap::new();
    for seed in 0..10_000 {
        met(&job(seed, Stage::Insert), &mut all);
    }
    assert!(all.values().all(|&n| n >= 50), "{all:#?}");
}

#[test]
fn as_published() {
    let mut tally = Tally::default();
    for seed in 0..6_000 {
        let mut job = job(seed, Stage::Field);
        job.buffers = Buffers::UNBOUNDED;
        job.max_steps = 30_000;
        match faithful(&job, seed) {
            Err(r) => tally.refuse(r),
            Ok(c) => tally.compare(&c.unwrap_or_else(|text| panic!("seed {seed}: {text}"))),
        }
    }
    assert!(tally.fields > 4_000, "{}", tally.text());
    assert_eq!(tally.unequal_fields, 0, "{}", tally.text());
}
