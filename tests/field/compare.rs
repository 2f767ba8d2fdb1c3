//! Runs whole jobs by the static library and by the Rust as document 01 reads it (oracle/), and compares the answers, every slice that is lent and single questions to the fields, bit for bit.
//! The last line to standard error says up to which seed there is an answer, so that a run that was stopped goes on from there. A job that differs is kept as a slip in target/tests.
//! Usage: compare all FIRST COUNT [WORKSHOP] | compare small FIRST COUNT | compare workshop FIRST COUNT | compare SHAPE TRIANGLES LINES LIMIT
mod library;
mod questions;

use oracle::dump::{bits, contents};
use oracle::generate::rng::Rng;
use oracle::generate::rooms;
use oracle::generate::workshop::{self, Shape};
use oracle::job::{Job, Mesh};
use oracle::reading::Patched;
use oracle::rooms::{Rooms, Slots, Told, check, hold};
use oracle::slip;
use questions::Questions;
use std::collections::BTreeMap;
use std::time::Instant;

/// How many differences are printed, and how many jobs kept.
const PRINTED: u64 = 20;

/// After how many small jobs a line says how far the run is.
const TOLD: u64 = 50_000;

fn unequal<T: Copy>(
    name: &str,
    ours: &[T],
    theirs: &[T],
    key: impl Fn(T) -> u64,
) -> Option<String> {
    let at = (0..ours.len()).find(|&k| key(ours[k]) != key(theirs[k]))?;
    Some(format!(
        "{name}[{at}] is {:x} and not {:x}",
        key(ours[at]),
        key(theirs[at])
    ))
}

/// The first difference of two answers to a job and of what they left in their rooms. After a refusal of 1 to 9 a NaN is as it was lent, to the bit.
fn difference(
    ours: (Result<Told, u32>, &Rooms),
    theirs: (Result<Told, u32>, &Rooms),
) -> Option<String> {
    if ours.0 != theirs.0 {
        return Some(format!("the answer is {:?} and not {:?}", ours.0, theirs.0));
    }
    let untouched = theirs.0.is_err_and(|number| number < 10);
    let real = |x: f64| if untouched { x.to_bits() } else { bits(x) };
    let words = (ours.1.all_words().into_iter().zip(theirs.1.all_words()))
        .find_map(|((name, a), (_, b))| unequal(name, a, b, u64::from));
    words.or_else(|| {
        (ours.1.all_reals().into_iter().zip(theirs.1.all_reals()))
            .find_map(|((name, a), (_, b))| unequal(name, a, b, real))
    })
}

#[derive(Default)]
struct Tally {
    /// By refusal; 0 for a field.
    jobs: BTreeMap<u32, u64>,
    differences: u64,
    windows: u64,
    steps: u64,
    questions: u64,
}

/// A job as a slip, where its slices agree: what it is lent, a slip does not have.
fn keep(name: &str, job: &Job) {
    let agree = job.vertices.len() == 3 * job.flags.len()
        && job.triangles.len().is_multiple_of(3)
        && job.piece_faces.len() == job.piece_kinds.len()
        && job.piece_coords.len() == 6 * job.piece_kinds.len();
    let path = format!("target/tests/{}.slip", name.replace([' ', ','], "-"));
    if agree && std::fs::write(&path, slip::write(job)).is_ok() {
        println!("{name}: kept as {path}");
    }
}

impl Tally {
    fn add(
        &mut self,
        name: &str,
        job: &Job,
        answer: Result<Told, u32>,
        difference: Option<String>,
    ) {
        *self.jobs.entry(answer.err().unwrap_or(0)).or_default() += 1;
        if let Ok(told) = answer {
            self.windows += u64::from(told[4]);
            self.steps += u64::from(told[5]);
        }
        if let Some(text) = difference {
            self.differences += 1;
            if self.differences <= PRINTED {
                println!("{name}: {text}");
                keep(name, job);
            }
        }
    }

    fn print(&self, name: &str) {
        for (number, jobs) in &self.jobs {
            match number {
                0 => println!("{name}, fields: {jobs} jobs"),
                _ => println!("{name}, refused by {number}: {jobs} jobs"),
            }
        }
        println!(
            "{name}, all: {} jobs, {} windows, {} steps, {} questions, {} differences",
            self.jobs.values().sum::<u64>(),
            self.windows,
            self.steps,
            self.questions,
            self.differences
        );
    }
}

/// The Rust's answer to a job in rooms, as document 01 has it, and questions to its field.
fn oracle_answer(seed: u64, job: &Job, rooms: &mut Rooms) -> Result<(Told, Questions), u32> {
    let buffers = check(job, rooms).map_err(|refusal| refusal.0)?;
    rooms.fill(|| 0, || 0.);
    let lent = Job {
        buffers,
        ..job.clone()
    };
    let mesh = Mesh::new(&lent).map_err(|refusal| refusal.0)?;
    let field = mesh.field::<Patched>().map_err(|refusal| refusal.0)?;
    let questions = Questions::new(seed, &mesh, &field);
    Ok((hold(&mesh, &contents(field), rooms), questions))
}

fn small(first: u64, count: u64) -> Tally {
    let (mut tally, start) = (Tally::default(), Instant::now());
    for seed in first..first + count {
        let (job, mut theirs) = rooms::job(seed);
        let mut ours = theirs.clone();
        let answer = oracle_answer(seed, &job, &mut theirs);
        let found = library::compute(&job, &mut ours);
        let counts = answer
            .as_ref()
            .map(|(told, _)| *told)
            .map_err(|number| *number);
        let mut unlike = difference((found, &ours), (counts, &theirs));
        if let (Ok((told, questions)), None) = (&answer, &unlike) {
            tally.questions += questions.count();
            unlike = questions.difference(&job, &ours, told);
        }
        tally.add(&format!("seed {seed}"), &job, counts, unlike);
        let done = seed + 1 - first;
        if done.is_multiple_of(TOLD) {
            let rate = done as f64 / start.elapsed().as_secs_f64();
            eprintln!(
                "small jobs up to seed {seed}: {} differences, {rate:.0} a second",
                tally.differences
            );
        }
    }
    tally
}

/// A job in rooms that just suffice, with something in each.
fn large(name: &str, seed: u64, job: Job, tally: &mut Tally) {
    let mesh = Mesh::new(&job).expect("a sound job");
    let field = mesh.field::<Patched>().expect("no bounds");
    let slots = Slots::just(&job, &field);
    let job = Job {
        max_steps: field.steps as u32,
        ..job
    };
    let questions = Questions::new(seed, &mesh, &field);
    let held = contents(field);
    let mut ours = Rooms::new(&slots);
    let mut theirs = ours.clone();
    ours.fill(|| 7, || 7.);
    let told = hold(&mesh, &held, &mut theirs);
    let found = library::compute(&job, &mut ours);
    let unlike = difference((found, &ours), (Ok(told), &theirs));
    let difference = unlike.or_else(|| questions.difference(&job, &ours, &told));
    tally.questions += questions.count();
    println!(
        "{name}: {} pieces, {} windows, {} steps, {}",
        job.piece_kinds.len(),
        held.wins.len(),
        held.steps,
        difference.as_deref().unwrap_or("0 differences")
    );
    tally.add(name, &job, Ok(told), difference);
}

fn sixty() -> Tally {
    let mut tally = Tally::default();
    for (seed, (name, job)) in workshop::sixty().enumerate() {
        large(&name, seed as u64, job, &mut tally);
    }
    tally
}

/// Workshop jobs of these seeds: any shape, 2,000 to 60,000 triangles, 1 to 300 lines.
fn workshop_jobs(first: u64, count: u64) -> Tally {
    let mut tally = Tally::default();
    for seed in first..first + count {
        let rng = &mut Rng::new(seed);
        let shape = rng.pick(&Shape::ALL);
        let triangles = (2_000. * rng.between(0., 30f64.ln()).exp()) as usize;
        let lines = rng.between(0., 301f64.ln()).exp() as usize;
        let limit = if shape == Shape::Ruled || rng.one_in(4) {
            60.
        } else {
            1e7
        };
        let name = format!("seed {seed}, {shape:?} {triangles}, {lines} lines");
        large(
            &name,
            seed,
            workshop::job(shape, triangles, lines, limit, seed),
            &mut tally,
        );
        eprintln!(
            "workshop jobs up to seed {seed}: {} differences",
            tally.differences
        );
    }
    tally
}

/// Prints a run; whether there was a difference.
fn differs(name: &str, tally: Tally) -> bool {
    tally.print(name);
    tally.differences > 0
}

fn main() {
    let words: Vec<String> = std::env::args().skip(1).collect();
    let words: Vec<&str> = words.iter().map(String::as_str).collect();
    let number = |text: &str| text.parse::<u64>().expect("a number");
    let wrong = match words[..] {
        ["all", first, count] => {
            let wrong = differs("small", small(number(first), number(count)));
            differs("workshop", sixty()) || wrong
        }
        ["all", first, count, jobs] => {
            let wrong = differs("small", small(number(first), number(count)));
            differs("workshop", workshop_jobs(number(first), number(jobs))) || wrong
        }
        ["workshop", first, count] => {
            differs("workshop", workshop_jobs(number(first), number(count)))
        }
        ["small", first, count] => differs("small", small(number(first), number(count))),
        [shape, triangles, lines, limit] => {
            let shape = Shape::parse(shape).expect("a shape");
            let (n, lines) = (number(triangles) as usize, number(lines) as usize);
            let limit = limit.parse().expect("a number");
            let mut tally = Tally::default();
            let job = workshop::job(shape, n, lines, limit, lines as u64);
            large("the job", lines as u64, job, &mut tally);
            differs("workshop", tally)
        }
        _ => panic!(
            "usage: compare all FIRST COUNT [WORKSHOP] | compare small|workshop FIRST COUNT | compare SHAPE TRIANGLES LINES LIMIT"
        ),
    };
    std::process::exit(i32::from(wrong));
}
