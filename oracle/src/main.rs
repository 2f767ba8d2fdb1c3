//! Commands of the oracle; README.md lists them.
use oracle::compare::{self, Readings, Tally};
use oracle::dump::{self, Contents, contents};
use oracle::exact::{Buffers, Refusal, judge_pseudo};
use oracle::form::{Form, moved};
use oracle::generate::insertion::{self, Stage};
use oracle::generate::rooms as lent;
use oracle::generate::small;
use oracle::generate::workshop::{self, Shape};
use oracle::job::{Job, Mesh};
use oracle::reading::{AllButHypot, OnlyHypot, Patched, Published};
use oracle::rooms::{check, compute};
use oracle::slip::{self, Sizes};
use oracle::vectors;
use std::collections::BTreeMap;
use std::io::{Read, Write};
use std::time::Instant;

fn main() {
    let args: Vec<String> = std::env::args().skip(1).collect();
    let args: Vec<&str> = args.iter().map(String::as_str).collect();
    if let Err(text) = run(&args) {
        eprintln!("{text}");
        std::process::exit(2);
    }
}

fn run(args: &[&str]) -> Result<(), String> {
    match args {
        ["slip"] => print(slip::program::<Patched>(&stdin()?, &Sizes::FIELDSLIP).as_bytes()),
        ["slip", "published"] => {
            print(slip::program::<Published>(&stdin()?, &Sizes::FIELDSLIP).as_bytes())
        }
        ["insert", sizes @ ..] => {
            print_answer(sizes, |mesh| Ok(contents(mesh.inserted::<Patched>()?)))
        }
        ["field", "published", sizes @ ..] => {
            print_answer(sizes, |mesh| Ok(contents(mesh.field::<Published>()?)))
        }
        ["field", sizes @ ..] => print_answer(sizes, |mesh| Ok(contents(mesh.field::<Patched>()?))),
        ["make-slip", "insertion", seed] => {
            let job = insertion::job(number(seed)?, Stage::Insert);
            print(&slip::write(&job))
        }
        ["make-slip", "small", seed] => print(&slip::write(&small::job(number(seed)?))),
        ["make-slip", shape, triangles, lines, limit, seed] => print(&slip::write(&workshop_job(
            shape, triangles, lines, limit, seed,
        )?)),
        ["faithful", first, count] => faithful(number(first)?, number(count)?),
        ["faithful-workshop"] => faithful_workshop(),
        ["count", first, count] => count_small(number(first)?, number(count)?, false),
        ["count", first, count, "judged"] => count_small(number(first)?, number(count)?, true),
        ["count-workshop"] => count_workshop(),
        ["count-rooms", first, count] => count_rooms(number(first)?, number(count)?),
        ["count-sixty"] => count_sixty(),
        ["vectors", leaf, seed, count] => {
            print(&vectors::make(leaf, number(seed)?, number(count)? as u32)?)
        }
        ["stream", shape, triangles, lines, limit, seed] => {
            let job = workshop_job(shape, triangles, lines, limit, seed)?;
            print(&vectors::stream(&job).map_err(slip::refused)?)
        }
        ["stored", stage, "small", first, count] => print(&vectors::stored_small(
            parse_stage(stage)?,
            number(first)?,
            number(count)?,
        )),
        ["stored", stage, shape, triangles, lines, limit, seed] => {
            let job = workshop_job(shape, triangles, lines, limit, seed)?;
            print(&vectors::stored_fitted(
                parse_stage(stage)?,
                job,
                number(seed)?,
            ))
        }
        ["stored", "moves"] => print(&vectors::moves()),
        ["stored", "reads"] => print(&vectors::reads()),
        ["move", form] => {
            let form = match *form {
                "plain" => Form::Plain,
                "groups" => Form::Groups,
                _ => return Err("a slip is plain or in groups".into()),
            };
            print(&moved(form, &stdin()?).map_err(slip::refused)?)
        }
        ["refusals", "rooms", first, count] => refusals(number(first)?, number(count)?, |seed| {
            let (job, mut rooms) = lent::job(seed);
            compute(&job, &mut rooms).map(|_| ())
        }),
        ["refusals", stage, first, count] => {
            let stage = parse_stage(stage)?;
            refusals(number(first)?, number(count)?, |seed| {
                Mesh::new(&insertion::job(seed, stage))
                    .and_then(|mesh| stage.run(&mesh).map(|_| ()))
            })
        }
        ["pairs", seed, count] => vectors::hypot_pairs(number(seed)?, number(count)?),
        ["time", shape, triangles, lines, limit] => {
            time(&workshop_job(shape, triangles, lines, limit, "1")?)
        }
        _ => Err("oracle/README.md lists the commands".into()),
    }
}

fn number(text: &str) -> Result<u64, String> {
    text.parse().map_err(|_| format!("not a number: {text}"))
}

fn parse_stage(text: &str) -> Result<Stage, String> {
    match text {
        "insert" => Ok(Stage::Insert),
        "field" => Ok(Stage::Field),
        _ => Err("a job is run to insert or to field".into()),
    }
}

fn stdin() -> Result<Vec<u8>, String> {
    let mut bytes = vec![];
    std::io::stdin()
        .read_to_end(&mut bytes)
        .map_err(|e| e.to_string())?;
    Ok(bytes)
}

fn print(bytes: &[u8]) -> Result<(), String> {
    std::io::stdout()
        .write_all(bytes)
        .map_err(|e| e.to_string())
}

fn workshop_job(
    shape: &str,
    triangles: &str,
    lines: &str,
    limit: &str,
    seed: &str,
) -> Result<Job, String> {
    let shape = Shape::parse(shape).ok_or("no such shape")?;
    let limit: f64 = limit.parse().map_err(|_| "the limit is not a number")?;
    let (triangles, lines) = (number(triangles)? as usize, number(lines)? as usize);
    Ok(workshop::job(shape, triangles, lines, limit, number(seed)?))
}

/// Windows, events, cuts, face entries and steps; without them, no bounds.
fn bounded(counts: &[&str]) -> Result<Sizes, String> {
    let counts: Result<Vec<u64>, String> = counts.iter().map(|n| number(n)).collect();
    match counts?[..] {
        [] => Ok(Sizes::UNBOUNDED),
        [windows, events, cuts, face_entries, max_steps] => Ok(Sizes {
            buffers: Buffers {
                windows: windows as u32,
                events: events as u32,
                cuts: cuts as u32,
                face_entries: face_entries as u32,
            },
            max_steps: max_steps as u32,
            ..Sizes::UNBOUNDED
        }),
        _ => Err("there are none or five counts".into()),
    }
}

/// What a field holds for the slip that is read, or its refusal.
fn print_answer(
    counts: &[&str],
    answer: impl Fn(&Mesh) -> Result<Contents, Refusal>,
) -> Result<(), String> {
    let text = slip::read(&stdin()?, &bounded(counts)?).and_then(|job| {
        let mesh = Mesh::new(&job)?;
        Ok(dump::text(&mesh, &answer(&mesh)?))
    });
    print(text.unwrap_or_else(slip::refused).as_bytes())
}

/// By which numbers the jobs of so many seeds are refused.
fn refusals(
    first: u64,
    count: u64,
    answer: impl Fn(u64) -> Result<(), Refusal>,
) -> Result<(), String> {
    let mut tally = BTreeMap::new();
    for seed in first..first + count {
        *tally
            .entry(answer(seed).err().map_or(0, |r| r.0))
            .or_insert(0u64) += 1;
    }
    for (number, jobs) in tally {
        println!("refusal {number}: {jobs} jobs");
    }
    Ok(())
}

fn faithful(first: u64, count: u64) -> Result<(), String> {
    let (mut tally, mut otherwise) = (Tally::default(), 0);
    for seed in first..first + count {
        match compare::faithful(&small::job(seed), seed) {
            Err(r) => tally.refuse(r),
            Ok(Ok(c)) => tally.compare(&c),
            Ok(Err(text)) => {
                otherwise += 1;
                println!("seed {seed}: {text}");
            }
        }
    }
    println!("{}\ndifferent before any field {otherwise}", tally.text());
    Ok(())
}

fn faithful_workshop() -> Result<(), String> {
    let mut tally = Tally::default();
    for (n, (shape, triangles, lines, limit)) in workshop::mix().into_iter().enumerate() {
        if triangles > 10_000 {
            continue;
        }
        let job = workshop::job(shape, triangles, lines, limit, n as u64);
        match compare::faithful(&job, n as u64) {
            Err(r) => tally.refuse(r),
            Ok(Ok(c)) => tally.compare(&c),
            Ok(Err(text)) => println!("{shape:?} {triangles} {lines}: {text}"),
        }
    }
    println!("{}", tally.text());
    Ok(())
}

/// Small jobs; `judged` puts the Rust's own flags in place of theirs.
fn count_small(first: u64, count: u64, judged: bool) -> Result<(), String> {
    let mut tallies = [Tally::default(), Tally::default(), Tally::default()];
    for seed in first..first + count {
        let mut job = small::job(seed);
        if judged && job.check().is_ok() {
            let pseudo = judge_pseudo(&job.vec3s(), &job.tris());
            job.flags = pseudo.into_iter().map(u8::from).collect();
        }
        tallies[0].add(&compare::readings::<Published, Patched>(&job, seed));
        tallies[1].add(&compare::readings::<Published, OnlyHypot>(&job, seed));
        tallies[2].add(&compare::readings::<Published, AllButHypot>(&job, seed));
    }
    report(&tallies);
    Ok(())
}

/// The small jobs of tests/field/compare.sh.
fn count_rooms(first: u64, count: u64) -> Result<(), String> {
    let mut tally = Tally::default();
    for seed in first..first + count {
        let (job, lent) = lent::job(seed);
        match check(&job, &lent) {
            Err(r) => tally.refuse(r),
            Ok(buffers) => {
                let job = Job { buffers, ..job };
                tally.add(&compare::readings::<Published, Patched>(&job, seed));
            }
        }
    }
    println!("{}", tally.text());
    Ok(())
}

/// The workshop jobs of tests/field/compare.sh.
fn count_sixty() -> Result<(), String> {
    let mut tally = Tally::default();
    for (n, (_, job)) in (0..).zip(workshop::sixty()) {
        tally.add(&compare::readings::<Published, Patched>(&job, n));
    }
    println!("{}", tally.text());
    Ok(())
}

fn report(tallies: &[Tally; 3]) {
    let names = [
        "published against patched",
        "hypot alone patched",
        "all but hypot patched",
    ];
    for (name, tally) in names.iter().zip(tallies) {
        println!("== {name}\n{}", tally.text());
    }
}

fn count_workshop() -> Result<(), String> {
    let mut tallies = [Tally::default(), Tally::default(), Tally::default()];
    for (n, (shape, triangles, lines, limit)) in workshop::mix().into_iter().enumerate() {
        let n = n as u64;
        let job = workshop::job(shape, triangles, lines, limit, n);
        let pair = compare::readings::<Published, Patched>(&job, n);
        if let Readings::Fields(c) = &pair {
            println!(
                "{shape:?} triangles {} pieces {} windows {} steps {}: unequal windows {} live {} steps {} vertices {} queries {} lines {} largest {:e} within the limit {:e}",
                job.triangles.len() / 3,
                job.piece_kinds.len(),
                c.of.windows,
                c.of.steps,
                c.unequal.windows,
                c.unequal.live,
                c.unequal.steps,
                c.unequal.vertices,
                c.unequal.at + c.unequal.edge_at,
                c.printed,
                c.largest,
                c.within
            );
        } else {
            println!("{shape:?} {triangles} {lines}: {pair:?}");
        }
        tallies[0].add(&pair);
        if triangles <= 10_000 {
            tallies[1].add(&compare::readings::<Published, OnlyHypot>(&job, n));
            tallies[2].add(&compare::readings::<Published, AllButHypot>(&job, n));
        }
    }
    report(&tallies);
    Ok(())
}

fn time(job: &Job) -> Result<(), String> {
    let refused = |r: Refusal| format!("refused {}", r.0);
    let mesh = Mesh::new(job).map_err(refused)?;
    let start = Instant::now();
    let field = mesh.field::<Published>().map_err(refused)?;
    println!(
        "published {:?} windows {}",
        start.elapsed(),
        field.wins.len()
    );
    drop(field);
    let start = Instant::now();
    let field = mesh.field::<Patched>().map_err(refused)?;
    println!(
        "patched {:?} triangles {} pieces {} windows {} entries {} steps {} {:?}",
        start.elapsed(),
        mesh.t.len(),
        mesh.pieces.len(),
        field.wins.len(),
        field.entries.len(),
        field.steps,
        field.peaks
    );
    Ok(())
}
