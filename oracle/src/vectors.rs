//! Stored answers of the patched reading, little-endian, for programs that
//! replay them. README.md has the layout of each record.
mod candidates;
mod events;
mod jobs;
mod leaves;
mod moves;
mod pairs;
mod stored;
mod topology;
mod values;

pub use moves::{moves, random as random_form, reads};
pub use pairs::hypot_pairs;

use crate::dump::{bits, src_parts};
use crate::exact::{Refusal, Src, Win};
use crate::generate::insertion::{self, Stage};
use crate::generate::rng::Rng;
use crate::generate::rooms;
use crate::job::Job;
use crate::rooms::{Rooms, Slots};

/// Bytes being written.
#[derive(Default)]
pub struct Out(pub Vec<u8>);

impl Out {
    pub fn u8(&mut self, x: u8) {
        self.0.push(x);
    }
    pub fn u32(&mut self, x: u32) {
        self.0.extend(x.to_le_bytes());
    }
    pub fn count(&mut self, n: usize) {
        self.u32(n as u32);
    }
    pub fn f64(&mut self, x: f64) {
        self.0.extend(bits(x).to_le_bytes());
    }
    pub fn f64s(&mut self, list: &[f64]) {
        list.iter().for_each(|&x| self.f64(x));
    }
    pub fn src(&mut self, src: &Src) {
        let (kind, numbers) = src_parts(src);
        self.u8(kind);
        self.f64s(&numbers);
    }
    pub fn win(&mut self, w: &Win) {
        self.u32(w.edge);
        self.u32(w.into);
        self.u8(w.alive.into());
        self.u8(w.queued.into());
        self.f64s(&[w.b0, w.b1, w.low]);
        self.src(&w.src);
    }
}

/// One list: the candidates and pops of a job's field.
pub fn stream(job: &Job) -> Result<Vec<u8>, Refusal> {
    let mut out = Out::default();
    out.u32(1);
    candidates::stream(job, &mut out)?;
    Ok(out.0)
}

/// The small jobs of so many seeds, as stored records.
pub fn stored_small(stage: Stage, first: u64, count: u64) -> Vec<u8> {
    let mut out = Out::default();
    for seed in first..first + count {
        match stage {
            Stage::Insert => stored::inserted(&insertion::job(seed, stage), &mut out),
            Stage::Field => {
                let (job, mut lent) = rooms::job(seed);
                stored::whole(&job, &mut lent, &mut out);
            }
        }
    }
    out.0
}

/// A job with buffers that are fitted to it, as a stored record.
pub fn stored_fitted(stage: Stage, mut job: Job, seed: u64) -> Vec<u8> {
    let mut out = Out::default();
    // A job that is refused whatever is lent is stored all the same.
    let _ = insertion::fit(&mut Rng::new(seed), &mut job, stage);
    match stage {
        Stage::Insert => stored::inserted(&job, &mut out),
        Stage::Field => {
            let mut lent = Rooms::new(&Slots::least(&job, job.buffers));
            stored::whole(&job, &mut lent, &mut out);
        }
    }
    out.0
}

/// A count, then as many records.
pub fn make(leaf: &str, seed: u64, count: u32) -> Result<Vec<u8>, String> {
    let mut out = Out::default();
    let mut rng = Rng::new(seed);
    out.u32(count);
    for k in 0..count {
        match leaf {
            "sqrt" => pairs::sqrt_record(&mut rng, &mut out),
            "hypot" => pairs::hypot_record(&mut rng, &mut out),
            "roots" => leaves::roots(&mut rng, &mut out),
            "ties" => leaves::ties(&mut rng, &mut out),
            "edge" => leaves::edge(&mut rng, &mut out),
            "free" => leaves::free(&mut rng, &mut out),
            "foot" => leaves::foot(&mut rng, &mut out),
            "lowest" => leaves::lowest(&mut rng, &mut out),
            "eval" => leaves::eval(&mut rng, &mut out),
            "better" => leaves::better(&mut rng, &mut out),
            "ranges" => leaves::ranges(&mut rng, &mut out),
            "add" => candidates::list(&mut rng, &mut out, 40, true),
            "add-long" => candidates::list(&mut rng, &mut out, 3_000, false),
            "add-scope" => candidates::example(k as usize, &mut out),
            "events" => events::run(&mut rng, &mut out),
            "topology" => topology::small(seed + u64::from(k), &mut out),
            "topology-large" => topology::large(seed + u64::from(k), &mut out),
            "topology-huge" => topology::huge(seed + u64::from(k), &mut out),
            "propagate" => values::propagate(&mut rng, &mut out),
            "point" => values::point(&mut rng, &mut out),
            "segment" => values::segment(&mut rng, &mut out),
            "emit" => values::emit(&mut rng, &mut out),
            "entry" => values::entry(&mut rng, &mut out),
            "jobs" => jobs::job(&mut rng, &mut out),
            "slips" => jobs::slip(&mut rng, &mut out),
            "damaged-slips" => jobs::damaged_slip(&mut rng, &mut out),
            _ => return Err(format!("no such leaf: {leaf}")),
        }
    }
    Ok(out.0)
}
