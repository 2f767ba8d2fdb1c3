//! Unequal answers: the copy against the published file, and one reading
//! against another.
use crate::dump::{View, bits, piece_bits, view, win_bits};
use crate::exact::{Field, Refusal, judge_pseudo};
use crate::generate::rng::Rng;
use crate::job::{Job, Mesh};
use crate::reading::{Published, Reading};
use crate::slip::{print_out, thousandths};
use crate::upstream::{Questions, solve};
use crate::vector::{axpy, sub};
use std::ops::AddAssign;

/// Places to ask about: on edges at their ends and between, in faces at
/// vertices, on edges, inside and outside.
pub fn questions(mesh: &Mesh, rng: &mut Rng, most: usize) -> Questions {
    let mut q = Questions::default();
    for e in 0..mesh.topo.edges.len().min(most) {
        let e = if mesh.topo.edges.len() > most {
            rng.below(mesh.topo.edges.len())
        } else {
            e
        };
        let l = mesh.topo.len[e];
        q.edge_at
            .extend([0., l, l / 2., rng.unit() * l].map(|x| (e as u32, x)));
    }
    for f in 0..mesh.t.len().min(most) {
        let f = if mesh.t.len() > most {
            rng.below(mesh.t.len())
        } else {
            f
        };
        let [a, b, c] = mesh.t[f].map(|k| mesh.v[k as usize]);
        let on = axpy(a, rng.unit(), sub(b, a));
        let inside = axpy(on, rng.unit(), sub(c, on));
        let outside = axpy(on, rng.between(-1., 2.), sub(c, on));
        q.at.extend([a, on, inside, outside].map(|p| (f as u32, p)));
    }
    q
}

/// Counts of answers, or of unequal ones among them.
#[derive(Clone, Copy, Debug, Default, PartialEq, Eq)]
pub struct Counts {
    /// Windows by number, dead ones too.
    pub windows: u64,
    /// Live windows by edge and place in its list, whatever their numbers.
    pub live: u64,
    pub chains: u64,
    pub vertices: u64,
    pub emitted: u64,
    pub entries: u64,
    pub steps: u64,
    pub at: u64,
    pub edge_at: u64,
}

impl Counts {
    pub fn any(&self) -> bool {
        *self != Counts::default()
    }
}

impl AddAssign for Counts {
    fn add_assign(&mut self, o: Counts) {
        self.windows += o.windows;
        self.live += o.live;
        self.chains += o.chains;
        self.vertices += o.vertices;
        self.emitted += o.emitted;
        self.entries += o.entries;
        self.steps += o.steps;
        self.at += o.at;
        self.edge_at += o.edge_at;
    }
}

fn unequal<T, K: PartialEq>(x: &[T], y: &[T], key: impl Fn(&T) -> K) -> u64 {
    let differ = x.iter().zip(y).filter(|(a, b)| key(a) != key(b)).count();
    (differ + x.len().abs_diff(y.len())) as u64
}

fn unequal_live(x: &View, y: &View, e: usize) -> u64 {
    let of = |v: &View, i: u32| win_bits(&v.wins[i as usize]);
    let (a, b) = (&x.on_edge[e], &y.on_edge[e]);
    let pairs = a.iter().zip(b);
    let differ = pairs.filter(|&(&i, &j)| of(x, i) != of(y, j)).count();
    (differ + a.len().abs_diff(b.len())) as u64
}

/// Unequal windows by number, chains by edge, distances by vertex; steps
/// counts 1 where the step counts differ.
fn unequal_views(x: &View, y: &View) -> Counts {
    let entry_bits = |p: &(u32, &[crate::exact::Piece])| -> Vec<Vec<u64>> {
        p.1.iter().map(piece_bits).collect()
    };
    Counts {
        windows: unequal(x.wins, y.wins, win_bits),
        live: (0..x.on_edge.len()).map(|e| unequal_live(x, y, e)).sum(),
        chains: unequal(x.on_edge, y.on_edge, Vec::clone),
        vertices: unequal(x.vertex, y.vertex, |d| bits(*d)),
        emitted: unequal(x.emitted, y.emitted, |d| bits(*d)),
        entries: unequal(&x.in_face, &y.in_face, |p| (p.0, entry_bits(p))),
        steps: (x.steps != y.steps).into(),
        at: 0,
        edge_at: 0,
    }
}

struct Asked {
    at: Vec<f64>,
    edge_at: Vec<f64>,
}

fn ask<R: Reading>(field: &Field<R>, q: &Questions) -> Asked {
    Asked {
        at: q.at.iter().map(|&(f, p)| field.at(f, p)).collect(),
        edge_at: q
            .edge_at
            .iter()
            .map(|&(e, x)| field.edge_at(e, x))
            .collect(),
    }
}

fn size<R: Reading>(field: &Field<R>, q: &Questions) -> Counts {
    Counts {
        windows: field.wins.len() as u64,
        live: field.on_edge.iter().map(|list| list.len() as u64).sum(),
        chains: field.on_edge.len() as u64,
        vertices: field.vertex.len() as u64,
        emitted: field.emitted.len() as u64,
        entries: field.in_face.values().map(|list| list.len() as u64).sum(),
        steps: field.steps,
        at: q.at.len() as u64,
        edge_at: q.edge_at.len() as u64,
    }
}

/// The two sides of a comparison of fields.
#[derive(Clone, Copy, Debug, Default)]
pub struct Compared {
    pub unequal: Counts,
    pub of: Counts,
    /// Whether the numbers of windows made, and the print-outs, differ.
    pub made: bool,
    pub print_out: bool,
    /// Vertices whose lines in the print-outs differ.
    pub printed: u64,
    /// The largest difference of a vertex distance or a query, and that of
    /// two that are both within the limit.
    pub largest: f64,
    pub within: f64,
    pub nan_keys: usize,
}

/// The copy in the published reading against the published file. The outer
/// error is the copy's refusal, the inner one a difference before any field.
pub fn faithful(job: &Job, seed: u64) -> Result<Result<Compared, String>, Refusal> {
    let mesh = Mesh::new(job)?;
    let field = mesh.field::<Published>()?;
    let q = questions(&mesh, &mut Rng::new(seed), 200);
    let solved = solve(
        &mesh.v,
        &mesh.t,
        &mesh.topo.pseudo,
        &mesh.pieces,
        job.limit,
        &q,
    );
    let answers = match solved {
        Ok(answers) => answers,
        Err(text) => return Ok(Err(text)),
    };
    if answers.judged != judge_pseudo(&mesh.v, &mesh.t) {
        return Ok(Err("the judged flags differ".into()));
    }
    if format!("{:?}", answers.topology) != format!("{:?}", mesh.topo) {
        return Ok(Err("the topologies differ".into()));
    }
    let asked = ask(&field, &q);
    let mut unequal_counts = unequal_views(&view(&field), &answers.state.view());
    unequal_counts.at = unequal(&asked.at, &answers.at, |d| bits(*d));
    unequal_counts.edge_at = unequal(&asked.edge_at, &answers.edge_at, |d| bits(*d));
    Ok(Ok(Compared {
        unequal: unequal_counts,
        of: size(&field, &q),
        made: field.wins.len() != answers.state.wins.len(),
        nan_keys: field.peaks.nan_keys,
        ..Compared::default()
    }))
}

/// The answers of two readings to one job.
#[derive(Debug)]
pub enum Readings {
    Refused(Refusal),
    /// A refusal on one side only, or two different ones.
    Split(Option<Refusal>, Option<Refusal>),
    Fields(Box<Compared>),
}

/// The largest difference of two distances at most `limit`.
fn largest(x: [&[f64]; 3], y: [&[f64]; 3], limit: f64) -> f64 {
    let pairs = x.into_iter().flatten().zip(y.into_iter().flatten());
    let within = pairs.filter(|(x, y)| **x <= limit && **y <= limit);
    let gap = |(x, y): (&f64, &f64)| if x == y { 0. } else { (x - y).abs() };
    within.map(gap).fold(0., f64::max)
}

pub fn readings<A: Reading, B: Reading>(job: &Job, seed: u64) -> Readings {
    let mesh = match Mesh::new(job) {
        Ok(mesh) => mesh,
        Err(r) => return Readings::Refused(r),
    };
    let (a, b) = match (mesh.field::<A>(), mesh.field::<B>()) {
        (Err(a), Err(b)) if a == b => return Readings::Refused(a),
        (Ok(a), Ok(b)) => (a, b),
        (a, b) => return Readings::Split(a.err(), b.err()),
    };
    let q = questions(&mesh, &mut Rng::new(seed), 200);
    let (x, y) = (ask(&a, &q), ask(&b, &q));
    let mut unequal_counts = unequal_views(&view(&a), &view(&b));
    unequal_counts.at = unequal(&x.at, &y.at, |d| bits(*d));
    unequal_counts.edge_at = unequal(&x.edge_at, &y.edge_at, |d| bits(*d));
    let (all_a, all_b) = (
        [&a.vertex[..], &x.at, &x.edge_at],
        [&b.vertex[..], &y.at, &y.edge_at],
    );
    let gap = |limit: f64| largest(all_a, all_b, limit);
    Readings::Fields(Box::new(Compared {
        unequal: unequal_counts,
        of: size(&b, &q),
        made: a.wins.len() != b.wins.len(),
        print_out: print_out(&mesh, &a) != print_out(&mesh, &b),
        printed: unequal(&a.vertex, &b.vertex, |d| thousandths(*d)),
        largest: gap(f64::INFINITY),
        within: gap(job.limit),
        nan_keys: a.peaks.nan_keys + b.peaks.nan_keys,
    }))
}

/// A run over many jobs: jobs by outcome, jobs with an unequal answer of
/// each kind, and the sums.
#[derive(Debug, Default)]
pub struct Tally {
    pub jobs: u64,
    pub fields: u64,
    pub refused: std::collections::BTreeMap<u32, u64>,
    pub split: u64,
    pub unequal_fields: u64,
    pub made: u64,
    pub print_outs: u64,
    pub printed: u64,
    /// Jobs with at least one unequal answer of the kind.
    pub jobs_with: Counts,
    pub unequal: Counts,
    pub of: Counts,
    pub largest: f64,
    pub within: f64,
    pub nan_keys: usize,
}

impl Tally {
    pub fn refuse(&mut self, r: Refusal) {
        self.jobs += 1;
        *self.refused.entry(r.0).or_default() += 1;
    }

    pub fn compare(&mut self, c: &Compared) {
        self.jobs += 1;
        self.fields += 1;
        self.unequal_fields += u64::from(c.unequal.any());
        self.made += u64::from(c.made);
        self.print_outs += u64::from(c.print_out);
        self.printed += c.printed;
        self.unequal += c.unequal;
        self.of += c.of;
        self.largest = self.largest.max(c.largest);
        self.within = self.within.max(c.within);
        self.nan_keys += c.nan_keys;
        let one = |n: u64| n.min(1);
        let u = c.unequal;
        self.jobs_with += Counts {
            windows: one(u.windows),
            live: one(u.live),
            chains: one(u.chains),
            vertices: one(u.vertices),
            emitted: one(u.emitted),
            entries: one(u.entries),
            steps: one(u.steps),
            at: one(u.at),
            edge_at: one(u.edge_at),
        };
    }

    pub fn add(&mut self, r: &Readings) {
        match r {
            Readings::Refused(r) => self.refuse(*r),
            Readings::Split(..) => {
                self.jobs += 1;
                self.split += 1;
            }
            Readings::Fields(c) => self.compare(c),
        }
    }

    pub fn text(&self) -> String {
        let refused: u64 = self.refused.values().sum();
        format!(
            "jobs {}, fields {}, refused alike {refused} {:?}, refused otherwise {}\n\
             fields with any unequal answer {}, unequal numbers of windows made {}, \
             unequal step counts {}, unequal print-outs {}, unequal vertex lines in them {}\n\
             fields with unequal answers by kind: {:?}\n\
             unequal answers: {:?}\n\
             answers compared: {:?}\n\
             largest difference of a distance {:e}, of distances within the limit {:e}, NaN keys {}",
            self.jobs,
            self.fields,
            self.refused,
            self.split,
            self.unequal_fields,
            self.made,
            self.jobs_with.steps,
            self.print_outs,
            self.printed,
            self.jobs_with,
            self.unequal,
            self.of,
            self.largest,
            self.within,
            self.nan_keys
        )
    }
}
