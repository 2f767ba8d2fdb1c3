//! The field: computed in buffers that grow, and asked.
use crate::buffers::{Buffers, Slots};
use crate::ffi::{self, Lent, Told};
use crate::input::Input;
use crate::refusal::{About, Refusal};
use crate::{Job, Piece, Topology, Vec3};

/// What a job is allowed.
#[derive(Clone, Copy, Debug, PartialEq, Eq)]
#[non_exhaustive]
pub struct Options {
    /// Pops of the queue, skipped ones included; refusal 15.
    pub max_steps: u32,
    /// Bytes of all buffers together, of one field. Buffers that are outgrown are made larger up to here.
    pub memory: u64,
    /// The slots to begin with, as [`Field::slots`] of a like field says; by the mesh where there are none.
    pub slots: Option<Slots>,
}

impl Default for Options {
    /// Any number of steps, 4 GiB.
    fn default() -> Self {
        Options {
            max_steps: u32::MAX,
            memory: 4 << 30,
            slots: None,
        }
    }
}

impl Options {
    /// With so many steps.
    pub fn steps(self, max_steps: u32) -> Self {
        Options { max_steps, ..self }
    }

    /// With so many bytes.
    pub fn memory(self, memory: u64) -> Self {
        Options { memory, ..self }
    }

    /// Beginning with so many slots.
    pub fn slots(self, slots: Slots) -> Self {
        Options {
            slots: Some(slots),
            ..self
        }
    }
}

/// A window's distance function in its edge's frame: x along the edge from its first vertex, y normal to it, positive away from the source side.
#[derive(Clone, Copy, Debug, PartialEq)]
pub enum Src {
    /// A circular window: an unfolded pseudosource (x, y <= 0) at geodesic distance `s` from the source.
    #[allow(missing_docs)]
    Point { x: f64, y: f64, s: f64 },
    /// A linear window: D(x, y) = c + ux x + uy y, uy >= 0.
    #[allow(missing_docs)]
    Line { ux: f64, uy: f64, c: f64 },
}

/// A window that was made, dead or alive.
#[derive(Clone, Copy, Debug, PartialEq)]
pub struct Win {
    /// The edge that it stands on.
    pub edge: u32,
    /// The face that it propagates into; [`crate::NONE`]: evaluation only.
    pub into: u32,
    /// Where it begins on the edge.
    pub b0: f64,
    /// Where it ends.
    pub b1: f64,
    /// Its distance function.
    pub src: Src,
    /// Whether its edge still lists it.
    pub alive: bool,
    /// Whether it had yet to be propagated when it died.
    pub queued: bool,
    /// Its least value along its range.
    pub low: f64,
}

/// Answers to a row of questions, in their order.
#[derive(Clone, Debug, PartialEq)]
pub struct Row {
    numbers: Vec<u32>,
    /// The distances; infinity where nothing is reached, a NaN where the question is refused.
    pub distances: Vec<f64>,
}

impl Row {
    /// The answer to question `i`, or why it is refused; none past the end.
    pub fn get(&self, i: usize) -> Option<Result<f64, Refusal>> {
        let (&number, &distance) = (self.numbers.get(i)?, self.distances.get(i)?);
        Some(match number {
            0 => Ok(distance),
            _ => Err(Refusal::new(number, About::Job)),
        })
    }
}

/// The exact distance field: windows on every edge reached within the limit.
///
/// It is `Send` and `Sync`: queries write nothing, and fields have nothing in common, so any number of threads may compute and ask.
#[derive(Debug)]
pub struct Field<'a> {
    input: Input<'a>,
    topo: &'a Topology,
    buffers: Buffers,
    told: Told,
    slots: Slots,
    /// The distance at each vertex (infinite where not reached).
    pub vertex: Vec<f64>,
}

impl<'a> Field<'a> {
    /// The field of these sources within `limit`, over the mesh whose topology is `topo`.
    ///
    /// Buffers that are nearly full are lengthened; where one is outgrown all the same (refusals 12, 13, 14 and 17) the job begins again in larger ones, up to the memory that the options allow.
    ///
    /// # Errors
    /// Any refusal of document 01 that the job meets; 75 where the system gives no memory.
    pub fn compute(
        v: &'a [Vec3],
        t: &'a [[u32; 3]],
        topo: &'a Topology,
        sources: &[Piece],
        limit: f64,
        options: &Options,
    ) -> Result<Self, Refusal> {
        Job::begin(v, t, topo, sources, limit, options)?.complete()
    }

    pub(crate) fn held(
        input: Input<'a>,
        topo: &'a Topology,
        mut buffers: Buffers,
        told: Told,
    ) -> Self {
        let entries = buffers.entry_words.len() / 3;
        let slots = Slots {
            windows: told[4],
            events: buffers.keys.len() as u32,
            cuts: buffers.pts.len() as u32,
            entries: entries as u32,
        };
        buffers.shrink(told[3] as usize, told[4] as usize);
        Field {
            vertex: buffers.vertex.chunks_exact(2).map(|v| v[0]).collect(),
            input,
            topo,
            buffers,
            told,
            slots,
        }
    }

    fn lent(&self) -> Lent<'_> {
        Lent {
            told: &self.told,
            job: &self.input,
            buffers: &self.buffers,
        }
    }

    /// The topology of its mesh.
    pub fn topology(&self) -> &'a Topology {
        self.topo
    }

    /// Pops of the queue, skipped ones included.
    pub fn steps(&self) -> u32 {
        self.told[5]
    }

    /// How many windows were made, dead ones too.
    pub fn windows(&self) -> u32 {
        self.told[4]
    }

    /// The slots that it was computed with; of the windows, those that it took.
    pub fn slots(&self) -> Slots {
        self.slots
    }

    /// The bytes that it holds, beside the mesh that it borrows.
    pub fn bytes(&self) -> usize {
        self.buffers.bytes() + 8 * self.vertex.len()
    }

    /// Window `i` of all that were made.
    pub fn window(&self, i: u32) -> Option<Win> {
        let i = i as usize;
        let words = self.buffers.words.get(4 * i..4 * i + 4)?;
        let &[b0, b1, low, s0, s1, s2] = self.buffers.reals.get(6 * i..)?.first_chunk()?;
        let flags = words[2];
        let src = if flags & 1 == 1 {
            Src::Line {
                ux: s0,
                uy: s1,
                c: s2,
            }
        } else {
            Src::Point {
                x: s0,
                y: s1,
                s: s2,
            }
        };
        Some(Win {
            edge: words[0],
            into: words[1],
            b0,
            b1,
            src,
            alive: flags & 2 == 2,
            queued: flags & 4 == 4,
            low,
        })
    }

    /// The numbers of the live windows of edge `e`, in their order along it; none of an edge that is missing.
    pub fn on_edge(&self, e: u32) -> impl Iterator<Item = u32> + '_ {
        let b = &self.buffers;
        let head = b.edge_words.get(6 * e as usize + 4).copied().unwrap_or(0);
        let next = move |&i: &u32| b.words.get(4 * i as usize + 3)?.checked_sub(1);
        std::iter::successors(head.checked_sub(1), next).take(self.told[4] as usize)
    }

    /// The live windows of edge `e`: their distance functions and ranges.
    pub fn edge_windows(&self, e: u32) -> Vec<(Src, f64, f64)> {
        let windows = self.on_edge(e).filter_map(|i| self.window(i));
        windows.map(|w| (w.src, w.b0, w.b1)).collect()
    }

    /// The distance of vertex `k`: infinity where it is not reached, a NaN where there is no such vertex.
    pub fn vertex_at(&self, k: u32) -> f64 {
        self.vertex.get(k as usize).copied().unwrap_or(f64::NAN)
    }

    /// The distance at the point `p` of face `f`; a NaN where [`Field::try_at`] refuses.
    pub fn at(&self, f: u32, p: Vec3) -> f64 {
        self.try_at(f, p).unwrap_or(f64::NAN)
    }

    /// The distance at the point `p` of face `f`.
    ///
    /// # Errors
    /// 21: there is no such face; 22: a coordinate is out of range.
    pub fn try_at(&self, f: u32, p: Vec3) -> Result<f64, Refusal> {
        self.lent()
            .at(f, p)
            .map_err(|number| Refusal::new(number, About::Job))
    }

    /// The distance at the place `x` on edge `e`, from its first vertex; a NaN where [`Field::try_edge_at`] refuses.
    pub fn edge_at(&self, e: u32, x: f64) -> f64 {
        self.try_edge_at(e, x).unwrap_or(f64::NAN)
    }

    /// The distance at the place `x` on edge `e`, from its first vertex.
    ///
    /// # Errors
    /// 23: there is no such edge; 24: the place is not from 0 to its length.
    pub fn try_edge_at(&self, e: u32, x: f64) -> Result<f64, Refusal> {
        self.lent()
            .edge_at(e, x)
            .map_err(|number| Refusal::new(number, About::Job))
    }

    /// Document 01's print-out: counts, and each vertex's distance in thousandths.
    pub fn print_out(&self) -> String {
        String::from_utf8_lossy(&self.lent().print_out()).into_owned()
    }

    /// The distances at points of faces. The whole field is checked first, once for the row.
    ///
    /// # Errors
    /// 74: not as many points as faces. A question that is refused is so in its row.
    pub fn faces_at(&self, faces: &[u32], points: &[Vec3]) -> Result<Row, Refusal> {
        row(self.lent().faces_at(faces, points))
    }

    /// The distances at places on edges. The whole field is checked first, once for the row.
    ///
    /// # Errors
    /// 74: not as many places as edges. A question that is refused is so in its row.
    pub fn edges_at(&self, edges: &[u32], places: &[f64]) -> Result<Row, Refusal> {
        row(self.lent().edges_at(edges, places))
    }
}

fn row(answer: ffi::Row) -> Result<Row, Refusal> {
    match answer {
        Ok((numbers, distances)) => Ok(Row { numbers, distances }),
        Err(number) => Err(Refusal::new(number, About::Job)),
    }
}
