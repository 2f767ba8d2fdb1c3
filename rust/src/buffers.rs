//! The memory of a job, document 01's rooms: eighteen slices, how long they must be, and how they grow. crates/layout of the repository says where each number stands.
use crate::culprit;
use crate::input::Input;
use crate::refusal::{About, Refusal};

/// The slots of the four buffers that a job may outgrow.
#[derive(Clone, Copy, Debug, PartialEq, Eq)]
pub struct Slots {
    /// All windows that are made, dead ones too; refusal 12.
    pub windows: u32,
    /// Events that wait at one time; refusal 13.
    pub events: u32,
    /// Entries of each list of an addition; refusal 14.
    pub cuts: u32,
    /// Entries of pieces in faces; refusal 17.
    pub entries: u32,
}

/// Bytes of a slot: what its slices have.
const WINDOW_BYTES: u64 = 4 * 4 + 6 * 8;
const EVENT_BYTES: u64 = 8 + 2 * 4;
const CUT_BYTES: u64 = 7 * 8;
const ENTRY_BYTES: u64 = 3 * 4;
const VERTEX_BYTES: u64 = 3 * 4 + 2 * 8;
const TRIANGLE_BYTES: u64 = 3 * (6 * 4 + 4 * 8 + 4) + 6 * 4 + 9 * 8;
const PIECE_BYTES: u64 = 3 * 4 + 3 * 8;

/// A buffer that was outgrown within a turn becomes so many times as large, and the job begins again.
const GROWTH: u32 = 3;

impl Slots {
    /// What a job is lent at first: the fewer pieces, the farther the waves of each go, and the more windows they make. Insertion queues all that it makes, some windows a piece.
    pub(crate) fn first(triangles: usize, pieces: usize) -> Slots {
        let number = |n: usize| u32::try_from(n).unwrap_or(u32::MAX);
        let density = pieces as f64 / triangles.max(1) as f64;
        let each = (3. / density.sqrt()).clamp(10., 20.);
        let spread = (each * triangles as f64) as u32;
        let inserted = number(pieces).saturating_mul(4).saturating_add(256);
        Slots {
            windows: spread.saturating_add(inserted),
            events: (spread / 4).saturating_add(inserted),
            cuts: 2_048,
            entries: number(pieces).saturating_mul(8).saturating_add(64),
        }
    }

    /// Half as many slots again of a buffer of which less than a sixteenth is free, or too little for a step that makes many windows.
    pub(crate) fn ahead_of(self, windows: u32, events: u32) -> Slots {
        let more = |slots: u32, taken: u32| {
            let free = slots.saturating_sub(taken);
            if free < slots / 16 + 256 {
                return slots.saturating_add(slots / 2).saturating_add(512);
            }
            slots
        };
        Slots {
            windows: more(self.windows, windows),
            events: more(self.events, events),
            ..self
        }
    }

    /// How many steps are likely to outgrow nothing: a step makes some one window, and queues as many events.
    pub(crate) fn steps_ahead(&self, windows: u32, events: u32) -> u32 {
        let free = self.windows.saturating_sub(windows);
        let waiting = self.events.saturating_sub(events);
        (free.min(waiting) / 4).max(16)
    }

    /// The bytes of all buffers of this job.
    pub(crate) fn bytes_of(&self, input: &Input) -> u64 {
        self.bytes(
            input.vertices.len() / 3,
            input.triangles.len() / 3,
            input.kinds.len(),
        )
    }

    /// With more slots where a job was refused for the lack of one, within so many bytes; else the refusal, with what it is about.
    pub(crate) fn grown_within(
        self,
        number: u32,
        input: &Input,
        memory: u64,
    ) -> Result<Slots, Refusal> {
        let Some(grown) = self.grown(number) else {
            return Err(culprit::find(number, input));
        };
        let bytes = grown.bytes_of(input);
        if bytes <= memory {
            return Ok(grown);
        }
        let (name, slots) = match number {
            12 => ("windows", self.windows),
            13 => ("events", self.events),
            14 => ("cuts", self.cuts),
            _ => ("face entries", self.entries),
        };
        Err(Refusal::new(number, About::Buffer(name, slots, bytes)))
    }

    /// With more slots where the job was refused for the lack of one; none where that number says nothing of them, or there can be no more.
    fn grown(self, number: u32) -> Option<Slots> {
        let more = |n: u32| n.saturating_mul(GROWTH).max(16);
        let grown = match number {
            12 => Slots {
                windows: more(self.windows),
                events: more(self.events),
                ..self
            },
            13 => Slots {
                events: more(self.events),
                ..self
            },
            14 => Slots {
                cuts: more(self.cuts),
                ..self
            },
            17 => Slots {
                entries: more(self.entries),
                ..self
            },
            _ => return None,
        };
        (grown != self).then_some(grown)
    }

    /// The bytes of all buffers of a job with these slots.
    fn bytes(&self, vertices: usize, triangles: usize, pieces: usize) -> u64 {
        let fixed = [
            (vertices, VERTEX_BYTES),
            (triangles, TRIANGLE_BYTES),
            (pieces, PIECE_BYTES),
        ];
        let grown = [
            (self.windows, WINDOW_BYTES),
            (self.events, EVENT_BYTES),
            (self.cuts, CUT_BYTES),
            (self.entries, ENTRY_BYTES),
        ];
        let fixed = fixed
            .iter()
            .map(|&(n, bytes)| (n as u64).saturating_mul(bytes));
        let grown = grown.iter().map(|&(n, bytes)| u64::from(n) * bytes);
        fixed.chain(grown).fold(0, u64::saturating_add)
    }
}

/// In the order in which the library takes them.
#[derive(Debug, Default)]
pub(crate) struct Buffers {
    pub vertex_words: Vec<u32>,
    pub edge_words: Vec<u32>,
    pub edge_reals: Vec<f64>,
    pub round: Vec<u32>,
    pub triangle_words: Vec<u32>,
    pub triangle_reals: Vec<f64>,
    pub piece_words: Vec<u32>,
    pub piece_reals: Vec<f64>,
    pub vertex: Vec<f64>,
    pub words: Vec<u32>,
    pub reals: Vec<f64>,
    pub keys: Vec<f64>,
    pub events: Vec<u32>,
    pub entry_words: Vec<u32>,
    pub pts: Vec<f64>,
    pub out: Vec<f64>,
    pub keep: Vec<f64>,
    pub next: Vec<f64>,
}

/// The memory is not to be had from the system.
#[derive(Debug)]
pub(crate) struct NoMemory;

/// Zeros behind what a list has, up to so many slots.
fn lengthen<T: Clone + Default>(
    list: &mut Vec<T>,
    stride: usize,
    slots: usize,
) -> Result<(), NoMemory> {
    let length = stride.checked_mul(slots).ok_or(NoMemory)?;
    let more = length.saturating_sub(list.len());
    list.try_reserve_exact(more).map_err(|_| NoMemory)?;
    list.resize(list.len() + more, T::default());
    Ok(())
}

fn zeros<T: Clone + Default>(stride: usize, slots: usize) -> Result<Vec<T>, NoMemory> {
    let mut made = Vec::new();
    lengthen(&mut made, stride, slots)?;
    Ok(made)
}

impl Buffers {
    pub(crate) fn new(input: &Input, slots: Slots) -> Result<Buffers, NoMemory> {
        let (vertices, pieces) = (
            input.flags.len().max(input.vertices.len() / 3),
            input.kinds.len(),
        );
        let sides = input.triangles.len();
        let triangles = sides / 3;
        let [windows, events, cuts, entries] =
            [slots.windows, slots.events, slots.cuts, slots.entries].map(|n| n as usize);
        Ok(Buffers {
            vertex_words: zeros(3, vertices)?,
            edge_words: zeros(6, sides)?,
            edge_reals: zeros(4, sides)?,
            round: zeros(1, sides)?,
            triangle_words: zeros(6, triangles)?,
            triangle_reals: zeros(9, triangles)?,
            piece_words: zeros(3, pieces)?,
            piece_reals: zeros(3, pieces)?,
            vertex: zeros(2, vertices)?,
            words: zeros(4, windows)?,
            reals: zeros(6, windows)?,
            keys: zeros(1, events)?,
            events: zeros(2, events)?,
            entry_words: zeros(3, entries)?,
            pts: zeros(1, cuts)?,
            out: zeros(2, cuts)?,
            keep: zeros(2, cuts)?,
            next: zeros(2, cuts)?,
        })
    }

    /// As many slots of windows and of events, behind those that there are. Where the system gives no memory, some have more slots than others, and the fewest count.
    pub(crate) fn lengthen(&mut self, slots: Slots) -> Result<(), NoMemory> {
        let [windows, events] = [slots.windows, slots.events].map(|n| n as usize);
        lengthen(&mut self.words, 4, windows)?;
        lengthen(&mut self.reals, 6, windows)?;
        lengthen(&mut self.keys, 1, events)?;
        lengthen(&mut self.events, 2, events)
    }

    /// Gives back what no query reads: slots never taken, the queue, the cut lists and the pieces' table.
    pub(crate) fn shrink(&mut self, edges: usize, windows: usize) {
        fn cut<T>(list: &mut Vec<T>, length: usize) {
            list.truncate(length);
            list.shrink_to_fit();
        }
        cut(&mut self.edge_words, 6 * edges);
        cut(&mut self.edge_reals, 4 * edges);
        cut(&mut self.words, 4 * windows);
        cut(&mut self.reals, 6 * windows);
        let entries = 3 * self.entry_count();
        cut(&mut self.entry_words, entries);
        for list in [
            &mut self.keys,
            &mut self.pts,
            &mut self.out,
            &mut self.keep,
            &mut self.next,
            &mut self.piece_reals,
        ] {
            cut(list, 0);
        }
        for list in [&mut self.events, &mut self.piece_words] {
            cut(list, 0);
        }
    }

    /// Entries are numbered as they are made, so the last of some face is the last of all.
    fn entry_count(&self) -> usize {
        let last = |triangle: &[u32]| triangle.get(4).map_or(0, |&link| link as usize);
        self.triangle_words.chunks(6).map(last).max().unwrap_or(0)
    }

    pub(crate) fn bytes(&self) -> usize {
        let words = [
            &self.vertex_words,
            &self.edge_words,
            &self.round,
            &self.triangle_words,
            &self.piece_words,
            &self.words,
            &self.events,
            &self.entry_words,
        ];
        let reals = [
            &self.edge_reals,
            &self.triangle_reals,
            &self.piece_reals,
            &self.vertex,
            &self.reals,
            &self.keys,
            &self.pts,
            &self.out,
            &self.keep,
            &self.next,
        ];
        let words: usize = words.iter().map(|list| 4 * list.capacity()).sum();
        let reals: usize = reals.iter().map(|list| 8 * list.capacity()).sum();
        words + reals
    }
}
