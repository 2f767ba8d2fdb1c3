//! A job that is worked on in turns, so that a program can show how far it is, or give up.
use crate::buffers::{Buffers, Slots};
use crate::field::{Field, Options};
use crate::input::Input;
use crate::refusal::{About, Refusal};
use crate::{Piece, Topology, Vec3, culprit, ffi};

/// How far a job is.
#[derive(Clone, Copy, Debug, PartialEq, Eq)]
#[non_exhaustive]
pub struct Progress {
    /// Pops of the queue since the job began, skipped ones included.
    pub steps: u32,
    /// Windows made.
    pub windows: u32,
    /// Events that wait; when none does, the job is done.
    pub waiting: u32,
    /// How often it began again, in larger buffers.
    pub restarts: u32,
    /// How often its buffers were lengthened between turns.
    pub lengthened: u32,
}

/// A job between turns: its sources are inserted, and events wait.
#[derive(Debug)]
pub struct Job<'a> {
    input: Input<'a>,
    topo: &'a Topology,
    options: Options,
    slots: Slots,
    buffers: Buffers,
    edges: u32,
    progress: Progress,
}

/// What a turn comes to.
#[derive(Debug)]
pub enum Turn<'a> {
    /// The job goes on.
    On(Job<'a>),
    /// No event waits: the field.
    Done(Field<'a>),
}

impl<'a> Job<'a> {
    /// Checks the job and inserts its sources. The arguments are those of [`Field::compute`].
    ///
    /// # Errors
    /// 1 to 14 and 17; 75 where the system gives no memory.
    pub fn begin(
        v: &'a [Vec3],
        t: &'a [[u32; 3]],
        topo: &'a Topology,
        sources: &[Piece],
        limit: f64,
        options: &Options,
    ) -> Result<Self, Refusal> {
        let mut job = Job {
            input: Input::new(v, t, &topo.pseudo, sources, limit, options.max_steps),
            topo,
            options: *options,
            slots: options
                .slots
                .unwrap_or(Slots::first(t.len(), sources.len())),
            buffers: Buffers::default(),
            edges: 0,
            progress: Progress {
                steps: 0,
                windows: 0,
                waiting: 0,
                restarts: 0,
                lengthened: 0,
            },
        };
        job.insert()?;
        Ok(job)
    }

    /// From the beginning, in buffers of as many slots as it has now, or more.
    fn insert(&mut self) -> Result<(), Refusal> {
        loop {
            // the old buffers go before the new ones come
            self.buffers = Buffers::default();
            let no_memory = |_| Refusal::no_memory(self.slots.bytes_of(&self.input));
            self.buffers = Buffers::new(&self.input, self.slots).map_err(no_memory)?;
            match ffi::insert(&self.input, &mut self.buffers) {
                Ok([edges, made, queued, _]) => {
                    self.edges = edges;
                    self.progress = Progress {
                        steps: 0,
                        windows: made,
                        waiting: queued,
                        ..self.progress
                    };
                    return Ok(());
                }
                Err(number) => self.grow(number)?,
            }
        }
    }

    fn grow(&mut self, number: u32) -> Result<(), Refusal> {
        self.slots = self
            .slots
            .grown_within(number, &self.input, self.options.memory)?;
        self.progress.restarts += 1;
        Ok(())
    }

    /// How far it is.
    pub fn progress(&self) -> Progress {
        self.progress
    }

    /// Longer buffers where few slots are free, and how many steps these are likely to suffice for. Where there is no memory for them the steps are tried all the same.
    fn lengthen(&mut self) -> u32 {
        let Progress {
            windows, waiting, ..
        } = self.progress;
        let longer = self.slots.ahead_of(windows, waiting);
        if longer != self.slots
            && longer.bytes_of(&self.input) <= self.options.memory
            && self.buffers.lengthen(longer).is_ok()
        {
            self.slots = longer;
            self.progress.lengthened += 1;
        }
        self.slots.steps_ahead(windows, waiting)
    }

    /// At most so many steps, one at least. Buffers are lengthened before they are outgrown; where that fails the job begins again in larger ones.
    ///
    /// # Errors
    /// 12 to 14 and 17 where the memory that is allowed does not suffice, 15 where the steps are spent.
    pub fn advance(mut self, steps: u32) -> Result<Turn<'a>, Refusal> {
        let left = self.options.max_steps - self.progress.steps;
        let mut rest = steps.max(1).min(left);
        while rest > 0 && self.progress.waiting > 0 {
            let most = self.lengthen().min(rest);
            let counts = [self.progress.windows, self.progress.waiting];
            match ffi::advance(&self.input, &mut self.buffers, most, counts) {
                Ok([made, queued, done]) => {
                    self.progress.steps += done;
                    self.progress.windows = made;
                    self.progress.waiting = queued;
                    rest -= most;
                }
                Err(number) => {
                    self.grow(number)?;
                    self.insert()?;
                    rest = 0;
                }
            }
        }
        if self.progress.waiting == 0 {
            return self.finish().map(Turn::Done);
        }
        if self.progress.steps == self.options.max_steps {
            return Err(Refusal::new(15, About::Steps(self.options.max_steps)));
        }
        Ok(Turn::On(self))
    }

    fn finish(mut self) -> Result<Field<'a>, Refusal> {
        let Progress { steps, windows, .. } = self.progress;
        ffi::finish(&mut self.buffers, self.edges, windows)
            .map_err(|number| culprit::find(number, &self.input))?;
        let counts = [
            self.input.flags.len(),
            self.input.triangles.len() / 3,
            self.input.kinds.len(),
        ];
        let [vertices, triangles, pieces] = counts.map(|n| n as u32);
        let told = [vertices, triangles, pieces, self.edges, windows, steps];
        Ok(Field::held(self.input, self.topo, self.buffers, told))
    }

    /// All turns, to the field.
    ///
    /// # Errors
    /// Those of [`Job::advance`].
    pub(crate) fn complete(self) -> Result<Field<'a>, Refusal> {
        let mut job = self;
        loop {
            match job.advance(u32::MAX)? {
                Turn::Done(field) => return Ok(field),
                Turn::On(on) => job = on,
            }
        }
    }

    /// All turns, of so many steps each. After each `goes_on` is told how far the job is: where it answers false, the job is given up, and there is no field.
    ///
    /// # Errors
    /// Those of [`Job::advance`].
    pub fn run(
        self,
        steps: u32,
        mut goes_on: impl FnMut(Progress) -> bool,
    ) -> Result<Option<Field<'a>>, Refusal> {
        let mut job = self;
        loop {
            match job.advance(steps)? {
                Turn::Done(field) => return Ok(Some(field)),
                Turn::On(on) if goes_on(on.progress) => job = on,
                Turn::On(_) => return Ok(None),
            }
        }
    }
}
