//! A line on standard error while a field is computed, where that is a terminal and the work takes over a second.
use sirmolaat::{Field, Job, Progress, Refusal};
use std::io::{IsTerminal, Write};
use std::time::{Duration, Instant};

/// So many steps take some hundredths of a second.
const TURN: u32 = 16_384;
const SECOND: Duration = Duration::from_secs(1);

/// Runs the job to its end; shows each second how far it is.
pub fn watched(job: Job) -> Result<Option<Field>, Refusal> {
    let terminal = std::io::stderr().is_terminal();
    let (start, mut last, mut shown) = (Instant::now(), Instant::now(), false);
    let show = |progress: Progress| {
        if terminal && last.elapsed() >= SECOND {
            last = Instant::now();
            shown = true;
            let _ = write!(
                std::io::stderr(),
                "\r{} s: {} steps, {} windows, {} events wait   ",
                start.elapsed().as_secs(),
                progress.steps,
                progress.windows,
                progress.waiting
            );
        }
        true
    };
    let field = job.run(TURN, show);
    if shown {
        let _ = writeln!(std::io::stderr());
    }
    field
}
