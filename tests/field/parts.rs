//! The same job by the functions of the static libraries insert_c and advance_c: insertion, all turns in one call, finish. That is how the package in rust/ computes a field.
use oracle::job::Job;
use oracle::rooms::{Rooms, Told};

fn passed(refusal: u32) -> Result<(), u32> {
    if refusal == 0 { Ok(()) } else { Err(refusal) }
}

export!(fn sirmolaat_insert(;
    vertices: f64, triangles: u32, flags: u8, kinds: u8, faces: u32, coords: f64;
    limit: f64;
    vertex_words: u32, edge_words: u32, edge_reals: f64, round: u32, triangle_words: u32, triangle_reals: f64,
    piece_words: u32, piece_reals: f64, vertex: f64, words: u32, reals: f64, keys: f64, events: u32, entry_words: u32,
    pts: f64, out: f64, keep: f64, next: f64, told: u32
));
export!(fn sirmolaat_advance(limit: f64, n: u32, most: u32;
    vertices: f64, triangles: u32, vertex_words: u32, edge_reals: f64, round: u32, triangle_words: u32, triangle_reals: f64;;
    edge_words: u32, vertex: f64, words: u32, reals: f64, keys: f64, events: u32, pts: f64, out: f64, keep: f64, next: f64, told: u32
));
export!(fn sirmolaat_finish(edges: u32, made: u32;
    edge_reals: f64, words: u32, reals: f64;;
    edge_words: u32, vertex: f64, keys: f64, events: u32, pts: f64, out: f64, keep: f64, next: f64
));

/// What the job comes to within its budget of steps: its counts, or the refusal's number.
pub fn compute(job: &Job, rooms: &mut Rooms) -> Result<Told, u32> {
    let mut inserted = [7; 4];
    passed(sirmolaat_insert(
        &job.vertices,
        &job.triangles,
        &job.flags,
        &job.piece_kinds,
        &job.piece_faces,
        &job.piece_coords,
        job.limit,
        &mut rooms.vertex_words,
        &mut rooms.edge_words,
        &mut rooms.edge_reals,
        &mut rooms.round,
        &mut rooms.triangle_words,
        &mut rooms.triangle_reals,
        &mut rooms.piece_words,
        &mut rooms.piece_reals,
        &mut rooms.vertex,
        &mut rooms.words,
        &mut rooms.reals,
        &mut rooms.keys,
        &mut rooms.events,
        &mut rooms.entry_words,
        &mut rooms.pts,
        &mut rooms.out,
        &mut rooms.keep,
        &mut rooms.next,
        &mut inserted,
    ))?;
    let [edges, made, queued, _] = inserted;
    let mut turned = [made, queued, 7];
    passed(sirmolaat_advance(
        job.limit,
        job.flags.len() as u32,
        job.max_steps,
        &job.vertices,
        &job.triangles,
        &rooms.vertex_words,
        &rooms.edge_reals,
        &rooms.round,
        &rooms.triangle_words,
        &rooms.triangle_reals,
        &mut rooms.edge_words,
        &mut rooms.vertex,
        &mut rooms.words,
        &mut rooms.reals,
        &mut rooms.keys,
        &mut rooms.events,
        &mut rooms.pts,
        &mut rooms.out,
        &mut rooms.keep,
        &mut rooms.next,
        &mut turned,
    ))?;
    let [windows, waiting, steps] = turned;
    if waiting > 0 {
        return Err(15);
    }
    passed(sirmolaat_finish(
        edges,
        windows,
        &rooms.edge_reals,
        &rooms.words,
        &rooms.reals,
        &mut rooms.edge_words,
        &mut rooms.vertex,
        &mut rooms.keys,
        &mut rooms.events,
        &mut rooms.pts,
        &mut rooms.out,
        &mut rooms.keep,
        &mut rooms.next,
    ))?;
    let counts = [
        job.flags.len(),
        job.triangles.len() / 3,
        job.piece_kinds.len(),
    ];
    let [vertices, triangles, pieces] = counts.map(|n| n as u32);
    Ok([vertices, triangles, pieces, edges, windows, steps])
}
