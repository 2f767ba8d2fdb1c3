//! Jobs in the slices that are lent for them: refusal 9, what 1 to 9 and any
//! other refusal leave, and a small field written out by hand.
use oracle::exact::{Buffers, NONE, Refusal};
use oracle::generate::rooms::job;
use oracle::job::Job;
use oracle::rooms::{Rooms, Slots, compute};
use std::collections::BTreeMap;

/// The scope document's slip.
fn triangle() -> (Job, Slots) {
    let job = Job {
        vertices: vec![0., 0., 0., 3., 0., 0., 0., 4., 0.],
        triangles: vec![0, 1, 2],
        flags: vec![0; 3],
        piece_kinds: vec![0],
        piece_faces: vec![0],
        piece_coords: vec![0.; 6],
        limit: 10.,
        max_steps: 1,
        buffers: Buffers::UNBOUNDED,
    };
    let buffers = Buffers {
        windows: 4,
        events: 1,
        cuts: 2,
        face_entries: 2,
    };
    let slots = Slots::least(&job, buffers);
    (job, slots)
}

fn filled(slots: &Slots) -> Rooms {
    let mut rooms = Rooms::new(slots);
    rooms.fill(|| 7, || 7.);
    rooms
}

fn is_all(rooms: &Rooms, n: u32) -> bool {
    let words = |s: &[u32]| s.iter().all(|&k| k == n);
    let reals = |s: &[f64]| s.iter().all(|&x| x.to_bits() == f64::from(n).to_bits());
    rooms.all_words().iter().all(|s| words(s.1)) && rooms.all_reals().iter().all(|s| reals(s.1))
}

#[test]
fn a_field_slot_by_slot() {
    let (job, slots) = triangle();
    let mut rooms = filled(&slots);
    assert_eq!(rooms.slots(), slots);
    assert_eq!(compute(&job, &mut rooms), Ok([3, 1, 1, 3, 3, 1]));
    assert_eq!(rooms.vertex_words, [0, 1, 0, 1, 2, 0, 2, 3, 0]);
    assert_eq!(rooms.round, [0, 0, 0]);
    let edges = [
        [0, 1, 0, NONE, 1, 0],
        [1, 2, 0, NONE, 2, 0],
        [0, 2, 0, NONE, 3, 0],
    ];
    assert_eq!(rooms.edge_words, edges.as_flattened());
    assert_eq!(rooms.triangle_words, [0, 1, 2, 1, 1, 0]);
    assert_eq!(rooms.piece_words, [1, 0, 0]);
    // the point lies on two of the edges, so windows there go nowhere
    let windows = [[0, NONE, 2, 0], [1, NONE, 2, 0], [2, NONE, 2, 0], [0; 4]];
    assert_eq!(rooms.words, windows.as_flattened());
    assert_eq!(rooms.entry_words, [0, 0, 0, 0, 0, 0]);
    let inf = f64::INFINITY;
    // the last edge's end is computed a bit short of 4
    let last = 4f64.next_down();
    assert_eq!(rooms.vertex, [0., inf, 3., inf, last, inf]);
    assert_eq!(rooms.reals[..6], [0., 3., 0., 0., 0., 0.]);
    assert_eq!(rooms.reals[18..], [0.; 6]);
    assert_eq!(rooms.piece_reals, [0.; 3]);
    assert_eq!(
        (&rooms.keys[..], &rooms.events[..]),
        (&[0.][..], &[0; 2][..])
    );
    assert_eq!(
        (&rooms.pts[..], &rooms.next[..]),
        (&[0.; 2][..], &[0.; 4][..])
    );
    assert_eq!(
        (&rooms.scratch[..], &rooms.other_scratch[..]),
        (&[0; 4][..], &[0; 4][..])
    );
}

/// A slot less, in one slice of a room: 9 where it is a fixed room, and
/// nothing is written; zeros where it is another.
#[test]
fn one_slot_less() {
    let (job, slots) = triangle();
    let names = |r: &Rooms| {
        let words = r.all_words().map(|s| s.0).into_iter();
        words.chain(r.all_reals().map(|s| s.0)).collect::<Vec<_>>()
    };
    for (k, name) in names(&filled(&slots)).into_iter().enumerate() {
        let mut rooms = filled(&slots);
        if k < 10 {
            rooms.all_words_mut()[k].pop();
        } else {
            rooms.all_reals_mut()[k - 10].pop();
        }
        let answer = compute(&job, &mut rooms);
        match name {
            // a window less needs a scratch slot less
            "words" | "reals" | "entry_words" => assert!(answer.is_ok(), "{name}"),
            "events" | "keys" => assert_eq!(answer, Err(Refusal(13)), "{name}"),
            "pts" | "out" | "keep" | "next" => assert!(answer.is_ok(), "{name}"),
            _ => assert_eq!(answer, Err(Refusal(9)), "{name}"),
        }
        match answer {
            Err(Refusal(9)) => assert!(is_all(&rooms, 7), "{name}"),
            Err(_) => assert!(is_all(&rooms, 0), "{name}"),
            Ok(_) => (),
        }
    }
}

#[test]
fn every_refusal_is_met() {
    let mut met = BTreeMap::new();
    for seed in 0..10_000 {
        let (job, mut rooms) = job(seed);
        let before = rooms.clone();
        let refusal = compute(&job, &mut rooms).err().map_or(0, |r| r.0);
        *met.entry(refusal).or_insert(0) += 1;
        let bits = |r: &Rooms| {
            let reals = r.all_reals().into_iter().flat_map(|s| s.1);
            reals.map(|x| x.to_bits()).collect::<Vec<_>>()
        };
        match refusal {
            0 => (),
            1..10 => {
                let words = |r: &Rooms| r.all_words().map(|s| s.1.to_vec());
                assert!(words(&rooms) == words(&before) && bits(&rooms) == bits(&before));
            }
            _ => assert!(is_all(&rooms, 0), "seed {seed}"),
        }
    }
    let known: Vec<u32> = (0..16).chain([17]).collect();
    assert_eq!(met.keys().copied().collect::<Vec<u32>>(), known);
    assert!(met.values().all(|&n| n >= 30), "{met:?}");
}
