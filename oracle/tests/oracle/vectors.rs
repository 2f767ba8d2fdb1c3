//! Vectors begin with their count, have the record sizes that README.md
//! gives, and are the same for the same seed.
use oracle::generate::insertion::Stage;
use oracle::generate::workshop::{Shape, job};
use oracle::vectors::{make, stored_fitted, stored_small, stream};

const FIXED: [(&str, usize); 14] = [
    ("sqrt", 16),
    ("hypot", 24),
    ("roots", 41),
    ("ties", 67),
    ("edge", 41),
    ("free", 49),
    ("foot", 49),
    ("lowest", 49),
    ("eval", 65),
    ("propagate", 216),
    ("point", 336),
    ("segment", 136),
    ("emit", 80),
    ("entry", 184),
];

#[test]
fn sizes_and_counts() {
    for (leaf, size) in FIXED {
        let bytes = make(leaf, 1, 5_000).unwrap();
        assert_eq!(bytes.len(), 4 + 5_000 * size, "{leaf}");
        assert_eq!(bytes[..4], 5_000u32.to_le_bytes(), "{leaf}");
    }
    assert!(make("no such leaf", 1, 1).is_err());
}

#[test]
fn same_seed_same_bytes() {
    let leaves = [
        "better",
        "add",
        "add-long",
        "events",
        "topology",
        "topology-large",
        "jobs",
        "slips",
    ];
    for leaf in leaves {
        let count = if leaf.ends_with("long") || leaf.ends_with("large") {
            3
        } else {
            300
        };
        let bytes = make(leaf, 7, count).unwrap();
        assert!(bytes.len() > 1_000, "{leaf}");
        assert_eq!(make(leaf, 7, count).unwrap(), bytes, "{leaf}");
        assert_ne!(make(leaf, 8, count).unwrap(), bytes, "{leaf}");
    }
}

#[test]
fn the_stream_of_a_field() {
    let small = job(Shape::Noisy, 200, 3, 1e7, 1);
    assert!(stream(&small).is_ok_and(|bytes| bytes.len() > 100_000));
}

/// Refusals and details of stored records, each as long as it says.
fn records(bytes: &[u8]) -> Vec<(u32, u32)> {
    let row: Vec<u32> = bytes
        .chunks_exact(4)
        .map(|b| u32::from_le_bytes([b[0], b[1], b[2], b[3]]))
        .collect();
    let (mut at, mut out) = (0, vec![]);
    while at < row.len() {
        out.push((row[at], row[at + 1]));
        at += row[at + 2] as usize;
    }
    assert_eq!((at, bytes.len() % 4), (row.len(), 0));
    out
}

#[test]
fn stored_records() {
    for stage in [Stage::Insert, Stage::Field] {
        let bytes = stored_small(stage, 1, 300);
        assert_eq!(stored_small(stage, 1, 300), bytes);
        let met = records(&bytes);
        assert_eq!(met.len(), 300);
        if stage == Stage::Insert {
            assert!(met.iter().all(|r| (r.0 == 0) == (r.1 > 0)));
            for detail in 0..3 {
                assert!(met.iter().filter(|r| r.1 == detail).count() > 10);
            }
        } else {
            assert!(met.iter().all(|r| r.1 == 2));
        }
        let large = stored_fitted(stage, job(Shape::Terrain, 200, 3, 1e7, 2), 2);
        assert_eq!(records(&large).len(), 1);
    }
}
