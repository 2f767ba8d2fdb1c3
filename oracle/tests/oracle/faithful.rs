//! The copy in the published reading equals the published file, to the bit.
use oracle::compare::{Tally, faithful};
use oracle::generate::small;
use oracle::generate::workshop::{self, Shape};

#[test]
fn small_jobs() {
    let mut tally = Tally::default();
    for seed in 0..10_000 {
        match faithful(&small::job(seed), seed) {
            Err(r) => tally.refuse(r),
            Ok(c) => tally.compare(&c.unwrap_or_else(|text| panic!("seed {seed}: {text}"))),
        }
    }
    assert!(tally.fields > 4_000, "{}", tally.text());
    assert_eq!(tally.unequal_fields, 0, "{}", tally.text());
}

#[test]
fn workshop_jobs() {
    let mut tally = Tally::default();
    for (seed, shape) in Shape::ALL.into_iter().enumerate() {
        for lines in [1, 20] {
            let job = workshop::job(shape, 1_000, lines, 1e7, seed as u64);
            let compared = faithful(&job, seed as u64).expect("no refusal");
            tally.compare(&compared.unwrap_or_else(|text| panic!("{shape:?}: {text}")));
        }
    }
    assert_eq!(
        (tally.fields, tally.unequal_fields),
        (12, 0),
        "{}",
        tally.text()
    );
}
