//! What the readings differ in.
use oracle::generate::rng::Rng;
use oracle::generate::small;
use oracle::job::Mesh;
use oracle::reading::{AllButHypot, Patched, Published, Reading};

/// min, max and powi alone change signs of zeros, and no number.
#[test]
fn but_for_hypot_only_signs_of_zero_differ() {
    for seed in 0..10_000 {
        let Ok(mesh) = Mesh::new(&small::job(seed)) else {
            continue;
        };
        match (mesh.field::<Published>(), mesh.field::<AllButHypot>()) {
            (Ok(a), Ok(b)) => {
                assert_eq!(a.wins, b.wins, "seed {seed}");
                assert_eq!(a.on_edge, b.on_edge, "seed {seed}");
                assert_eq!((a.vertex, a.steps), (b.vertex, b.steps), "seed {seed}");
            }
            (a, b) => assert_eq!(a.err(), b.err(), "seed {seed}"),
        }
    }
}

#[test]
fn powi_is_one_product_here() {
    let mut rng = Rng::new(4);
    for _ in 0..1_000_000 {
        let x = f64::from_bits(rng.u64());
        let (a, b) = (Published::square(x), Patched::square(x));
        assert!(
            a.to_bits() == b.to_bits() || a.is_nan() && b.is_nan(),
            "{x:e}"
        );
    }
}
