//! Pairs with their correctly rounded hypot, for a check against MPFR.
use super::Out;
use crate::generate::rng::Rng;
use crate::reading::hypot;
use std::io::{BufWriter, Write};

/// A double of the given exponent field.
fn with_exponent(rng: &mut Rng, exponent: u64) -> f64 {
    f64::from_bits((exponent << 52) | (rng.u64() >> 12))
}

/// Every distance of exponents from 0 to 60, at every height.
fn apart(rng: &mut Rng) -> (f64, f64) {
    let distance = rng.below(61) as u64;
    let low = rng.below(2046 - distance as usize) as u64;
    (with_exponent(rng, low + distance), with_exponent(rng, low))
}

/// A root near the midpoint of two doubles: b^2 / 2a is near an odd number
/// of halves of a's last place.
fn near_tie(rng: &mut Rng) -> (f64, f64) {
    let exponent = 600 + rng.below(900) as u64;
    let a = with_exponent(rng, exponent);
    let last = a.next_up() - a;
    let size = 1 << rng.below(30);
    let halves = (1 + 2 * rng.below(size)) as f64;
    let b = (a * last).sqrt() * halves.sqrt();
    let b = f64::from_bits(b.to_bits() + rng.below(9) as u64 - 4);
    (a, b)
}

/// m^2 - n^2, 2 m n: the root m^2 + n^2 is exact, and of 54 bits a tie.
fn triple(rng: &mut Rng) -> (f64, f64) {
    let m = (1 << 26) + rng.below(1 << 26) as u64;
    let n = 1 + rng.below(1 << 26) as u64;
    let (x, y) = ((m * m - n * n) as f64, (2 * m * n) as f64);
    let k = 2f64.powi(rng.below(1800) as i32 - 1000);
    match rng.below(4) {
        0 => (x.next_up() * k, y * k),
        1 => (x * k, y.next_down() * k),
        _ => (x * k, y * k),
    }
}

/// Exact ties: triples with a root of 54 bits and sides of 53 at most.
fn tie(rng: &mut Rng) -> (f64, f64) {
    loop {
        let m = (94_906_266 - 40_000_000) + rng.below(79_000_000) as u64;
        let n = 1 + rng.below(m as usize - 1) as u64;
        let (x, y, r) = (m * m - n * n, 2 * m * n, m * m + n * n);
        if r >> 53 == 1 && r & 1 == 1 && x < 1 << 53 && y < 1 << 54 {
            let k = 2f64.powi(rng.below(1800) as i32 - 1000);
            return (x as f64 * k, y as f64 * k);
        }
    }
}

const SPECIAL: [f64; 12] = [
    0.,
    -0.,
    f64::INFINITY,
    f64::NEG_INFINITY,
    f64::NAN,
    1.,
    f64::MAX,
    f64::MIN_POSITIVE,
    5e-324,
    2.225073858507201e-308,
    1.2711610061536462e308,
    -1e308,
];

fn pair(rng: &mut Rng, class: u64) -> (f64, f64) {
    match class {
        0 => (f64::from_bits(rng.u64()), f64::from_bits(rng.u64())),
        1 | 2 => apart(rng),
        3 => near_tie(rng),
        4 => triple(rng),
        5 => tie(rng),
        6 => {
            let small = |rng: &mut Rng| f64::from_bits(rng.u64() >> (11 + rng.below(40)));
            (small(rng), small(rng))
        }
        7 => {
            let low = 2046 - rng.below(3) as u64;
            (with_exponent(rng, 2046), with_exponent(rng, low))
        }
        8 => {
            let any = f64::from_bits(rng.u64());
            if rng.one_in(2) {
                (any, rng.pick(&SPECIAL))
            } else {
                (rng.pick(&SPECIAL), any)
            }
        }
        _ => (rng.pick(&SPECIAL), rng.pick(&SPECIAL)),
    }
}

pub fn hypot_record(rng: &mut Rng, out: &mut Out) {
    let class = rng.below(10) as u64;
    let (x, y) = pair(rng, class);
    let (x, y) = if rng.one_in(2) { (x, y) } else { (y, -x) };
    out.f64s(&[x, y, hypot(x, y)]);
}

/// The processor's root, which IEEE 754 has correctly rounded.
pub fn sqrt_record(rng: &mut Rng, out: &mut Out) {
    let x = match rng.below(6) {
        0 => rng.pick(&SPECIAL),
        1 => f64::from_bits(rng.u64()),
        2 => f64::from_bits(rng.u64() >> (11 + rng.below(40))),
        3 => {
            // A square, and beside it.
            let root = (rng.u64() >> 38) as f64;
            let square = root * root * 4f64.powi(rng.below(900) as i32 - 450);
            rng.pick(&[square, square.next_up(), square.next_down()])
        }
        4 => {
            // Beside the square of a midpoint.
            let root = with_exponent(rng, 900);
            rng.pick(&[root * root, root * root.next_up()])
        }
        _ => rng.between(0., 1e7),
    };
    out.f64s(&[x, x.sqrt()]);
}

/// Records of a class byte, x, y and the answer, to standard output.
pub fn hypot_pairs(seed: u64, count: u64) -> Result<(), String> {
    let mut rng = Rng::new(seed);
    let mut out = BufWriter::new(std::io::stdout().lock());
    for k in 0..count {
        let (mut x, mut y) = pair(&mut rng, k % 10);
        if rng.one_in(2) {
            (x, y) = (y, x);
        }
        if rng.one_in(4) {
            x = -x;
        }
        let mut record = vec![(k % 10) as u8];
        for d in [x, y, hypot(x, y)] {
            record.extend(d.to_le_bytes());
        }
        out.write_all(&record).map_err(|e| e.to_string())?;
    }
    out.flush().map_err(|e| e.to_string())
}

#[cfg(test)]
mod tests {
    use super::*;

    /// Conversion of the exact root to a double rounds ties to even too.
    #[test]
    fn exact_roots_and_ties() {
        let mut rng = Rng::new(3);
        for _ in 0..100_000 {
            let m = 1 + rng.below(94_906_265) as u64;
            let n = 1 + rng.below(m as usize) as u64;
            let (x, y, r) = (m * m - n * n, 2 * m * n, m * m + n * n);
            if x as f64 as u64 == x && y as f64 as u64 == y {
                assert_eq!(hypot(x as f64, y as f64), r as f64, "{x} {y}");
            }
        }
    }
}
