//! Vectors of the leaves on sources and roots.
use super::Out;
use crate::exact::{self, Field, NONE, Src, Win};
use crate::generate::rng::Rng;
use crate::reading::Patched;

const SPECIAL: [f64; 20] = [
    0.,
    -0.,
    1.,
    -1.,
    2.,
    -0.5,
    4.,
    1e-13,
    1e-11,
    5e-324,
    f64::MIN_POSITIVE,
    1e-200,
    1e160,
    -1e160,
    f64::MAX,
    f64::INFINITY,
    f64::NEG_INFINITY,
    f64::NAN,
    3_464_101.615,
    1. + f64::EPSILON,
];

/// Any double, those of real fields more often than others.
pub fn number(rng: &mut Rng) -> f64 {
    match rng.below(8) {
        0 => rng.pick(&SPECIAL),
        1 => f64::from_bits(rng.u64()),
        2 => rng.below(21) as f64 - 10.,
        3 => rng.between(-1e7, 1e7),
        4 => rng.between(-1., 1.) * 10f64.powi(rng.below(30) as i32 - 15),
        _ => rng.between(-10., 10.),
    }
}

/// A finite number as fields have them.
pub fn modest(rng: &mut Rng) -> f64 {
    match rng.below(4) {
        0 => rng.below(21) as f64 - 10.,
        1 => rng.between(-1., 1.) * 10f64.powi(rng.below(8) as i32 - 4),
        _ => rng.between(-10., 10.),
    }
}

/// A source like those of fields: y at most 0, unit directions.
pub fn likely(rng: &mut Rng) -> Src {
    if rng.one_in(2) {
        let s = if rng.one_in(3) { 0. } else { modest(rng).abs() };
        return Src::Point {
            x: modest(rng),
            y: -modest(rng).abs(),
            s,
        };
    }
    let turn = rng.between(0., std::f64::consts::PI);
    let (ux, uy) = rng.pick(&[
        (turn.cos(), turn.sin()),
        (turn.cos(), turn.sin()),
        (1., 0.),
        (0., 1.),
        (-1., 0.),
    ]);
    Src::Line {
        ux,
        uy,
        c: modest(rng),
    }
}

pub fn src(rng: &mut Rng) -> Src {
    if rng.below(3) > 0 {
        return likely(rng);
    }
    let [x, y, s] = [number(rng), number(rng), number(rng)];
    if rng.one_in(2) {
        Src::Point { x, y, s }
    } else {
        Src::Line { ux: x, uy: y, c: s }
    }
}

/// The same source, or one that differs by a little in one number.
pub fn near(rng: &mut Rng, src: &Src) -> Src {
    let mut by = |x: f64| match rng.below(6) {
        0 => x.next_up(),
        1 => x + 1e-10 * (1. + x.abs()) * rng.between(-2., 2.),
        2 => x + 1e-6 * rng.between(-1., 1.),
        3 => x + rng.between(-1., 1.),
        _ => x,
    };
    match *src {
        Src::Point { x, y, s } => Src::Point {
            x: by(x),
            y: by(y),
            s: by(s),
        },
        Src::Line { ux, uy, c } => Src::Line {
            ux: by(ux),
            uy: by(uy),
            c: by(c),
        },
    }
}

fn coefficients(rng: &mut Rng) -> [f64; 3] {
    let step = |rng: &mut Rng, x: f64| rng.pick(&[x, x.next_up(), x.next_down()]);
    match rng.below(8) {
        // A leading coefficient at 1e-13 of the largest, and beside it.
        0 => {
            let (s, t) = (modest(rng), rng.between(-1., 1.));
            let a = step(rng, 1e-13 * s.abs());
            let a = if rng.one_in(2) { -a } else { a };
            if rng.one_in(2) {
                [a, s, s * t]
            } else {
                [a, s * t, s]
            }
        }
        // A discriminant of zero, and just beside it.
        1 | 2 => {
            let (a, r) = (rng.below(9) as f64 - 4., rng.below(33) as f64 / 4. - 4.);
            let (b, c) = (2. * a * r, a * r * r);
            [a, step(rng, b), step(rng, c)]
        }
        // q of zero.
        3 => [number(rng), rng.pick(&[0., -0.]), rng.pick(&[0., -0.])],
        4 | 5 => [modest(rng), modest(rng), modest(rng)],
        6 => {
            let k = 10f64.powi(rng.below(400) as i32 - 200);
            [modest(rng) * k, modest(rng) * k, modest(rng) * k]
        }
        _ => [number(rng), number(rng), number(rng)],
    }
}

/// How many, then two numbers, those not there zero.
fn answers(out: &mut Out, list: &[f64]) {
    out.u8(list.len() as u8);
    for k in 0..2 {
        out.f64(list.get(k).copied().unwrap_or(0.));
    }
}

pub fn roots(rng: &mut Rng, out: &mut Out) {
    let [a, b, c] = coefficients(rng);
    let mut list = vec![];
    exact::roots::<Patched>(a, b, c, &mut list);
    out.f64s(&[a, b, c]);
    answers(out, &list);
}

fn pair(rng: &mut Rng) -> (Src, Src) {
    let p = src(rng);
    let q = if rng.one_in(3) {
        near(rng, &p)
    } else {
        src(rng)
    };
    (p, q)
}

pub fn ties(rng: &mut Rng, out: &mut Out) {
    let (p, q) = pair(rng);
    let mut list = vec![];
    exact::ties::<Patched>(&p, &q, &mut list);
    out.src(&p);
    out.src(&q);
    answers(out, &list);
}

/// A place along the edge: often that of the source.
fn place(rng: &mut Rng, src: &Src) -> f64 {
    match *src {
        Src::Point { x, .. } if rng.one_in(6) => rng.pick(&[x, x.next_up(), -x]),
        _ if rng.below(4) > 0 => modest(rng),
        _ => number(rng),
    }
}

fn height(rng: &mut Rng) -> f64 {
    match rng.below(6) {
        0 => rng.pick(&[0., -0.]),
        1 => number(rng),
        _ => modest(rng).abs(),
    }
}

pub fn edge(rng: &mut Rng, out: &mut Out) {
    let s = src(rng);
    let x = place(rng, &s);
    out.src(&s);
    out.f64s(&[x, s.edge::<Patched>(x)]);
}

pub fn free(rng: &mut Rng, out: &mut Out) {
    let s = src(rng);
    let (x, y) = (place(rng, &s), height(rng));
    out.src(&s);
    out.f64s(&[x, y, s.free::<Patched>(x, y)]);
}

pub fn foot(rng: &mut Rng, out: &mut Out) {
    let s = src(rng);
    let x = place(rng, &s);
    // At the source's own height the ray has no foot.
    let y = match s {
        Src::Point { y, .. } if rng.one_in(6) => rng.pick(&[y, y.next_up(), y.next_down()]),
        _ => height(rng),
    };
    out.src(&s);
    out.f64s(&[x, y, s.foot(x, y)]);
}

pub fn lowest(rng: &mut Rng, out: &mut Out) {
    let s = src(rng);
    let (b0, b1) = (place(rng, &s), place(rng, &s));
    out.src(&s);
    out.f64s(&[b0, b1, s.lowest::<Patched>(b0, b1)]);
}

/// The ends are in order, as `clamp` asks.
pub fn eval(rng: &mut Rng, out: &mut Out) {
    let s = src(rng);
    let (x, y) = (place(rng, &s), height(rng));
    let foot = s.foot(x, y);
    let end = |rng: &mut Rng| {
        let e = if rng.one_in(6) { foot } else { place(rng, &s) };
        if e.is_nan() { 0. } else { e }
    };
    let (a, b) = (end(rng), end(rng));
    let (b0, b1) = if b < a { (b, a) } else { (a, b) };
    let w = Win {
        edge: 0,
        into: NONE,
        b0,
        b1,
        src: s,
        alive: true,
        queued: false,
        low: 0.,
    };
    out.f64s(&[b0, b1]);
    out.src(&s);
    out.f64s(&[x, y, w.eval::<Patched>(x, y)]);
}

/// Nearly coincident sources on an edge near the largest length: many cuts.
fn long_edge(rng: &mut Rng) -> (Src, Src, f64) {
    let l = 3_464_101.;
    let h = rng.pick(&[0.01, 1., 1000., 1e6]);
    let p = Src::Point {
        x: rng.between(0., l),
        y: -h,
        s: rng.between(0., 1e6),
    };
    let Src::Point { x, y, s } = p else {
        return (p, p, l);
    };
    let by = 10f64.powi(-(rng.below(12) as i32));
    let q = match rng.below(3) {
        0 => Src::Point { x: x + by, y, s },
        1 => Src::Point {
            x: x + by * rng.unit(),
            y: y - by * rng.unit(),
            s: s + by * rng.between(-1., 1.),
        },
        _ => {
            let ux = rng.pick(&[1., -1., 1. - 1e-12, -1. + 1e-10]);
            Src::Line {
                ux,
                uy: 1e-6,
                c: s - ux * x + by,
            }
        }
    };
    if rng.one_in(2) { (p, q, l) } else { (q, p, l) }
}

/// Two lines whose constants stay below 2^21 where their products do not:
/// the sign of their difference turns at many places.
fn turning(rng: &mut Rng) -> (Src, Src, f64, f64) {
    let (ux, h) = (rng.between(0.62, 0.95), rng.between(0.1, 0.9));
    let x = 2097152. / ux;
    let line = |ux: f64, c: f64| Src::Line {
        ux,
        uy: (1. - ux * ux).sqrt(),
        c,
    };
    let vx = ux + rng.between(-1e-9, 1e-9);
    let nudge = rng.below(5) as f64 - 2.;
    let q = line(vx, h - vx * x + nudge * 2f64.powi(-32));
    (line(ux, h - ux * x), q, x, x + rng.between(1e-4, 1e-1))
}

/// The most that `pts` or `out` may hold in a vector.
const MOST: u32 = 2_000;

pub fn better(rng: &mut Rng, out: &mut Out) {
    let (p, q, lo, hi) = match rng.below(4) {
        0 if rng.one_in(3) => turning(rng),
        0 => {
            let (p, q, l) = long_edge(rng);
            (p, q, 0., l)
        }
        1 => {
            let (p, q) = pair(rng);
            (p, q, number(rng), number(rng))
        }
        _ => {
            let (p, q) = pair(rng);
            let (a, b) = (modest(rng), modest(rng));
            (p, q, a.min(b), a.max(b))
        }
    };
    better_record(rng, out, p, q, lo, hi);
}

/// The source with `by` more at every place.
fn lifted(src: &Src, by: f64) -> Src {
    match *src {
        Src::Point { x, y, s } => Src::Point { x, y, s: s + by },
        Src::Line { ux, uy, c } => Src::Line { ux, uy, c: c + by },
    }
}

/// Two sources whose ranges along the stretch are apart, touch or just overlap, some of them at and below -1, where the tolerance turns its sign.
pub fn ranges(rng: &mut Rng, out: &mut Out) {
    let (a, b) = (modest(rng), modest(rng));
    let (lo, hi) = match rng.below(8) {
        0 => (a, b),
        1 => (number(rng), number(rng)),
        2 => (0., a.abs() * 1e-9),
        _ => (a.min(b), a.max(b)),
    };
    let p = if rng.one_in(8) { src(rng) } else { likely(rng) };
    let q = match rng.below(4) {
        0 => near(rng, &p),
        1 => src(rng),
        _ => likely(rng),
    };
    let ends = |s: &Src| [s.edge::<Patched>(lo), s.edge::<Patched>(hi)];
    let high = |s: &Src| ends(s)[0].max(ends(s)[1]);
    // A common level, and the least of one beside the greatest of the other.
    let level = rng.pick(&[0., 0., 0., -1., -1. - f64::EPSILON, -2., -1e4, 1e6]);
    let q = if level == 0. { q } else { lifted(&q, level - high(&q)) };
    let gap = match rng.below(8) {
        0 => 0.,
        1 => f64::EPSILON * (rng.below(9) as f64 - 4.) * (1. + high(&q).abs()),
        2 => 1e-10 * (1. + high(&q)) * rng.between(-3., 3.),
        3 => 1e-10 * (1. + high(&q)),
        _ => rng.between(-1., 4.),
    };
    let p = lifted(&p, high(&q) + gap - p.lowest::<Patched>(lo, hi));
    if rng.one_in(2) {
        better_record(rng, out, p, q, lo, hi);
    } else {
        better_record(rng, out, q, p, lo, hi);
    }
}

/// The answer in lists of the least capacity that suffices, or beside it.
fn better_record(rng: &mut Rng, out: &mut Out, p: Src, q: Src, lo: f64, hi: f64) {
    let run = |capacity: u32| Field::<Patched>::better(&p, &q, lo, hi, capacity);
    let need = run(MOST).map_or(MOST, |(_, most)| most as u32);
    let capacity = rng.pick(&[need, need, need + 1, need - 1, need.min(3), 0, MOST]);
    out.src(&p);
    out.src(&q);
    out.f64s(&[lo, hi]);
    out.u32(capacity);
    match run(capacity) {
        Err(r) => {
            out.u8(r.0 as u8);
            out.u32(0);
        }
        Ok((list, _)) => {
            out.u8(0);
            out.count(list.len());
            list.iter().for_each(|&(a, b)| out.f64s(&[a, b]));
        }
    }
}
