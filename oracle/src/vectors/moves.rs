//! Slips of both forms with what moving and what reading them answers:
//! sound, cut at every length, every byte damaged, and made by hand.
use super::Out;
use crate::form::{Form, move_into, moved};
use crate::generate::insertion::{self, Stage};
use crate::generate::rng::Rng;
use crate::generate::small;
use crate::slip::{self, Sizes, read_form};

const FORMS: [Form; 2] = [Form::Plain, Form::Groups];

/// Bytes that are lent where a case does not try their number.
const LENT: usize = 2_400;

/// Records of numbers; the first says how many there are.
#[derive(Default)]
struct Records(Out);

impl Records {
    fn add(&mut self, numbers: &[usize], body: &[u8]) {
        self.0.count(1 + numbers.len() + body.len() / 4);
        numbers.iter().for_each(|&n| self.0.count(n));
        self.0.0.extend(body);
    }

    fn moving(&mut self, from: Form, slip: &[u8], lent: usize) {
        let mut room = vec![0; lent];
        let (answer, length) = move_into(from, slip, &mut room);
        let mut body = filled(slip);
        if answer == 0 {
            body.extend(filled(&room[..length]));
        }
        let direction = usize::from(from == Form::Groups);
        let numbers = [direction, answer as usize, slip.len(), lent, length];
        self.add(&numbers, &body);
    }

    /// Into rooms for so many vertices, triangles and pieces.
    fn reading(&mut self, form: Form, slip: &[u8], rooms: [u32; 3]) {
        let sizes = Sizes {
            vertices: rooms[0],
            triangles: rooms[1],
            pieces: rooms[2],
            ..Sizes::UNBOUNDED
        };
        let mut body = Out(filled(slip));
        let (mut answer, mut counts) = (0, [0; 3]);
        match read_form(form, slip, &sizes) {
            Err(refusal) => answer = refusal.0 as usize,
            Ok(job) => {
                counts = [
                    job.flags.len(),
                    job.triangles.len() / 3,
                    job.piece_kinds.len(),
                ];
                body.f64s(&job.vertices);
                job.triangles.iter().for_each(|&k| body.u32(k));
                body.0.extend(filled(&job.flags));
                body.0.extend(filled(&job.piece_kinds));
                job.piece_faces.iter().for_each(|&f| body.u32(f));
                body.f64s(&job.piece_coords);
                body.f64(job.limit);
            }
        }
        let form = 1 + usize::from(form == Form::Groups);
        let [v, t, p] = rooms.map(|n| n as usize);
        let [vertices, triangles, pieces] = counts;
        let numbers = [
            form,
            answer,
            slip.len(),
            v,
            t,
            p,
            vertices,
            triangles,
            pieces,
        ];
        self.add(&numbers, &body.0);
    }
}

/// Up to a whole number of four bytes.
fn filled(bytes: &[u8]) -> Vec<u8> {
    let mut out = bytes.to_vec();
    out.resize(bytes.len().next_multiple_of(4), 0);
    out
}

/// A slip of a form, part by part, of anything.
struct Parts(Form, Vec<u8>);

impl Parts {
    fn new(form: Form, counts: [u32; 3]) -> Parts {
        let first = if form == Form::Groups {
            vec![2]
        } else {
            vec![]
        };
        Parts(form, first).numbers(&counts)
    }
    fn numbers(mut self, numbers: &[u32]) -> Parts {
        let form = self.0;
        numbers.iter().for_each(|&n| self.1.extend(form.number(n)));
        self
    }
    fn bytes(mut self, bytes: &[u8]) -> Parts {
        self.1.extend(bytes);
        self
    }
    fn patterns(self, patterns: &[u64]) -> Parts {
        let bytes: Vec<u8> = patterns.iter().flat_map(|x| x.to_le_bytes()).collect();
        self.bytes(&bytes)
    }
}

/// Document 01's triangle.
fn triangle(form: Form) -> Vec<u8> {
    let place = |p: [f64; 3]| p.map(f64::to_bits);
    let corners = [place([0.; 3]), place([3., 0., 0.]), place([0., 4., 0.])];
    let slip = Parts::new(form, [3, 1, 1]).patterns(corners.as_flattened());
    let slip = slip.numbers(&[0, 1, 2]).bytes(&[0; 3]);
    let slip = slip.bytes(&[0]).numbers(&[0]).patterns(&[0; 3]);
    slip.patterns(&[10f64.to_bits()]).1
}

/// NaN of all kinds, infinities, zeros and the ends of the range.
const PATTERNS: [u64; 10] = [
    0x7ff8_0000_0000_0000,
    0xfff8_0000_0000_0000,
    0x7ff0_0000_0000_0001,
    0xfff0_0000_dead_beef,
    0x7fff_ffff_ffff_ffff,
    0x7ff0_0000_0000_0000,
    0xfff0_0000_0000_0000,
    0x8000_0000_0000_0000,
    0x0000_0000_0000_0001,
    0x7fef_ffff_ffff_ffff,
];

/// A segment in a far face, odd patterns: a job that is refused.
fn odd(form: Form) -> Vec<u8> {
    let slip = Parts::new(form, [1, 1, 2]).patterns(&PATTERNS[..3]);
    let slip = slip.numbers(&[127, 128, 16_384]).bytes(&[130]);
    let slip = slip
        .bytes(&[1])
        .numbers(&[u32::MAX])
        .patterns(&PATTERNS[3..9]);
    let slip = slip.bytes(&[0]).numbers(&[300]).patterns(&PATTERNS[..3]);
    slip.patterns(&PATTERNS[9..]).1
}

fn empty(form: Form) -> Vec<u8> {
    Parts::new(form, [0; 3]).patterns(&[0]).1
}

/// The ends of each number of groups, and numbers between.
const NUMBERS: [u32; 16] = [
    0,
    1,
    127,
    128,
    129,
    300,
    16_383,
    16_384,
    65_535,
    2_097_151,
    2_097_152,
    268_435_455,
    268_435_456,
    0x8000_0000,
    0xfedc_ba98,
    4_294_967_295,
];

/// Too many groups, or none that ends.
const WRONG: [&[u8]; 11] = [
    &[128, 0],
    &[255, 0],
    &[128, 128, 0],
    &[255, 255, 128, 0],
    &[129, 128, 128, 128, 0],
    &[128, 128, 128, 128, 16],
    &[255, 255, 255, 255, 16],
    &[255, 255, 255, 255, 127],
    &[128, 128, 128, 128, 128],
    &[255, 255, 255, 255, 255, 1],
    &[128, 128, 128, 128],
];

/// Each number as a vertex of a triangle, as a face and as a count.
fn numbered(form: Form) -> Vec<Vec<u8>> {
    let mut slips = vec![];
    for n in NUMBERS {
        let slip = Parts::new(form, [0, 1, 1]).numbers(&[n, 5, n]);
        slips.push(slip.bytes(&[0]).numbers(&[n]).patterns(&[0; 4]).1);
        for k in 0..3 {
            let mut counts = [0; 3];
            counts[k] = n;
            slips.push(Parts::new(form, counts).patterns(&[0; 9]).1);
        }
    }
    slips
}

/// Wrong numbers in each place that has one; what follows is too short, of
/// an unknown kind, or too long.
fn wrong() -> Vec<Vec<u8>> {
    let mut slips = vec![];
    for number in WRONG {
        for k in 0..3 {
            let counts = [&[2][..], &[0; 2][..k], number, &[0; 10]].concat();
            slips.push(counts);
        }
        for rest in [&[][..], &[0; 30], &[0; 60]] {
            let triangles = Parts::new(Form::Groups, [0, 1, 1]).bytes(&[3]);
            slips.push(triangles.bytes(number).bytes(rest).1);
            let face = Parts::new(Form::Groups, [0, 0, 2]).bytes(&[1]);
            slips.push(face.bytes(number).bytes(rest).1);
        }
    }
    slips
}

/// First bytes, kinds, and what is met first.
fn by_hand() -> Vec<Vec<u8>> {
    let mut slips: Vec<Vec<u8>> = (0..=255).map(|b| vec![b]).collect();
    for b in [0, 1, 3, 130, 255] {
        slips.push([&[b][..], &empty(Form::Groups)[1..]].concat());
        slips.push([&[b][..], &[128, 0, 128]].concat());
    }
    for kind in [2, 3, 128, 255] {
        let piece = Parts::new(Form::Groups, [0, 0, 1]).bytes(&[kind]);
        slips.push(piece.bytes(&[128, 0]).1);
        let second = Parts::new(Form::Groups, [0, 0, 2]).bytes(&[0; 26]);
        slips.push(second.bytes(&[kind]).bytes(&[0; 70]).1);
        let plain = Parts::new(Form::Plain, [0, 0, 1]).bytes(&[kind]);
        slips.push(plain.1);
        let plain = Parts::new(Form::Plain, [0, 0, 2]).bytes(&[0; 29]);
        slips.push(plain.bytes(&[kind]).bytes(&[0; 70]).1);
    }
    slips
}

/// Small jobs of either generator whose slips have at most so many bytes.
fn jobs(count: usize, most: usize) -> Vec<Vec<u8>> {
    let slips = (0..).map(|seed| match seed % 2 {
        0 => slip::write(&small::job(seed)),
        _ => slip::write(&insertion::job(seed, Stage::Insert)),
    });
    slips
        .filter(|slip| slip.len() <= most && moved(Form::Plain, slip).is_ok())
        .take(count)
        .collect()
}

fn damaged(slip: &[u8], at: usize, byte: u8) -> Vec<u8> {
    let mut slip = slip.to_vec();
    slip[at] = byte;
    slip
}

/// A slip cut at every length, and with bytes behind it.
fn cuts(slip: &[u8]) -> Vec<Vec<u8>> {
    let mut slips: Vec<Vec<u8>> = (0..=slip.len()).map(|n| slip[..n].to_vec()).collect();
    slips.extend([1, 2, 9].map(|n| [slip, &vec![n as u8; n]].concat()));
    slips
}

/// Every byte of a slip by several others.
fn damages(slip: &[u8]) -> Vec<Vec<u8>> {
    let others = |byte: u8| [byte ^ 1, byte ^ 128, 0, 255];
    let each = slip.iter().enumerate();
    each.flat_map(|(at, &byte)| others(byte).map(|other| damaged(slip, at, other)))
        .collect()
}

/// Every byte of a slip, one bit each.
fn flips(rng: &mut Rng, slip: &[u8]) -> Vec<Vec<u8>> {
    (0..slip.len())
        .map(|at| damaged(slip, at, slip[at] ^ 1 << rng.below(8)))
        .collect()
}

pub fn moves() -> Vec<u8> {
    let (mut records, mut rng) = (Records::default(), Rng::new(12));
    for form in FORMS {
        let [triangle, odd, empty] = [triangle(form), odd(form), empty(form)];
        let mut slips = [cuts(&triangle), cuts(&odd), cuts(&empty)].concat();
        slips.extend(damages(&odd));
        slips.extend(flips(&mut rng, &triangle));
        slips.extend(damages(&empty));
        slips.extend(numbered(form));
        slips.extend(by_hand());
        if form == Form::Groups {
            slips.extend(wrong());
        }
        for slip in slips {
            records.moving(form, &slip, LENT);
        }
        for slip in [triangle, odd, empty] {
            let length = move_into(form, &slip, &mut []).1;
            for lent in [0, 1, length / 2, length - 1, length, length + 1] {
                records.moving(form, &slip, lent);
                // what is refused is refused whatever is lent
                records.moving(form, &slip[..slip.len() - 1], lent);
            }
        }
    }
    for slip in jobs(40, 600) {
        records.moving(Form::Plain, &slip, LENT);
        if let Ok(grouped) = moved(Form::Plain, &slip) {
            records.moving(Form::Groups, &grouped, LENT);
        }
    }
    records.0.0
}

/// What the rooms of `reads` hold at most.
const ROOMS: [u32; 3] = [32, 32, 16];

pub fn reads() -> Vec<u8> {
    let (mut records, mut rng) = (Records::default(), Rng::new(34));
    for form in FORMS {
        let [triangle, odd, empty] = [triangle(form), odd(form), empty(form)];
        let mut slips = [cuts(&triangle), cuts(&odd), cuts(&empty)].concat();
        slips.extend(flips(&mut rng, &odd));
        slips.extend(numbered(form));
        if form == Form::Groups {
            slips.extend(wrong());
            slips.extend(by_hand());
        }
        for slip in slips {
            records.reading(form, &slip, ROOMS);
        }
        // rooms that just suffice, and one less of each
        for (slip, n) in [(triangle, [3, 1, 1]), (odd, [1, 1, 2])] {
            for less in [[0; 3], [1, 0, 0], [0, 1, 0], [0, 0, 1]] {
                let rooms = [0, 1, 2].map(|k| n[k] - less[k]);
                records.reading(form, &slip, rooms);
                records.reading(form, &slip[..slip.len() - 1], rooms);
                records.reading(form, &slip[..14], rooms);
            }
        }
    }
    for slip in jobs(30, 400) {
        records.reading(Form::Plain, &slip, ROOMS);
        if let Ok(grouped) = moved(Form::Plain, &slip) {
            records.reading(Form::Groups, &grouped, ROOMS);
        }
    }
    records.0.0
}

/// A fresh slip of either form at random, a third of them damaged.
pub fn random(seed: u64) -> (Form, Vec<u8>) {
    let mut rng = Rng::new(seed);
    let form = FORMS[rng.below(2)];
    let slip = match rng.below(4) {
        0 => slip::write(&insertion::job(rng.u64(), Stage::Insert)),
        1 => any(&mut rng, Form::Plain),
        _ => slip::write(&small::job(rng.u64())),
    };
    let mut slip = match form {
        Form::Plain => slip,
        Form::Groups => moved(Form::Plain, &slip).unwrap_or(slip),
    };
    if rng.one_in(3) {
        damage(&mut rng, &mut slip);
    }
    (form, slip)
}

/// Numbers and patterns of any size in a slip of valid shape.
fn any(rng: &mut Rng, form: Form) -> Vec<u8> {
    let counts = [0; 3].map(|_| rng.below(12) as u32);
    let pattern = |rng: &mut Rng| match rng.below(4) {
        0 => rng.pick(&PATTERNS),
        _ => rng.u64(),
    };
    let number = |rng: &mut Rng| match rng.below(4) {
        0 => rng.pick(&NUMBERS),
        _ => (rng.u64() as u32) >> rng.below(32),
    };
    let mut slip = Parts::new(form, counts);
    for _ in 0..3 * counts[0] {
        slip = slip.patterns(&[pattern(rng)]);
    }
    for _ in 0..3 * counts[1] {
        slip = slip.numbers(&[number(rng)]);
    }
    for _ in 0..counts[0] {
        slip = slip.bytes(&[rng.u64() as u8]);
    }
    for _ in 0..counts[2] {
        let kind = rng.below(2);
        slip = slip.bytes(&[kind as u8]).numbers(&[number(rng)]);
        for _ in 0..3 + 3 * kind {
            slip = slip.patterns(&[pattern(rng)]);
        }
    }
    slip.patterns(&[pattern(rng)]).1
}

fn damage(rng: &mut Rng, slip: &mut Vec<u8>) {
    let at = rng.below(slip.len() + 1);
    match rng.below(6) {
        0 => slip.truncate(at),
        1 => slip.extend((0..1 + rng.below(9)).map(|k| k as u8)),
        2 => {
            slip.insert(at, rng.u64() as u8);
        }
        3 if at < slip.len() => {
            slip.remove(at);
        }
        4 if at < slip.len() => slip[at] = rng.pick(&[0, 2, 127, 128, 255]),
        _ if at < slip.len() => slip[at] ^= 1 << rng.below(8),
        _ => {}
    }
    // the front, where counts stand, is short: it is hit more often so
    if rng.one_in(4) && slip.len() > 13 {
        let at = rng.below(13);
        slip[at] = rng.pick(&[0, 1, 2, 128, 129, 255]);
    }
}
