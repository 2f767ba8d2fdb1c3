//! The two stored forms of a slip: numbers in four bytes, or in groups of
//! seven bits; refusals 34 to 36, and the moves from either to the other.
//! A move walks bytes: what the bits of a double mean does not matter.
use crate::exact::Refusal;

#[derive(Clone, Copy, Debug, PartialEq, Eq)]
pub enum Form {
    Plain,
    Groups,
}

impl Form {
    pub fn other(self) -> Form {
        match self {
            Form::Plain => Form::Groups,
            Form::Groups => Form::Plain,
        }
    }

    /// What a slip of the form begins with.
    fn first(self) -> Vec<u8> {
        match self {
            Form::Plain => vec![],
            Form::Groups => vec![2],
        }
    }

    pub fn number(self, n: u32) -> Vec<u8> {
        match self {
            Form::Plain => n.to_le_bytes().to_vec(),
            Form::Groups => groups(n),
        }
    }
}

/// Groups of seven bits, lowest first, the top bit set on all but the last,
/// as few as hold the number.
pub fn groups(mut n: u32) -> Vec<u8> {
    let mut out = vec![];
    while n > 127 {
        out.push((n % 128) as u8 + 128);
        n /= 128;
    }
    out.push(n as u8);
    out
}

/// What is left to read of a slip.
pub struct Bytes<'a> {
    form: Form,
    rest: &'a [u8],
}

impl<'a> Bytes<'a> {
    pub fn new(form: Form, slip: &'a [u8]) -> Result<Bytes<'a>, Refusal> {
        let rest = match (form, slip) {
            (Form::Plain, _) => slip,
            (Form::Groups, []) => return Err(Refusal(30)),
            (Form::Groups, [2, rest @ ..]) => rest,
            (Form::Groups, _) => return Err(Refusal(34)),
        };
        Ok(Bytes { form, rest })
    }

    pub fn take(&mut self, n: u64) -> Result<&'a [u8], Refusal> {
        if (self.rest.len() as u64) < n {
            return Err(Refusal(30));
        }
        let (taken, rest) = self.rest.split_at(n as usize);
        self.rest = rest;
        Ok(taken)
    }

    pub fn byte(&mut self) -> Result<u8, Refusal> {
        Ok(self.take(1)?[0])
    }

    pub fn u32(&mut self) -> Result<u32, Refusal> {
        match self.form {
            Form::Plain => {
                let bytes = self.take(4)?;
                Ok(u32::from_le_bytes([bytes[0], bytes[1], bytes[2], bytes[3]]))
            }
            Form::Groups => self.grouped(),
        }
    }

    /// 35: a last group that holds nothing, a fifth that is not the last, or
    /// a number above the largest u32.
    fn grouped(&mut self) -> Result<u32, Refusal> {
        let mut n = 0u64;
        for k in 0..5 {
            let byte = self.byte()?;
            n += u64::from(byte % 128) << (7 * k);
            if byte < 128 {
                let needless = k > 0 && byte == 0;
                let n = u32::try_from(n).ok().filter(|_| !needless);
                return n.ok_or(Refusal(35));
            }
        }
        Err(Refusal(35))
    }

    pub fn f64(&mut self) -> Result<f64, Refusal> {
        let mut bytes = [0; 8];
        bytes.copy_from_slice(self.take(8)?);
        Ok(f64::from_le_bytes(bytes))
    }

    pub fn end(&self) -> Result<(), Refusal> {
        match self.rest {
            [] => Ok(()),
            _ => Err(Refusal(31)),
        }
    }
}

struct Move<'a> {
    from: Bytes<'a>,
    to: Form,
    out: Vec<u8>,
}

impl Move<'_> {
    fn number(&mut self) -> Result<u64, Refusal> {
        let n = self.from.u32()?;
        self.out.extend(self.to.number(n));
        Ok(n.into())
    }

    fn copy(&mut self, n: u64) -> Result<(), Refusal> {
        self.out.extend(self.from.take(n)?);
        Ok(())
    }

    fn piece(&mut self) -> Result<(), Refusal> {
        let kind = self.from.byte()?;
        if kind > 1 {
            return Err(Refusal(32));
        }
        self.out.push(kind);
        self.number()?;
        self.copy(if kind == 0 { 24 } else { 48 })
    }
}

/// A slip of one form in the other; any of valid shape, its job sound or not.
pub fn moved(from: Form, slip: &[u8]) -> Result<Vec<u8>, Refusal> {
    let to = from.other();
    let mut walk = Move {
        from: Bytes::new(from, slip)?,
        to,
        out: to.first(),
    };
    let (vertices, triangles, pieces) = (walk.number()?, walk.number()?, walk.number()?);
    walk.copy(24 * vertices)?;
    for _ in 0..3 * triangles {
        walk.number()?;
    }
    walk.copy(vertices)?;
    for _ in 0..pieces {
        walk.piece()?;
    }
    walk.copy(8)?;
    walk.from.end()?;
    Ok(walk.out)
}

/// The same into lent bytes: the length, also of what has no room (36);
/// refused, nothing is written.
pub fn move_into(from: Form, slip: &[u8], to: &mut [u8]) -> (u32, usize) {
    match moved(from, slip) {
        Err(refusal) => (refusal.0, 0),
        Ok(out) if to.len() < out.len() => (36, out.len()),
        Ok(out) => {
            to[..out.len()].copy_from_slice(&out);
            (0, out.len())
        }
    }
}

#[cfg(test)]
mod tests {
    use super::*;

    /// Two vertices, two triangles, a point and a segment, by hand.
    fn by_hand() -> (Vec<u8>, Vec<u8>) {
        let mut plain = vec![2, 0, 0, 0, 2, 0, 0, 0, 2, 0, 0, 0];
        let mut grouped = vec![2, 2, 2, 2];
        let vertices: Vec<u8> = (100..148).collect();
        plain.extend(&vertices);
        grouped.extend(&vertices);
        plain.extend([0, 0, 0, 0, 1, 0, 0, 0, 127, 0, 0, 0]);
        grouped.extend([0, 1, 127]);
        plain.extend([128, 0, 0, 0, 0, 64, 0, 0, 255, 255, 255, 255]);
        grouped.extend([128, 1, 128, 128, 1, 255, 255, 255, 255, 15]);
        plain.extend([9, 255]);
        grouped.extend([9, 255]);
        let point: Vec<u8> = (0..24).collect();
        plain.extend([0, 44, 1, 0, 0]);
        grouped.extend([0, 172, 2]);
        plain.extend(&point);
        grouped.extend(&point);
        let segment: Vec<u8> = (200..248).collect();
        plain.extend([1, 0, 0, 0, 128]);
        grouped.extend([1, 128, 128, 128, 128, 8]);
        plain.extend(&segment);
        grouped.extend(&segment);
        // a NaN with a sign and a payload
        let limit = [1, 2, 3, 4, 5, 6, 0xf7, 0xff];
        plain.extend(limit);
        grouped.extend(limit);
        (plain, grouped)
    }

    #[test]
    fn both_ways() {
        let (plain, grouped) = by_hand();
        assert_eq!(moved(Form::Plain, &plain), Ok(grouped.clone()));
        assert_eq!(moved(Form::Groups, &grouped), Ok(plain));
    }

    #[test]
    fn cut_and_left_over() {
        let (plain, grouped) = by_hand();
        for (form, slip) in [(Form::Plain, plain), (Form::Groups, grouped)] {
            for n in 0..slip.len() {
                assert_eq!(moved(form, &slip[..n]), Err(Refusal(30)), "{form:?} {n}");
            }
            assert_eq!(moved(form, &[&slip[..], &[0]].concat()), Err(Refusal(31)));
        }
    }

    #[test]
    fn numbers() {
        for (n, bytes) in [
            (0, &[0][..]),
            (1, &[1]),
            (127, &[127]),
            (128, &[128, 1]),
            (300, &[172, 2]),
            (16_383, &[255, 127]),
            (16_384, &[128, 128, 1]),
            (2_097_151, &[255, 255, 127]),
            (2_097_152, &[128, 128, 128, 1]),
            (268_435_455, &[255, 255, 255, 127]),
            (268_435_456, &[128, 128, 128, 128, 1]),
            (4_294_967_295, &[255, 255, 255, 255, 15]),
        ] {
            assert_eq!(groups(n), bytes);
            let rest = &mut Bytes {
                form: Form::Groups,
                rest: bytes,
            };
            assert_eq!((rest.u32(), rest.end()), (Ok(n), Ok(())));
        }
    }

    fn number(bytes: &[u8]) -> Result<u32, Refusal> {
        let form = Form::Groups;
        Bytes { form, rest: bytes }.u32()
    }

    #[test]
    fn numbers_refused() {
        for bytes in [
            &[128, 0][..],
            &[255, 128, 0],
            &[129, 128, 128, 0],
            &[128, 128, 128, 128, 0],
            // above the largest
            &[128, 128, 128, 128, 16],
            &[255, 255, 255, 255, 127],
            // a fifth group that is not the last, whatever follows
            &[128, 128, 128, 128, 128],
            &[128, 128, 128, 128, 129, 0],
        ] {
            assert_eq!(number(bytes), Err(Refusal(35)), "{bytes:?}");
        }
        for bytes in [&[][..], &[128], &[255, 255], &[128, 128, 128, 128]] {
            assert_eq!(number(bytes), Err(Refusal(30)), "{bytes:?}");
        }
    }

    #[test]
    fn the_order_of_refusals() {
        let refused = |slip: &[u8]| moved(Form::Groups, slip).map_err(|r| r.0);
        assert_eq!(refused(&[]), Err(30));
        assert_eq!(refused(&[1]), Err(34));
        assert_eq!(refused(&[3, 128, 0]), Err(34));
        assert_eq!(refused(&[2]), Err(30));
        assert_eq!(refused(&[2, 128, 0]), Err(35));
        assert_eq!(refused(&[2, 0, 0, 128, 0]), Err(35));
        // the first count says more than there is, the second is in too many groups: that is met first
        assert_eq!(refused(&[2, 9, 128, 0]), Err(35));
        assert_eq!(refused(&[2, 9, 0, 0]), Err(30));
        // a triangle in too many groups, behind it nothing
        assert_eq!(refused(&[2, 0, 1, 0, 7, 128, 0]), Err(35));
        assert_eq!(refused(&[2, 0, 1, 0, 7, 128]), Err(30));
        // a kind of 2 before its face; a face before what is left over
        assert_eq!(refused(&[2, 0, 0, 1, 2, 128, 0]), Err(32));
        assert_eq!(refused(&[2, 0, 0, 1, 1, 128, 0]), Err(35));
        let mut limit = vec![2, 0, 0, 0];
        limit.extend([0; 8]);
        assert_eq!(refused(&limit), Ok(vec![0; 20]));
        limit.push(128);
        assert_eq!(refused(&limit), Err(31));
    }

    #[test]
    fn large_counts() {
        for k in 0..3 {
            let mut plain = vec![0; 20];
            plain[4 * k..4 * k + 4].fill(255);
            assert_eq!(moved(Form::Plain, &plain), Err(Refusal(30)));
            let mut counts = [vec![0], vec![0], vec![0]];
            counts[k] = vec![255, 255, 255, 255, 15];
            let grouped = [&[2][..], &counts.concat(), &[0; 60]].concat();
            assert_eq!(moved(Form::Groups, &grouped), Err(Refusal(30)));
        }
    }

    #[test]
    fn rooms() {
        let (plain, grouped) = by_hand();
        let n = grouped.len();
        let mut room = vec![7; n + 3];
        assert_eq!(move_into(Form::Plain, &plain, &mut room[..n - 1]), (36, n));
        assert_eq!(room, vec![7; n + 3]);
        assert_eq!(move_into(Form::Plain, &plain, &mut room), (0, n));
        assert_eq!(room, [&grouped[..], &[7; 3]].concat());
        assert_eq!(move_into(Form::Groups, &plain[..5], &mut []), (30, 0));
    }
}
