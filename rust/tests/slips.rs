//! Slips of both forms: bytes by hand, moved there and back, cut and damaged.
use sirmolaat::Piece;
use sirmolaat::slip::{Form, Slip, move_slip, read_slip, write_slip};

const FORMS: [Form; 2] = [Form::Plain, Form::Groups];

/// One vertex, a triangle, a point and a segment, in both forms; the job is refused, for its numbers name nothing.
fn by_hand() -> (Vec<u8>, Vec<u8>) {
    let (vertex, point, segment) = ([7; 24], [0xff; 24], [0x11; 48]);
    let limit = [0; 8];
    let plain = [
        &[1, 0, 0, 0, 1, 0, 0, 0, 2, 0, 0, 0][..],
        &vertex,
        &[127, 0, 0, 0, 128, 0, 0, 0, 255, 255, 255, 255],
        &[1],
        &[0, 44, 1, 0, 0],
        &point,
        &[1, 0, 0, 0, 16],
        &segment,
        &limit,
    ];
    let groups = [
        &[2, 1, 1, 2][..],
        &vertex,
        &[127, 128, 1, 255, 255, 255, 255, 15],
        &[1],
        &[0, 172, 2],
        &point,
        &[1, 128, 128, 128, 128, 1],
        &segment,
        &limit,
    ];
    (plain.concat(), groups.concat())
}

fn moved(from: Form, bytes: &[u8]) -> Result<Vec<u8>, u32> {
    move_slip(from, bytes).map_err(|refusal| refusal.number())
}

#[test]
fn there_and_back() {
    let (plain, groups) = by_hand();
    assert_eq!(moved(Form::Plain, &plain), Ok(groups.clone()));
    assert_eq!(moved(Form::Groups, &groups), Ok(plain));
}

#[test]
fn the_same_job() {
    let (plain, groups) = by_hand();
    let job = read_slip(Form::Plain, &plain).expect("a slip");
    let other = read_slip(Form::Groups, &groups).expect("a slip");
    // a NaN equals nothing, so the jobs are compared as they are shown
    assert_eq!(format!("{job:?}"), format!("{other:?}"));
    assert_eq!(job.t, [[127, 128, u32::MAX]]);
    assert!(matches!(
        job.pieces[..],
        [Piece::Point(300, _), Piece::Segment(268_435_456, _, _)]
    ));
}

#[test]
fn cut_and_damaged() {
    let (plain, groups) = by_hand();
    for (form, slip) in [(Form::Plain, plain), (Form::Groups, groups)] {
        for n in 0..slip.len() {
            assert_eq!(moved(form, &slip[..n]), Err(30), "{form:?} {n}");
            assert!(read_slip(form, &slip[..n]).is_err());
            for byte in [0, 2, 127, 128, 255] {
                let mut bad = slip.clone();
                bad[n] = byte;
                if let Ok(other) = moved(form, &bad) {
                    assert_eq!(moved(form.other(), &other), Ok(bad.clone()));
                }
                let _ = read_slip(form, &bad);
            }
        }
        let long = [&slip[..], &[0]].concat();
        assert_eq!(moved(form, &long), Err(31));
    }
}

#[test]
fn refused() {
    let number = |bytes: &[u8]| {
        let read = read_slip(Form::Groups, bytes).map_err(|refusal| refusal.number());
        let moved = moved(Form::Groups, bytes).map(|_| ());
        (read.map(|_| ()), moved)
    };
    let both = |n: u32| (Err(n), Err(n));
    assert_eq!(number(&[]), both(30));
    assert_eq!(number(&[1]), both(34));
    assert_eq!(number(&[3, 128, 0]), both(34));
    assert_eq!(number(&[2, 0, 0]), both(30));
    assert_eq!(number(&[2, 128, 0]), both(35));
    assert_eq!(number(&[2, 0, 0, 255, 255, 255, 255, 16]), both(35));
    assert_eq!(number(&[2, 0, 128, 128, 128, 128, 128]), both(35));
    assert_eq!(number(&[2, 0, 0, 1, 2]), both(32));
    // a count above what a job may have: refused where it is read, not where it is moved
    assert_eq!(number(&[2, 128, 128, 4, 128, 0]), both(35));
    assert_eq!(number(&[3, 128, 128, 4, 0, 0]), both(34));
    assert_eq!(number(&[2, 128, 128, 4, 0, 0]), (Err(33), Err(30)));
    let large = [&[2, 128, 128, 4, 0, 0][..], &[0; 25 * 65_536 + 8]].concat();
    assert_eq!(number(&large), (Err(33), Ok(())));
}

#[test]
fn an_empty_job() {
    let slip = Slip {
        v: vec![],
        t: vec![],
        flags: vec![],
        pieces: vec![],
        limit: 0.,
    };
    for form in FORMS {
        let bytes = write_slip(form, &slip).expect("a slip");
        assert_eq!(bytes.len(), if form == Form::Plain { 20 } else { 12 });
        assert_eq!(read_slip(form, &bytes), Ok(slip.clone()));
    }
}
