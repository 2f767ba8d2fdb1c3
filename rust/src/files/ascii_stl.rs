//! ASCII STL, turned into the bytes of binary STL, which the library reads.
use super::Problem;
use super::words::{Words, text};

/// Whether bytes are an ASCII STL file rather than a binary one: they begin with the word solid, and their length is not that of a binary file.
pub fn is_ascii_stl(bytes: &[u8]) -> bool {
    let count = |b: &[u8]| b.try_into().map_or(0, u32::from_le_bytes);
    let binary = bytes.get(80..84).map(|b| 84 + 50 * u64::from(count(b)));
    bytes.trim_ascii_start().starts_with(b"solid") && binary != Some(bytes.len() as u64)
}

fn expect(words: &mut Words, wanted: &str) -> Result<(), Problem> {
    match words.next() {
        Some(word) if word == wanted => Ok(()),
        Some(word) => words.problem(&format!("'{word}' should be {wanted}")),
        None => words.problem(&format!("the file ends where {wanted} should be")),
    }
}

/// A facet behind its first word, as a record: a normal of zeros, three corners, two bytes.
fn push_facet(words: &mut Words, records: &mut Vec<u8>) -> Result<(), Problem> {
    expect(words, "normal")?;
    for _ in 0..3 {
        words.number::<f32>("a number of a normal")?;
    }
    expect(words, "outer")?;
    expect(words, "loop")?;
    records.extend([0; 12]);
    for _ in 0..3 {
        expect(words, "vertex")?;
        for _ in 0..3 {
            let x: f32 = words.number("a coordinate")?;
            records.extend(x.to_le_bytes());
        }
    }
    records.extend([0; 2]);
    expect(words, "endloop")?;
    expect(words, "endfacet")
}

/// The bytes of an ASCII STL file as those of a binary one, for [`read_stl`](super::read_stl): coordinates are rounded to f32, normals are zeros, and the facets of all solids stand one behind the other.
///
/// # Errors
/// The text is no STL, or breaks off.
pub fn binary_stl(bytes: &[u8]) -> Result<Vec<u8>, Problem> {
    let mut words = Words::new(text(bytes)?);
    let mut records = vec![];
    expect(&mut words, "solid")?;
    words.end_line();
    loop {
        match words.next() {
            Some("facet") => push_facet(&mut words, &mut records)?,
            Some("endsolid") => {
                words.end_line();
                match words.next() {
                    None => break,
                    Some("solid") => words.end_line(),
                    Some(word) => return words.problem(&format!("'{word}' should be solid")),
                }
            }
            Some(word) => {
                return words.problem(&format!("'{word}' should be facet or endsolid"));
            }
            None => return words.problem("the file ends where facet or endsolid should be"),
        }
    }
    let mut file = vec![0; 80];
    let Ok(count) = u32::try_from(records.len() / 50) else {
        return words.problem("there are more facets than a binary STL file can count");
    };
    file.extend(count.to_le_bytes());
    file.extend(records);
    Ok(file)
}
