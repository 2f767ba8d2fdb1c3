//! PLY: a header that says what elements there are and what each has, then the elements as text or as bytes of either order.
use super::words::{Words, text};
use super::{Mesh, Problem, problem};

#[derive(Clone, Copy, PartialEq)]
enum Kind {
    I8,
    U8,
    I16,
    U16,
    I32,
    U32,
    F32,
    F64,
}

#[derive(Clone, Copy, PartialEq)]
enum Form {
    Text,
    Little,
    Big,
}

struct Property {
    name: String,
    /// Of a list, the kind of its length.
    length: Option<Kind>,
    kind: Kind,
}

struct Element {
    name: String,
    count: usize,
    properties: Vec<Property>,
}

impl Kind {
    fn parse(name: &str) -> Result<Kind, Problem> {
        Ok(match name {
            "char" | "int8" => Kind::I8,
            "uchar" | "uint8" => Kind::U8,
            "short" | "int16" => Kind::I16,
            "ushort" | "uint16" => Kind::U16,
            "int" | "int32" => Kind::I32,
            "uint" | "uint32" => Kind::U32,
            "float" | "float32" => Kind::F32,
            "double" | "float64" => Kind::F64,
            _ => return problem(format!("the PLY header has an unknown type {name}")),
        })
    }

    fn size(self) -> usize {
        match self {
            Kind::I8 | Kind::U8 => 1,
            Kind::I16 | Kind::U16 => 2,
            Kind::I32 | Kind::U32 | Kind::F32 => 4,
            Kind::F64 => 8,
        }
    }

    /// The value of so many bytes, the least first.
    fn value(self, bytes: [u8; 8]) -> f64 {
        let number = u64::from_le_bytes(bytes);
        match self {
            Kind::I8 => f64::from(number as u8 as i8),
            Kind::U8 => f64::from(number as u8),
            Kind::I16 => f64::from(number as u16 as i16),
            Kind::U16 => f64::from(number as u16),
            Kind::I32 => f64::from(number as u32 as i32),
            Kind::U32 => f64::from(number as u32),
            Kind::F32 => f64::from(f32::from_bits(number as u32)),
            Kind::F64 => f64::from_bits(number),
        }
    }
}

/// The values of the body, one after the other.
enum Body<'a> {
    Text(Words<'a>),
    Bytes(&'a [u8], Form),
}

impl Body<'_> {
    fn value(&mut self, kind: Kind) -> Result<f64, Problem> {
        match self {
            Body::Text(words) => words.number("a number"),
            Body::Bytes(bytes, form) => {
                let Some((head, rest)) = bytes.split_at_checked(kind.size()) else {
                    return problem("the PLY file breaks off");
                };
                let mut value = [0; 8];
                value[..head.len()].copy_from_slice(head);
                if *form == Form::Big {
                    value[..head.len()].reverse();
                }
                *bytes = rest;
                Ok(kind.value(value))
            }
        }
    }
}

fn property<'a>(mut words: impl Iterator<Item = &'a str>) -> Result<Property, Problem> {
    let mut word = || {
        words
            .next()
            .ok_or(Problem("a property of the PLY header is not whole".into()))
    };
    let first = word()?;
    let (length, kind) = match first {
        "list" => (Some(Kind::parse(word()?)?), Kind::parse(word()?)?),
        kind => (None, Kind::parse(kind)?),
    };
    let name = word()?.into();
    Ok(Property { name, length, kind })
}

fn header(text: &str) -> Result<(Form, Vec<Element>), Problem> {
    let (mut form, mut elements) = (None, Vec::<Element>::new());
    for line in text.lines().skip(1) {
        let mut words = line.split_whitespace();
        match words.next() {
            Some("format") => {
                form = match words.next() {
                    Some("ascii") => Some(Form::Text),
                    Some("binary_little_endian") => Some(Form::Little),
                    Some("binary_big_endian") => Some(Form::Big),
                    _ => return problem("the PLY header has an unknown format"),
                };
            }
            Some("element") => {
                let name = words.next().unwrap_or("").into();
                let Some(count) = words.next().and_then(|word| word.parse().ok()) else {
                    return problem("an element of the PLY header has no count");
                };
                elements.push(Element {
                    name,
                    count,
                    properties: vec![],
                });
            }
            Some("property") => match elements.last_mut() {
                Some(element) => element.properties.push(property(words)?),
                None => return problem("a property of the PLY header belongs to no element"),
            },
            _ => {}
        }
    }
    match form {
        Some(form) => Ok((form, elements)),
        None => problem("the PLY header has no format"),
    }
}

fn number(value: f64) -> Result<u32, Problem> {
    if (0. ..4_294_967_296.).contains(&value) && value.fract() == 0. {
        return Ok(value as u32);
    }
    problem(format!("a face of the PLY file names vertex {value}"))
}

/// One element: coordinates by their names, and the vertices of a face.
fn element(body: &mut Body, element: &Element, mesh: &mut Mesh) -> Result<(), Problem> {
    let (vertex, face) = (element.name == "vertex", element.name == "face");
    let mut point = [f64::NAN; 3];
    for property in &element.properties {
        let Some(length) = property.length else {
            let value = body.value(property.kind)?;
            if let Some(axis) = ["x", "y", "z"]
                .iter()
                .position(|name| *name == property.name)
            {
                point[axis] = value;
            }
            continue;
        };
        let length = number(body.value(length)?)?;
        let mut corners = vec![];
        for _ in 0..length {
            let value = body.value(property.kind)?;
            if face && property.name.starts_with("vertex_ind") {
                corners.push(number(value)?);
            }
        }
        mesh.push_face(&corners);
    }
    if vertex {
        mesh.v.push(point);
    }
    Ok(())
}

/// A mesh of the bytes of a PLY file, of any of its three forms. A face of more than three vertices becomes triangles round its first; what else the file has is passed over.
///
/// # Errors
/// The bytes are no PLY, or break off.
pub fn read_ply(bytes: &[u8]) -> Result<Mesh, Problem> {
    const END: &[u8] = b"end_header";
    let Some(end) = bytes.windows(END.len()).position(|word| word == END) else {
        return problem("the PLY header has no end_header");
    };
    let (form, elements) = header(text(&bytes[..end])?)?;
    let rest = &bytes[end + END.len()..];
    let rest = rest.strip_prefix(b"\r").unwrap_or(rest);
    let rest = rest.strip_prefix(b"\n").unwrap_or(rest);
    let mut body = match form {
        Form::Text => Body::Text(Words::new(text(rest)?)),
        form => Body::Bytes(rest, form),
    };
    let mut mesh = Mesh::default();
    for kind in elements
        .iter()
        .filter(|element| !element.properties.is_empty())
    {
        for _ in 0..kind.count {
            element(&mut body, kind, &mut mesh)?;
        }
    }
    Ok(mesh)
}
