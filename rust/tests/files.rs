//! OFF, PLY and texts of start lines, whole, cut and damaged.
mod meshes;

use meshes::grid;
use sirmolaat::files::{
    binary_stl, is_ascii_stl, read_mesh, read_off, read_ply, read_sources, read_stl, write_stl,
};
use sirmolaat::picture::{Style, distances_ply, picture_ply, svg};
use sirmolaat::{Field, Options, Piece, Topology, boundary, saddles};

const OFF: &str =
    "OFF\n# a square\n4 2 5\n0 0 0\n3 0 0 255 0 0\n0 4 0\n3 4 0\n3 0 1 2\n3 2 1 3 0.5 0.5 0.5\n";

#[test]
fn off() {
    let mesh = read_mesh(OFF.as_bytes()).expect("sound");
    assert_eq!((mesh.v.len(), mesh.v[1]), (4, [3., 0., 0.]));
    assert_eq!(mesh.t, [[0, 1, 2], [2, 1, 3]]);
    assert!(read_off(b"OFF 4 1 0 0 0 0\n1 0 0\n1 1 0\n0 1 0\n4 0 1 2 3").is_err());
    let square = read_off(b"OFF 4 1 0\n0 0 0\n1 0 0\n1 1 0\n0 1 0\n4 0 1 2 3").expect("sound");
    assert_eq!(square.t, [[0, 1, 2], [0, 2, 3]]);
    for cut in 0..OFF.len() - 20 {
        assert!(read_mesh(&OFF.as_bytes()[..cut]).is_err());
    }
    assert!(read_off(b"OFF\n1000000000000 1 1\n").is_err());
    assert!(read_off(b"OFF\n0 1 0\n2 0 1\n").is_err());
    assert!(read_off(&[b'O', b'F', b'F', 0xff]).is_err());
}

fn little() -> Vec<u8> {
    let head = "ply\nformat binary_little_endian 1.0\ncomment x\nelement vertex 3\nproperty float x\nproperty double y\nproperty short z\nproperty uchar red\n\
        element face 1\nproperty list uchar int vertex_indices\nproperty list uchar float other\nend_header\n";
    let mut bytes = head.as_bytes().to_vec();
    for (x, y, z) in [(0f32, 0f64, 0i16), (3., 0., 0), (0., 4., -1)] {
        bytes.extend(x.to_le_bytes());
        bytes.extend(y.to_le_bytes());
        bytes.extend(z.to_le_bytes());
        bytes.push(9);
    }
    bytes.push(3);
    (0..3i32).for_each(|k| bytes.extend(k.to_le_bytes()));
    bytes.push(2);
    bytes.extend([0; 8]);
    bytes
}

#[test]
fn ply() {
    let mesh = read_mesh(&little()).expect("sound");
    assert_eq!(mesh.v, [[0., 0., 0.], [3., 0., 0.], [0., 4., -1.]]);
    assert_eq!(mesh.t, [[0, 1, 2]]);
    for cut in 0..little().len() {
        assert!(read_mesh(&little()[..cut]).is_err());
    }
    let text = "ply\r\nformat ascii 1.0\r\nelement vertex 3\r\nproperty float x\r\nproperty float y\r\nproperty float z\r\nelement face 1\r\n\
        property list uchar int vertex_index\r\nend_header\r\n0 0 0\r\n1 0 0\r\n0 1 0\r\n3 0 1 2\r\n";
    assert_eq!(read_ply(text.as_bytes()).expect("sound").t, [[0, 1, 2]]);
    assert!(read_ply(text.replace("3 0 1 2", "3 0 -1 2").as_bytes()).is_err());
    assert!(read_ply(text.replace("3 0 1 2", "3 0 1.5 2").as_bytes()).is_err());
    assert!(read_ply(b"ply\nformat ascii 1.0\nelement vertex 99999999999\nend_header\n").is_ok());
    assert!(read_ply(b"ply\nproperty float x\nend_header\n").is_err());
}

/// Damage to any byte is an error or another mesh, never a panic.
#[test]
fn damaged() {
    for (k, byte) in little().iter().enumerate() {
        for other in [0, byte ^ 1, byte ^ 0x80, 255] {
            let mut bytes = little();
            bytes[k] = other;
            if let Ok(mesh) = read_mesh(&bytes) {
                let flags = saddles(&mesh.v, &mesh.t, &boundary(mesh.v.len(), &mesh.t));
                let _ = Topology::new(&mesh.v, &mesh.t, &flags);
            }
        }
    }
}

#[test]
fn sources_and_pictures() {
    let (v, t) = grid(6, |x, y| 0.3 * x * y.sin());
    let topo = Topology::new(&v, &t, &vec![false; v.len()]).expect("sound");
    let read = |text: &str| read_sources(text.as_bytes(), &v, &t, &topo);
    let pieces = read("# lines\nvertex 8\npoint 0 0.1 0.2 0.3 # here\n\nline 0.3 0.2 2.2 3.1 5.7 4.4\nsegment 1 0 0 0 0 1 0\n").expect("sound");
    assert_eq!(pieces[0], Piece::Point(topo.vertex_faces[8][0], v[8]));
    assert!(pieces.len() > 8);
    for bad in [
        "vertex 999",
        "point 0 1 2",
        "point x 1 2 3",
        "line 0 0",
        "line 0 0 1",
        "line -5 0 1 1",
        "line 1.1 1 99 99",
        "circle 1 2 3",
        "vertex -1",
    ] {
        let sentence = read(&format!("\n{bad}")).expect_err(bad).to_string();
        assert!(sentence.starts_with("line 2: "), "{sentence}");
    }
    let line = &read("line 0.3 0.2 2.2 3.1").expect("sound");
    let field = Field::compute(&v, &t, &topo, line, 5., &Options::default()).expect("a field");
    let style = Style::new(0.5, t.len());
    let picture = svg(&v, &t, &field, line, &style);
    assert!(
        picture.starts_with("<svg")
            && picture.ends_with("</svg>\n")
            && picture.contains("class='s'")
            && picture.contains("class='i'")
    );
    assert!(!picture.contains("NaN") && !picture.contains("inf"));
    let mesh = read_mesh(distances_ply(&v, &t, &field).as_bytes()).expect("sound");
    assert_eq!((mesh.v, mesh.t), (v.clone(), t.clone()));
    let mesh = read_mesh(picture_ply(&v, &t, &field, line, &style).as_bytes()).expect("sound");
    assert!(
        mesh.t.len() > 16 * t.len()
            && mesh
                .t
                .as_flattened()
                .iter()
                .all(|&k| (k as usize) < mesh.v.len())
    );
}

const ASCII: &str = "solid two triangles\n\
facet normal 0 0 1\n outer loop\n  vertex 0 0 0\n  vertex 3 0 0\n  vertex 0 4 0.5\n endloop\nendfacet\n\
facet normal 0 0 1\r\n outer loop\r\n  vertex 0.0e0 4 5e-1\r\n  vertex +3.0 -0 0\r\n  vertex 3 4 -1.25\r\n endloop\r\nendfacet\r\nendsolid\n";

#[test]
fn ascii_stl() {
    let v = [[0., 0., 0.], [3., 0., 0.], [0., 4., 0.5], [3., 4., -1.25]];
    let t = [[0, 1, 2], [2, 1, 3]];
    assert!(is_ascii_stl(ASCII.as_bytes()));
    let bytes = binary_stl(ASCII.as_bytes()).expect("sound");
    assert_eq!(bytes.len(), 184);
    let mesh = read_stl(&bytes).expect("sound");
    assert_eq!((&mesh.v[..], &mesh.t[..]), (&v[..], &t[..]));
    for cut in 0..ASCII.len() {
        let whole = ASCII[..cut].trim_end().ends_with("endsolid");
        assert_eq!(binary_stl(&ASCII.as_bytes()[..cut]).is_ok(), whole);
    }
    let two = [ASCII, ASCII].concat();
    assert_eq!(binary_stl(two.as_bytes()).expect("sound").len(), 284);
    let bad = ASCII.replace("5e-1", "nan");
    let bad = binary_stl(bad.as_bytes()).expect("a word that is a number");
    assert_eq!(read_stl(&bad).expect_err("a NaN").number(), 42);
    for (old, new) in [("outer", "inner"), ("5e-1", "5e"), ("endfacet", "vertex")] {
        let text = ASCII.replace(old, new);
        let sentence = binary_stl(text.as_bytes()).expect_err("no STL").to_string();
        assert!(sentence.starts_with("line ") && sentence.contains(new));
    }
    // a binary file may begin with that word
    let mut binary = bytes.clone();
    binary[..5].copy_from_slice(b"solid");
    assert!(!is_ascii_stl(&binary) && read_stl(&binary).is_ok());
}

#[test]
fn stl() {
    let v = [[0., 0., 0.], [3., 0., 0.], [0., 4., 0.5], [3., 4., -1.25]];
    let t = [[0, 1, 2], [2, 1, 3]];
    let bytes = write_stl(&v, &t).expect("an f32 each");
    assert_eq!(bytes.len(), 184);
    let mesh = read_stl(&bytes).expect("sound");
    assert_eq!((&mesh.v[..], &mesh.t[..]), (&v[..], &t[..]));
    for cut in 0..bytes.len() {
        let number = read_stl(&bytes[..cut]).expect_err("cut").number();
        assert_eq!(number, if cut < 84 { 40 } else { 41 });
    }
    let mut bad = bytes.clone();
    bad[84 + 12..84 + 16].copy_from_slice(&f32::NAN.to_le_bytes());
    assert_eq!(read_stl(&bad).expect_err("a NaN").number(), 42);
    assert_eq!(
        write_stl(&[[0.1, 0., 0.]], &[])
            .expect_err("no f32")
            .number(),
        44
    );
    assert_eq!(
        write_stl(&v, &[[0, 1, 9]]).expect_err("missing").number(),
        2
    );
}
