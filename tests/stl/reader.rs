//! A reader of binary STL with a HashMap, by the same rule as the library's: points whose coordinates compare equal are one vertex, which has the bits of the
//! first. And shapes of any size to read.
use std::collections::HashMap;

pub struct Mesh {
    pub vertices: Vec<f64>,
    pub triangles: Vec<u32>,
}

/// The refusal's number, or the mesh.
pub fn read(file: &[u8]) -> Result<Mesh, u32> {
    if file.len() < 84 {
        return Err(40);
    }
    let count = u32::from_le_bytes(file[80..84].try_into().unwrap()) as usize;
    if file.len() != 84 + 50 * count {
        return Err(41);
    }
    let mut mesh = Mesh {
        vertices: Vec::new(),
        triangles: Vec::with_capacity(3 * count),
    };
    let mut found: HashMap<[u32; 3], u32> = HashMap::new();
    let mut finite = true;
    for record in file[84..].chunks_exact(50) {
        for point in record[12..48].chunks_exact(12) {
            let mut key = [0u32; 3];
            let mut coordinates = [0f64; 3];
            for k in 0..3 {
                let x = f32::from_le_bytes(point[4 * k..4 * k + 4].try_into().unwrap());
                finite &= x.is_finite();
                key[k] = if x == 0.0 { 0 } else { x.to_bits() };
                coordinates[k] = x as f64;
            }
            let next = found.len() as u32;
            let number = *found.entry(key).or_insert(next);
            if number == next {
                mesh.vertices.extend_from_slice(&coordinates);
            }
            mesh.triangles.push(number);
        }
    }
    if !finite {
        return Err(42);
    }
    if count > 131_070 || found.len() > 65_535 {
        return Err(43);
    }
    Ok(mesh)
}

pub fn file_of(points: &[[f32; 3]]) -> Vec<u8> {
    let mut file = vec![0u8; 80];
    file.extend_from_slice(&((points.len() / 3) as u32).to_le_bytes());
    for triangle in points.chunks_exact(3) {
        file.extend_from_slice(&[0; 12]);
        for point in triangle {
            for x in point {
                file.extend_from_slice(&x.to_le_bytes());
            }
        }
        file.extend_from_slice(&[0; 2]);
    }
    file
}

/// A torus of a times b vertices, 2 a b triangles.
pub fn torus(a: usize, b: usize) -> Vec<[f32; 3]> {
    let turn = std::f64::consts::TAU;
    let at = |i: usize, j: usize| {
        let (u, v) = (turn * (i % a) as f64 / a as f64, turn * (j % b) as f64 / b as f64);
        let r = 80.0 + 25.0 * v.cos();
        [(r * u.cos()) as f32, (r * u.sin()) as f32, (25.0 * v.sin()) as f32]
    };
    let mut points = Vec::new();
    for i in 0..a {
        for j in 0..b {
            let (p, q, r, s) = (at(i, j), at(i + 1, j), at(i + 1, j + 1), at(i, j + 1));
            points.extend([p, q, r, p, r, s]);
        }
    }
    points
}

/// A sheet of whole numbers, a times b squares.
pub fn sheet(a: usize, b: usize) -> Vec<[f32; 3]> {
    let at = |i: usize, j: usize| [i as f32, j as f32, ((i * 7 + j * 3) % 11) as f32];
    let mut points = Vec::new();
    for i in 0..a {
        for j in 0..b {
            let (p, q, r, s) = (at(i, j), at(i + 1, j), at(i + 1, j + 1), at(i, j + 1));
            points.extend([p, q, r, p, r, s]);
        }
    }
    points
}
