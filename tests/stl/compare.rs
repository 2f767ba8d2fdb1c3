//! Compares reading and writing of STL through the static library with a reader with a HashMap. Usage: compare [FIRST [COUNT]]
//! COUNT small files from random ones on, a third of them damaged; then files at the bounds of 43. What is refused changes no element of the lent slices, and what is
//! read and written back has its points, bit for bit but for the sign of zeros.
mod library;
mod reader;

struct Random(u64);

impl Random {
    fn below(&mut self, n: u64) -> u64 {
        self.0 = self.0.wrapping_mul(6364136223846793005).wrapping_add(1442695040888963407);
        (self.0 >> 33) % n
    }
}

fn point(random: &mut Random) -> [f32; 3] {
    [0; 3].map(|_| match random.below(6) {
        0 => 0.0,
        1 => -0.0,
        2 => random.below(7) as f32 - 3.0,
        3 => f32::from_bits(random.below(0x0080_0000) as u32),
        4 => f32::from_bits((random.below(0x7f80_0000) | random.below(2) << 31) as u32),
        _ => random.below(1 << 24) as f32 / 4096.0,
    })
}

/// Whether the library reads a file as the other reader does, where the slices have so many elements.
fn same(file: &[u8], v: usize, t: usize) -> Result<usize, u32> {
    let (mut vertices, mut triangles) = (vec![7.5f64; v], vec![77u32; t]);
    let answer = library::read(file, &mut vertices, &mut triangles);
    let (mut wanted_v, mut wanted_t) = (vec![7.5f64; v], vec![77u32; t]);
    let wanted = reader::read(file).and_then(|m| if v / 3 < m.vertices.len() / 3 || t / 3 < m.triangles.len() / 3 { Err(45) } else { Ok(m) });
    let wanted = wanted.map(|m| {
        wanted_v[..m.vertices.len()].copy_from_slice(&m.vertices);
        wanted_t[..m.triangles.len()].copy_from_slice(&m.triangles);
        m.vertices.len() / 3
    });
    assert_eq!(answer, wanted);
    assert!(vertices.iter().zip(&wanted_v).all(|(x, y)| x.to_bits() == y.to_bits()) && triangles == wanted_t);
    if let Ok(n) = answer {
        back(file, &vertices[..3 * n], &triangles[..3 * ((file.len() - 84) / 50)]);
    }
    answer
}

/// The mesh written gives the file back.
fn back(file: &[u8], vertices: &[f64], triangles: &[u32]) {
    let mut out = vec![9u8; file.len() + 3];
    assert_eq!(library::write(vertices, triangles, &mut out), Ok(file.len()));
    assert!(out[..80] == [0; 80] && out[80..84] == file[80..84] && out[file.len()..] == [9; 3]);
    for (ours, theirs) in out[84..file.len()].chunks_exact(50).zip(file[84..].chunks_exact(50)) {
        assert!(ours[..12] == [0; 12] && ours[48..] == [0; 2]);
        for (x, y) in ours[12..48].chunks_exact(4).zip(theirs[12..48].chunks_exact(4)) {
            let zero = |b: &[u8]| b == [0; 4] || b == [0, 0, 0, 128];
            assert!(x == y || zero(x) && zero(y));
        }
    }
    assert_eq!(library::write(vertices, triangles, &mut out[..file.len() - 1]), Err(45));
}

fn main() {
    let mut arguments = std::env::args().skip(1).map(|n| n.parse::<u64>().unwrap());
    let (first, count) = (arguments.next().unwrap_or(0), arguments.next().unwrap_or(20_000));
    let mut answers = std::collections::BTreeMap::new();
    for seed in first..first + count {
        let mut random = Random(seed.wrapping_mul(0x9e37_79b9_7f4a_7c15) + 1);
        let pool: Vec<_> = (0..1 + random.below(40)).map(|_| point(&mut random)).collect();
        let points: Vec<_> = (0..3 * random.below(50)).map(|_| pool[random.below(pool.len() as u64) as usize]).collect();
        let mut file = reader::file_of(&points);
        if random.below(3) == 0 {
            match random.below(3) {
                0 => file.truncate(random.below(file.len() as u64 + 1) as usize),
                1 => file.push(0),
                _ => {
                    let at = random.below(file.len() as u64) as usize;
                    file[at] ^= 1 << random.below(8);
                }
            }
        }
        let (v, t) = (random.below(150) as usize, random.below(170) as usize);
        let lent = if random.below(4) == 0 { (v, t) } else { (600, 600) };
        *answers.entry(same(&file, lent.0, lent.1).err().unwrap_or(0)).or_insert(0) += 1;
    }
    println!("small files by their answers: {answers:?}, 0 differences");
    let distinct = |n: usize| (0..n).map(|i| [i as f32, 1.0, 0.5]).collect::<Vec<_>>();
    let mut edges = Vec::new();
    for n in [65_535, 65_536, 65_538] {
        let mut points = distinct(n);
        points.extend(distinct((3 - n % 3) % 3));
        edges.push(points);
    }
    edges.push(reader::torus(255, 257));
    edges.push(vec![[1.0, 2.0, 3.0]; 3 * 131_070]);
    edges.push(vec![[1.0, 2.0, 3.0]; 3 * 131_071]);
    edges.push(reader::sheet(300, 300));
    for points in &edges {
        let file = reader::file_of(points);
        let answer = same(&file, 3 * 65_535, 3 * 131_070);
        println!("{} triangles: {answer:?}", points.len() / 3);
        let mut bad = file.clone();
        let end = bad.len() - 6;
        bad[end..end + 4].copy_from_slice(&f32::NAN.to_le_bytes());
        assert_eq!(same(&bad, 3 * 65_535, 3 * 131_070), Err(42));
    }
}
