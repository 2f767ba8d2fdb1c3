//! Reads an STL file through the static library, says how many vertices and triangles it has, and writes its mesh to another. Usage: outside FROM TO
mod library;

fn main() {
    let names: Vec<String> = std::env::args().skip(1).collect();
    let file = std::fs::read(&names[0]).unwrap();
    let (mut vertices, mut triangles) = (vec![0f64; 3 * 65_535], vec![0u32; 3 * 131_070]);
    match library::read(&file, &mut vertices, &mut triangles) {
        Err(refusal) => println!("refused {refusal}"),
        Ok(v) => {
            let t = (file.len() - 84) / 50;
            let mut out = vec![0u8; file.len()];
            assert_eq!(library::write(&vertices[..3 * v], &triangles[..3 * t], &mut out), Ok(file.len()));
            std::fs::write(&names[1], out).unwrap();
            println!("{v} vertices {t} triangles");
        }
    }
}
