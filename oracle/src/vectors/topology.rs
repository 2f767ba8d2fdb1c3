//! Meshes with their topology, or the refusal that they get.
use super::Out;
use crate::exact::Topology;
use crate::generate::rng::Rng;
use crate::generate::small;
use crate::generate::workshop::{self, Shape};
use crate::job::{Job, Mesh};

fn write(job: &Job, out: &mut Out) {
    out.count(job.vertices.len());
    out.f64s(&job.vertices);
    out.count(job.triangles.len());
    job.triangles.iter().for_each(|&k| out.u32(k));
    out.count(job.flags.len());
    job.flags.iter().for_each(|&b| out.u8(b));
    match Mesh::new(job) {
        Err(r) => out.u32(r.0),
        Ok(mesh) => {
            out.u32(0);
            topology(&mesh.topo, out);
        }
    }
}

fn topology(topo: &Topology, out: &mut Out) {
    out.count(topo.edges.len());
    for e in 0..topo.edges.len() {
        topo.edges[e]
            .iter()
            .chain(&topo.faces[e])
            .for_each(|&k| out.u32(k));
        out.f64(topo.len[e]);
        out.f64s(&topo.xhat[e]);
    }
    for (te, yhat) in topo.tri_edges.iter().zip(&topo.yhat) {
        te.iter().for_each(|&e| out.u32(e));
        yhat.iter().for_each(|y| out.f64s(y));
    }
    for list in &topo.vertex_faces {
        out.count(list.len());
        list.iter().for_each(|&f| out.u32(f));
    }
}

/// The mesh of a small job, without its pieces.
pub fn small(seed: u64, out: &mut Out) {
    let mut job = small::job(seed);
    if seed.is_multiple_of(3) {
        let mut rng = Rng::new(seed);
        small::defect(&mut rng, &mut job);
    }
    job.piece_kinds.clear();
    job.piece_faces.clear();
    job.piece_coords.clear();
    job.limit = 0.;
    write(&job, out);
}

/// About 8,000 triangles, without a defect.
pub fn huge(seed: u64, out: &mut Out) {
    let shape = Shape::ALL[(seed % 6) as usize];
    write(&workshop::job(shape, 8_000, 0, 1., seed), out);
}

pub fn large(seed: u64, out: &mut Out) {
    let shape = Shape::ALL[(seed % 6) as usize];
    let mut job = workshop::job(shape, 2_000, 0, 1., seed);
    // One of four has an edge in a third triangle, one a thin triangle.
    if seed.is_multiple_of(4) {
        let last: Vec<u32> = job.triangles[..3].to_vec();
        job.triangles.extend(last.iter().chain(&last));
    } else if seed % 4 == 1 {
        let tri = job.triangles[..3].to_vec();
        let [a, b, c] = [tri[0], tri[1], tri[2]].map(|k| 3 * k as usize);
        for k in 0..3 {
            job.vertices[c + k] = (job.vertices[a + k] + job.vertices[b + k]) / 2.;
        }
    }
    write(&job, out);
}
