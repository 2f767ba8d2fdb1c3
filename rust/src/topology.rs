//! What the library says of a mesh's edges, faces and vertices.
use crate::buffers::{Buffers, Slots};
use crate::input::Input;
use crate::refusal::Refusal;
use crate::{NONE, Vec3, culprit, ffi};

/// Mesh connectivity: edges (lower vertex first, numbered as they are met) with their faces, each face's edges, the frame of every edge in each of its faces.
#[derive(Clone, Debug, Default, PartialEq)]
pub struct Topology {
    /// The two vertices of each edge.
    pub edges: Vec<[u32; 2]>,
    /// The length of each edge.
    pub len: Vec<f64>,
    /// Unit vector along each edge, from its first to its second vertex.
    pub xhat: Vec<Vec3>,
    /// The faces of each edge; [`NONE`] where there is no second one.
    pub faces: Vec<[u32; 2]>,
    /// Face k's edge i joins `t[k][i]` and `t[k][(i + 1) % 3]`.
    pub tri_edges: Vec<[u32; 3]>,
    /// Face k's in-plane unit normal to its edge i, pointing into the face.
    pub yhat: Vec<[Vec3; 3]>,
    /// The faces round each vertex, in rising order.
    pub vertex_faces: Vec<Vec<u32>>,
    /// The vertices through which shortest paths may pass.
    pub pseudo: Vec<bool>,
}

fn three(list: &[f64]) -> Vec3 {
    [list[0], list[1], list[2]]
}

impl Topology {
    /// The topology of a mesh. `pseudo` has a flag for each vertex: whether shortest paths may pass through it (exact.rs judges that by angles: [`crate::saddles`]).
    ///
    /// # Errors
    /// Refusals 1 to 5 and 10 of the mesh.
    pub fn new(v: &[Vec3], t: &[[u32; 3]], pseudo: &[bool]) -> Result<Self, Refusal> {
        let input = Input::new(v, t, pseudo, &[], 0., 0);
        let none = Slots {
            windows: 0,
            events: 0,
            cuts: 0,
            entries: 0,
        };
        let mut buffers =
            Buffers::new(&input, none).map_err(|_| Refusal::no_memory(none.bytes_of(&input)))?;
        let [edges, ..] =
            ffi::insert(&input, &mut buffers).map_err(|number| culprit::find(number, &input))?;
        Ok(Topology::held(&buffers, edges as usize, pseudo))
    }

    /// As the buffers of a job without pieces hold it.
    fn held(b: &Buffers, edges: usize, pseudo: &[bool]) -> Self {
        let words = || b.edge_words.chunks_exact(6).take(edges);
        let reals = || b.edge_reals.chunks_exact(4).take(edges);
        let round = |ends: &[u32]| {
            b.round
                .get(ends[0] as usize..ends[1] as usize)
                .unwrap_or_default()
                .to_vec()
        };
        let normals = |list: &[f64]| [three(list), three(&list[3..]), three(&list[6..])];
        Topology {
            edges: words().map(|e| [e[0], e[1]]).collect(),
            len: reals().map(|e| e[0]).collect(),
            xhat: reals().map(|e| three(&e[1..])).collect(),
            faces: words().map(|e| [e[2], e[3]]).collect(),
            tri_edges: b
                .triangle_words
                .chunks_exact(6)
                .map(|f| [f[0], f[1], f[2]])
                .collect(),
            yhat: b.triangle_reals.chunks_exact(9).map(normals).collect(),
            vertex_faces: b.vertex_words.chunks_exact(3).map(round).collect(),
            pseudo: pseudo.to_vec(),
        }
    }

    /// The other face of edge `e`; [`NONE`] where there is none or no such edge.
    pub fn other(&self, e: u32, f: u32) -> u32 {
        match self.faces.get(e as usize) {
            Some(&[a, b]) if a == f => b,
            Some(&[a, _]) => a,
            None => NONE,
        }
    }
}
