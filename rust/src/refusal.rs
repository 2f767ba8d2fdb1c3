//! A refusal: its number in document 01, a name, and a sentence for who planned the job.
use std::fmt;

/// What a refusal is about, where that can be told.
#[derive(Clone, Copy, Debug, PartialEq)]
#[non_exhaustive]
pub enum About {
    /// Nothing in particular.
    Job,
    /// So many of something, and at most so many are allowed.
    Count(&'static str, usize, usize),
    /// So many flags for so many vertices.
    Flags(usize, usize),
    /// A vertex of the mesh.
    Vertex(usize),
    /// A triangle of the mesh.
    Triangle(usize),
    /// A triangle, and the missing or repeated vertex that it names.
    Names(usize, u32),
    /// The edge between two vertices.
    Edge(u32, u32),
    /// A source piece.
    Piece(usize),
    /// The limit of the job.
    Limit(f64),
    /// The steps that were allowed.
    Steps(u32),
    /// The buffer that was outgrown, its slots, and the bytes that the next size of all buffers would take.
    Buffer(&'static str, u32, u64),
    /// Memory that the system does not give, in bytes.
    Memory(u64),
}

/// Why there is no field, or no answer to a question.
#[derive(Clone, Copy, Debug, PartialEq)]
pub struct Refusal {
    number: u32,
    about: About,
}

/// The number of what document 01 has no number for: the system gives no memory. None of its refusals has it.
pub(crate) const NO_MEMORY: u32 = 75;

/// The same where the library that is linked has another interface than this package was written for.
pub(crate) const OTHER_VERSION: u32 = 76;

impl Refusal {
    pub(crate) fn new(number: u32, about: About) -> Refusal {
        Refusal { number, about }
    }

    pub(crate) fn no_memory(bytes: u64) -> Refusal {
        Refusal::new(NO_MEMORY, About::Memory(bytes))
    }

    /// Its number in document 01; 74 for rows of unlike lengths, 75 for memory that the system does not give and 76 for a library of
    /// another version are this package's own.
    pub fn number(&self) -> u32 {
        self.number
    }

    /// What it is about, where that can be told.
    pub fn about(&self) -> About {
        self.about
    }

    /// A short name, the same for each number.
    pub fn name(&self) -> &'static str {
        match self.number {
            1 => "malformed job",
            2 => "missing vertex",
            3 => "repeated vertex",
            4 => "vertex out of range",
            5 => "degenerate triangle",
            6 => "piece in a missing face",
            7 => "piece out of range",
            8 => "limit out of range",
            9 => "fixed buffer too short",
            10 => "edge in three triangles",
            11 => "line end on a vertex",
            12 => "windows outgrown",
            13 => "queue outgrown",
            14 => "cut lists outgrown",
            15 => "steps spent",
            17 => "face entries outgrown",
            20 => "no sound field",
            21 => "missing face",
            22 => "point out of range",
            23 => "missing edge",
            24 => "place outside the edge",
            25 => "missing vertex in a question",
            26 => "place past the list's end",
            30 => "slip too short",
            31 => "slip with bytes left over",
            32 => "unknown kind of piece",
            33 => "slip with too many of something",
            34 => "slip in groups that does not begin with 2",
            35 => "number in too many groups",
            36 => "no room for a slip",
            40 => "STL file too short",
            41 => "STL file of another length",
            42 => "STL coordinate not finite",
            43 => "STL mesh too large",
            44 => "coordinate that no f32 holds",
            45 => "no room for STL",
            74 => "rows of unlike lengths",
            NO_MEMORY => "no memory",
            OTHER_VERSION => "library of another version",
            _ => "refused",
        }
    }

    fn advice(&self) -> &'static str {
        match self.number {
            1 => {
                "hand in one flag for each vertex, and no more than 65,535 vertices, 131,070 triangles and 65,535 pieces"
            }
            2 | 3 => "a triangle joins three different vertices of the mesh: repair the mesh",
            4 => "coordinates are numbers from -1,000,000 to 1,000,000 mm: move or scale the mesh",
            5 => {
                "an edge is shorter than 0.001 mm or a height below 0.000001 mm: merge or remove the sliver"
            }
            6 => "a piece names a triangle that is not there: count triangles from 0",
            7 => "a piece's coordinates are numbers from -1,000,000 to 1,000,000 mm",
            8 => "the limit is a number from 0 to 10,000,000 mm",
            9 => {
                "lend every fixed buffer as many slots as the job has vertices, triangles and pieces"
            }
            10 => {
                "an edge lies in more than two triangles: the surface is no manifold, repair the mesh"
            }
            11 => "a start line ends on a vertex of the mesh: move its end a little off the vertex",
            12 | 13 | 14 | 17 => "allow more memory, lower the limit, or split the job",
            15 => {
                "the queue was not empty when the steps were spent: allow more steps, or lower the limit"
            }
            20 => "what is asked is no field that a job returned",
            21 | 23 | 25 | 26 => "count from 0, below the number that the mesh has",
            22 => "coordinates are numbers from -1,000,000 to 1,000,000 mm",
            24 => "a place is a number from 0 to the edge's length",
            30..=33 => {
                "this is no whole slip of the form that was named: name the other, or make it again"
            }
            34 | 35 => "this is no slip in groups: name the other form, or make it again",
            36 => "lend as many bytes as are told",
            40 | 41 => {
                "a binary STL file has 84 bytes and 50 for each triangle, an ASCII one begins with the word solid: make it again"
            }
            42 => "coordinates are numbers: repair the mesh",
            43 => "there may be 65,535 vertices and 131,070 triangles",
            44 => "binary STL holds single precision: write PLY",
            74 => "a row has as many points or places as faces or edges",
            OTHER_VERSION => "link the static library that was made with this package",
            NO_MEMORY => "the system gives no more memory: allow less, or split the job",
            _ => "see document 01",
        }
    }
}

impl fmt::Display for About {
    fn fmt(&self, to: &mut fmt::Formatter) -> fmt::Result {
        match *self {
            About::Job => write!(to, "the job"),
            About::Count(what, n, most) => write!(to, "{n} {what}, of at most {most}"),
            About::Flags(flags, vertices) => write!(to, "{flags} flags for {vertices} vertices"),
            About::Vertex(k) => write!(to, "vertex {k}"),
            About::Triangle(k) => write!(to, "triangle {k}"),
            About::Names(k, vertex) => write!(to, "triangle {k}, which names vertex {vertex}"),
            About::Edge(a, b) => write!(to, "the edge from vertex {a} to vertex {b}"),
            About::Piece(k) => write!(to, "piece {k}"),
            About::Limit(limit) => write!(to, "the limit {limit}"),
            About::Steps(steps) => write!(to, "{steps} steps"),
            About::Buffer(name, slots, bytes) => {
                let mib = bytes.div_ceil(1 << 20);
                write!(
                    to,
                    "the buffer of {name}, of {slots} slots (the next size takes {mib} MiB in all)"
                )
            }
            About::Memory(bytes) => write!(to, "{} MiB", bytes.div_ceil(1 << 20)),
        }
    }
}

impl fmt::Display for Refusal {
    fn fmt(&self, to: &mut fmt::Formatter) -> fmt::Result {
        write!(to, "refused by {}, {}: ", self.number, self.name())?;
        match self.about {
            About::Job => {}
            about => write!(to, "{about}; ")?,
        }
        to.write_str(self.advice())
    }
}

impl std::error::Error for Refusal {}
