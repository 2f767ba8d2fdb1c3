//! The static library's functions.
use oracle::form::Form;

unsafe extern "C" {
    fn sirmolaat_slip_to_groups(slip: *const u8, n: usize, out: *mut u8, m: usize, told: *mut usize, k: usize) -> u32;
    fn sirmolaat_groups_to_slip(slip: *const u8, n: usize, out: *mut u8, m: usize, told: *mut usize, k: usize) -> u32;
    fn sirmolaat_read_slip_form(
        form: u32, slip: *const u8, n: usize, vertices: *mut f64, a: usize, triangles: *mut u32, b: usize, flags: *mut u8, c: usize, kinds: *mut u8, d: usize,
        faces: *mut u32, e: usize, coords: *mut f64, f: usize, told: *mut u32, g: usize, limit: *mut f64, h: usize,
    ) -> u32;
}

/// The answer, and what is told, 7 where nothing is.
pub fn move_slip(from: Form, slip: &[u8], out: &mut [u8]) -> (u32, usize) {
    let mut told = [7usize];
    let function = match from {
        Form::Plain => sirmolaat_slip_to_groups,
        Form::Groups => sirmolaat_groups_to_slip,
    };
    let answer = unsafe { function(slip.as_ptr(), slip.len(), out.as_mut_ptr(), out.len(), told.as_mut_ptr(), 1) };
    (answer, told[0])
}

/// What a slip is read to, and what is told of it.
#[derive(Clone, Debug)]
pub struct Rooms {
    pub vertices: Vec<f64>,
    pub triangles: Vec<u32>,
    pub flags: Vec<u8>,
    pub kinds: Vec<u8>,
    pub faces: Vec<u32>,
    pub coords: Vec<f64>,
    pub told: [u32; 3],
    pub limit: f64,
}

impl Rooms {
    /// For so many vertices, triangles and pieces, all 7.
    pub fn new(v: usize, t: usize, p: usize) -> Rooms {
        Rooms {
            vertices: vec![7.0; 3 * v],
            triangles: vec![7; 3 * t],
            flags: vec![7; v],
            kinds: vec![7; p],
            faces: vec![7; p],
            coords: vec![7.0; 6 * p],
            told: [7; 3],
            limit: 7.0,
        }
    }
}

pub fn read(form: u32, slip: &[u8], r: &mut Rooms) -> u32 {
    let limit = std::slice::from_mut(&mut r.limit);
    unsafe {
        sirmolaat_read_slip_form(
            form, slip.as_ptr(), slip.len(), r.vertices.as_mut_ptr(), r.vertices.len(), r.triangles.as_mut_ptr(), r.triangles.len(), r.flags.as_mut_ptr(), r.flags.len(),
            r.kinds.as_mut_ptr(), r.kinds.len(), r.faces.as_mut_ptr(), r.faces.len(), r.coords.as_mut_ptr(), r.coords.len(), r.told.as_mut_ptr(), 3, limit.as_mut_ptr(), 1,
        )
    }
}
