//! The static library's two functions.
unsafe extern "C" {
    fn sirmolaat_stl_read(s: *const u8, n: usize, vertices: *mut f64, v: usize, triangles: *mut u32, t: usize) -> u64;
    fn sirmolaat_stl_write(vertices: *const f64, v: usize, triangles: *const u32, t: usize, out: *mut u8, n: usize) -> u64;
}

fn unpacked(answer: u64) -> Result<usize, u32> {
    match (answer >> 32) as u32 {
        0 => Ok(answer as usize),
        refusal => Err(refusal),
    }
}

/// How many vertices were read, or the refusal's number.
pub fn read(file: &[u8], vertices: &mut [f64], triangles: &mut [u32]) -> Result<usize, u32> {
    unpacked(unsafe { sirmolaat_stl_read(file.as_ptr(), file.len(), vertices.as_mut_ptr(), vertices.len(), triangles.as_mut_ptr(), triangles.len()) })
}

/// How many bytes were written, or the refusal's number.
#[allow(dead_code)]
pub fn write(vertices: &[f64], triangles: &[u32], out: &mut [u8]) -> Result<usize, u32> {
    unpacked(unsafe { sirmolaat_stl_write(vertices.as_ptr(), vertices.len(), triangles.as_ptr(), triangles.len(), out.as_mut_ptr(), out.len()) })
}
