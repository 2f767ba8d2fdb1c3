//! Files and standard input and output, as bytes; what goes wrong is a sentence.
use std::io::{Read, Write};

/// The most bytes that are read: a slip of 01's largest counts has under 8 MB, a mesh as text some ten times that.
const MOST_BYTES: u64 = 1 << 30;

pub fn read(path: &str) -> Result<Vec<u8>, String> {
    let mut bytes = vec![];
    let wrong = |error: std::io::Error| format!("{path} cannot be read: {error}");
    let read = if path == "-" {
        std::io::stdin()
            .lock()
            .take(MOST_BYTES + 1)
            .read_to_end(&mut bytes)
    } else {
        let file = std::fs::File::open(path).map_err(wrong)?;
        file.take(MOST_BYTES + 1).read_to_end(&mut bytes)
    };
    read.map_err(wrong)?;
    if bytes.len() as u64 > MOST_BYTES {
        return Err(format!("{path} has over {MOST_BYTES} bytes"));
    }
    Ok(bytes)
}

pub fn print(bytes: &[u8]) -> Result<(), String> {
    let mut out = std::io::stdout().lock();
    let done = out.write_all(bytes).and_then(|()| out.flush());
    done.map_err(|error| format!("standard output cannot be written: {error}"))
}
