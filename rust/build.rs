//! Links the proved static library. `SIRMOLAAT_ARCHIVE` names its file; without it archive.sh proves and makes it, by the Rattle kit's `rt`.
use std::path::{Path, PathBuf};
use std::process::{Command, Stdio, exit};

/// A plain sentence, and no panic's trace.
fn fail(sentence: &str) -> ! {
    println!("cargo::error={sentence}");
    exit(1)
}

fn make(package: &Path) -> PathBuf {
    let Some(root) = package.parent() else {
        fail("this package stands in no repository: set SIRMOLAAT_ARCHIVE");
    };
    for path in ["crates", "crates.txt", "rust/archive.sh"] {
        println!("cargo::rerun-if-changed={}", root.join(path).display());
    }
    let mut command = Command::new("sh");
    command
        .arg(package.join("archive.sh"))
        .stdout(Stdio::null())
        .stderr(Stdio::null());
    if !command.status().is_ok_and(|status| status.success()) {
        fail(
            "sh rust/archive.sh failed: run it to see why. It needs the Rattle kit's rt on the path; or set SIRMOLAAT_ARCHIVE to a libsirmolaat.a",
        );
    }
    root.join("target/staticlib/libsirmolaat.a")
}

fn given(archive: PathBuf) -> PathBuf {
    println!("cargo::rerun-if-changed={}", archive.display());
    archive
}

fn main() {
    println!("cargo::rerun-if-env-changed=SIRMOLAAT_ARCHIVE");
    println!("cargo::rerun-if-changed=build.rs");
    let archive = match std::env::var_os("SIRMOLAAT_ARCHIVE") {
        Some(archive) => given(PathBuf::from(archive)),
        None => make(Path::new(env!("CARGO_MANIFEST_DIR"))),
    };
    let Some(folder) = std::env::var_os("OUT_DIR") else {
        fail("cargo names no folder to write to");
    };
    // cargo links a copy of its own, which stays when target/ goes
    let copy = Path::new(&folder).join("libsirmolaat.a");
    if let Err(error) = std::fs::copy(&archive, copy) {
        fail(&format!(
            "the archive {} cannot be read: {error}",
            archive.display()
        ));
    }
    println!("cargo::rustc-link-lib=static=sirmolaat");
    println!("cargo::rustc-link-search=native={}", folder.display());
}
