//! Makes upstream/exact.rs includable: an included file may not begin with
//! inner documentation, so `//!` becomes `//`. Nothing else is changed.
use std::{env, fs, path::Path};

fn main() {
    println!("cargo::rerun-if-changed=upstream/exact.rs");
    let text = fs::read_to_string("upstream/exact.rs").expect("upstream/exact.rs");
    let text: String = text
        .lines()
        .map(|line| match line.strip_prefix("//!") {
            Some(rest) => format!("//{rest}\n"),
            None => format!("{line}\n"),
        })
        .collect();
    let out = env::var("OUT_DIR").expect("OUT_DIR");
    fs::write(Path::new(&out).join("exact.rs"), text).expect("OUT_DIR is writable");
}
