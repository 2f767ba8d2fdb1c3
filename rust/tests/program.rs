//! The programs distance_field and move_slips, as they are called.
use std::io::Write;
use std::path::{Path, PathBuf};
use std::process::{Command, Output, Stdio};

fn run(words: &[&str]) -> Output {
    let program = env!("CARGO_BIN_EXE_distance_field");
    Command::new(program)
        .args(words)
        .stdin(Stdio::null())
        .output()
        .expect("the program runs")
}

/// The program move_slips, with something on standard input.
fn run_moves(words: &[&str], input: &[u8]) -> Output {
    let mut program = Command::new(env!("CARGO_BIN_EXE_move_slips"));
    let program = program.args(words).stdin(Stdio::piped());
    let program = program.stdout(Stdio::piped()).stderr(Stdio::piped());
    let mut child = program.spawn().expect("the program runs");
    // it may end before it has read all
    let _ = child.stdin.take().expect("a pipe").write_all(input);
    child.wait_with_output().expect("the program ends")
}

fn status(words: &[&str]) -> Option<i32> {
    run(words).status.code()
}

/// A file of this test's own.
fn file(name: &str, bytes: &[u8]) -> PathBuf {
    let path = std::env::temp_dir().join(format!("distance_field-{}-{name}", std::process::id()));
    std::fs::write(&path, bytes).expect("a temporary file");
    path
}

const OFF: &[u8] = b"OFF\n4 2 5\n0 0 0\n3 0 0\n0 4 0\n3 4 0\n3 0 1 2\n3 2 1 3\n";

#[test]
fn a_slip_and_a_mesh() {
    let slip = concat!(env!("CARGO_MANIFEST_DIR"), "/../examples/triangle.slip");
    let printed = include_str!("../../examples/triangle.printed");
    let out = run(&[slip]);
    assert_eq!(
        (
            out.status.code(),
            String::from_utf8_lossy(&out.stdout).as_ref()
        ),
        (Some(0), printed)
    );
    let (mesh, lines) = (file("mesh.off", OFF), file("lines.txt", b"vertex 0\n"));
    let (mesh, lines) = (mesh.to_string_lossy(), lines.to_string_lossy());
    let out = run(&[&mesh, "--sources", &lines, "--write", "distances"]);
    let text = String::from_utf8_lossy(&out.stdout);
    let distances = text
        .lines()
        .map(|line| line.parse::<f64>().expect("a number"));
    assert!(
        distances
            .zip([0., 3., 4., 5.])
            .all(|(a, b)| (a - b).abs() < 1e-9)
            && text.lines().count() == 4
    );
    for kind in ["print-out", "ply", "picture", "svg"] {
        let out = run(&[
            &mesh,
            "--sources",
            &lines,
            "--write",
            kind,
            "--view",
            "oblique",
        ]);
        assert!(out.status.success() && !out.stdout.is_empty() && out.stderr.is_empty());
    }
    let to = file("out.svg", b"");
    assert_eq!(
        status(&[
            &mesh,
            "--sources",
            &lines,
            "--write",
            "svg",
            "--out",
            &to.to_string_lossy()
        ]),
        Some(0)
    );
    assert!(std::fs::read(&to).expect("written").starts_with(b"<svg"));
}

#[test]
fn refused_and_misused() {
    let (mesh, lines) = (file("m.off", OFF), file("l.txt", b"vertex 0\n"));
    let (mesh, lines) = (mesh.to_string_lossy(), lines.to_string_lossy());
    let folder = std::env::temp_dir();
    let folder = folder.to_string_lossy();
    let cut = file("cut.slip", &[0; 11]);
    let refused = concat!(env!("CARGO_MANIFEST_DIR"), "/../examples/refused.slip");
    for words in [
        &["/no/such/file"][..],
        &[&folder],
        &[&cut.to_string_lossy()],
        &[refused],
        &[refused, "--form", "groups"],
        &["-"],
        &["-", "--form", "groups"],
        &[&mesh, "--sources", &lines, "--form", "plain"],
        &[&mesh],
        &[&mesh, "--sources", &folder],
        &[&mesh, "--sources", &mesh],
        &[&mesh, "--sources", &lines, "--steps", "0"],
        &[&mesh, "--sources", &lines, "--limit", "-1"],
        &[&mesh, "--sources", &lines, "--limit", "nan"],
        &[&mesh, "--sources", &lines, "--out", "/no/such/folder/x"],
    ] {
        let out = run(words);
        assert_eq!(out.status.code(), Some(1), "{words:?}");
        let said = String::from_utf8_lossy(&out.stderr);
        assert!(
            said.starts_with("distance_field: ") && said.lines().count() == 1,
            "{said}"
        );
    }
    for words in [
        &[][..],
        &["x", "--form", "y"],
        &["a", "b"],
        &["--what"],
        &["x", "--limit"],
        &["x", "--steps", "-1"],
        &["x", "--write", "y"],
    ] {
        assert_eq!(status(words), Some(2), "{words:?}");
    }
    let help = run(&["--help"]);
    assert!(help.status.success() && help.stdout.starts_with(b"distance_field: "));
}

const TRIANGLE: &[u8] = include_bytes!("../../examples/triangle.slip");

/// A folder of a test's own, empty.
fn folder(name: &str) -> PathBuf {
    let path = std::env::temp_dir().join(format!("move_slips-{}-{name}", std::process::id()));
    let _ = std::fs::remove_dir_all(&path);
    std::fs::create_dir(&path).expect("a temporary folder");
    path
}

fn text(path: &Path) -> String {
    path.to_string_lossy().into_owned()
}

#[test]
fn slips_moved_and_read() {
    let printed = include_str!("../../examples/triangle.printed");
    let place = folder("moved");
    let [plain, groups, bare] = ["a.slip", "a.slip7", "bare"].map(|name| place.join(name));
    std::fs::write(&plain, TRIANGLE).expect("written");
    let out = run_moves(&["--to", "groups", &text(&plain)], b"");
    assert_eq!(out.status.code(), Some(0));
    assert_eq!(out.stdout, b"1 of 1 moved, 136 bytes to 116\n");
    let bytes = std::fs::read(&groups).expect("moved");
    assert_eq!((bytes.len(), bytes[..4].to_vec()), (116, vec![2, 3, 1, 1]));
    // by its name, and by an option where the name says nothing
    std::fs::write(&bare, &bytes).expect("written");
    for words in [
        &[&text(&groups)[..]][..],
        &[&text(&bare), "--form", "groups"],
    ] {
        let out = run(words);
        assert_eq!(out.status.code(), Some(0), "{words:?}");
        assert_eq!(String::from_utf8_lossy(&out.stdout), printed);
    }
    // back, into another folder
    let other = folder("back");
    let words = ["--to", "plain", "--into", &text(&other), &text(&groups)];
    assert_eq!(run_moves(&words, b"").status.code(), Some(0));
    let back = std::fs::read(other.join("a.slip")).expect("moved");
    assert_eq!(back, TRIANGLE);
    // a file that is there is written over only where that is said
    assert_eq!(run_moves(&words, b"").status.code(), Some(1));
    let words = [&words[..], &["--replace"]].concat();
    assert_eq!(run_moves(&words, b"").status.code(), Some(0));
    let out = run_moves(&["--to", "plain", "-"], &bytes);
    assert_eq!((out.status.code(), &out.stdout[..]), (Some(0), TRIANGLE));
}

#[test]
fn moves_refused_and_misused() {
    let place = folder("refused");
    let [good, cut] = ["good.slip", "cut.slip"].map(|name| place.join(name));
    std::fs::write(&good, TRIANGLE).expect("written");
    std::fs::write(&cut, &TRIANGLE[..99]).expect("written");
    let out = run_moves(&["--to", "groups", &text(&cut), &text(&good)], b"");
    assert_eq!(out.status.code(), Some(1));
    let said = String::from_utf8_lossy(&out.stderr);
    assert!(said.contains("cut.slip: refused by 30") && said.lines().count() == 1);
    assert!(place.join("good.slip7").exists() && !place.join("cut.slip7").exists());
    let missing = text(&place.join("none.slip"));
    for words in [
        &["--to", "plain", "-"][..],
        &["--to", "groups", &missing],
        &["--to", "groups", &text(&place)],
        &["--to", "plain", &text(&good)],
        &[
            "--to",
            "groups",
            "--replace",
            "--into",
            &missing,
            &text(&good),
        ],
    ] {
        let out = run_moves(words, &[1, 2, 3]);
        assert_eq!(out.status.code(), Some(1), "{words:?}");
        let said = String::from_utf8_lossy(&out.stderr);
        assert!(said.starts_with("move_slips: ") && said.lines().count() == 1);
    }
    for words in [
        &[][..],
        &["--to"],
        &["--to", "groups"],
        &["x.slip"],
        &["--to", "x", "y"],
        &["--to", "groups", "--what", "x"],
    ] {
        assert_eq!(run_moves(words, b"").status.code(), Some(2), "{words:?}");
    }
    let help = run_moves(&["--help"], b"");
    assert!(help.status.success() && help.stdout.starts_with(b"move_slips: "));
}
