//! Computes the field of a slip, or of a mesh with start points and lines, and writes its distances or a picture.
mod args;
mod bytes;
mod progress;

use args::{Args, Asked, HELP, Kind};
use bytes::{print, read};
use sirmolaat::files::{Mesh, binary_stl, is_ascii_stl, read_mesh, read_sources, read_stl};
use sirmolaat::picture::{self, Style};
use sirmolaat::slip::{Form, Slip, read_slip};
use sirmolaat::{Field, Job, Options, Piece, Topology, boundary, saddles};
use std::io::Write;
use std::process::ExitCode;

fn is_mesh(bytes: &[u8]) -> bool {
    let starts: [&[u8]; 4] = [b"ply", b"OFF", b"COFF", b"NOFF"];
    starts.iter().any(|start| bytes.starts_with(start))
}

/// What a file is.
enum Content {
    Slip(Form),
    Stl,
    Mesh,
}

/// An option says it, else the end of the name, else how the bytes begin.
fn content(args: &Args, bytes: &[u8]) -> Content {
    let name = args.file.to_ascii_lowercase();
    match args.form {
        Some(form) => Content::Slip(form),
        None if name.ends_with(".slip7") => Content::Slip(Form::Groups),
        None if name.ends_with(".stl") => Content::Stl,
        None if is_mesh(bytes) => Content::Mesh,
        None => Content::Slip(Form::Plain),
    }
}

/// The job: of a slip what it says; of a mesh the flags as they are judged.
struct Work {
    mesh: Mesh,
    topo: Topology,
    pieces: Vec<Piece>,
    limit: f64,
}

fn slip_work(args: &Args, form: Form, bytes: &[u8]) -> Result<Work, String> {
    let Slip {
        v,
        t,
        flags,
        pieces,
        limit,
    } = read_slip(form, bytes).map_err(|refusal| format!("{}: {refusal}", args.file))?;
    let topo = Topology::new(&v, &t, &flags).map_err(|refusal| refusal.to_string())?;
    Ok(Work {
        mesh: Mesh { v, t },
        topo,
        pieces,
        limit: args.limit.unwrap_or(limit),
    })
}

fn mesh_work(args: &Args, mesh: Mesh) -> Result<Work, String> {
    let flags = saddles(&mesh.v, &mesh.t, &boundary(mesh.v.len(), &mesh.t));
    let topo = Topology::new(&mesh.v, &mesh.t, &flags).map_err(|refusal| refusal.to_string())?;
    let pieces = match &args.sources {
        Some(path) => read_sources(&read(path)?, &mesh.v, &mesh.t, &topo)
            .map_err(|problem| format!("{path}: {problem}"))?,
        None => return Err("a mesh needs --sources, a file of start points and lines".into()),
    };
    Ok(Work {
        mesh,
        topo,
        pieces,
        limit: args.limit.unwrap_or(1e7),
    })
}

/// Of an STL file, binary or ASCII.
fn stl_mesh(bytes: &[u8]) -> Result<Mesh, String> {
    let mesh = if is_ascii_stl(bytes) {
        read_stl(&binary_stl(bytes).map_err(|problem| problem.to_string())?)
    } else {
        read_stl(bytes)
    };
    mesh.map_err(|refusal| refusal.to_string())
}

fn work(args: &Args) -> Result<Work, String> {
    let bytes = read(&args.file)?;
    let mesh = match content(args, &bytes) {
        Content::Slip(form) => return slip_work(args, form, &bytes),
        Content::Stl => stl_mesh(&bytes),
        Content::Mesh => read_mesh(&bytes).map_err(|problem| problem.to_string()),
    };
    mesh_work(
        args,
        mesh.map_err(|sentence| format!("{}: {sentence}", args.file))?,
    )
}

fn largest(field: &Field) -> f64 {
    let reached = field.vertex.iter().copied().filter(|d| d.is_finite());
    reached.fold(0., f64::max)
}

fn written(args: &Args, work: &Work, field: &Field) -> String {
    let (v, t) = (&work.mesh.v[..], &work.mesh.t[..]);
    let spacing = args.spacing.unwrap_or(largest(field) / 20.);
    let mut style = Style::new(spacing, t.len()).view(args.view);
    if let Some(detail) = args.detail {
        style = style.detail(detail);
    }
    match args.kind {
        Kind::PrintOut => field.print_out(),
        Kind::Distances => field.vertex.iter().map(|d| format!("{d}\n")).collect(),
        Kind::Ply => picture::distances_ply(v, t, field),
        Kind::Picture => picture::picture_ply(v, t, field, &work.pieces, &style),
        Kind::Svg => picture::svg(v, t, field, &work.pieces, &style),
    }
}

fn run(args: &Args) -> Result<(), String> {
    let work = work(args)?;
    let options = Options::default().steps(args.steps).memory(args.memory);
    let job = Job::begin(
        &work.mesh.v,
        &work.mesh.t,
        &work.topo,
        &work.pieces,
        work.limit,
        &options,
    );
    let field = job.and_then(progress::watched);
    let text = match field {
        Ok(Some(field)) => written(args, &work, &field),
        Ok(None) => return Err("the job was given up".into()),
        Err(refusal) => return Err(refusal.to_string()),
    };
    match &args.out {
        Some(path) => {
            std::fs::write(path, text).map_err(|error| format!("{path} cannot be written: {error}"))
        }
        None => print(text.as_bytes()),
    }
}

fn main() -> ExitCode {
    // a name that is no text is no file that can be named in an answer
    let words = std::env::args_os()
        .skip(1)
        .map(|word| word.to_string_lossy().into_owned());
    match args::parse(words) {
        Ok(Asked::Help) => {
            let shown = writeln!(std::io::stdout(), "{HELP}");
            ExitCode::from(u8::from(shown.is_err()))
        }
        Ok(Asked::Run(args)) => match run(&args) {
            Ok(()) => ExitCode::SUCCESS,
            Err(sentence) => {
                let _ = writeln!(std::io::stderr(), "distance_field: {sentence}");
                ExitCode::from(1)
            }
        },
        Err(sentence) => {
            let _ = writeln!(
                std::io::stderr(),
                "distance_field: {sentence}\ndistance_field --help says what it takes"
            );
            ExitCode::from(2)
        }
    }
}
