//! Moves slips from one stored form to the other: files of an archive, or standard input.
#[path = "../distance_field/bytes.rs"]
mod bytes;

use bytes::{print, read};
use sirmolaat::slip::{Form, move_slip};
use std::io::Write;
use std::path::{Path, PathBuf};
use std::process::ExitCode;

const HELP: &str = "\
move_slips: moves slips from one stored form to the other

usage: move_slips --to FORM [OPTIONS] FILE..     - is standard input, moved to standard output

  --to plain       numbers in four bytes each; NAME.slip7 becomes NAME.slip
  --to groups      numbers in groups of seven bits; NAME.slip becomes NAME.slip7
  --into FOLDER    where to write (beside each FILE)
  --replace        write over files that are there
  --help           this text

A FILE is read as a slip of the form that is not named, whatever its name is: the bytes do not tell. It is left as it is.
Moving a slip there and back gives its very bytes. Whether its job is sound does not matter.
Exit status: 0 all are moved; 1 a slip is refused, or a file cannot be read or written, and the others are moved; 2 the command line is not understood.";

#[derive(Debug, Default)]
struct Args {
    files: Vec<String>,
    to: Option<Form>,
    into: Option<String>,
    replace: bool,
    help: bool,
}

fn parse(mut words: impl Iterator<Item = String>) -> Result<Args, String> {
    let mut args = Args::default();
    while let Some(name) = words.next() {
        let mut word = || words.next().ok_or_else(|| format!("{name} takes a word"));
        match name.as_str() {
            "--help" | "-h" => args.help = true,
            "--replace" => args.replace = true,
            "--into" => args.into = Some(word()?),
            "--to" => {
                args.to = match word()?.as_str() {
                    "plain" => Some(Form::Plain),
                    "groups" => Some(Form::Groups),
                    other => return Err(format!("--to takes plain or groups, not '{other}'")),
                };
            }
            "-" => args.files.push(name),
            other if other.starts_with('-') => return Err(format!("there is no option {other}")),
            _ => args.files.push(name),
        }
    }
    Ok(args)
}

/// How the names of files of a form end.
fn ending(form: Form) -> &'static str {
    match form {
        Form::Plain => ".slip",
        Form::Groups => ".slip7",
    }
}

/// Where a file's slip is written to.
fn target(file: &str, to: Form, into: Option<&str>) -> Result<PathBuf, String> {
    if file.ends_with(ending(to)) {
        return Err(format!(
            "{file} is named as what it is to be moved to: name the other form"
        ));
    }
    let stem = file.strip_suffix(ending(to.other())).unwrap_or(file);
    let path = PathBuf::from(format!("{stem}{}", ending(to)));
    match (into, path.file_name()) {
        (Some(folder), Some(name)) => Ok(Path::new(folder).join(name)),
        (Some(_), None) => Err(format!("{file} is no name of a file")),
        (None, _) => Ok(path),
    }
}

/// Under another name first, so that a file that breaks off never has the right one.
fn write(path: &Path, bytes: &[u8], replace: bool) -> Result<(), String> {
    let wrong = |error: std::io::Error| format!("{} cannot be written: {error}", path.display());
    if !replace && path.exists() {
        return Err(format!("{} is there already", path.display()));
    }
    let mut part = path.as_os_str().to_owned();
    part.push(".part");
    let done = std::fs::write(&part, bytes).and_then(|()| std::fs::rename(&part, path));
    done.map_err(|error| {
        let _ = std::fs::remove_file(&part);
        wrong(error)
    })
}

/// How many bytes a file had and its slip has now.
fn move_file(file: &str, to: Form, args: &Args) -> Result<(usize, usize), String> {
    let bytes = read(file)?;
    let moved = || move_slip(to.other(), &bytes).map_err(|refusal| format!("{file}: {refusal}"));
    if file == "-" {
        let moved = moved()?;
        print(&moved)?;
        return Ok((bytes.len(), moved.len()));
    }
    let path = target(file, to, args.into.as_deref())?;
    let moved = moved()?;
    write(&path, &moved, args.replace)?;
    Ok((bytes.len(), moved.len()))
}

fn say(sentence: &str) {
    let _ = writeln!(std::io::stderr(), "move_slips: {sentence}");
}

fn run(args: &Args, to: Form) -> ExitCode {
    let (mut count, mut before, mut after) = (0, 0, 0);
    for file in &args.files {
        match move_file(file, to, args) {
            Ok((read, written)) => {
                count += 1;
                before += read;
                after += written;
            }
            Err(sentence) => say(&sentence),
        }
    }
    // standard output may be the slip's
    if !args.files.iter().any(|file| file == "-") {
        let files = args.files.len();
        let line = format!("{count} of {files} moved, {before} bytes to {after}\n");
        if let Err(sentence) = print(line.as_bytes()) {
            say(&sentence);
            return ExitCode::from(1);
        }
    }
    ExitCode::from(u8::from(count < args.files.len()))
}

fn main() -> ExitCode {
    // a name that is no text is no file that can be named in an answer
    let words = std::env::args_os()
        .skip(1)
        .map(|word| word.to_string_lossy().into_owned());
    let wrong = match parse(words) {
        Ok(args) if args.help => {
            return ExitCode::from(u8::from(print(format!("{HELP}\n").as_bytes()).is_err()));
        }
        Ok(args) => match args.to {
            None => "--to plain or --to groups says what is made".into(),
            Some(_) if args.files.is_empty() => "no FILE is named".into(),
            Some(to) => return run(&args, to),
        },
        Err(sentence) => sentence,
    };
    say(&format!("{wrong}\nmove_slips --help says what it takes"));
    ExitCode::from(2)
}
