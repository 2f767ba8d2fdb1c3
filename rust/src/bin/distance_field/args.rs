//! The command line.
use sirmolaat::picture::View;
use sirmolaat::slip::Form;

pub const HELP: &str = "\
distance_field: exact geodesic distances over a triangle mesh, from start points and lines on it

usage: distance_field [OPTIONS] FILE          FILE is a slip, OFF, PLY or STL (.stl, binary or ASCII); - is standard input

  --form FORM      FILE is a slip, plain or in groups (without this: in groups if its name ends in .slip7, else plain)
  --sources FILE   start points and lines, for OFF, PLY and STL; a line of it is one of
                     point FACE X Y Z              segment FACE X Y Z X Y Z
                     vertex K                      line X Y X Y ..   (laid on the mesh from above)
  --limit MM       no distance above this is looked for (10000000; a slip has its own)
  --steps N        steps of the main loop that are allowed (4294967295)
  --memory MIB     memory that the field's buffers may take (4096)
  --write KIND     print-out   counts, and each vertex's distance in thousandths (this if none is named)
                   distances   each vertex's distance, a line each, so that it reads back to the same double
                   ply         the mesh as PLY with the distance of each vertex
                   picture     the same with iso-lines and start lines, as PLY
                   svg         a picture for a browser
  --spacing MM     from one iso-line to the next (a twentieth of the largest distance)
  --view VIEW      top or oblique, of svg (top)
  --detail N       each triangle is drawn as N times N, 1 to 8 (by the size of the mesh)
  --out FILE       where to write (standard output)
  --help           this text

Vertices that shortest paths may pass through (boundary and saddle vertices) are judged from a mesh; a slip has them.
Exit status: 0 written; 1 the job is refused, or a file cannot be read or written; 2 the command line is not understood.";

#[derive(Clone, Copy, Debug, PartialEq, Eq)]
pub enum Kind {
    PrintOut,
    Distances,
    Ply,
    Picture,
    Svg,
}

#[derive(Debug)]
pub struct Args {
    pub file: String,
    pub form: Option<Form>,
    pub sources: Option<String>,
    pub limit: Option<f64>,
    pub steps: u32,
    pub memory: u64,
    pub kind: Kind,
    pub spacing: Option<f64>,
    pub view: View,
    pub detail: Option<u32>,
    pub out: Option<String>,
}

/// What the command line asks for.
pub enum Asked {
    Help,
    Run(Args),
}

fn number<T: std::str::FromStr>(name: &str, word: &str) -> Result<T, String> {
    word.parse()
        .map_err(|_| format!("{name} takes a number, not '{word}'"))
}

pub fn parse(mut words: impl Iterator<Item = String>) -> Result<Asked, String> {
    let mut file = None;
    let mut args = Args {
        file: String::new(),
        form: None,
        sources: None,
        limit: None,
        steps: u32::MAX,
        memory: 4096 << 20,
        kind: Kind::PrintOut,
        spacing: None,
        view: View::Top,
        detail: None,
        out: None,
    };
    while let Some(name) = words.next() {
        if name == "--help" || name == "-h" {
            return Ok(Asked::Help);
        }
        if name == "-" || !name.starts_with('-') {
            if file.replace(name).is_some() {
                return Err("one FILE is read, and there are two".into());
            }
            continue;
        }
        let mut word = || words.next().ok_or_else(|| format!("{name} takes a word"));
        match name.as_str() {
            "--form" => {
                args.form = match word()?.as_str() {
                    "plain" => Some(Form::Plain),
                    "groups" => Some(Form::Groups),
                    other => return Err(format!("--form takes plain or groups, not '{other}'")),
                };
            }
            "--sources" => args.sources = Some(word()?),
            "--limit" => args.limit = Some(number(&name, &word()?)?),
            "--steps" => args.steps = number(&name, &word()?)?,
            "--memory" => {
                args.memory = number::<u32>(&name, &word()?).map(|mib| u64::from(mib) << 20)?
            }
            "--spacing" => args.spacing = Some(number(&name, &word()?)?),
            "--detail" => args.detail = Some(number(&name, &word()?)?),
            "--out" => args.out = Some(word()?),
            "--view" => {
                args.view = match word()?.as_str() {
                    "top" => View::Top,
                    "oblique" => View::Oblique,
                    other => return Err(format!("--view takes top or oblique, not '{other}'")),
                };
            }
            "--write" => {
                args.kind = match word()?.as_str() {
                    "print-out" => Kind::PrintOut,
                    "distances" => Kind::Distances,
                    "ply" => Kind::Ply,
                    "picture" => Kind::Picture,
                    "svg" => Kind::Svg,
                    other => {
                        return Err(format!(
                            "--write takes print-out, distances, ply, picture or svg, not '{other}'"
                        ));
                    }
                };
            }
            other => return Err(format!("there is no option {other}")),
        }
    }
    args.file = file.ok_or("no FILE is named")?;
    Ok(Asked::Run(args))
}
