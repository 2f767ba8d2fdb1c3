//! Pictures of a field: the mesh coloured by distance, with iso-lines at a spacing and the start lines, as SVG for a browser and as PLY for a viewer of meshes.
mod colour;
mod ply;
mod samples;
mod svg;

pub use ply::{distances_ply, picture_ply};
pub use svg::svg;

/// From where an SVG shows the mesh.
#[derive(Clone, Copy, Debug, Default, PartialEq, Eq)]
pub enum View {
    /// From above, y upwards.
    #[default]
    Top,
    /// From the front, right and above.
    Oblique,
}

/// How a picture is drawn.
#[derive(Clone, Copy, Debug, PartialEq)]
#[non_exhaustive]
pub struct Style {
    /// The distance from one iso-line to the next; none are drawn where it is no number above 0.
    pub spacing: f64,
    /// From where an SVG shows the mesh.
    pub view: View,
    /// Each triangle is drawn as the square of so many, 1 to 8.
    pub detail: u32,
}

impl Style {
    /// Iso-lines at a spacing, seen from above. Small meshes are drawn in more detail.
    pub fn new(spacing: f64, triangles: usize) -> Style {
        Style {
            spacing,
            view: View::Top,
            detail: match triangles {
                0..1_000 => 4,
                1_000..10_000 => 2,
                _ => 1,
            },
        }
    }

    /// Seen from there.
    pub fn view(self, view: View) -> Style {
        Style { view, ..self }
    }

    /// With each triangle drawn as the square of so many.
    pub fn detail(self, detail: u32) -> Style {
        Style { detail, ..self }
    }
}
