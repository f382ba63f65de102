//! Patches, each with the tessellation levels that count for it, and how they are to be drawn.

/// Any level is allowed, NaN and the infinities too: what is not above 0 in `outer` discards the patch.
#[derive(Clone, Copy, Debug, PartialEq)]
pub enum Patch {
    /// Outer levels of the edges u = 0, v = 0 and w = 0, and the inner level.
    Triangles { outer: [f32; 3], inner: f32 },
    /// Outer levels of the edges u = 0, v = 0, u = 1 and v = 1; inner levels of the rows and of the columns.
    Quads { outer: [f32; 4], inner: [f32; 2] },
    /// How many lines, and how many segments along each.
    Isolines { outer: [f32; 2] },
}

#[derive(Clone, Copy, Debug, PartialEq, Eq)]
pub enum Spacing {
    Equal,
    FractionalEven,
    FractionalOdd,
}

/// The way triangles turn.
#[derive(Clone, Copy, Debug, PartialEq, Eq)]
pub enum VertexOrder {
    Clockwise,
    CounterClockwise,
}

/// Where (0, 0) is when that turn is judged.
#[derive(Clone, Copy, Debug, PartialEq, Eq)]
pub enum DomainOrigin {
    UpperLeft,
    LowerLeft,
}

/// The greatest value of [`Settings::top`].
pub const GREATEST_TOP: u8 = 64;

#[derive(Clone, Copy, Debug, PartialEq, Eq)]
pub struct Settings {
    pub spacing: Spacing,
    pub vertex_order: VertexOrder,
    pub domain_origin: DomainOrigin,
    /// Each point once instead of triangles or lines: the indices 0, 1, 2 and on.
    pub point_mode: bool,
    /// The most segments that a level gives, one less with odd spacing: an even number from 2 to 64. Any other number is
    /// answered with `BadTop`.
    pub top: u8,
}

/// Equal spacing, triangles counter-clockwise seen from a lower-left origin, no point mode, the top 64.
impl Default for Settings {
    fn default() -> Self {
        Settings {
            spacing: Spacing::Equal,
            vertex_order: VertexOrder::CounterClockwise,
            domain_origin: DomainOrigin::LowerLeft,
            point_mode: false,
            top: GREATEST_TOP,
        }
    }
}

/// The six setting bytes of a call, numbered as in a job file of version 2.
pub(crate) fn setting_bytes(patch: &Patch, settings: &Settings) -> [u8; 6] {
    let kind = match patch {
        Patch::Triangles { .. } => 0,
        Patch::Quads { .. } => 1,
        Patch::Isolines { .. } => 2,
    };
    let spacing = match settings.spacing {
        Spacing::Equal => 0,
        Spacing::FractionalEven => 1,
        Spacing::FractionalOdd => 2,
    };
    let order = match settings.vertex_order {
        VertexOrder::Clockwise => 0,
        VertexOrder::CounterClockwise => 1,
    };
    let origin = match settings.domain_origin {
        DomainOrigin::UpperLeft => 0,
        DomainOrigin::LowerLeft => 1,
    };
    let point_mode = u8::from(settings.point_mode);
    [kind, spacing, order, origin, point_mode, settings.top]
}

/// The six levels of a call: outer one to four, inner one and two; 0 for a level that does not count.
pub(crate) fn six_levels(patch: &Patch) -> [f32; 6] {
    match *patch {
        Patch::Triangles {
            outer: [a, b, c],
            inner,
        } => [a, b, c, 0.0, inner, 0.0],
        Patch::Quads {
            outer: [a, b, c, d],
            inner: [rows, columns],
        } => [a, b, c, d, rows, columns],
        Patch::Isolines {
            outer: [lines, along],
        } => [lines, along, 0.0, 0.0, 0.0, 0.0],
    }
}
