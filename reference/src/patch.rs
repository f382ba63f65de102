//! A patch with the levels that count for it, and the settings beside it.

/// Section "What the cutter is": each kind carries only its own levels.
#[derive(Clone, Copy, Debug, PartialEq)]
pub enum Patch {
    /// Outer levels of the edges u = 0, v = 0, w = 0, and one inner level.
    Triangles { outer: [f32; 3], inner: f32 },
    /// Outer levels of the edges u = 0, v = 0, u = 1, v = 1; inner levels for
    /// the rows (along v) and for the columns (along u).
    Quads { outer: [f32; 4], inner: [f32; 2] },
    /// The level for the number of lines and the one for segments in a line.
    Isolines { outer: [f32; 2] },
}

#[derive(Clone, Copy, Debug, PartialEq, Eq)]
pub enum Spacing {
    Equal,
    FractionalEven,
    FractionalOdd,
}

#[derive(Clone, Copy, Debug, PartialEq, Eq)]
pub enum VertexOrder {
    Clockwise,
    CounterClockwise,
}

#[derive(Clone, Copy, Debug, PartialEq, Eq)]
pub enum DomainOrigin {
    UpperLeft,
    LowerLeft,
}

/// Ask 10: the top level is part of the settings, and may hold any number here;
/// the operations refuse those that are no top.
#[derive(Clone, Copy, Debug, PartialEq, Eq)]
pub struct Settings {
    pub spacing: Spacing,
    pub vertex_order: VertexOrder,
    pub domain_origin: DomainOrigin,
    pub point_mode: bool,
    pub top: u32,
}

/// The top level where none can be chosen, and the greatest there is.
pub const GREATEST_TOP: u32 = 64;

/// Ask 10: the numbers that can be a top level, 2, 4 and on to 64.
pub fn is_top(number: u32) -> bool {
    number.is_multiple_of(2) && (2..=GREATEST_TOP).contains(&number)
}

impl Patch {
    /// Section "What the cutter is": the outer levels that count.
    pub fn outer_levels(&self) -> &[f32] {
        match self {
            Patch::Triangles { outer, .. } => outer,
            Patch::Quads { outer, .. } => outer,
            Patch::Isolines { outer } => outer,
        }
    }

    /// Section "What the cutter says", answer 1: an outer level that is NaN,
    /// zero of either sign or negative. Inner levels have no say.
    pub fn is_discarded(&self) -> bool {
        self.outer_levels()
            .iter()
            .any(|level| level.is_nan() || *level <= 0.0)
    }
}

impl Settings {
    /// Section "Strips": whether triangles keep the order in which the lists
    /// give them, that is with the source's quantity a above zero.
    pub fn area_is_positive(&self) -> bool {
        match self.vertex_order {
            VertexOrder::CounterClockwise => self.domain_origin == DomainOrigin::LowerLeft,
            VertexOrder::Clockwise => self.domain_origin == DomainOrigin::UpperLeft,
        }
    }
}
