//! Ask 9: what the clamp found for every level that counts for a patch.

use crate::level::{segments, Clamp};
use crate::patch::{Patch, Settings, Spacing};

/// One finding a level, by kind of patch; the levels that do not count for the
/// kind have none.
#[derive(Clone, Copy, Debug, PartialEq, Eq)]
pub enum Clamps {
    Triangles {
        outer: [Clamp; 3],
        inner: Clamp,
    },
    Quads {
        outer: [Clamp; 4],
        inner: [Clamp; 2],
    },
    Isolines {
        outer: [Clamp; 2],
    },
}

impl Clamps {
    /// Ask 9: the findings for a patch that is not discarded. For the number of
    /// isolines the range is that of equal spacing, whatever spacing is asked
    /// (section "Isolines and dots").
    pub fn of(patch: &Patch, settings: &Settings) -> Clamps {
        let by_spacing = |level: f32, spacing| segments(level, spacing, settings.top).clamp;
        let clamp = |level: f32| by_spacing(level, settings.spacing);
        match *patch {
            Patch::Triangles { outer, inner } => Clamps::Triangles {
                outer: outer.map(clamp),
                inner: clamp(inner),
            },
            Patch::Quads { outer, inner } => Clamps::Quads {
                outer: outer.map(clamp),
                inner: inner.map(clamp),
            },
            Patch::Isolines {
                outer: [lines, along],
            } => Clamps::Isolines {
                outer: [by_spacing(lines, Spacing::Equal), clamp(along)],
            },
        }
    }

    /// All findings in one row, outer levels before inner ones.
    pub fn in_order(&self) -> Vec<Clamp> {
        match *self {
            Clamps::Triangles { outer, inner } => [&outer[..], &[inner]].concat(),
            Clamps::Quads { outer, inner } => [&outer[..], &inner].concat(),
            Clamps::Isolines { outer } => outer.to_vec(),
        }
    }
}

#[cfg(test)]
mod tests {
    use super::*;
    use crate::patch::{DomainOrigin, VertexOrder};
    use Clamp::{Above, Below, Inside};
    use Spacing::{Equal, FractionalEven, FractionalOdd};

    fn found(patch: &Patch, spacing: Spacing, top: u32) -> Clamps {
        let settings = Settings {
            spacing,
            vertex_order: VertexOrder::Clockwise,
            domain_origin: DomainOrigin::UpperLeft,
            point_mode: false,
            top,
        };
        Clamps::of(patch, &settings)
    }

    #[test]
    fn every_level_of_every_kind_in_its_place() {
        let triangles = Patch::Triangles {
            outer: [0.5, 64.0, 65.0],
            inner: f32::NAN,
        };
        let clamps = found(&triangles, Equal, 64);
        let expected = Clamps::Triangles {
            outer: [Below, Inside, Above],
            inner: Below,
        };
        assert_eq!(clamps, expected);
        assert_eq!(clamps.in_order(), [Below, Inside, Above, Below]);

        let quads = Patch::Quads {
            outer: [1.5, 2.0, 64.0, 64.5],
            inner: [f32::INFINITY, -1.0],
        };
        let clamps = found(&quads, FractionalEven, 64);
        let expected = Clamps::Quads {
            outer: [Below, Inside, Inside, Above],
            inner: [Above, Below],
        };
        assert_eq!(clamps, expected);
        assert_eq!(
            clamps.in_order(),
            [Below, Inside, Inside, Above, Above, Below]
        );
    }

    /// 64 lines and one line are within equal spacing's range, which neither
    /// odd nor even spacing has for the segments.
    #[test]
    fn the_number_of_isolines_is_judged_by_equal_spacing() {
        let isolines = |level: f32| Patch::Isolines { outer: [level; 2] };
        let cases = [
            (64.0, FractionalOdd, 64, [Inside, Above]),
            (1.0, FractionalEven, 64, [Inside, Below]),
            (64.0, Equal, 64, [Inside, Inside]),
            (0.5, FractionalOdd, 64, [Below, Below]),
            (64.5, FractionalEven, 64, [Above, Above]),
            (16.0, FractionalOdd, 16, [Inside, Above]),
            (16.5, FractionalEven, 16, [Above, Above]),
            (1.5, FractionalEven, 2, [Inside, Below]),
            (1.5, FractionalOdd, 2, [Inside, Above]),
        ];
        for (level, spacing, top, outer) in cases {
            let clamps = found(&isolines(level), spacing, top);
            assert_eq!(clamps, Clamps::Isolines { outer });
            assert_eq!(clamps.in_order(), outer);
        }
    }
}
