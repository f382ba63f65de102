//! The second program's values as this crate has them.

use reference::job::{Record, Refusal};
use reference::patch::is_top;
use yoktvarim::raw::Measured;
use yoktvarim::{
    Clamp, Clamps, DomainOrigin, IndicesAnswer, Patch, PointsAnswer, Settings, Size, Spacing,
    VertexOrder,
};

pub fn patch_here(patch: &reference::Patch) -> Patch {
    match *patch {
        reference::Patch::Triangles { outer, inner } => Patch::Triangles { outer, inner },
        reference::Patch::Quads { outer, inner } => Patch::Quads { outer, inner },
        reference::Patch::Isolines { outer } => Patch::Isolines { outer },
    }
}

pub fn settings_here(settings: &reference::Settings) -> Settings {
    Settings {
        spacing: match settings.spacing {
            reference::Spacing::Equal => Spacing::Equal,
            reference::Spacing::FractionalEven => Spacing::FractionalEven,
            reference::Spacing::FractionalOdd => Spacing::FractionalOdd,
        },
        vertex_order: match settings.vertex_order {
            reference::VertexOrder::Clockwise => VertexOrder::Clockwise,
            reference::VertexOrder::CounterClockwise => VertexOrder::CounterClockwise,
        },
        domain_origin: match settings.domain_origin {
            reference::DomainOrigin::UpperLeft => DomainOrigin::UpperLeft,
            reference::DomainOrigin::LowerLeft => DomainOrigin::LowerLeft,
        },
        point_mode: settings.point_mode,
        top: u8::try_from(settings.top).expect("a top of one byte"),
    }
}

pub fn points_here(answer: reference::PointsAnswer) -> PointsAnswer {
    match answer {
        reference::PointsAnswer::Drawn { points } => PointsAnswer::Drawn {
            points: points as u32,
        },
        reference::PointsAnswer::Discarded => PointsAnswer::Discarded,
        reference::PointsAnswer::NoRoomForVertices => PointsAnswer::NoRoomForVertices,
        reference::PointsAnswer::BadTop => PointsAnswer::BadTop,
    }
}

pub fn indices_here(answer: reference::IndicesAnswer) -> IndicesAnswer {
    match answer {
        reference::IndicesAnswer::Drawn { indices } => IndicesAnswer::Drawn {
            indices: indices as u32,
        },
        reference::IndicesAnswer::Discarded => IndicesAnswer::Discarded,
        reference::IndicesAnswer::NoRoomForIndices => IndicesAnswer::NoRoomForIndices,
        reference::IndicesAnswer::BadTop => IndicesAnswer::BadTop,
    }
}

fn clamp_here(clamp: reference::Clamp) -> Clamp {
    match clamp {
        reference::Clamp::Below => Clamp::Below,
        reference::Clamp::Inside => Clamp::Inside,
        reference::Clamp::Above => Clamp::Above,
    }
}

fn clamps_here(clamps: reference::Clamps) -> Clamps {
    match clamps {
        reference::Clamps::Triangles { outer, inner } => Clamps::Triangles {
            outer: outer.map(clamp_here),
            inner: clamp_here(inner),
        },
        reference::Clamps::Quads { outer, inner } => Clamps::Quads {
            outer: outer.map(clamp_here),
            inner: inner.map(clamp_here),
        },
        reference::Clamps::Isolines { outer } => Clamps::Isolines {
            outer: outer.map(clamp_here),
        },
    }
}

pub fn size_here(measure: reference::Measure) -> Size {
    match measure {
        reference::Measure::BadTop => Size::BadTop,
        reference::Measure::Discarded => Size::Discarded,
        reference::Measure::Counts {
            points,
            indices,
            levels,
        } => Size::Counts {
            points: points as u32,
            indices: indices as u32,
            clamps: clamps_here(levels),
        },
    }
}

fn clamp_byte(clamp: reference::Clamp) -> u8 {
    match clamp {
        reference::Clamp::Below => 1,
        reference::Clamp::Inside => 2,
        reference::Clamp::Above => 3,
    }
}

/// Outer one to four, inner one and two; 0 for the levels that do not count.
fn clamp_bytes(clamps: reference::Clamps) -> [u8; 6] {
    let byte = clamp_byte;
    match clamps {
        reference::Clamps::Triangles {
            outer: [a, b, c],
            inner,
        } => [byte(a), byte(b), byte(c), 0, byte(inner), 0],
        reference::Clamps::Quads {
            outer: [a, b, c, d],
            inner: [rows, columns],
        } => [a, b, c, d, rows, columns].map(byte),
        reference::Clamps::Isolines { outer: [a, b] } => [byte(a), byte(b), 0, 0, 0, 0],
    }
}

/// What a refused or discarded record comes to by its number: nothing is said of the levels.
fn nothing_told(number: u32, counts: [u32; 2]) -> Measured {
    Measured {
        number,
        counts,
        clamps: [0; 6],
    }
}

/// What measuring a record comes to by its number. A bad top goes before unknown settings here, and after them in a file.
pub fn measured_here(record: &Record) -> Measured {
    if !is_top(u32::from(record.top)) {
        return nothing_told(11, [0, 0]);
    }
    let (patch, settings) = match record.decode() {
        Ok(known) => known,
        Err(Refusal::UnknownSetting { place }) => return nothing_told(8, [place as u32, 0]),
        Err(other) => panic!("{other:?}"),
    };
    match reference::measure(&patch, &settings) {
        reference::Measure::BadTop => panic!("the top of {record:?} is a good one"),
        reference::Measure::Discarded => nothing_told(1, [0, 0]),
        reference::Measure::Counts {
            points,
            indices,
            levels,
        } => Measured {
            number: 0,
            counts: [points as u32, indices as u32],
            clamps: clamp_bytes(levels),
        },
    }
}
