//! The patches that are measured.

/// A patch with its settings, as the proved library takes them.
pub struct Case {
    pub name: &'static str,
    /// Kind, spacing, vertex order, domain origin, point mode, top: the job file's values.
    pub settings: [u8; 6],
    pub levels: [f32; 6],
    /// Instructions of Mesa 22.3.6's tessellator (O3) for the same patch, where they were measured.
    pub mesa: Option<u64>,
    /// The goal for ours, where there is one.
    pub goal: Option<u64>,
}

const TRIANGLES: u8 = 0;
const QUADS: u8 = 1;
const ISOLINES: u8 = 2;
const EQUAL: u8 = 0;
const EVEN: u8 = 1;
const ODD: u8 = 2;
const CLOCKWISE: u8 = 0;
const COUNTER_CLOCKWISE: u8 = 1;
/// The top that Mesa's counts are for.
const TOP: u8 = 64;

const fn case(
    name: &'static str,
    kind: u8,
    spacing: u8,
    levels: [f32; 6],
    mesa: Option<u64>,
    goal: Option<u64>,
) -> Case {
    Case {
        name,
        settings: [kind, spacing, COUNTER_CLOCKWISE, 1, 0, TOP],
        levels,
        mesa,
        goal,
    }
}

/// A patch with all levels 4, whose check has a goal of its own.
const fn small(name: &'static str, kind: u8, spacing: u8, order: u8) -> Case {
    Case {
        name,
        settings: [kind, spacing, order, 1, 0, TOP],
        levels: [4.0; 6],
        mesa: None,
        goal: None,
    }
}

pub const CASES: [Case; 8] = [
    case(
        "quads 64",
        QUADS,
        EQUAL,
        [64.0; 6],
        Some(540_890),
        Some(45_000),
    ),
    case(
        "triangles 64",
        TRIANGLES,
        EQUAL,
        [64.0; 6],
        Some(419_558),
        Some(37_300),
    ),
    case(
        "quads odd, mixed",
        QUADS,
        ODD,
        [12.3, 37.7, 5.1, 55.5, 41.2, 23.9],
        Some(151_589),
        Some(26_000),
    ),
    case("quads 4", QUADS, EQUAL, [4.0; 6], Some(4_962), Some(1_400)),
    case(
        "triangles 4",
        TRIANGLES,
        EQUAL,
        [4.0; 6],
        Some(3_640),
        Some(1_200),
    ),
    case("triangles odd 4.3", TRIANGLES, ODD, [4.3; 6], None, None),
    case("quads odd 3.7", QUADS, ODD, [3.7; 6], None, None),
    case(
        "isolines 64 x 64",
        ISOLINES,
        EQUAL,
        [64.0; 6],
        None,
        Some(25_000),
    ),
];

/// What quads 64 are compared with.
pub const HALF: Case = case("quads even 63.5", QUADS, EVEN, [63.5; 6], None, None);

/// The other small patches that are checked, so that both kinds with triangles come with each spacing and both turns.
pub const SMALL: [Case; 10] = [
    small("triangles 4 turned", TRIANGLES, EQUAL, CLOCKWISE),
    small("triangles even 4", TRIANGLES, EVEN, COUNTER_CLOCKWISE),
    small("triangles even 4 turned", TRIANGLES, EVEN, CLOCKWISE),
    small("triangles odd 4", TRIANGLES, ODD, COUNTER_CLOCKWISE),
    small("triangles odd 4 turned", TRIANGLES, ODD, CLOCKWISE),
    small("quads 4 turned", QUADS, EQUAL, CLOCKWISE),
    small("quads even 4", QUADS, EVEN, COUNTER_CLOCKWISE),
    small("quads even 4 turned", QUADS, EVEN, CLOCKWISE),
    small("quads odd 4", QUADS, ODD, COUNTER_CLOCKWISE),
    small("quads odd 4 turned", QUADS, ODD, CLOCKWISE),
];
