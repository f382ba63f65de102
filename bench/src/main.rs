//! Speed of drawing: `bench` prints times as ratios, `bench draw CASE TIMES` draws one case for an instruction counter. A draw
//! is both calls, that for points and that for indices; `bench floats CASE TIMES` draws by the one call with floats, and
//! `bench shared CASE TIMES` on shared lists, and clears.
//! `bench check CASE TIMES` draws once and checks that mesh, and `bench shuffled CASE TIMES` the same with its triangles shuffled;
//! `bench checks` lists their cases, which are more than those for drawing. `bench refused CASE TIMES` checks a mesh that is refused and
//! `bench compare CASE TIMES` compares two meshes; `bench refusals` and `bench comparisons` list these.

mod cases;
mod meshes;
mod proved;

use cases::{Case, CASES, SMALL};
use meshes::{Mesh, PAIRS, REFUSED};
use proved::Lists;
use reference::{DomainOrigin, Patch, Settings, Spacing, VertexOrder};
use std::hint::black_box;
use std::time::Instant;

/// The same patch for the reference program.
fn patch_of(case: &Case) -> Patch {
    let l = case.levels;
    match case.settings[0] {
        0 => Patch::Triangles {
            outer: [l[0], l[1], l[2]],
            inner: l[4],
        },
        1 => Patch::Quads {
            outer: [l[0], l[1], l[2], l[3]],
            inner: [l[4], l[5]],
        },
        _ => Patch::Isolines {
            outer: [l[0], l[1]],
        },
    }
}

fn settings_of(case: &Case) -> Settings {
    Settings {
        spacing: match case.settings[1] {
            0 => Spacing::Equal,
            1 => Spacing::FractionalEven,
            _ => Spacing::FractionalOdd,
        },
        vertex_order: VertexOrder::CounterClockwise,
        domain_origin: DomainOrigin::LowerLeft,
        point_mode: false,
        top: u32::from(case.settings[5]),
    }
}

/// Nanoseconds of one call: the least of many rounds, each long enough to be measured and short enough to run undisturbed on a
/// busy machine.
fn nanoseconds(mut call: impl FnMut()) -> f64 {
    let mut times = 1u32;
    loop {
        let start = Instant::now();
        (0..times).for_each(|_| call());
        if start.elapsed().as_micros() >= 500 {
            break;
        }
        times *= 2;
    }
    let round = |call: &mut dyn FnMut()| {
        let start = Instant::now();
        (0..times).for_each(|_| call());
        start.elapsed().as_nanos() as f64 / f64::from(times)
    };
    (0..301)
        .map(|_| round(&mut call))
        .fold(f64::INFINITY, f64::min)
}

fn ratios() {
    drawing_ratios();
    checking_ratios();
    comparing_ratios();
}

/// What the reference program, with its hash maps, takes for the same call, over ours.
fn ratio(name: &str, ours: f64, theirs: f64) {
    println!("{name:<32} {ours:>10.0} {:>12.1}", theirs / ours);
}

fn checking_ratios() {
    println!(
        "\n{:<32} {:>10} {:>12}",
        "case", "ns a check", "hash maps /"
    );
    for (name, mesh) in REFUSED {
        let Mesh {
            case,
            points,
            indices,
        } = mesh();
        let (patch, settings) = (patch_of(case), settings_of(case));
        let ours = nanoseconds(|| {
            black_box(proved::check(case, black_box(&points), &indices));
        });
        let theirs = nanoseconds(|| {
            black_box(reference::verdict::check_mesh(
                &patch,
                &settings,
                black_box(&points),
                &indices,
            ));
        });
        ratio(name, ours, theirs);
    }
}

fn comparing_ratios() {
    println!("\n{:<32} {:>10} {:>12}", "case", "ns", "hash maps /");
    let mut differences = differences();
    for (name, pair) in PAIRS {
        let (left, right) = pair();
        let ours = nanoseconds(|| {
            black_box(proved::compare(black_box(&left), &right, &mut differences));
        });
        let theirs = nanoseconds(|| {
            black_box(reference::compare(
                black_box(&left).lent(),
                right.lent(),
                &mut differences,
            ));
        });
        ratio(name, ours, theirs);
    }
}

/// Room for all differences of two of the largest meshes.
fn differences() -> Vec<u64> {
    vec![0; 3 * 2 * (4_225 + 8_193)]
}

fn drawing_ratios() {
    println!(
        "{:<20} {:>10} {:>12} {:>12}",
        "case", "ns a draw", "reference /", "/ copy"
    );
    for case in &CASES {
        let mut lists = Lists::new();
        let (points, indices) = proved::draw(case, &mut lists);
        let ours = nanoseconds(|| {
            black_box(proved::draw(case, &mut lists));
        });
        let (patch, settings) = (patch_of(case), settings_of(case));
        let theirs = nanoseconds(|| {
            black_box(reference::tessellate(&patch, &settings));
        });
        let mut copy = Lists::new();
        let copied = nanoseconds(|| {
            copy.vertices[..3 * points].copy_from_slice(&lists.vertices[..3 * points]);
            copy.indices[..indices].copy_from_slice(&lists.indices[..indices]);
            black_box(&mut copy.vertices);
            black_box(&mut copy.indices);
        });
        println!(
            "{:<20} {:>10.0} {:>12.1} {:>12.1}",
            case.name,
            ours,
            theirs / ours,
            ours / copied
        );
    }
}

/// Draws case number `case` so many times, for an instruction counter.
fn repeat(call: impl Fn(&Case, &mut Lists) -> (usize, usize), case: &str, times: &str) {
    let case = &CASES[case.parse::<usize>().expect("a case")];
    let mut lists = Lists::new();
    for _ in 0..times.parse().expect("a number") {
        black_box(call(case, &mut lists));
    }
}

/// Draws case number `case` on shared lists, and clears, so many times.
fn repeat_shared(case: &str, times: &str) {
    let case = &CASES[case.parse::<usize>().expect("a case")];
    let mut lists = Lists::new();
    let mut state = proved::start_shared(&lists);
    for _ in 0..times.parse().expect("a number") {
        proved::draw_shared(case, &mut lists, &mut state);
    }
}

/// Puts the triangles into another order, the same in every run.
fn shuffle(indices: &mut [u16]) {
    let mut state = 1u64;
    for last in (1..indices.len() / 3).rev() {
        state = state
            .wrapping_mul(6_364_136_223_846_793_005)
            .wrapping_add(1);
        let other = (state >> 33) as usize % (last + 1);
        (0..3).for_each(|corner| indices.swap(3 * last + corner, 3 * other + corner));
    }
}

/// The cases that are checked, with their numbers: isolines have no triangles.
fn checked() -> impl Iterator<Item = (usize, &'static Case)> {
    let all = CASES.iter().chain(&SMALL).enumerate();
    all.filter(|(_, case)| case.settings[0] < 2)
}

/// Draws case number `case` once and checks the mesh so many times.
fn repeat_check(case: &str, times: &str, shuffled: bool) {
    let number = case.parse().expect("a case");
    let (_, case) = checked()
        .find(|(own, _)| *own == number)
        .expect("a case with triangles");
    let mut lists = Lists::new();
    let (points, indices) = proved::draw(case, &mut lists);
    if shuffled {
        shuffle(&mut lists.indices[..indices]);
    }
    for _ in 0..times.parse().expect("a number") {
        let lists = black_box(&lists);
        let answer = proved::check(
            case,
            &lists.vertices[..3 * points],
            &lists.indices[..indices],
        );
        assert_eq!(answer, 0, "the mesh of {} is accepted", case.name);
    }
}

/// Checks a mesh that is refused so many times.
fn repeat_refused(number: &str, times: &str) {
    let (name, mesh) = REFUSED[number.parse::<usize>().expect("a case")];
    let mesh = mesh();
    for _ in 0..times.parse().expect("a number") {
        let answer = proved::check(mesh.case, black_box(&mesh.points), &mesh.indices);
        assert_ne!(answer, 0, "{name} is refused");
    }
}

/// Compares two meshes so many times.
fn repeat_compare(number: &str, times: &str) {
    let (left, right) = PAIRS[number.parse::<usize>().expect("a case")].1();
    let mut differences = differences();
    for _ in 0..times.parse().expect("a number") {
        black_box(proved::compare(black_box(&left), &right, &mut differences));
    }
}

/// Names with their numbers.
fn numbered<'a>(names: impl Iterator<Item = &'a str>) {
    names
        .enumerate()
        .for_each(|(number, name)| println!("{number};{name}"));
}

/// The cases' names with the instructions that are the goal and the floats of a draw, for the script that counts.
fn list() {
    let mut lists = Lists::new();
    for (number, case) in CASES.iter().enumerate() {
        let text = |count: Option<u64>| count.map_or("-".to_string(), |count| count.to_string());
        let (points, _) = proved::draw(case, &mut lists);
        println!(
            "{number};{};{};{};{}",
            case.name,
            text(case.mesa),
            text(case.goal),
            3 * points
        );
    }
}

fn main() {
    let words: Vec<String> = std::env::args().skip(1).collect();
    match words.iter().map(String::as_str).collect::<Vec<_>>()[..] {
        [] => ratios(),
        ["list"] => list(),
        ["checks"] => checked().for_each(|(number, case)| println!("{number};{}", case.name)),
        ["draw", case, times] => repeat(proved::draw, case, times),
        ["floats", case, times] => repeat(proved::draw_with_floats, case, times),
        ["shared", case, times] => repeat_shared(case, times),
        ["check", case, times] => repeat_check(case, times, false),
        ["shuffled", case, times] => repeat_check(case, times, true),
        ["refusals"] => numbered(REFUSED.iter().map(|(name, _)| *name)),
        ["comparisons"] => numbered(PAIRS.iter().map(|(name, _)| *name)),
        ["refused", case, times] => repeat_refused(case, times),
        ["compare", case, times] => repeat_compare(case, times),
        _ => panic!(
            "usage: bench | bench list|checks|refusals|comparisons | bench draw|floats|shared|check|shuffled|refused|compare CASE TIMES"
        ),
    }
}
