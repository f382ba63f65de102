//! Checks the text of a cut against its job file by brute force.
//!
//! It follows the section "The words of demand 3" and shares nothing with the
//! modules that tessellate: it reads the bytes itself, and it finds positions
//! by search in exact f64 and whole numbers, not by shifts and division.
//!
//! Coordinates are read as i64, so that no text can make a sum overflow
//! (numbers of more than nine digits are a fault).

use std::collections::{HashMap, HashSet};
use std::fmt;
use std::io::{self, BufRead};

/// The whole number for a coordinate of 1, in triangle patches and in quads.
const TRIANGLE_ONE: i64 = 196_608;
const QUAD_ONE: i64 = 65_536;

type Point = [i64; 3];

/// How much was checked.
#[derive(Clone, Copy, Debug, PartialEq, Eq)]
pub struct Summary {
    /// Answers to records, whatever they were.
    pub records: usize,
    /// Drawn triangle and quad patches without point mode.
    pub meshes: usize,
}

impl fmt::Display for Summary {
    fn fmt(&self, out: &mut fmt::Formatter) -> fmt::Result {
        write!(
            out,
            "checked {} records, {} meshes",
            self.records, self.meshes
        )
    }
}

/// The first thing found wrong. Records count from 1; 0 is the header.
#[derive(Clone, Debug, PartialEq, Eq)]
pub struct Fault {
    pub record: usize,
    pub what: String,
}

impl fmt::Display for Fault {
    fn fmt(&self, out: &mut fmt::Formatter) -> fmt::Result {
        match self.record {
            0 => write!(out, "header: {}", self.what),
            number => write!(out, "record {number}: {}", self.what),
        }
    }
}

/// What one record asks for, read straight from its bytes.
pub struct Asked {
    pub kind: u8,
    pub spacing: u8,
    pub vertex_order: u8,
    pub origin: u8,
    pub point_mode: u8,
    pub top: u8,
    pub outer: [f32; 4],
}

impl Asked {
    /// Section "Job file" and Ask 10: settings and outer levels; `None` for
    /// settings out of range. A record of 29 bytes goes without a top, and 64
    /// stands in; in one of 30 bytes it is the sixth.
    pub fn read(bytes: &[u8]) -> Option<Asked> {
        let (top, first_level) = match bytes.len() {
            29 => (64, 5),
            _ => (bytes[5], 6),
        };
        let level = |place: usize| {
            let at = first_level + 4 * place;
            f32::from_le_bytes([bytes[at], bytes[at + 1], bytes[at + 2], bytes[at + 3]])
        };
        let asked = Asked {
            kind: bytes[0],
            spacing: bytes[1],
            vertex_order: bytes[2],
            origin: bytes[3],
            point_mode: bytes[4],
            top,
            outer: [level(0), level(1), level(2), level(3)],
        };
        let known = asked.kind <= 2
            && asked.spacing <= 2
            && asked.vertex_order <= 1
            && asked.origin <= 1
            && asked.point_mode <= 1
            && (1..=32).any(|half| asked.top == 2 * half);
        known.then_some(asked)
    }

    /// Outer levels that count: three, four or two of them.
    fn outer_levels(&self) -> &[f32] {
        match self.kind {
            0 => &self.outer[..3],
            1 => &self.outer[..],
            _ => &self.outer[..2],
        }
    }

    /// Answer 1: some outer level is not above zero (NaN is not).
    fn discarded(&self) -> bool {
        !self.outer_levels().iter().all(|level| *level > 0.0)
    }

    /// Whether twice the signed areas are to be above zero.
    fn positive(&self) -> bool {
        // both 0: clockwise with upper-left; both 1: the other two
        self.vertex_order == self.origin
    }
}

/// q(0) to q(n) of one level of an outer edge.
pub fn places(level: f32, spacing: u8, top: u8) -> Vec<i64> {
    let top = f64::from(top);
    let (low, high, step, first) = match spacing {
        0 => (1.0, top, 1, 1),
        1 => (2.0, top, 2, 2),
        _ => (1.0, top - 1.0, 2, 1),
    };
    // An f32 from 1 to 64 times 65,536 is exact in f64.
    let scaled = f64::from(level).max(low).min(high) * 65_536.0;
    let mut l = scaled.ceil() as i64;
    let mut n = first;
    while n * 65_536 < l {
        n += step;
    }
    if spacing == 0 {
        l = n * 65_536;
    }
    let place = |i: i64| {
        let reach = 2_147_483_648 * (2 * i - n).abs();
        // The greatest k up to 32,768 with k·L not above the reach.
        let (mut good, mut bad) = (0, 32_769);
        while bad - good > 1 {
            let middle = (good + bad) / 2;
            if middle * l <= reach {
                good = middle;
            } else {
                bad = middle;
            }
        }
        if 2 * i <= n {
            32_768 - good
        } else {
            32_768 + good
        }
    };
    (0..=n).map(place).collect()
}

/// The point at a place on outer edge e, by the walks of "Triangles" and
/// "Quads".
fn point_at(kind: u8, e: usize, place: i64) -> Point {
    let far = TRIANGLE_ONE - 3 * place;
    match (kind, e) {
        (0, 0) => [0, far, 3 * place],
        (0, 1) => [3 * place, 0, far],
        (0, _) => [far, 3 * place, 0],
        (_, 0) => [0, QUAD_ONE - place, 0],
        (_, 1) => [place, 0, 0],
        (_, 2) => [QUAD_ONE, place, 0],
        (_, _) => [QUAD_ONE - place, QUAD_ONE, 0],
    }
}

/// Whether a drawn point lies on outer edge e.
fn lies_on(kind: u8, e: usize, [u, v, w]: Point) -> bool {
    match (kind, e) {
        (0, 0) => u == 0,
        (0, 1) => v == 0,
        (0, _) => w == 0,
        (_, 0) => u == 0,
        (_, 1) => v == 0,
        (_, 2) => u == QUAD_ONE,
        (_, _) => v == QUAD_ONE,
    }
}

/// How far along outer edge e a point on it lies, in units. For triangles the
/// coordinate of the edge's last corner tells, three to a unit; a remainder is a
/// fault. For quads it is the distance from the edge's first corner.
fn place_of(kind: u8, e: usize, [u, v, w]: Point) -> Result<i64, String> {
    let third = |end: i64| {
        if end % 3 == 0 {
            Ok(end / 3)
        } else {
            Err(format!("end coordinate {end} on edge {e} has no third"))
        }
    };
    match (kind, e) {
        (0, 0) => third(w),
        (0, 1) => third(u),
        (0, _) => third(v),
        (_, 0) => Ok(QUAD_ONE - v),
        (_, 1) => Ok(u),
        (_, 2) => Ok(v),
        (_, _) => Ok(QUAD_ONE - u),
    }
}

/// Second paragraph of the section: the places on every outer edge.
fn check_edges(asked: &Asked, points: &[Point]) -> Result<(), String> {
    for (e, level) in asked.outer_levels().iter().enumerate() {
        let mut found = Vec::new();
        for point in points {
            if lies_on(asked.kind, e, *point) {
                found.push(place_of(asked.kind, e, *point)?);
            }
        }
        found.sort_unstable();
        let expected = places(*level, asked.spacing, asked.top);
        if found != expected {
            return Err(format!(
                "edge {e} has places {found:?}, expected {expected:?}"
            ));
        }
        let mirrored: Vec<i64> = found.iter().rev().map(|place| 65_536 - place).collect();
        if found != mirrored {
            return Err(format!("places {found:?} of edge {e} do not mirror"));
        }
    }
    Ok(())
}

/// The points that make up the outline, once round.
fn outline(asked: &Asked) -> Vec<Point> {
    let mut all = Vec::new();
    for (e, level) in asked.outer_levels().iter().enumerate() {
        let mut edge = places(*level, asked.spacing, asked.top);
        edge.pop();
        all.extend(edge.iter().map(|place| point_at(asked.kind, e, *place)));
    }
    all
}

/// The three directed sides of a triangle, by the indices of their ends.
fn sides_of([p, q, r]: [usize; 3]) -> [(usize, usize); 3] {
    [(p, q), (q, r), (r, p)]
}

/// First paragraph of the section: the whole mesh of a triangle or quad patch.
fn check_mesh(asked: &Asked, points: &[Point], triangles: &[[usize; 3]]) -> Result<(), String> {
    // No two points equal.
    let mut index_of = HashMap::new();
    for (index, point) in points.iter().enumerate() {
        if let Some(earlier) = index_of.insert(*point, index) {
            return Err(format!("points {earlier} and {index} are both {point:?}"));
        }
    }

    // The turn of every triangle, and the sum of the areas.
    let sign = if asked.positive() { 1 } else { -1 };
    let mut sum = 0;
    for (number, [p, q, r]) in triangles.iter().enumerate() {
        let ([up, vp, _], [uq, vq, _], [ur, vr, _]) = (points[*p], points[*q], points[*r]);
        let area = (uq - up) * (vr - vp) - (ur - up) * (vq - vp);
        if area * sign <= 0 {
            return Err(format!("triangle {number} has twice the area {area}"));
        }
        sum += area;
    }
    let patch_area = match asked.kind {
        0 => TRIANGLE_ONE * TRIANGLE_ONE,
        _ => 2 * QUAD_ONE * QUAD_ONE,
    };
    if sum != sign * patch_area {
        return Err(format!("areas add up to {sum}"));
    }

    // No directed side twice.
    let mut sides = HashSet::new();
    for triangle in triangles {
        for side in sides_of(*triangle) {
            if !sides.insert(side) {
                return Err(format!("side {side:?} is used twice"));
            }
        }
    }

    // Each piece of the outline once, its reverse never.
    let mut pieces = HashSet::new();
    let outline = outline(asked);
    for (i, from) in outline.iter().enumerate() {
        let to = outline[(i + 1) % outline.len()];
        let index = |point: &Point| {
            index_of
                .get(point)
                .copied()
                .ok_or_else(|| format!("outline point {point:?} is missing"))
        };
        let (from, to) = (index(from)?, index(&to)?);
        let piece = if asked.positive() {
            (from, to)
        } else {
            (to, from)
        };
        if !sides.contains(&piece) {
            return Err(format!("outline piece {piece:?} is no side"));
        }
        if sides.contains(&(piece.1, piece.0)) {
            return Err(format!("outline piece {piece:?} meets its reverse"));
        }
        pieces.insert(piece);
    }

    // Every other side meets its reverse.
    for triangle in triangles {
        for side in sides_of(*triangle) {
            if !pieces.contains(&side) && !sides.contains(&(side.1, side.0)) {
                return Err(format!("side {side:?} does not meet its reverse"));
            }
        }
    }
    Ok(())
}

/// Coordinates in range: they add up to 1 for triangles, else w is 0 and the
/// others are no more than 1. (Not in the section; the section on each kind
/// and the source ask for it.)
fn check_ranges(kind: u8, points: &[Point]) -> Result<(), String> {
    for (index, [u, v, w]) in points.iter().enumerate() {
        let good = match kind {
            0 => u + v + w == TRIANGLE_ONE,
            _ => *w == 0 && *u <= QUAD_ONE && *v <= QUAD_ONE,
        };
        if !good {
            return Err(format!("point {index} is {u} {v} {w}"));
        }
    }
    Ok(())
}

/// The text, line by line.
struct Lines<R: BufRead> {
    reader: R,
}

impl<R: BufRead> Lines<R> {
    /// The next line without its line feed; `None` where the text is over.
    fn next(&mut self) -> Result<Option<String>, String> {
        let mut line = String::new();
        match self.reader.read_line(&mut line) {
            Ok(0) => Ok(None),
            Ok(_) if line.ends_with('\n') => {
                line.pop();
                Ok(Some(line))
            }
            Ok(_) => Err(format!("line \"{line}\" does not end")),
            Err(error) => Err(read_error(error)),
        }
    }

    /// A line that has to be there.
    fn need(&mut self) -> Result<String, String> {
        self.next()?.ok_or_else(|| "the text is over".to_string())
    }

    /// A line that has to be just this.
    fn expect(&mut self, expected: &str) -> Result<(), String> {
        let line = self.need()?;
        if line == expected {
            Ok(())
        } else {
            Err(format!("found \"{line}\", expected \"{expected}\""))
        }
    }

    /// A line of exactly N whole numbers, one blank between them.
    fn numbers<const N: usize>(&mut self) -> Result<[i64; N], String> {
        let line = self.need()?;
        numbers(&line).ok_or_else(|| format!("\"{line}\" is not a line of {N} numbers"))
    }
}

fn read_error(error: io::Error) -> String {
    format!("the text cannot be read: {error}")
}

/// N plain decimal numbers of at most nine digits, without leading zeros.
fn numbers<const N: usize>(line: &str) -> Option<[i64; N]> {
    let mut all = [0; N];
    let words: Vec<&str> = line.split(' ').collect();
    if words.len() != N {
        return None;
    }
    for (number, word) in all.iter_mut().zip(words) {
        *number = word.parse().ok()?;
        if word.len() > 9 || *number < 0 || number.to_string() != word {
            return None;
        }
    }
    Some(all)
}

/// N indices a line, each below the number of points, `count` indices in all.
fn read_primitives<const N: usize, R: BufRead>(
    lines: &mut Lines<R>,
    count: usize,
    points: usize,
) -> Result<Vec<[usize; N]>, String> {
    if count / N * N != count {
        return Err(format!("{count} indices do not make primitives of {N}"));
    }
    let mut all = Vec::new();
    for _ in 0..count / N {
        let primitive = lines.numbers::<N>()?.map(|index| index as usize);
        if let Some(index) = primitive.iter().find(|index| **index >= points) {
            return Err(format!("index {index} with {points} points"));
        }
        all.push(primitive);
    }
    Ok(all)
}

/// The answer to one whole record with known settings; tells whether it was a
/// mesh.
fn check_record<R: BufRead>(asked: &Asked, lines: &mut Lines<R>) -> Result<bool, String> {
    if asked.discarded() {
        lines.expect("discarded")?;
        return Ok(false);
    }
    let line = lines.need()?;
    let counts: Option<[i64; 2]> = line.strip_prefix("drawn ").and_then(numbers);
    let [point_count, index_count] =
        counts.ok_or_else(|| format!("found \"{line}\", expected \"drawn\" and two counts"))?;
    let (point_count, index_count) = (point_count as usize, index_count as usize);

    let mut points = Vec::new();
    for _ in 0..point_count {
        points.push(lines.numbers::<3>()?);
    }
    check_ranges(asked.kind, &points)?;
    let surface = asked.kind <= 1;
    if surface {
        check_edges(asked, &points)?;
    }
    if asked.point_mode == 1 {
        let listed = read_primitives::<1, R>(lines, index_count, point_count)?;
        if !listed.iter().map(|[index]| *index).eq(0..point_count) {
            return Err("indices in point mode do not count up".to_string());
        }
        Ok(false)
    } else if surface {
        let triangles = read_primitives::<3, R>(lines, index_count, point_count)?;
        check_mesh(asked, &points, &triangles)?;
        Ok(true)
    } else {
        read_primitives::<2, R>(lines, index_count, point_count)?;
        Ok(false)
    }
}

/// Checks a whole text against a whole job file.
pub fn check(job: &[u8], text: impl BufRead) -> Result<Summary, Fault> {
    let mut summary = Summary {
        records: 0,
        meshes: 0,
    };
    let mut lines = Lines { reader: text };
    check_all(job, &mut lines, &mut summary).map_err(|what| Fault {
        record: summary.records,
        what,
    })?;
    Ok(summary)
}

/// Section "Job file" and Ask 10: the order of answers, and where they stop.
fn check_all<R: BufRead>(
    job: &[u8],
    lines: &mut Lines<R>,
    summary: &mut Summary,
) -> Result<(), String> {
    if !job.starts_with(b"TSJ") || job.len() < 5 {
        lines.expect("refused 5")?;
    } else if job[4] != 0 || !matches!(job[3], 1 | 2) {
        lines.expect("refused 6")?;
    } else {
        lines.expect(&format!("TSJ {}", job[3]))?;
        let length = 28 + usize::from(job[3]);
        for bytes in job[5..].chunks(length) {
            summary.records += 1;
            if bytes.len() < length {
                lines.expect("refused 7")?;
            } else if let Some(asked) = Asked::read(bytes) {
                if check_record(&asked, lines)? {
                    summary.meshes += 1;
                }
            } else {
                lines.expect("refused 8")?;
            }
        }
    }
    match lines.next()? {
        None => Ok(()),
        Some(line) => Err(format!("a line too many: \"{line}\"")),
    }
}
