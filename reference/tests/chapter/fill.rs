//! How the area between two closed lines, one inside the other, is filled: by
//! triangles that each join two neighbours on a side of one line to a point on the
//! side of the other that faces it.

use crate::drawn::Point;
use std::collections::HashMap;

/// A closed line by its sides, each with its points from corner to corner. A line
/// that has shrunk to a point or to a single segment has sides all the same.
pub type ClosedLine = Vec<Vec<Point>>;

/// One of the places where a point lies: which closed line, which of its sides, and
/// how many steps along it.
#[derive(Clone, Copy)]
struct Place {
    line: usize,
    side: usize,
    step: usize,
}

/// Where each point lies; a corner lies on two sides.
pub struct Places(HashMap<Point, Vec<Place>>);

impl Places {
    /// The closed lines from the outermost one inwards.
    pub fn of(lines: &[ClosedLine]) -> Places {
        let mut places: HashMap<Point, Vec<Place>> = HashMap::new();
        for (line, sides) in lines.iter().enumerate() {
            for (side, points) in sides.iter().enumerate() {
                for (step, point) in points.iter().enumerate() {
                    let place = Place { line, side, step };
                    places.entry(*point).or_default().push(place);
                }
            }
        }
        Places(places)
    }

    fn at(&self, point: Point) -> &[Place] {
        self.0.get(&point).map_or(&[], Vec::as_slice)
    }

    /// Whether p and q are neighbours on a side that faces one with r.
    fn join(&self, [p, q, r]: [Point; 3]) -> bool {
        let neighbours = |p: &Place, q: &Place| {
            (p.line, p.side) == (q.line, q.side) && p.step.abs_diff(q.step) == 1
        };
        let faces = |p: &Place, r: &Place| p.side == r.side && p.line.abs_diff(r.line) == 1;
        let (at_p, at_q, at_r) = (self.at(p), self.at(q), self.at(r));
        at_p.iter()
            .any(|p| at_q.iter().any(|q| neighbours(p, q)) && at_r.iter().any(|r| faces(p, r)))
    }

    /// Whether a triangle joins two neighbours on a side to a point facing them.
    pub fn joined_by(&self, [p, q, r]: [Point; 3]) -> bool {
        self.join([p, q, r]) || self.join([q, r, p]) || self.join([r, p, q])
    }

    /// The points of all lines, sorted.
    pub fn points(&self) -> Vec<Point> {
        let mut points: Vec<Point> = self.0.keys().copied().collect();
        points.sort_unstable();
        points
    }
}
