//! Where the points of one edge lie, in units of 1/65,536 of its length.

use crate::level::Division;

/// Length of an edge in units.
pub const LENGTH: u32 = 65_536;
const HALF: u32 = 32_768;

/// Section "Where the points of an edge lie": the position of one point, found
/// as its distance k from the middle, so that both halves come out alike.
pub fn position(edge: Division, i: u32) -> u32 {
    let from_middle = u64::from((2 * i).abs_diff(edge.n));
    let k = (2_147_483_648 * from_middle / u64::from(edge.l)).min(u64::from(HALF)) as u32;
    if 2 * i <= edge.n {
        HALF - k
    } else {
        HALF + k
    }
}

/// Same section: all positions of an edge, ends included; the list called q.
pub fn positions(edge: Division) -> Vec<u32> {
    (0..=edge.n).map(|i| position(edge, i)).collect()
}

#[cfg(test)]
mod tests {
    use super::*;
    use crate::level::{divide, division};
    use crate::patch::Spacing::{self, *};

    fn at_level(level: f32, spacing: Spacing) -> Vec<u32> {
        positions(division(level, spacing, 64))
    }

    #[test]
    fn star_positions() {
        assert_eq!(at_level(1.0, Equal), [0, 65536]);
        assert_eq!(at_level(3.0, Equal), [0, 21846, 43690, 65536]);
        assert_eq!(at_level(4.0, Equal), [0, 16384, 32768, 49152, 65536]);
        assert_eq!(at_level(2.0, FractionalOdd), [0, 16384, 49152, 65536]);
        assert_eq!(
            at_level(3.0, FractionalEven),
            [0, 10923, 32768, 54613, 65536]
        );
        assert_eq!(
            positions(divide(65_537, FractionalOdd)),
            [0, 1, 65535, 65536]
        );
        assert_eq!(
            positions(divide(131_073, FractionalEven)),
            [0, 1, 32768, 65535, 65536]
        );
    }

    /// Every property the section promises, for the ends of each whole number's L and every 509th L between.
    #[test]
    fn ends_rise_mirror_and_closeness() {
        for spacing in [Equal, FractionalEven, FractionalOdd] {
            let (low, high) = match spacing {
                Equal => (1, 64),
                FractionalEven => (2, 64),
                FractionalOdd => (1, 63),
            };
            // Steps of a prime, plus the first and last L of every whole number.
            let edges = (low..=high).flat_map(|w| [65_536 * w, 65_536 * w + 1, 65_536 * w - 1]);
            let steps = (65_536 * low..=65_536 * high).step_by(509);
            for l in edges.chain(steps) {
                if l < 65_536 * low || l > 65_536 * high {
                    continue;
                }
                let edge = divide(l, spacing);
                let q = positions(edge);
                let n = edge.n as usize;
                assert_eq!((q[0], q[n]), (0, LENGTH));
                for i in 0..n {
                    assert!(q[i] < q[i + 1], "{edge:?}");
                    assert_eq!(q[i] + q[n - i], LENGTH);
                }
                for i in 1..n {
                    // |q − 65,536·(L + (2i − n)·65,536)/(2L)| < 1
                    let l = i64::from(edge.l);
                    let exact = 65_536 * (l + (2 * i as i64 - n as i64) * 65_536);
                    assert!((i64::from(q[i]) * 2 * l - exact).abs() < 2 * l);
                }
            }
        }
    }
}
