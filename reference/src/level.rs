//! From a tessellation level to a number of segments, in whole numbers only.

use crate::patch::Spacing;

/// How one edge is divided: n segments, and the level L in steps of 2^-16.
#[derive(Clone, Copy, Debug, PartialEq, Eq)]
pub struct Division {
    pub n: u32,
    pub l: u32,
}

/// Ask 9: where a level lies against the range it is clamped to. Either end
/// belongs to the range.
#[derive(Clone, Copy, Debug, PartialEq, Eq)]
pub enum Clamp {
    Below,
    Inside,
    Above,
}

/// What a level comes to: how it divides an edge, and what its clamp found.
#[derive(Clone, Copy, Debug, PartialEq, Eq)]
pub struct Segments {
    pub division: Division,
    pub clamp: Clamp,
}

/// Section "From a level to a number of segments": the clamp of each spacing,
/// with Ask 10's top level for the greatest one. The top is even, so the
/// greatest odd number is one less.
fn clamp_range(spacing: Spacing, top: u32) -> (u32, u32) {
    match spacing {
        Spacing::Equal => (1, top),
        Spacing::FractionalEven => (2, top),
        Spacing::FractionalOdd => (1, top - 1),
    }
}

/// Same section, and Ask 9: the level after the clamp, counted in steps of
/// 2^-23, and what the clamp found. The count is read off the sign, exponent and
/// fraction bits of the f32. A NaN counts as lying below the range.
fn clamped_parts(level: f32, spacing: Spacing, top: u32) -> (u32, Clamp) {
    let (low, high) = clamp_range(spacing, top);
    let (low, high) = (low << 23, high << 23);
    let bits = level.to_bits();
    let negative = bits >> 31 == 1;
    let exponent = (bits >> 23) & 0xff; // 127 stands for 2^0
    let fraction = bits & 0x7f_ffff;
    let nan = exponent == 255 && fraction != 0;
    if nan || negative || exponent < 127 {
        return (low, Clamp::Below); // NaN, below zero, or below 1
    }
    if exponent > 127 + 6 {
        return (high, Clamp::Above); // 128 or more, infinity included
    }
    let parts = ((1 << 23) | fraction) << (exponent - 127);
    if parts < low {
        (low, Clamp::Below)
    } else if parts > high {
        (high, Clamp::Above)
    } else {
        (parts, Clamp::Inside)
    }
}

/// Same section: the number of segments for a given L. Equal spacing takes the
/// next whole number and forgets the fraction in L as well; the fractional
/// spacings go on to the next even or odd number and keep L.
pub fn divide(l: u32, spacing: Spacing) -> Division {
    let whole = l.div_ceil(65_536);
    match spacing {
        Spacing::Equal => Division {
            n: whole,
            l: 65_536 * whole,
        },
        Spacing::FractionalEven => Division {
            n: whole + whole % 2,
            l,
        },
        Spacing::FractionalOdd => Division {
            n: whole + (whole + 1) % 2,
            l,
        },
    }
}

/// Same section: a level as it stands, first to L in steps of 2^-16 (a started
/// step counts as a whole one), then to segments. This is the rule for every
/// outer level and the first look at an inner one; by Ask 9 that first look
/// decides what is said of the clamp.
pub fn segments(level: f32, spacing: Spacing, top: u32) -> Segments {
    let (parts, clamp) = clamped_parts(level, spacing, top);
    Segments {
        division: divide(parts.div_ceil(128), spacing),
        clamp,
    }
}

/// Same section: a level as it stands, for drawing, which has no use for the
/// clamp's finding (Ask 9).
pub fn division(level: f32, spacing: Spacing, top: u32) -> Division {
    segments(level, spacing, top).division
}

/// Same section: an inner level that gave a single segment counts as the
/// smallest step above 1.
pub fn widen_inner(inner: Division, spacing: Spacing) -> Division {
    if inner.n == 1 {
        divide(65_537, spacing)
    } else {
        inner
    }
}

#[cfg(test)]
mod tests {
    use super::*;
    use Spacing::*;

    /// Levels up to 64.
    fn division(level: f32, spacing: Spacing) -> Division {
        super::division(level, spacing, 64)
    }

    fn n(level: f32, spacing: Spacing) -> u32 {
        division(level, spacing).n
    }

    fn above(level: f32) -> f32 {
        f32::from_bits(level.to_bits() + 1)
    }

    fn below(level: f32) -> f32 {
        f32::from_bits(level.to_bits() - 1)
    }

    #[test]
    fn both_sides_of_limits() {
        assert_eq!(n(1.0, Equal), 1);
        assert_eq!(n(above(1.0), Equal), 2);
        assert_eq!(n(63.0, FractionalOdd), 63);
        assert_eq!(n(64.0, FractionalOdd), 63);
        assert_eq!(n(0.5, FractionalEven), 2);
        assert_eq!(n(64.0, Equal), 64);
        assert_eq!(n(1000.0, Equal), 64);
    }

    #[test]
    fn every_whole_number_and_its_neighbours() {
        for k in 1..=63u32 {
            let level = k as f32;
            assert_eq!(
                division(level, Equal),
                Division {
                    n: k,
                    l: 65_536 * k
                }
            );
            assert_eq!(n(above(level), Equal), k + 1);
            // Just under a whole number rounds up to it (and 1 is the floor).
            assert_eq!(n(below(level), Equal), k);
            let even = if k == 1 { 2 } else { k + k % 2 };
            assert_eq!(n(level, FractionalEven), even);
            let odd = k + (k + 1) % 2;
            assert_eq!(n(level, FractionalOdd), odd);
        }
        assert_eq!(n(above(64.0), Equal), 64);
        assert_eq!(n(above(2.0), FractionalEven), 4);
        assert_eq!(n(above(1.0), FractionalOdd), 3);
        assert_eq!(division(above(1.0), FractionalOdd).l, 65_537);
        assert_eq!(division(above(2.0), FractionalEven).l, 131_073);
        assert_eq!(n(below(63.0), FractionalOdd), 63);
    }

    #[test]
    fn odd_values_take_an_end_of_the_range() {
        let low = [
            f32::NAN,
            -f32::NAN,
            f32::NEG_INFINITY,
            -3.0,
            -0.0,
            0.0,
            f32::from_bits(1),
        ];
        for level in low {
            assert_eq!(n(level, Equal), 1);
            assert_eq!(n(level, FractionalEven), 2);
            assert_eq!(n(level, FractionalOdd), 1);
        }
        for level in [f32::INFINITY, f32::MAX, 128.0, 127.9, 65.0] {
            assert_eq!(n(level, Equal), 64);
            assert_eq!(n(level, FractionalEven), 64);
            assert_eq!(n(level, FractionalOdd), 63);
        }
    }

    /// The same finding by comparing numbers, not bits.
    fn compared(level: f32, low: f32, high: f32) -> Clamp {
        if level >= low && level <= high {
            Clamp::Inside
        } else if level > high {
            Clamp::Above
        } else {
            Clamp::Below
        }
    }

    /// Every spacing and top with its range, as the papers have it.
    fn ranges() -> impl Iterator<Item = (Spacing, u32, f32, f32)> {
        (2..=64).step_by(2).flat_map(|top| {
            [
                (Equal, top, 1.0, top as f32),
                (FractionalEven, top, 2.0, top as f32),
                (FractionalOdd, top, 1.0, top as f32 - 1.0),
            ]
        })
    }

    #[test]
    fn both_sides_of_both_ends() {
        for (spacing, top, low, high) in ranges() {
            let clamp = |level: f32| segments(level, spacing, top).clamp;
            assert_eq!(clamp(below(low)), Clamp::Below);
            assert_eq!(clamp(low), Clamp::Inside);
            assert_eq!(clamp(high), Clamp::Inside);
            assert_eq!(clamp(above(high)), Clamp::Above);
            assert_eq!(clamp(f32::NAN), Clamp::Below);
            assert_eq!(clamp(-f32::NAN), Clamp::Below);
            for bits in (0..=u32::MAX).step_by(1_048_573) {
                let level = f32::from_bits(bits);
                assert_eq!(clamp(level), compared(level, low, high));
            }
        }
    }

    /// Ask 10: all that a lower top does is to end the range earlier.
    #[test]
    fn levels_above_a_top_count_as_its_end_and_others_stay() {
        for (spacing, top, low, high) in ranges() {
            for level in [0.5, low, below(high), high] {
                let here = super::division(level, spacing, top);
                assert_eq!(here, division(level, spacing));
            }
            let end = super::division(high, spacing, top);
            assert_eq!((end.n, end.l), (high as u32, 65_536 * high as u32));
            for level in [above(high), high + 1.0, 64.0, 1e9, f32::INFINITY] {
                if level > high {
                    assert_eq!(super::division(level, spacing, top), end);
                }
            }
        }
    }

    #[test]
    fn an_inner_level_of_one_is_widened() {
        let equal = widen_inner(division(1.0, Equal), Equal);
        assert_eq!(equal, Division { n: 2, l: 131_072 });
        let odd = widen_inner(division(1.0, FractionalOdd), FractionalOdd);
        assert_eq!(odd, Division { n: 3, l: 65_537 });
        let even = widen_inner(division(1.0, FractionalEven), FractionalEven);
        assert_eq!(even, Division { n: 2, l: 131_072 });
    }
}
