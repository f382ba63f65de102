//! Ask 8: the positions for equal spacing as one list of numbers, in plain text.
//!
//! Nothing in this program reads the list; edges are always divided anew.

use crate::edge::positions;
use crate::level::Division;

/// How many rows there are, one for each number of segments from 1 on.
pub const ROWS: u32 = 64;

/// Numbers on one line of the text.
const PER_LINE: usize = 9;

/// Ask 8: the place in the list where row n begins.
pub fn row_start(n: u32) -> u32 {
    (n - 1) * (n + 2) / 2
}

/// Ask 8 and section "Where the points of an edge lie": row n, the n + 1
/// positions of an edge of n equal segments.
pub fn row(n: u32) -> Vec<u32> {
    positions(Division { n, l: 65_536 * n })
}

/// The text of one row: a line of comment, then its numbers.
fn row_text(n: u32) -> String {
    let mut text = format!("    // n = {n}, from word {}\n", row_start(n));
    for numbers in row(n).chunks(PER_LINE) {
        let words: Vec<String> = numbers.iter().map(u32::to_string).collect();
        text += &format!("    {},\n", words.join(", "));
    }
    text
}

/// Ask 8: the text of the whole list, row after row.
pub fn text() -> String {
    (1..=ROWS).map(row_text).collect()
}

#[cfg(test)]
mod tests {
    use super::*;

    /// Every number of the text, in order, comments left out.
    fn numbers() -> Vec<u32> {
        text()
            .lines()
            .filter(|line| !line.contains("//"))
            .flat_map(|line| line.split_terminator(',').map(str::trim))
            .map(|word| word.parse().unwrap())
            .collect()
    }

    #[test]
    fn rows_lie_where_they_should() {
        let all = numbers();
        assert_eq!(all.len(), 2_144);
        let mut next = 0;
        for n in 1..=ROWS {
            assert_eq!(row_start(n), next);
            let row = row(n);
            assert_eq!(row.len() as u32, n + 1);
            assert_eq!(all[next as usize..][..row.len()], row);
            assert_eq!((row[0], row[n as usize]), (0, 65_536));
            next += n + 1;
        }
        assert_eq!(next, 2_144);
    }

    #[test]
    fn the_form_of_the_text() {
        let text = text();
        let start = "    // n = 1, from word 0\n    0, 65536,\n    // n = 2, from word 2\n";
        assert!(text.starts_with(start));
        assert!(text.contains("\n    // n = 3, from word 5\n    0, 21846, 43690, 65536,\n"));
        assert!(text.contains("\n    // n = 7, from word 27\n    0, "));
        // Ten numbers take a second line.
        assert!(text.contains("50972, 58254,\n    65536,\n    // n = 10, from word 54\n"));
        assert_eq!(text.lines().filter(|line| line.contains("//")).count(), 64);
        for line in text.lines() {
            assert!(line.starts_with("    ") && !line.starts_with("     "));
            assert!(line.contains("//") || line.ends_with(','));
            assert!(line.matches(',').count() <= PER_LINE);
        }
    }
}
