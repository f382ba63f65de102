//! Reading the program's text: what is of the form is read, and of any other text the first line that is not is reported.

use yoktvarim::answers::{read, Answer, Reader};

const SAMPLE: &str = "TSJ 1\ndrawn 3 3\n0 196608 0\n0 0 196608\n196608 0 0\n0 1 2\ndiscarded\nrefused 8\ndrawn 0 0\n";

fn drawn(points: &[u32], indices: &[u16], width: usize) -> Answer {
    Answer::Drawn {
        points: points.to_vec(),
        indices: indices.to_vec(),
        width,
    }
}

#[test]
fn texts_of_the_form() {
    let corners = [0, 196_608, 0, 0, 0, 196_608, 196_608, 0, 0];
    let answers = vec![
        drawn(&corners, &[0, 1, 2], 3),
        Answer::Discarded,
        Answer::Refused(8),
        drawn(&[], &[], 0),
    ];
    assert_eq!(read(SAMPLE), Ok(answers));
    assert_eq!(
        read("TSJ 2\ndrawn 1 4\n1 2 3\n0 1\n2 65535\n"),
        Ok(vec![drawn(&[1, 2, 3], &[0, 1, 2, 65_535], 2)])
    );
    assert_eq!(read("TSJ 1\n"), Ok(Vec::new()));
    assert_eq!(read("refused 5\n"), Ok(vec![Answer::Refused(5)]));
    assert_eq!(read("refused 6\n"), Ok(vec![Answer::Refused(6)]));
}

/// The sample with one text replaced by another is reported so.
fn reported(old: &str, new: &str, words: &str) {
    assert!(SAMPLE.contains(old), "{old}");
    let malformed = read(&SAMPLE.replacen(old, new, 1)).expect_err(new);
    assert_eq!(malformed.to_string(), words);
}

#[test]
fn malformed_lines() {
    let point = "line 4: a point's three numbers up to 4294967295 expected, found";
    let record = "the answer of record";
    reported(
        "TSJ 1",
        "TSJ 3",
        "line 1: 'TSJ 1' or 'TSJ 2' expected, found 'TSJ 3'",
    );
    reported(
        "TSJ 1",
        "refused 5",
        "line 1: 'TSJ 1' or 'TSJ 2' expected, found 'refused 5'",
    );
    for line in [
        "discarded ",
        "discarded 1",
        "refused",
        "refused 4294967296",
        "drawn 1",
        "drawn 1 2 3",
        "",
    ] {
        reported(
            "discarded",
            line,
            &format!("line 7: {record} 1 expected, found '{line}'"),
        );
    }
    for line in [
        "0 0",
        "0 0 0 0",
        "0 0  0",
        "0 0 00",
        "0 0 +1",
        "0 0 -1",
        "0 0 4294967296",
    ] {
        reported("0 0 196608", line, &format!("{point} '{line}'"));
    }
    reported(
        "0 1 2\n",
        "0 1 2 3\n",
        "line 6: 1 to 3 indices up to 65535 (3 in lines of equal length) expected, found '0 1 2 3'",
    );
    reported(
        "0 1 2\n",
        "0 1\n2\n",
        "line 6: 1 to 3 indices up to 65535 (3 in lines of equal length) expected, found '0 1'",
    );
    reported(
        "0 1 2\n",
        "0\n1 2\n",
        "line 7: 1 index up to 65535 expected, found '1 2'",
    );
    reported(
        "0 1 2\n",
        "0 1 65536\n",
        "line 6: 1 to 3 indices up to 65535 (3 in lines of equal length) expected, found '0 1 65536'",
    );
    reported(
        "drawn 0 0",
        "drawn 1 0",
        "line 10: the text ends, a point's three numbers up to 4294967295 expected",
    );
    reported("drawn 0 0\n", "drawn 0 0", "line 9: no newline at its end");
    for line in ["discarded\r", "discardéd", "discarded\t", "\0"] {
        reported(
            "discarded",
            line,
            "line 7: not a letter, digit, space or newline",
        );
    }
    let empty = read("").expect_err("no title");
    assert_eq!(
        empty.to_string(),
        "line 1: the text ends, 'TSJ 1' or 'TSJ 2' expected"
    );
}

/// With a known width the last line may be short, and every other line has exactly that width.
#[test]
fn lines_of_a_known_width() {
    let text = b"drawn 0 4\n0 1 2\n3\ndrawn 0 4\n0 1\n2 3\n";
    let mut reader = Reader::new(text);
    assert_eq!(
        reader.take_answer(0, Some(3)),
        Ok(drawn(&[], &[0, 1, 2, 3], 3))
    );
    let malformed = reader.take_answer(1, Some(3)).expect_err("two in a line");
    assert_eq!(
        malformed.to_string(),
        "line 5: 3 indices up to 65535 expected, found '0 1'"
    );
    let mut reader = Reader::new(b"TSJ 1\nmore\n");
    assert_eq!(reader.take_title("TSJ 1"), Ok(()));
    let left = reader.take_end("a line too many").expect_err("a line");
    assert_eq!(left.to_string(), "line 2: a line too many");
}
