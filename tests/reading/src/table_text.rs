//! The text of a grant table: on each line a subscriber and a namespace in plain
//! decimal, with spaces and tabs between and around; `#` starts a comment, and a
//! line with nothing before it is skipped (docs/DECISIONS.md, 'Programs').

use crate::Row;

/// What a program holds: bytes of text, and rows.
pub const TABLE_TEXT: usize = 262_144;
pub const TABLE_ROWS: usize = 16_384;

/// Why a text gives no table; lines are counted from 1.
#[derive(Clone, Copy, Debug, PartialEq, Eq)]
pub enum NoTable {
    TooLong,
    NoRow { line: usize },
    TooManyRows { line: usize },
}

/// "no leading zero, plus sign or -0"
fn is_plain(number: &str) -> bool {
    let digits = number.strip_prefix('-').unwrap_or(number);
    let is_decimal = !digits.is_empty() && digits.bytes().all(|byte| byte.is_ascii_digit());
    is_decimal && (number == "0" || !digits.starts_with('0'))
}

fn row(fields: &str) -> Option<Row> {
    let words: Vec<&str> = fields.split([' ', '\t']).filter(|word| !word.is_empty()).collect();
    let [subscriber, namespace] = words[..] else { return None };
    if !is_plain(subscriber) || !is_plain(namespace) {
        return None;
    }
    Some(Row { subscriber: subscriber.parse().ok()?, namespace: namespace.parse().ok()? })
}

pub fn read_table(text: &[u8]) -> Result<Vec<Row>, NoTable> {
    if text.len() > TABLE_TEXT {
        return Err(NoTable::TooLong);
    }
    let mut rows = Vec::new();
    for (k, line) in text.split(|byte| *byte == b'\n').enumerate() {
        let line_number = k + 1;
        let before = line.split(|byte| *byte == b'#').next().unwrap_or_default();
        // What is no UTF-8 holds a byte that no row has.
        let fields = String::from_utf8_lossy(before);
        if fields.bytes().all(|byte| byte == b' ' || byte == b'\t') {
            continue;
        }
        let Some(row) = row(&fields) else { return Err(NoTable::NoRow { line: line_number }) };
        if rows.len() == TABLE_ROWS {
            return Err(NoTable::TooManyRows { line: line_number });
        }
        rows.push(row);
    }
    Ok(rows)
}

#[cfg(test)]
mod tests {
    use super::*;

    #[test]
    fn lines() {
        let rows = |pairs: &[(u64, i64)]| {
            Ok(pairs.iter().map(|&(subscriber, namespace)| Row { subscriber, namespace }).collect())
        };
        for text in ["", "\n", "#", "# 1 2", " \t \n#x\n\n", "\t#1 2"] {
            assert_eq!(read_table(text.as_bytes()), rows(&[]), "{text:?}");
        }
        for text in ["7 -20", "7 -20\n", " \t7\t \t-20 \n", "\n7 -20# 8 1", "7 -20 #\n#"] {
            assert_eq!(read_table(text.as_bytes()), rows(&[(7, -20)]), "{text:?}");
        }
        assert_eq!(
            read_table(b"18446744073709551615 9223372036854775807\n0 -9223372036854775808\n0 0"),
            rows(&[(u64::MAX, i64::MAX), (0, i64::MIN), (0, 0)])
        );
        for line in [
            "7",
            "7 ",
            "-20",
            "7 -20 1",
            "7,-20",
            "7 -0",
            "7 +1",
            "+7 1",
            "07 1",
            "7 01",
            "7 -01",
            "00 1",
            "7 --1",
            "7 -",
            "- 1",
            "-7 1",
            "x 1",
            "7 x",
            "7 1x",
            "0x7 1",
            "7 1.0",
            "7 1\r",
            "7\u{a0}1",
            "7 \u{661}",
            "18446744073709551616 1",
            "7 9223372036854775808",
            "7 -9223372036854775809",
            "7 18446744073709551615",
            "7 99999999999999999999999",
            "7 1\0",
            "\0",
            "7\u{b}1",
            "/ *",
        ] {
            for (before, number) in [("", 1), ("1 1\n\n", 3)] {
                let text = format!("{before}{line}\n8 8\n");
                let answer = Err(NoTable::NoRow { line: number });
                assert_eq!(read_table(text.as_bytes()), answer, "{text:?}");
            }
        }
        assert_eq!(read_table(b"7 1\xff\n"), Err(NoTable::NoRow { line: 1 }));
    }

    #[test]
    fn limits() {
        let text = "1 2\n".repeat(TABLE_ROWS);
        assert_eq!(read_table(text.as_bytes()).map(|rows| rows.len()), Ok(TABLE_ROWS));
        let more = format!("{text}#\n3 4");
        let answer = Err(NoTable::TooManyRows { line: TABLE_ROWS + 2 });
        assert_eq!(read_table(more.as_bytes()), answer);
        assert_eq!(read_table(&vec![b' '; TABLE_TEXT]), Ok(Vec::new()));
        assert_eq!(read_table(&vec![b' '; TABLE_TEXT + 1]), Err(NoTable::TooLong));
    }
}
