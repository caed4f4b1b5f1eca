//! The examples of TS 26.202's table 6-2, out of a text as the document's copy prints them: an example's name, then rows of numbers with the
//! source rate.
use crate::frame;

/// A combination as assign takes it: RFCI, type and three sizes.
pub type Row = [u64; 5];

/// Rows of the second example that the copy garbles, and the same rows as in the two other examples.
const GARBLED: [(&str, &str); 2] = [("1 40 0\t\t0\t40\t", "1\t40\t0\t40\t"), ("3\t3 64 11;\t\t177\t", "3\t64\t113\t177\t")];

/// The source rates and their frame types.
const RATES: [(&str, u64); 6] = [
    ("AMR-WB SID", 9),
    ("AMR-WB 6.6 kbps", 0),
    ("AMR-WB 8.85 kbps", 1),
    ("AMR-WB 12.65 kbps", 2),
    ("AMR-WB 15.85 kbps", 4),
    ("AMR-WB 23.85 kbps", 8),
];

/// The rows of each example, with nothing in a third sub-flow.
pub fn examples() -> Vec<Vec<Row>> {
    let copy = include_str!("../tests/tables/ts-26.202-6-2.txt").to_string();
    let text = GARBLED.into_iter().fold(copy, |text, (garbled, right)| text.replace(garbled, right));
    let mut examples: Vec<Vec<Row>> = Vec::new();
    for line in text.lines() {
        if line.contains("\tExample ") {
            examples.push(Vec::new());
        } else if let Some((numbers, ftype)) = RATES.into_iter().find_map(|(rate, ftype)| Some((line.strip_suffix(rate)?, ftype))) {
            let numbers: Vec<u64> = numbers.split_whitespace().map(|n| n.parse().expect("a number")).collect();
            let [rfci, size1, size2, total] = numbers[..] else { panic!("a row of four numbers: {line}") };
            assert!(size1 + size2 == total && total == frame::core_bits(ftype) as u64, "the sum of {line}");
            examples.last_mut().expect("an example's name comes first").push([rfci, ftype, size1, size2, 0]);
        }
    }
    assert!(examples.iter().map(Vec::len).eq([4, 5, 5]), "a row is missing");
    examples
}
