//! The ordering tables of modes 0 to 4, out of a text as the documents' copies print them: a caption, then rows of numbers.

/// The rates of modes 0 to 4 in kbit/s: what a caption names.
const RATES: [&str; 5] = ["6.60", "8.85", "12.65", "14.25", "15.85"];

/// One table for each caption, in the order of the modes.
pub fn tables(text: &str) -> Vec<Vec<usize>> {
    let mut list: Vec<Vec<usize>> = Vec::new();
    for line in text.lines() {
        if line.contains("Table") {
            let rate = format!(" {} kbit/s ", RATES[list.len()]);
            assert!(line.contains(&rate), "the caption of another mode: {line}");
            list.push(Vec::new());
        } else {
            let numbers = line.split_whitespace().map(|n| n.parse::<usize>().expect("a number"));
            list.last_mut().expect("a caption comes first").extend(numbers);
        }
    }
    assert!(list.len() == RATES.len(), "a table is missing");
    list
}
