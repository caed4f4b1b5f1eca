//! What is wrong with the text of a sheet, for messages.

/// So many octets of a line are shown, and so many faults are listed.
const MOST_SHOWN: usize = 20;
const MOST_LISTED: usize = 3;

/// The line of d(0).
const FIRST_LINE: usize = 3;

/// The first line that differs from the form, and how; none where no line does.
pub fn form_fault(text: &[u8]) -> Option<String> {
    numbers(text).err()
}

/// The numbers that are missing, and the lines that have others in their place; none where the form is wrong or no number is missing.
pub fn number_faults(text: &[u8]) -> Option<String> {
    let numbers = numbers(text).ok()?;
    let k = numbers.len();
    // the line where each number below K stands first
    let mut lines = vec![None; k];
    let mut faults = Vec::new();
    for (line, number) in (FIRST_LINE..).zip(numbers) {
        match lines.get_mut(number) {
            Some(first @ None) => *first = Some(line),
            Some(Some(first)) => faults.push(format!("line {line}: {number} stands in line {first} too")),
            None => faults.push(format!("line {line}: its number is above {}", k - 1)),
        }
    }
    let missing: Vec<String> = (0..k).filter(|number| lines[*number].is_none()).map(|number| number.to_string()).collect();
    match missing.is_empty() {
        true => None,
        false => Some(format!("missing: {}; {}", listed(&missing, ", "), listed(&faults, "; "))),
    }
}

/// The numbers of d(0) to d(K-1), or the first line that differs from the form.
fn numbers(text: &[u8]) -> Result<Vec<usize>, String> {
    let mut lines = Lines { rest: text, line: 0 };
    let mode = lines.number("mode=")?;
    let Some(k) = bits(mode) else { return Err(lines.wrong("the mode must be 5 to 8")) };
    if lines.number("bits=")? != k {
        return Err(lines.wrong(&format!("mode {mode} has {k} bits")));
    }
    let numbers = (0..k).map(|j| lines.number(&format!("d{j}="))).collect::<Result<_, _>>()?;
    lines.end()?;
    Ok(numbers)
}

/// K of the modes that have a sheet.
fn bits(mode: usize) -> Option<usize> {
    match mode {
        5 => Some(365),
        6 => Some(397),
        7 => Some(461),
        8 => Some(477),
        _ => None,
    }
}

/// The lines of a text in turn, counted from 1.
struct Lines<'a> {
    rest: &'a [u8],
    line: usize,
}

impl<'a> Lines<'a> {
    fn wrong(&self, what: &str) -> String {
        format!("line {}: {what}", self.line)
    }

    /// The next line without its line feed, and whether it has one; none at the end of the text.
    fn next(&mut self) -> Option<(&'a [u8], bool)> {
        self.line += 1;
        let line = self.rest.split_inclusive(|octet| *octet == b'\n').next()?;
        self.rest = &self.rest[line.len()..];
        match line {
            [line @ .., b'\n'] => Some((line, true)),
            _ => Some((line, false)),
        }
    }

    /// The number of the next line, which a word comes before.
    fn number(&mut self, word: &str) -> Result<usize, String> {
        let Some((line, ended)) = self.next() else { return Err(self.wrong(&format!("{word} expected, but the text ends"))) };
        let number = number(word, line).map_err(|what| self.wrong(&what))?;
        match ended {
            true => Ok(number),
            false => Err(self.wrong("it has no line feed at its end")),
        }
    }

    fn end(&mut self) -> Result<(), String> {
        match self.next() {
            Some((line, _)) => Err(self.wrong(&format!("{} stands behind the last line", quoted(line)))),
            None => Ok(()),
        }
    }
}

/// The number of a line, which a word comes before, or what is wrong with the line. A number that is too large for usize is its largest.
fn number(word: &str, line: &[u8]) -> Result<usize, String> {
    let Some(number) = line.strip_prefix(word.as_bytes()) else {
        return Err(format!("{word} expected, not {}", quoted(line)));
    };
    match number {
        [] => Err(format!("no digit stands behind {word}")),
        [digits @ .., b'\r'] if digits.iter().all(u8::is_ascii_digit) => Err("it has a carriage return at its end".to_string()),
        _ if !number.iter().all(u8::is_ascii_digit) => Err(format!("digits alone may stand behind {word}, not {}", quoted(number))),
        [b'0', _, ..] => Err("its number has a leading zero".to_string()),
        _ => Ok(number.iter().fold(0, |n: usize, digit| n.saturating_mul(10).saturating_add(usize::from(digit - b'0')))),
    }
}

/// The beginning of a line, with octets that are no printable ASCII as \xNN.
fn quoted(line: &[u8]) -> String {
    match line.len() {
        0 => "an empty line".to_string(),
        1..=MOST_SHOWN => format!("\"{}\"", line.escape_ascii()),
        _ => format!("\"{}\"..", line[..MOST_SHOWN].escape_ascii()),
    }
}

fn listed(items: &[String], between: &str) -> String {
    let first = items[..items.len().min(MOST_LISTED)].join(between);
    match items.len() {
        ..=MOST_LISTED => first,
        n => format!("{first}{between}and {} more", n - MOST_LISTED),
    }
}
