//! An ordering table that a user supplies for one of modes 5 to 8, as text, read as the papers say it (document 02, h) in the plainest way. It
//! shares no code with crates/ or benches/.
use crate::frame;

/// A number without a leading zero, of any number of digits; all above 64 bits are one number, which no table has.
fn number(text: &[u8]) -> Option<u64> {
    let leading_zero = text.len() > 1 && text[0] == b'0';
    if text.is_empty() || !text.iter().all(u8::is_ascii_digit) || leading_zero {
        return None;
    }
    Some(text.iter().fold(0_u64, |n, digit| n.saturating_mul(10).saturating_add((digit - b'0') as u64)))
}

/// The mode and the numbers of a text in form, however large the numbers are.
fn in_form(text: &[u8]) -> Option<(u64, Vec<u64>)> {
    let mut lines = text.strip_suffix(b"\n")?.split(|octet| *octet == b'\n');
    let mut value = |name: String| number(lines.next()?.strip_prefix(name.as_bytes())?);
    let mode = value("mode=".into())?;
    let bits = value("bits=".into())?;
    if !(5..=8).contains(&mode) || bits != frame::core_bits(mode) as u64 {
        return None;
    }
    let numbers: Vec<u64> = (0..bits).map(|j| value(format!("d{j}="))).collect::<Option<_>>()?;
    lines.next().is_none().then_some((mode, numbers))
}

/// Whether each number below K is among these.
pub fn complete(numbers: &[u64], k: usize) -> bool {
    let mut found = vec![false; k];
    numbers.iter().filter(|n| **n < k as u64).for_each(|n| found[*n as usize] = true);
    found.into_iter().all(|found| found)
}

/// The mode and the numbers of a sheet's text, with room for so many numbers.
pub fn read(text: &[u8], room: usize) -> Result<(u64, Vec<u16>), u64> {
    let (mode, numbers) = in_form(text).ok_or(23_u64)?;
    if !complete(&numbers, numbers.len()) {
        return Err(24);
    }
    if room < numbers.len() {
        return Err(10);
    }
    Ok((mode, numbers.into_iter().map(|n| n as u16).collect()))
}
