//! Sheets that the comparison draws by chance, as numbers and as text: right ones and ones with something wrong.
use crate::frame;
use crate::random::Random;

/// The numbers below K in some order.
fn permutation(g: &mut Random, k: usize) -> Vec<u16> {
    let mut numbers: Vec<u16> = (0..k as u16).collect();
    for i in (1..k).rev() {
        numbers.swap(i, g.index(i + 1));
    }
    numbers
}

/// A place of a list: its first, its last or another one.
fn place(g: &mut Random, len: usize) -> usize {
    let any = g.index(len);
    g.one_of(&[0, len - 1, any, any])
}

/// The number of another place.
fn another<T: Clone>(g: &mut Random, list: &[T], at: usize) -> T {
    list[(at + 1 + g.index(list.len() - 1)) % list.len()].clone()
}

/// A sheet for a call with a mode: mostly a right one. With modes 0 to 4, where it stays unread, it is for one of the others, or as long as
/// the mode's own table.
pub fn some_sheet(g: &mut Random, mode: u64) -> Vec<u16> {
    let k = frame::core_bits(if mode < 5 { 5 + g.below(4) } else { mode });
    let mut sheet = permutation(g, k);
    let at = place(g, k);
    match g.below(16) {
        0..=1 => {
            g.kind("sheet with a number twice");
            sheet[at] = another(g, &sheet, at);
        }
        2..=3 => {
            g.kind("sheet with a number too large");
            let any = k as u16 + g.below(65536 - k as u64) as u16;
            sheet[at] = g.one_of(&[k as u16, any, 256 + k as u16, 65535]);
        }
        4 => {
            g.kind("sheet of another length");
            let n = g.one_of(&[1, k - 1, k + 1, frame::core_bits(mode), 365, 397, 461, 477]);
            sheet = permutation(g, if n == k { k + 1 } else { n });
        }
        5..=6 => {
            g.kind("no sheet");
            sheet.clear();
        }
        7 => {
            g.kind("sheet of random numbers");
            sheet.iter_mut().for_each(|n| *n = g.next() as u16);
        }
        _ => g.kind("right sheet"),
    }
    sheet
}

/// The text of a sheet, right or with some faults, and its K. At times it is for a mode that has none, and else as it should be.
pub fn some_text(g: &mut Random) -> (Vec<u8>, usize) {
    let other_mode = g.one_in(16);
    let mode = if other_mode { g.one_of(&[0, 1, 2, 3, 4, 9]) } else { 5 + g.below(4) };
    let k = frame::core_bits(mode);
    let mut numbers: Vec<String> = permutation(g, k).iter().map(u16::to_string).collect();
    let faults = [(); 3].map(|()| g.one_in(4));
    if faults[0] {
        change_a_number(g, &mut numbers);
    }
    let mut lines = vec![format!("mode={mode}\n"), format!("bits={k}\n")];
    lines.extend(numbers.iter().enumerate().map(|(j, n)| format!("d{j}={n}\n")));
    if faults[1] {
        change_lines(g, k, &mut lines);
    }
    let mut text = lines.concat().into_bytes();
    if faults[2] {
        change_octets(g, &mut text);
    }
    match faults.into_iter().filter(|fault| *fault).count() {
        0 if other_mode => g.kind("text for a mode that has no sheet"),
        0 => g.kind("right text of a sheet"),
        1 => {}
        _ => g.kind("text with several faults"),
    }
    (text, k)
}

/// Takes a number away and writes another one in its place: one that is there, or one too large, of which some agree with it in their low
/// 16, 32 or 64 bits.
fn change_a_number(g: &mut Random, numbers: &mut [String]) {
    let k = numbers.len();
    let at = place(g, k);
    let right: u128 = numbers[at].parse().expect("a number");
    numbers[at] = match g.below(6) {
        0 => {
            g.kind("text with a number twice");
            another(g, numbers, at)
        }
        1 => {
            g.kind("text with a number from K on");
            let any = k + g.index(65536 - k);
            g.one_of(&[k, k + 1, any, 65535]).to_string()
        }
        2 => {
            g.kind("text with 65536 or somewhat more");
            (65536 + g.one_of(&[0, right])).to_string()
        }
        3 => {
            g.kind("text with 2^32 or somewhat more");
            ((1 << 32) + g.one_of(&[0, right])).to_string()
        }
        4 => {
            g.kind("text with about 2^64");
            (u64::MAX as u128 + g.one_of(&[0, 1, 1 + right])).to_string()
        }
        _ => {
            g.kind("text with a number of 40 digits");
            format!("{}{right:020}", 1_u128 << 64)
        }
    };
}

/// Makes a line other than the form has it, or takes lines away or in another order.
fn change_lines(g: &mut Random, k: usize, lines: &mut Vec<String>) {
    let at = place(g, lines.len());
    match g.below(10) {
        0..=1 => change_the_head(g, k as u128, lines),
        2..=5 => change_a_line(g, &mut lines[at]),
        6 => {
            g.kind("text with a line numbered wrong");
            let j = g.index(k);
            let right = format!("d{j}=");
            let (j, k, line) = (j as u128, k as u128, &mut lines[2 + j]);
            let other = g.one_of(&[(j + k - 1) % k, j + 1, (1 << 16) + j, (1 << 64) + j]);
            *line = line.replace(&right, &format!("d{other}="));
        }
        7 => {
            g.kind("text with two lines changed places");
            let other = g.index(lines.len());
            lines.swap(at, other);
        }
        8 => {
            g.kind("text without a line");
            lines.remove(at);
        }
        _ => {
            g.kind("text with a line twice");
            lines.insert(at, lines[at].clone());
        }
    }
}

/// Gives a text another mode or other bits.
fn change_the_head(g: &mut Random, k: u128, lines: &mut [String]) {
    if g.one_in(2) {
        g.kind("text with another mode");
        let mode = g.one_of(&["", "0", "1", "4", "5", "6", "7", "8", "9", "15", "261", "18446744073709551621"]);
        lines[0] = format!("mode={mode}\n");
    } else {
        g.kind("text with other bits");
        let bits = g.one_of(&[0, 1, 317, 365, 397, 461, 477, k - 1, k + 1, (1 << 16) + k, (1 << 64) + k]);
        lines[1] = format!("bits={bits}\n");
    }
}

fn change_a_line(g: &mut Random, line: &mut String) {
    match g.below(4) {
        0 => {
            g.kind("text with a leading zero");
            let before = g.one_of(&["=", "=", "d"]);
            *line = line.replacen(before, &format!("{before}0"), 1);
        }
        1 => {
            g.kind("text with a line not ended");
            line.pop();
        }
        2 => {
            g.kind("text with a carriage return");
            line.insert(line.len() - 1, '\r');
        }
        _ => {
            g.kind("text with a space or a sign");
            let column = g.index(line.len());
            line.insert(column, g.one_of(&[' ', '\t', '+', '-', '\0']));
        }
    }
}

/// An octet, mostly one that a sheet's text has.
fn some_octet(g: &mut Random) -> u8 {
    if g.one_in(4) { g.next() as u8 } else { g.one_of(b"0123456789=\nd") }
}

/// Changes a text somewhere, with no regard to its lines.
fn change_octets(g: &mut Random, text: &mut Vec<u8>) {
    let at = place(g, text.len());
    match g.below(6) {
        0 => {
            g.kind("text with one octet changed");
            text[at] = some_octet(g);
        }
        1 => {
            g.kind("text with one octet removed");
            text.remove(at);
        }
        2 => {
            g.kind("text with one octet inserted");
            text.insert(at, some_octet(g));
        }
        3 => {
            g.kind("text cut");
            text.truncate(at);
        }
        4 => {
            g.kind("text with octets behind its end");
            let behind = g.one_of::<&[u8]>(&[b"\n", b"\0", b" ", b"0", b"d365=0\n", b"d477=0\n", b"mode=5\n"]);
            text.extend(behind);
        }
        _ => {
            g.kind("text of random octets");
            let n = g.index(text.len());
            *text = g.octets(n);
        }
    }
}
