//! The frames that TS 26.201 prints bit by bit (tables 5, 6, A.1a, A.2, A.3), out of a text as the document's copy prints them: a caption,
//! then rows with an octet's number and what stands in its bits 8 to 1.

/// What is printed for a bit, or from a bit on.
pub struct Cell {
    pub octet: usize,
    pub bit: usize,
    pub text: String,
}

pub struct Table(Vec<Cell>);

/// The number that a text begins with.
fn leading(text: &str) -> Option<usize> {
    text.split(|c: char| !c.is_ascii_digit()).next()?.parse().ok()
}

impl Table {
    /// A row without an octet's number goes on with the last one; `5..34` begins with octet 5. Rows above the first octet have octet 0.
    pub fn new(text: &str, caption: &str) -> Table {
        let mut cells = Vec::new();
        let mut octet = 0;
        let rows = text.lines().skip_while(|line| !line.starts_with(caption)).skip(1);
        for row in rows.take_while(|line| !line.starts_with("Table ")) {
            let mut columns = row.split('\t');
            octet = columns.next().and_then(leading).unwrap_or(octet);
            for (bit, text) in (1..=8).rev().zip(columns) {
                let text = text.trim().trim_matches('$').to_string();
                if !text.is_empty() {
                    cells.push(Cell { octet, bit, text });
                }
            }
        }
        Table(cells)
    }

    /// The cells of an octet with a text that begins so.
    pub fn cells<'a>(&'a self, octet: usize, text: &'a str) -> impl Iterator<Item = &'a Cell> {
        self.0.iter().filter(move |cell| cell.octet == octet && cell.text.starts_with(text))
    }

    /// The number of a field such as `Mode Request (=1)`.
    pub fn field(&self, octet: usize, name: &str) -> Option<u64> {
        let value = self.cells(octet, name).next()?.text.split_once('=')?.1;
        leading(value.trim()).map(|n| n as u64)
    }

    /// An octet of which the digits of its bits are printed; other bits are 0.
    pub fn digits(&self, octet: usize) -> u8 {
        self.cells(octet, "1").filter(|cell| cell.text == "1").fold(0, |digits, cell| digits | 1 << (cell.bit - 1))
    }

    /// Octet and bit of d(0) to d(bits-1), which stand in this octet and behind it. Bits that are left out between printed ones follow one
    /// another. None where a printed bit stands elsewhere.
    pub fn core(&self, first: usize, bits: usize) -> Option<Vec<(usize, usize)>> {
        let mut places: Vec<(usize, usize)> = Vec::new();
        for j in 0..bits {
            let next = places.last().map(|(octet, bit)| if *bit > 1 { (*octet, bit - 1) } else { (octet + 1, 8) });
            let printed = self.0.iter().filter(|cell| cell.octet >= first && core_bit(&cell.text) == Some(j));
            let printed: Vec<(usize, usize)> = printed.map(|cell| (cell.octet, cell.bit)).collect();
            let place = next.or(printed.first().copied())?;
            if printed.iter().any(|other| *other != place) {
                return None;
            }
            places.push(place);
        }
        Some(places)
    }
}

/// j where d(j) is printed, by that name or another: a SID frame's d(0) to d(34) are s(1) to s(35), d(35) is its type indicator, and then
/// its mode follows, top bit first.
fn core_bit(text: &str) -> Option<usize> {
    match text {
        "STI" | "t1" => return Some(35),
        "Mode Indication (=3)" => return Some(36),
        _ => {}
    }
    let inner = |name: &str| leading(text.strip_prefix(name)?);
    let parameter = text.to_lowercase().strip_prefix('s').and_then(leading).map(|n| n - 1);
    inner("d(").or(inner("mi(").map(|i| 39 - i)).or(parameter)
}
