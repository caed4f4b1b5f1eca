//! The codec's bit order, written from the papers (document 01, "Codec order"; document 02, h) in the plainest way, with the tables of G.722.2
//! Annex E as they are printed. It shares no code with crates/ or benches/.
use crate::{frame, printed, sheet};

/// The tables of modes 0 to 4. Modes 5 to 8 have the sheet that a user supplies.
pub struct Order(Vec<Vec<usize>>);

impl Order {
    pub fn new() -> Order {
        Order(printed::tables(include_str!("../tests/tables/g.722.2-e.txt")))
    }

    /// Whether a sheet of so many numbers may come with a mode: with modes 0 to 4 any, since it stays unread.
    fn fits(&self, mode: u64, sheet: &[u16]) -> bool {
        mode < self.0.len() as u64 || sheet.is_empty() || sheet.len() == frame::core_bits(mode)
    }

    /// The table of a mode.
    fn table(&self, mode: u64, sheet: &[u16]) -> Result<Vec<usize>, u64> {
        if let Some(table) = self.0.get(mode as usize) {
            return Ok(table.clone());
        }
        if sheet.is_empty() {
            return Err(12);
        }
        let numbers: Vec<u64> = sheet.iter().map(|n| *n as u64).collect();
        if !sheet::complete(&numbers, frame::core_bits(mode)) {
            return Err(24);
        }
        Ok(numbers.into_iter().map(|n| n as usize).collect())
    }

    /// The packed core of a codec row, with room for so many octets: d(j) = s(table(j) + 1), and row[0] is s(1).
    pub fn to_core(&self, mode: u64, sheet: &[u16], row: &[u8], room: usize) -> Result<Vec<u8>, u64> {
        if mode > 8 || row.len() != frame::core_bits(mode) || row.iter().any(|s| *s > 1) || !self.fits(mode, sheet) {
            return Err(11);
        }
        let d: Vec<bool> = self.table(mode, sheet)?.iter().map(|n| row[*n] == 1).collect();
        let core = frame::pack(&d);
        if room < core.len() {
            return Err(10);
        }
        Ok(core)
    }

    /// The codec row of a packed core, with room for so many octets.
    pub fn to_row(&self, mode: u64, sheet: &[u16], core: &[u8], room: usize) -> Result<Vec<u8>, u64> {
        let k = frame::core_bits(mode);
        if mode > 8 || core.len() != (k + 7) / 8 || !self.fits(mode, sheet) {
            return Err(11);
        }
        let d = frame::bits(core);
        if d[k..].iter().any(|filling| *filling) {
            return Err(5);
        }
        let table = self.table(mode, sheet)?;
        if room < k {
            return Err(10);
        }
        let mut row = vec![0; k];
        for (d, n) in d.iter().zip(table) {
            row[n] = *d as u8;
        }
        Ok(row)
    }
}
