//! The link's Up and Down in plain Rust (document 01, "The link"), unproved: what the library's speed is compared with. The state is
//! private, so a combination is judged once, when it is assigned. Safe Rust only. A refused call writes nothing and leaves the state;
//! octets beyond the written ones stay. The CRC is baseline.rs's, by bits.
#![forbid(unsafe_code)]
use crate::baseline::{class_a, frame, Bitwise, Format, IF1};

/// K of each type; the types that a combination may not have have none either.
pub const BITS: [u16; 16] = [132, 177, 253, 285, 317, 365, 397, 461, 477, 40, 0, 0, 0, 0, 0, 0];
const MOST: usize = 11;
const SID: u8 = 9;
const NO_DATA: u8 = 15;

struct Combination {
    rfci: u8,
    ftype: u8,
    sizes: [usize; 3],
}

#[derive(Default)]
pub struct Link {
    set: Vec<Combination>,
    request: u8,
    forwarded: Option<u8>,
}

/// What Down answers: FQC, RFCI, the octets of each sub-flow, and the request that is forwarded, if one is.
pub struct Down {
    pub fqc: u8,
    pub rfci: u8,
    pub octets: [usize; 3],
    pub forwarded: Option<u8>,
}

const fn packed(bits: usize) -> usize { (bits + 7) / 8 }

/// A combination from its five numbers, if they make one.
fn combination(row: &[u64]) -> Option<Combination> {
    let rfci = u8::try_from(row[0]).ok().filter(|rfci| *rfci <= 63)?;
    let ftype = u8::try_from(row[1]).ok().filter(|ftype| *ftype <= SID || *ftype == NO_DATA)?;
    let bits = BITS[ftype as usize] as u64;
    if row[2].checked_add(row[3])?.checked_add(row[4])? != bits { return None; }
    Some(Combination { rfci, ftype, sizes: [row[2] as usize, row[3] as usize, row[4] as usize] })
}

/// A sub-flow has exactly its octets, and its filling is 0.
#[inline]
fn right(s: &[u8], size: usize) -> bool {
    s.len() == packed(size) && (size % 8 == 0 || s[s.len() - 1] & 0xFF >> (size % 8) == 0)
}

/// Puts octets behind the first `at` bits of `d`. The bits of `d` from there on are 0.
#[inline]
fn append(d: &mut [u8], at: usize, s: &[u8]) {
    let (Some(first), Some(last)) = (s.first(), s.last()) else { return };
    let (d, shift) = (&mut d[at / 8..], at % 8);
    if shift == 0 {
        d[..s.len()].copy_from_slice(s);
        return;
    }
    d[0] |= first >> shift;
    for (d, pair) in d[1..].iter_mut().zip(s.windows(2)) { *d = pair[0] << (8 - shift) | pair[1] >> shift; }
    d[s.len()] = last << (8 - shift);
}

/// Takes `size` bits of `s`, from bit `at` on, into `d`, which has exactly their octets.
#[inline]
fn take(s: &[u8], at: usize, size: usize, d: &mut [u8]) {
    let n = d.len();
    if n == 0 { return; }
    let (s, shift) = (&s[at / 8..], at % 8);
    if shift == 0 {
        d.copy_from_slice(&s[..n]);
    } else {
        for (d, pair) in d.iter_mut().zip(s.windows(2)) { *d = pair[0] << shift | pair[1] >> (8 - shift); }
        if s.len() == n { d[n - 1] = s[n - 1] << shift; }
    }
    if size % 8 != 0 { d[n - 1] &= !(0xFF >> (size % 8)); }
}

impl Link {
    pub fn assign(&mut self, rows: &[u64]) -> Result<(), u8> {
        if rows.len() % 5 != 0 || rows.is_empty() || rows.len() > 5 * MOST { return Err(11); }
        let mut set: Vec<Combination> = Vec::with_capacity(MOST);
        for row in rows.chunks_exact(5) {
            let c = combination(row).ok_or(11)?;
            if set.iter().any(|d| d.rfci == c.rfci || d.ftype == c.ftype) { return Err(11); }
            set.push(c);
        }
        if !self.set.is_empty() { return Err(15); }
        self.set = set;
        Ok(())
    }

    pub fn rate(&mut self, mode: u64) -> Result<(), u8> {
        if mode > 8 { return Err(11); }
        self.request = mode as u8;
        Ok(())
    }

    /// From three sub-flows to an IF1 frame: the octets written, or the refusal's number. Like the library's it stays a call, and does not
    /// become part of the loop that measures it.
    #[inline(never)]
    pub fn up(&self, fqc: u64, rfci: u64, subflows: [&[u8]; 3], out: &mut [u8]) -> Result<usize, u8> {
        if fqc > 3 || rfci > 63 { return Err(11); }
        if self.set.is_empty() { return Err(14); }
        if fqc == 3 { return Err(13); }
        let c = self.set.iter().find(|c| c.rfci as u64 == rfci).ok_or(16)?;
        if fqc == 1 {
            *out.first_mut().ok_or(10)? = NO_DATA << 4;
            return Ok(1);
        }
        if subflows.iter().zip(c.sizes).any(|(s, size)| !right(s, size)) { return Err(17); }
        // the longest core has 60 octets; the last of a sub-flow may come to lie in two
        let mut core = [0; 64];
        let mut at = 0;
        for (s, size) in subflows.into_iter().zip(c.sizes) {
            append(&mut core, at, s);
            at += size;
        }
        if c.ftype == SID && core[4] & 15 > 8 { return Err(6); }
        let n = IF1[c.ftype as usize] as usize;
        let out = out.get_mut(..n).ok_or(10)?;
        out[0] = c.ftype << 4 | ((fqc == 0) as u8) << 3;
        if c.ftype <= SID {
            out[1] = if c.ftype == SID { 0 } else { c.ftype << 4 } | self.request;
            out[2] = class_a::<Bitwise>(c.ftype as usize, &core);
            out[3..].copy_from_slice(&core[..n - 3]);
        }
        Ok(n)
    }

    /// From an IF1 frame to three sub-flows.
    #[inline(never)]
    pub fn down(&mut self, s: &[u8], subflows: [&mut [u8]; 3]) -> Result<Down, u8> {
        if self.set.is_empty() { return Err(14); }
        let first = *s.first().ok_or(1)?;
        let ftype = first >> 4;
        let n = IF1[ftype as usize] as usize;
        // a frame that is too long is neither reserved nor too short
        if n > 0 && s.len() > n { return Err(4); }
        frame::<Bitwise>(Format::If1, s)?;
        let c = self.set.iter().find(|c| c.ftype == ftype).ok_or(16)?;
        let octets = c.sizes.map(packed);
        if subflows.iter().zip(octets).any(|(d, n)| d.len() < n) { return Err(10); }
        let mut at = if ftype <= SID { 24 } else { 8 };
        for ((d, n), size) in subflows.into_iter().zip(octets).zip(c.sizes) {
            take(s, at, size, &mut d[..n]);
            at += size;
        }
        let request = if ftype <= SID { Some(s[1] & 15) } else { None };
        let forwarded = if request == self.forwarded { None } else { request };
        self.forwarded = forwarded.or(self.forwarded);
        Ok(Down { fqc: !first >> 3 & 1, rfci: c.rfci, octets, forwarded })
    }
}
