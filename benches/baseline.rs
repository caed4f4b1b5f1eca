//! A plain Rust converter between AMR-WB recordings in IF1, IF2 and storage format (document 01), unproved: what the library's speed is
//! compared with. Two passes: `judge` reads everything and finds the first refusal and the octets needed; `write` then converts.
//! Safe Rust only. A refused call writes nothing; octets of `dst` beyond the written ones stay. The CRC goes by bits or by a table of 256
//! octets.
#![forbid(unsafe_code)]

#[derive(Clone, Copy, PartialEq, Eq, Debug)]
pub enum Format { If1 = 1, If2 = 2, Stored = 3 }

#[derive(Clone, Copy, PartialEq, Eq, Debug)]
pub struct Refusal { pub number: u8, pub frame: usize, pub octet: usize }

#[derive(Clone, Copy, PartialEq, Eq, Debug)]
pub struct Done { pub frames: usize, pub octets: usize }

pub const LIMIT: usize = 16_777_215;
pub const HEADER: &[u8; 9] = b"#!AMR-WB\n";

/// Octets of a whole frame; 0 for the reserved types.
pub const IF1: [u8; 16] = [20, 26, 35, 39, 43, 49, 53, 61, 63, 8, 0, 0, 0, 0, 1, 1];
pub const IF2: [u8; 16] = [18, 23, 33, 37, 41, 47, 51, 59, 61, 6, 0, 0, 0, 0, 1, 1];
pub const STORED: [u8; 16] = [18, 24, 33, 37, 41, 47, 51, 59, 61, 6, 0, 0, 0, 0, 1, 1];
/// Octets of the packed core, and the filling bits of its last octet as a mask (octet-aligned, and in IF2).
const CORE: [u8; 16] = [17, 23, 32, 36, 40, 46, 50, 58, 60, 5, 0, 0, 0, 0, 0, 0];
const FILL: [u8; 16] = [0x0F, 0x7F, 7, 7, 7, 7, 7, 7, 7, 0, 0, 0, 0, 0, 0, 0];
const FILL2: [u8; 16] = [0x7F, 3, 0x3F, 0x3F, 0x3F, 0x3F, 0x3F, 0x3F, 0x3F, 7, 0, 0, 0, 0, 7, 7];

pub trait Crc {
    /// Remainder of the `n` (at most 9) octets.
    fn octets(b: &[u8]) -> u8;
    /// Remainder of the low 54 bits of `w` (type 0): leading zeros do not change a remainder that starts at zero.
    fn bits54(w: u64) -> u8;
}

pub struct Bitwise;
pub struct Table;

const fn step(r: u8) -> u8 { (r << 1) ^ (0x71 & 0u8.wrapping_sub(r >> 7)) }
const fn make() -> [u8; 256] {
    let mut t = [0; 256];
    let mut i = 0;
    while i < 256 {
        let mut r = i as u8;
        let mut k = 0;
        while k < 8 { r = step(r); k += 1; }
        t[i] = r;
        i += 1;
    }
    t
}
static T: [u8; 256] = make();

impl Crc for Bitwise {
    #[inline]
    fn octets(b: &[u8]) -> u8 {
        let mut r = 0;
        for &x in b {
            r ^= x;
            for _ in 0..8 { r = step(r); }
        }
        r
    }
    #[inline]
    fn bits54(w: u64) -> u8 { Self::octets(&(w & ((1 << 54) - 1)).to_be_bytes()[1..]) }
}
impl Crc for Table {
    #[inline]
    fn octets(b: &[u8]) -> u8 {
        let mut r = 0u8;
        for &x in b { r = T[(r ^ x) as usize]; }
        r
    }
    #[inline]
    fn bits54(w: u64) -> u8 { Self::octets(&(w & ((1 << 54) - 1)).to_be_bytes()[1..]) }
}

/// CRC of Class A of an octet-aligned core.
#[inline]
pub fn class_a<C: Crc>(t: usize, core: &[u8]) -> u8 {
    match t {
        0 => C::bits54(be(core, 0) >> 10),
        1 => C::octets(&core[..8]),
        9 => C::octets(&core[..5]),
        _ => C::octets(&core[..9]),
    }
}

#[inline(always)]
fn be(b: &[u8], i: usize) -> u64 { u64::from_be_bytes(b[i..i + 8].try_into().unwrap()) }

#[inline]
fn octets_of(f: Format, t: usize) -> usize {
    (match f { Format::If1 => IF1[t], Format::If2 => IF2[t], Format::Stored => STORED[t] }) as usize
}

/// Judges one frame at the start of `s`: its type, or the refusal's number.
#[inline(always)]
pub fn frame<C: Crc>(f: Format, s: &[u8]) -> Result<usize, u8> {
    let h = s[0];
    let t = match f { Format::Stored => (h >> 3) & 15, _ => h >> 4 } as usize;
    let n = octets_of(f, t);
    if n == 0 { return Err(2); }
    if s.len() < n { return Err(3); }
    let s = &s[..n];
    let last = s[n - 1];
    match f {
        Format::If1 => {
            if h & 7 != 0 { return Err(5); }
            if t < 14 {
                if last & FILL[t] != 0 { return Err(5); }
                let (ind, req) = (s[1] >> 4, s[1] & 15);
                if ind > 8 || req > 8 { return Err(6); }
                if t == 9 && (ind != 0 || last & 15 > 8) { return Err(6); }
                if class_a::<C>(t, &s[3..]) != s[2] { return Err(7); }
            }
        }
        Format::If2 => {
            if last & FILL2[t] != 0 { return Err(5); }
            if t == 9 && (last >> 3) & 15 > 8 { return Err(6); }
        }
        Format::Stored => {
            if h & 0x83 != 0 { return Err(5); }
            if t < 14 && last & FILL[t] != 0 { return Err(5); }
            if t == 9 && last & 15 > 8 { return Err(6); }
        }
    }
    Ok(t)
}

#[inline(never)]
fn judge<C: Crc>(from: Format, to: Format, src: &[u8]) -> Result<Done, Refusal> {
    let mut at = if from == Format::Stored { 9 } else { 0 };
    let mut need = if to == Format::Stored { 9 } else { 0 };
    let mut frames = 0;
    while at < src.len() {
        match frame::<C>(from, &src[at..]) {
            Ok(t) => {
                at += octets_of(from, t);
                need += octets_of(to, t);
                frames += 1;
            }
            Err(number) => return Err(Refusal { number, frame: frames, octet: at }),
        }
    }
    Ok(Done { frames, octets: need })
}

/// The core out of an IF2 frame (core bit 0 is bit 5), octet-aligned. The frame's filling bits are 0.
#[inline(always)]
fn core_from_if2(s: &[u8], d: &mut [u8], n: usize) {
    if s.len() >= 73 && d.len() >= 64 {
        // Whole words; what lies past the core is overwritten by the next frame.
        let mut i = 0;
        while i < n {
            let w = (be(s, i) << 5) | (s[i + 8] >> 3) as u64;
            d[i..i + 8].copy_from_slice(&w.to_be_bytes());
            i += 8;
        }
    } else {
        for i in 0..n {
            let low = if i + 1 < s.len() { s[i + 1] >> 3 } else { 0 };
            d[i] = s[i] << 5 | low;
        }
    }
    // type 1 ends in the octet where its IF2 frame ends: bits of the next frame came in
    if n == 23 { d[22] &= 0x80; }
}

/// The core into an IF2 frame of `n` octets whose first octet has type and quality in `head`.
#[inline(always)]
fn core_to_if2(head: u8, c: &[u8], core: usize, d: &mut [u8], n: usize) {
    if c.len() >= 72 && d.len() >= 72 {
        let mut carry = head; // its low three bits are 0; the next core bits go there
        let mut i = 0;
        while i < n {
            let x = be(c, i);
            let w = ((carry as u64) << 56) | (x >> 5);
            d[i..i + 8].copy_from_slice(&w.to_be_bytes());
            carry = (x as u8) << 3;
            i += 8;
        }
        // a word may hold bits of the next frame after the core: clear from the last octet on
        let bits = FILL2[(head >> 4) as usize];
        d[n - 1] &= !bits;
    } else {
        let mut carry = head;
        for i in 0..n {
            let x = if i < core { c[i] } else { 0 };
            d[i] = carry | x >> 5;
            carry = x << 3;
        }
    }
}

#[inline(always)]
fn copy_core(s: &[u8], d: &mut [u8], n: usize) {
    if s.len() >= 64 && d.len() >= 64 {
        let mut i = 0;
        while i < n {
            let w: [u8; 8] = s[i..i + 8].try_into().unwrap();
            d[i..i + 8].copy_from_slice(&w);
            i += 8;
        }
    } else {
        d[..n].copy_from_slice(&s[..n]);
    }
}

/// Converts an accepted recording; `dst` has exactly the octets needed.
#[inline(always)]
fn write<C: Crc>(from: Format, to: Format, r: u8, src: &[u8], dst: &mut [u8]) {
    let mut at = if from == Format::Stored { 9 } else { 0 };
    let mut put = 0;
    if to == Format::Stored {
        dst[..9].copy_from_slice(HEADER);
        put = 9;
    }
    while at < src.len() {
        let s = &src[at..];
        let h = s[0];
        let (t, q) = match from {
            Format::Stored => ((h >> 3) & 15, (h >> 2) & 1),
            _ => (h >> 4, (h >> 3) & 1),
        };
        let k = t as usize;
        let n = CORE[k] as usize;
        let d = &mut dst[put..];
        match to {
            Format::If1 => {
                d[0] = t << 4 | q << 3;
                if k < 14 {
                    d[1] = if k == 9 { 0 } else { t << 4 } | r;
                    match from {
                        Format::If2 => core_from_if2(s, &mut d[3..], n),
                        _ => copy_core(&s[1..], &mut d[3..], n),
                    }
                    d[2] = class_a::<C>(k, &d[3..]);
                }
            }
            Format::Stored => {
                d[0] = t << 3 | q << 2;
                match from {
                    Format::If2 => core_from_if2(s, &mut d[1..], n),
                    _ => if k < 14 { copy_core(&s[3..], &mut d[1..], n) },
                }
            }
            Format::If2 => {
                let head = t << 4 | q << 3;
                if k >= 14 {
                    d[0] = head;
                } else {
                    let c = match from { Format::If1 => &s[3..], _ => &s[1..] };
                    core_to_if2(head, c, n, d, IF2[k] as usize);
                }
            }
        }
        at += octets_of(from, k);
        put += octets_of(to, k);
    }
}

pub fn convert<C: Crc>(from: Format, to: Format, r: u8, src: &[u8], dst: &mut [u8]) -> Result<Done, Refusal> {
    let plain = |number| Refusal { number, frame: 0, octet: 0 };
    if r > 8 { return Err(plain(11)); }
    if src.len() > LIMIT { return Err(plain(9)); }
    if from == Format::Stored && (src.len() < 9 || src[..9] != HEADER[..]) { return Err(plain(8)); }
    use Format::*;
    let done = match from {
        If1 => judge::<C>(If1, to, src),
        If2 => judge::<C>(If2, to, src),
        Stored => judge::<C>(Stored, to, src),
    }?;
    if done.octets > LIMIT { return Err(plain(9)); }
    if dst.len() < done.octets { return Err(plain(10)); }
    let d = &mut dst[..done.octets];
    match (from, to) {
        (If1, If1) | (If2, If2) | (Stored, Stored) => d.copy_from_slice(src),
        (If1, If2) => write::<C>(If1, If2, r, src, d),
        (If1, Stored) => write::<C>(If1, Stored, r, src, d),
        (If2, If1) => write::<C>(If2, If1, r, src, d),
        (If2, Stored) => write::<C>(If2, Stored, r, src, d),
        (Stored, If1) => write::<C>(Stored, If1, r, src, d),
        (Stored, If2) => write::<C>(Stored, If2, r, src, d),
    }
    Ok(done)
}
