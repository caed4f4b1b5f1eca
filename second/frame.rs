//! One AMR-WB frame, written from the papers (document 01, TS 26.201, RFC 4867) in the plainest way: bits are vectors, the CRC is a
//! long division. It shares no code with crates/.

/// The last format of levels two and three; level one has one fewer.
pub const ALL_FORMATS: u64 = 3;

pub struct Frame {
    pub ftype: u64,
    pub quality: u64,
    pub indication: u64,
    pub request: u64,
    pub core: Vec<bool>,
}

/// K, Class A, and the octets in IF1, IF2 and storage format; None for the reserved types.
fn sizes(ftype: u64) -> Option<(usize, usize, [usize; 3])> {
    Some(match ftype {
        0 => (132, 54, [20, 18, 18]),
        1 => (177, 64, [26, 23, 24]),
        2 => (253, 72, [35, 33, 33]),
        3 => (285, 72, [39, 37, 37]),
        4 => (317, 72, [43, 41, 41]),
        5 => (365, 72, [49, 47, 47]),
        6 => (397, 72, [53, 51, 51]),
        7 => (461, 72, [61, 59, 59]),
        8 => (477, 72, [63, 61, 61]),
        9 => (40, 40, [8, 6, 6]),
        14 | 15 => (0, 0, [1, 1, 1]),
        _ => return None,
    })
}

pub fn core_bits(ftype: u64) -> usize {
    sizes(ftype).map_or(0, |s| s.0)
}

/// Octets of a whole frame; None for the reserved types.
pub fn octets(format: u64, ftype: u64) -> Option<usize> {
    sizes(ftype).map(|s| s.2[format as usize - 1])
}

pub fn bits(octets: &[u8]) -> Vec<bool> {
    octets.iter().flat_map(|o| (0..8).map(move |i| o >> (7 - i) & 1 == 1)).collect()
}

pub fn pack(bits: &[bool]) -> Vec<u8> {
    bits.chunks(8).map(|c| c.iter().enumerate().fold(0, |o, (i, b)| o | (*b as u8) << (7 - i))).collect()
}

fn number(bits: &[bool]) -> u64 {
    bits.iter().fold(0, |n, b| n * 2 + *b as u64)
}

fn digits(n: u64, width: usize) -> Vec<bool> {
    (0..width).rev().map(|i| n >> i & 1 == 1).collect()
}

/// The remainder of message · D^8 by D^8 + D^6 + D^5 + D^4 + 1.
fn crc(message: &[bool]) -> Vec<bool> {
    let generator = [true, false, true, true, true, false, false, false, true];
    let mut p = message.to_vec();
    p.extend([false; 8]);
    for i in 0..message.len() {
        if p[i] {
            for (j, g) in generator.iter().enumerate() {
                p[i + j] ^= g;
            }
        }
    }
    p.split_off(message.len())
}

/// Where a frame has indication, request and CRC.
fn has_modes(format: u64, ftype: u64) -> bool {
    format == 1 && ftype <= 9
}

pub fn layout(format: u64, x: &Frame) -> Vec<u8> {
    let mut b = Vec::new();
    if format == 3 {
        b.push(false);
    }
    b.extend(digits(x.ftype, 4));
    b.extend(digits(x.quality, 1));
    b.extend(vec![false; [3, 0, 2][format as usize - 1]]);
    if has_modes(format, x.ftype) {
        b.extend(digits(x.indication, 4));
        b.extend(digits(x.request, 4));
        b.extend(crc(&x.core[..sizes(x.ftype).unwrap().1]));
    }
    b.extend(&x.core);
    pack(&b)
}

fn sid_mode_high(ftype: u64, core: &[bool]) -> bool {
    ftype == 9 && number(&core[36..40]) > 8
}

/// Reads one frame that takes all of the octets, with room for its packed core. `last` is the level's last format.
pub fn read(last: u64, format: u64, s: &[u8], room: usize) -> Result<Frame, u64> {
    if format < 1 || format > last {
        return Err(11);
    }
    if s.is_empty() {
        return Err(1);
    }
    let b = bits(s);
    let at = if format == 3 { 1 } else { 0 };
    let ftype = number(&b[at..at + 4]);
    let (k, a, octets) = sizes(ftype).ok_or(2u64)?;
    let n = octets[format as usize - 1];
    if s.len() < n {
        return Err(3);
    }
    if s.len() > n {
        return Err(4);
    }
    let modes = has_modes(format, ftype);
    let start = match format {
        1 => if modes { 24 } else { 8 },
        2 => 5,
        _ => 8,
    };
    let spare: &[usize] = match format {
        1 => &[5, 6, 7],
        2 => &[],
        _ => &[0, 6, 7],
    };
    if spare.iter().any(|i| b[*i]) || b[start + k..].iter().any(|x| *x) {
        return Err(5);
    }
    let (indication, request) = if modes { (number(&b[8..12]), number(&b[12..16])) } else { (0, 0) };
    let core = b[start..start + k].to_vec();
    if indication > 8 || request > 8 || ftype == 9 && indication != 0 || sid_mode_high(ftype, &core) {
        return Err(6);
    }
    if modes && b[16..24] != crc(&core[..a])[..] {
        return Err(7);
    }
    if room < (k + 7) / 8 {
        return Err(10);
    }
    Ok(Frame { ftype, quality: b[at + 4] as u64, indication, request, core })
}

/// Builds a frame from numbers and a packed core, with room for its octets.
pub fn build(format: u64, ftype: u64, quality: u64, indication: u64, request: u64, core: &[u8], room: usize) -> Result<Vec<u8>, u64> {
    if ftype > 15 || quality > 1 {
        return Err(11);
    }
    let size = sizes(ftype);
    if let Some((k, _, _)) = size {
        if core.len() != (k + 7) / 8 {
            return Err(11);
        }
    }
    let (k, _, octets) = size.ok_or(2u64)?;
    let b = bits(core);
    if b[k..].iter().any(|x| *x) {
        return Err(5);
    }
    let none = !has_modes(format, ftype) && (indication != 0 || request != 0);
    if indication > 8 || request > 8 || ftype == 9 && indication != 0 || none || sid_mode_high(ftype, &b) {
        return Err(6);
    }
    if room < octets[format as usize - 1] {
        return Err(10);
    }
    Ok(layout(format, &Frame { ftype, quality, indication, request, core: b[..k].to_vec() }))
}
