//! The link to a radio network, written from the papers (document 01, "The link"; TS 26.202, 5 and 6) in the plainest way: sub-flows are
//! vectors of bits. It shares no code with crates/ or benches/.
use crate::frame;

/// How many combinations a set has at most.
pub const PLACES: usize = 11;

/// The forwarded request of a link that forwarded none.
const NO_REQUEST: u16 = 15;

/// A RAB sub-flow combination, document 01's row. The state is laid out as in the C interface, and its fields may hold anything.
#[repr(C)]
#[derive(Clone, Copy, Default, PartialEq)]
pub struct Combination {
    pub rfci: u8,
    pub ftype: u8,
    pub sizes: [u16; 3],
}

impl std::fmt::Debug for Combination {
    fn fmt(&self, f: &mut std::fmt::Formatter) -> std::fmt::Result {
        write!(f, "{}:{} {:?}", self.rfci, self.ftype, self.sizes)
    }
}

/// An RFC set: the combinations of its first places. None is no set.
#[repr(C)]
#[derive(Clone, Copy, Default, PartialEq, Debug)]
pub struct RfcSet {
    pub places: [Combination; PLACES],
    pub count: u32,
}

#[repr(C)]
#[derive(Clone, Copy, PartialEq, Debug)]
pub struct Link {
    pub set: RfcSet,
    pub request: u16,
    pub forwarded: u16,
}

pub fn fresh() -> Link {
    Link { set: RfcSet::default(), request: 0, forwarded: NO_REQUEST }
}

/// Whether RFCI, type and sizes make a combination; the sizes are added up as whole numbers.
fn right(rfci: u64, ftype: u64, sizes: &[u64]) -> bool {
    let sum: u128 = sizes.iter().map(|size| *size as u128).sum();
    rfci <= 63 && (ftype <= 9 || ftype == 15) && sum == frame::core_bits(ftype) as u128
}

/// The first right combination of the set that is sought. In a set that was assigned all are right; in another state some may not be, and
/// the count may be above the places.
fn find(link: &Link, sought: impl Fn(&Combination) -> bool) -> Result<Combination, u64> {
    let mut set = link.set.places.into_iter().take(link.set.count as usize);
    set.find(|c| sought(c) && right(c.rfci as u64, c.ftype as u64, &c.sizes.map(u64::from))).ok_or(16)
}

/// Stores a set, written by five numbers for each combination.
pub fn assign(link: &Link, numbers: &[u64]) -> Result<Link, u64> {
    let rows: Vec<&[u64]> = numbers.chunks(5).collect();
    if numbers.len() % 5 != 0 || rows.is_empty() || rows.len() > PLACES {
        return Err(11);
    }
    let differ = |field: usize| (0..rows.len()).all(|i| (0..i).all(|j| rows[i][field] != rows[j][field]));
    if !rows.iter().all(|row| right(row[0], row[1], &row[2..])) || !differ(0) || !differ(1) {
        return Err(11);
    }
    if link.set.count > 0 {
        return Err(15);
    }
    let mut set = RfcSet { count: rows.len() as u32, ..RfcSet::default() };
    for (place, row) in set.places.iter_mut().zip(rows) {
        *place = Combination { rfci: row[0] as u8, ftype: row[1] as u8, sizes: [row[2] as u16, row[3] as u16, row[4] as u16] };
    }
    Ok(Link { set, ..*link })
}

pub fn release(link: &Link) -> Result<Link, u64> {
    if link.set.count == 0 {
        return Err(14);
    }
    Ok(Link { set: RfcSet::default(), ..*link })
}

pub fn rate(link: &Link, mode: u64) -> Result<Link, u64> {
    if mode > 8 {
        return Err(11);
    }
    Ok(Link { request: mode as u16, ..*link })
}

/// The IF1 frame of three sub-flows, with room for so many octets.
pub fn up(link: &Link, fqc: u64, rfci: u64, subflows: &[Vec<u8>; 3], room: usize) -> Result<Vec<u8>, u64> {
    if fqc > 3 || rfci > 63 {
        return Err(11);
    }
    if link.set.count == 0 {
        return Err(14);
    }
    if fqc == 3 {
        return Err(13);
    }
    let c = find(link, |c| c.rfci as u64 == rfci)?;
    if fqc == 1 {
        return frame::build(1, 15, 0, 0, 0, &[], room);
    }
    let mut core = Vec::new();
    for (subflow, size) in subflows.iter().zip(c.sizes.map(usize::from)) {
        let bits = frame::bits(subflow);
        if subflow.len() != (size + 7) / 8 || bits[size..].iter().any(|filling| *filling) {
            return Err(17);
        }
        core.extend(&bits[..size]);
    }
    let ftype = c.ftype as u64;
    let indication = if ftype <= 8 { ftype } else { 0 };
    // 6 for a request above 8 too, which no rate command stores
    let request = if ftype <= 9 { link.request as u64 } else { 0 };
    frame::build(1, ftype, if fqc == 0 { 1 } else { 0 }, indication, request, &frame::pack(&core), room)
}

pub struct Down {
    pub fqc: u64,
    pub rfci: u64,
    pub subflows: [Vec<u8>; 3],
    /// The request that is forwarded, if one is.
    pub forwarded: Option<u64>,
    pub link: Link,
}

/// The sub-flows of an IF1 frame, with room for so many octets of each.
pub fn down(link: &Link, octets: &[u8], rooms: [usize; 3]) -> Result<Down, u64> {
    if link.set.count == 0 {
        return Err(14);
    }
    let x = frame::read(frame::ALL_FORMATS, 1, octets, usize::MAX)?;
    let c = find(link, |c| c.ftype as u64 == x.ftype)?;
    let [m1, m2, _] = c.sizes.map(usize::from);
    // TS 26.202 prints M2 alone for where the third begins; document 01 has the sum
    let subflows = [&x.core[..m1], &x.core[m1..m1 + m2], &x.core[m1 + m2..]].map(frame::pack);
    if subflows.iter().zip(rooms).any(|(subflow, room)| room < subflow.len()) {
        return Err(10);
    }
    let forwarded = if x.ftype <= 9 && x.request != link.forwarded as u64 { Some(x.request) } else { None };
    let last = forwarded.map_or(link.forwarded, |request| request as u16);
    let fqc = if x.quality == 1 { 0 } else { 1 };
    Ok(Down { fqc, rfci: c.rfci as u64, subflows, forwarded, link: Link { forwarded: last, ..*link } })
}
