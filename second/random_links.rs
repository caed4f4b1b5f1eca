//! What the comparison of the link draws by chance: sets, states, sub-flows and frames, right ones and ones with something wrong.
use crate::frame;
use crate::link::{self, Combination, Link, PLACES};
use crate::printed_subflows::{examples, Row};
use crate::random::{Random, TYPES};
use crate::random_frames::{fill, right_frame, some_octets};
use std::sync::LazyLock;

/// The types that a combination may have.
pub const LINK_TYPES: [u64; 11] = [0, 1, 2, 3, 4, 5, 6, 7, 8, 9, 15];

/// TS 26.202, table 6-2.
pub static EXAMPLES: LazyLock<Vec<Vec<Row>>> = LazyLock::new(examples);

/// A right row as the state holds it.
pub fn combination(row: &Row) -> Combination {
    let [rfci, ftype, size1, size2, size3] = *row;
    Combination { rfci: rfci as u8, ftype: ftype as u8, sizes: [size1, size2, size3].map(|size| size as u16) }
}

// ---- sets

/// Three sizes of so many bits in all, often at an octet's border.
fn some_sizes(g: &mut Random, bits: u64) -> [u64; 3] {
    let mut left = bits;
    let mut sizes = [0; 3];
    for size in &mut sizes[..2] {
        let any = g.below(left + 1);
        *size = g.one_of(&[0, 1, 7, 8, 9, left, any, any]).min(left);
        left -= *size;
    }
    sizes[2] = left;
    sizes.rotate_left(g.index(3));
    sizes
}

/// A right set of 1 to 11 combinations.
pub fn right_set(g: &mut Random) -> Vec<Row> {
    if g.one_in(8) {
        return EXAMPLES[g.index(EXAMPLES.len())].clone();
    }
    let mut types = LINK_TYPES.to_vec();
    let mut rfcis: Vec<u64> = (0..64).collect();
    let count = 1 + g.index(PLACES);
    let rows = (0..count).map(|_| {
        let ftype = types.swap_remove(g.index(types.len()));
        let rfci = rfcis.swap_remove(g.index(rfcis.len()));
        let [size1, size2, size3] = some_sizes(g, frame::core_bits(ftype) as u64);
        [rfci, ftype, size1, size2, size3]
    });
    rows.collect()
}

/// The numbers of a set with one thing wrong.
pub fn wrong_set(g: &mut Random) -> Vec<u64> {
    let mut rows = right_set(g);
    while rows.len() < 2 {
        rows = right_set(g);
    }
    let one = g.index(rows.len());
    let other = (one + 1 + g.index(rows.len() - 1)) % rows.len();
    match g.below(8) {
        0 => rows.clear(),
        1 => {
            let count = g.one_of(&[12, 13, 22, 256, 257]);
            rows = rows.into_iter().cycle().take(count).collect();
        }
        2 => rows[one][0] = rows[other][0],
        3 => {
            let copied = rows[other];
            rows[one][1..].copy_from_slice(&copied[1..]);
        }
        4..=5 => wrong_row(g, &mut rows[one]),
        6 => wrong_sum(g, &mut rows[one]),
        _ => {
            let mut numbers = rows.concat();
            let count = numbers.len() + g.one_of(&[1, 2, 3, 4, 6, 7, 8, 9]) - 5;
            numbers.resize(count, g.below(64));
            return numbers;
        }
    }
    rows.concat()
}

/// An RFCI or a type out of its range, also one that is right in its low bits, or the highest number somewhere.
fn wrong_row(g: &mut Random, row: &mut Row) {
    let [rfci, ftype, ..] = *row;
    match g.below(3) {
        0 => row[0] = g.one_of(&[64, 65, 64 + rfci, 128 + rfci, 255, 256 + rfci, (1 << 32) + rfci, (1 << 63) + rfci]),
        1 => {
            row[1] = g.one_of(&[10, 11, 12, 13, 14, 16, 16 + ftype, 255, 256 + ftype, (1 << 32) + ftype, (1 << 63) + ftype]);
            if g.one_in(2) {
                row[2..].fill(0);
            }
        }
        _ => row[g.index(5)] = u64::MAX,
    }
}

/// A sum that is one too high or too low, or right modulo a power of two only.
fn wrong_sum(g: &mut Random, row: &mut Row) {
    let sizes = &mut row[2..];
    sizes.rotate_left(g.index(3));
    match g.below(3) {
        0 if sizes[0] > 0 => sizes[0] -= 1,
        0 | 1 => sizes[0] += g.one_of(&[1, 1 << 8, 1 << 16, 1 << 32, 1 << 63]),
        _ => {
            let more = sizes[1] + g.one_of(&[1, 8, 1 << 32, 1 << 63]);
            sizes[0] += more;
            sizes[1] = sizes[1].wrapping_sub(more);
        }
    }
    sizes.rotate_left(g.index(3));
}

// ---- states that no call gives

fn some_combination(g: &mut Random) -> Combination {
    Combination { rfci: g.next() as u8, ftype: g.next() as u8, sizes: [0; 3].map(|_| g.next() as u16) }
}

/// A mode, or a number above 8.
fn some_mode(g: &mut Random) -> u16 {
    let any = g.next() as u16;
    let mode = g.below(9) as u16;
    g.one_of(&[mode, mode, mode, 9, 14, 15, 16, 16 + mode, 128 + mode, 255, 256 + mode, any])
}

/// A state with anything in it: places with right combinations, other ones or two alike, and any count.
pub fn strange_link(g: &mut Random) -> Link {
    let mut strange = link::fresh();
    let any = g.next() as u32;
    let few = g.below(12) as u32;
    strange.set.count = g.one_of(&[0, few, few, 11, 12, 13, 16, 255, 256, 257, 65536, 65536 + few, u32::MAX, any]);
    strange.request = some_mode(g);
    strange.forwarded = some_mode(g);
    if g.one_in(2) {
        strange.set.places = strange.set.places.map(|_| some_combination(g));
    }
    if g.one_in(8) {
        return strange;
    }
    for (row, place) in right_set(g).iter().zip(&mut strange.set.places) {
        *place = combination(row);
    }
    for _ in 0..g.below(6) {
        spoil(g, &mut strange.set.places);
    }
    strange
}

/// Makes one combination a wrong one, or like another.
fn spoil(g: &mut Random, places: &mut [Combination; PLACES]) {
    let from = places[g.index(PLACES)];
    let c = &mut places[g.index(PLACES)];
    let (one, other) = (g.index(3), g.index(3));
    match g.below(8) {
        0 => *c = from,
        1 => c.rfci = from.rfci,
        2 => *c = Combination { rfci: c.rfci, ..from },
        3 => c.rfci = c.rfci.wrapping_add(64 * (1 + g.below(3) as u8)),
        4 => c.ftype = g.one_of(&[10, 11, 12, 13, 14, 16, 16 + c.ftype % 16, 255]),
        5 => c.sizes[one] = c.sizes[one].wrapping_add(g.one_of(&[1, 8, 256, u16::MAX])),
        6 => {
            // the sum is right modulo 2^16
            let more = g.next() as u16;
            c.sizes[one] = c.sizes[one].wrapping_add(more);
            c.sizes[other] = c.sizes[other].wrapping_sub(more);
        }
        _ => *c = some_combination(g),
    }
}

// ---- arguments of the calls

/// One of the set's combinations, at times one behind them.
fn some_place(g: &mut Random, link: &Link) -> Combination {
    let reached = (link.set.count as usize).clamp(1, PLACES);
    let places = if g.one_in(10) { PLACES } else { reached };
    link.set.places[g.index(places)]
}

/// A place that is sought, any one where there is none.
fn like(g: &mut Random, link: &Link, sought: impl Fn(&Combination) -> bool) -> Combination {
    let found: Vec<Combination> = link.set.places.into_iter().filter(sought).collect();
    if found.is_empty() { some_place(g, link) } else { g.one_of(&found) }
}

/// Mostly one with which the sub-flows are read.
pub fn some_fqc(g: &mut Random) -> u64 {
    if g.one_in(3) { g.number("link_up FQC", 3) } else { g.one_of(&[0, 2]) }
}

/// Mostly the RFCI of one of the set's combinations.
pub fn some_rfci(g: &mut Random, link: &Link) -> u64 {
    if g.one_in(6) {
        return g.number("link_up RFCI", 63);
    }
    let rfci = some_place(g, link).rfci as u64;
    if g.one_in(12) { rfci + g.one_of(&[64, 256, 1 << 32]) } else { rfci }
}

/// Octets of a buffer for the frame that Up makes.
pub fn some_frame_room(g: &mut Random, link: &Link, fqc: u64, rfci: u64) -> usize {
    let c = like(g, link, |c| c.rfci == rfci as u8);
    let need = if fqc == 1 { 1 } else { frame::octets(1, c.ftype as u64).unwrap_or(63) };
    g.room("link_up out", need)
}

/// Sub-flows for the combination with an RFCI: mostly in exactly their octets, with filling 0, and of a SID frame a mode up to 8.
pub fn some_subflows(g: &mut Random, link: &Link, rfci: u64) -> [Vec<u8>; 3] {
    let c = like(g, link, |c| c.rfci == rfci as u8);
    let sizes = c.sizes.map(usize::from);
    let bits: usize = sizes.iter().sum();
    let mut core = frame::bits(&g.octets((bits + 7) / 8));
    if c.ftype == 9 && bits == 40 {
        let mode = if g.one_in(8) { 9 + g.below(7) } else { g.below(9) };
        core[36..].copy_from_slice(&frame::bits(&[mode as u8])[4..]);
    }
    let mut end = 0;
    let mut subflows = sizes.map(|size| {
        end += size;
        frame::pack(&core[end - size..end])
    });
    if g.one_in(4) {
        change_subflows(g, &c, &mut subflows);
    }
    subflows
}

/// Another length, a filling bit 1, or two sub-flows in each other's place.
fn change_subflows(g: &mut Random, c: &Combination, subflows: &mut [Vec<u8>; 3]) {
    let (one, other) = (g.index(3), g.index(3));
    match g.below(6) {
        0..=2 => {
            g.kind("sub-flow of another length");
            let n = subflows[one].len();
            let any = g.index(70);
            subflows[one].resize(g.one_of(&[n + 1, n.saturating_sub(1), 0, any]), g.one_of(&[0, 0x80]));
        }
        3 => subflows.swap(one, other),
        _ => fill(g, (8 - c.sizes[one] as usize % 8) % 8, &mut subflows[one]),
    }
}

/// An IF1 frame: mostly a right one of a type in the set, often with the request that was forwarded last.
pub fn some_frame(g: &mut Random, link: &Link) -> Vec<u8> {
    let in_set = some_place(g, link).ftype as u64;
    let ftype = if g.one_in(8) || !TYPES.contains(&in_set) { g.one_of(&TYPES) } else { in_set };
    let mut x = right_frame(g, 1, ftype);
    if ftype <= 9 && link.forwarded <= 8 && g.one_in(2) {
        x.request = link.forwarded as u64;
    }
    some_octets(g, 1, &x)
}

/// Octets of the buffers for the sub-flows of a frame: mostly enough in all but one.
pub fn some_rooms(g: &mut Random, link: &Link, octets: &[u8]) -> [usize; 3] {
    let ftype = octets.first().map_or(0, |first| first >> 4);
    let c = like(g, link, |c| c.ftype == ftype);
    let needs = c.sizes.map(|size| (size as usize + 7) / 8);
    let mut rooms = needs.map(|need| need + g.one_of(&[0, 0, 0, 1, 9]));
    let one = g.index(3);
    rooms[one] = g.room(["link_down s1", "link_down s2", "link_down s3"][one], needs[one]);
    rooms
}
