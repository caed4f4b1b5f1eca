//! Frames and packed cores that the comparison draws by chance, right ones and ones with something wrong.
use crate::frame::{self, Frame};
use crate::random::{Random, TYPES};

/// A right frame of a format: its fields by chance, type 0 to 9, 14 or 15.
pub fn right_frame(g: &mut Random, format: u64, ftype: u64) -> Frame {
    let mut core = g.octets(60);
    if ftype == 9 {
        core[4] = core[4] & 0xF0 | g.below(9) as u8;
    }
    let mut core = frame::bits(&core);
    core.truncate(frame::core_bits(ftype));
    let (indication, request) = match (format, ftype) {
        (1, 0..=8) => (g.below(9), g.below(9)),
        (1, 9) => (0, g.below(9)),
        _ => (0, 0),
    };
    Frame { ftype, quality: g.below(2), indication, request, core }
}

/// The octets of a frame: mostly the right ones, else with faults, cut, lengthened, or others altogether.
pub fn some_octets(g: &mut Random, format: u64, x: &Frame) -> Vec<u8> {
    let right = !g.one_in(4);
    let mut octets = if right { frame::layout(format, x) } else { wrong_frame(g, format) };
    match g.below(16) {
        0 => {
            g.kind("frame of random octets");
            let n = g.index(70);
            octets = g.octets(n);
        }
        1 => {
            g.kind("frame with one bit changed");
            change_a_bit(g, &mut octets);
        }
        2 => {
            g.kind("frame cut");
            let n = octets.len() - 1;
            octets.truncate(g.one_of(&[0, 1, 2, n / 2, n]).min(n));
        }
        3 => {
            g.kind("frame lengthened");
            let n = 1 + g.index(3);
            octets.extend(g.octets(n));
        }
        _ if right => g.kind("right frame"),
        _ => {}
    }
    octets
}

/// A frame with a fault, often with more of them, so that the order of the refusals counts.
pub fn wrong_frame(g: &mut Random, format: u64) -> Vec<u8> {
    let ftype = if g.one_in(4) { 9 } else { g.one_of(&TYPES) };
    let x = right_frame(g, format, ftype);
    let mode = g.one_in(2);
    let mut octets = if mode { wrong_mode(g, format, x) } else { frame::layout(format, &x) };
    if !mode || g.one_in(3) {
        wrong_octet(g, format, ftype, &mut octets);
    }
    if g.one_in(4) {
        wrong_octet(g, format, ftype, &mut octets);
    }
    octets
}

/// The octets of a frame whose indication, request or SID mode is out of its range.
fn wrong_mode(g: &mut Random, format: u64, mut x: Frame) -> Vec<u8> {
    let high = 9 + g.below(7);
    match (format, x.ftype, g.below(3)) {
        (_, 9, 0) => {
            g.kind("SID mode 9 to 15");
            x.core[36..].copy_from_slice(&frame::bits(&[high as u8])[4..]);
        }
        (1, 9, 1) => {
            g.kind("indication of a SID frame");
            x.indication = 1 + g.below(15);
        }
        (1, 0..=8, 0..=1) => {
            g.kind("indication 9 to 15");
            x.indication = high;
        }
        (1, 0..=9, _) => {
            g.kind("request 9 to 15");
            x.request = high;
        }
        _ => {}
    }
    frame::layout(format, &x)
}

/// Gives a frame's octets a wrong CRC, a reserved type, a spare or filling bit 1, or some bit changed.
fn wrong_octet(g: &mut Random, format: u64, ftype: u64, octets: &mut [u8]) {
    match g.below(5) {
        0 if format == 1 && ftype <= 9 => {
            g.kind("wrong CRC");
            octets[2] ^= 1 + g.below(255) as u8;
        }
        1 => {
            g.kind("reserved type");
            let reserved = 10 + g.below(4) as u8;
            octets[0] = if format == 3 { octets[0] & 0x87 | reserved << 3 } else { octets[0] & 0x0F | reserved << 4 };
        }
        2 if format != 2 => {
            g.kind("spare bit 1");
            octets[0] |= g.one_of(if format == 1 { &[1, 2, 4] } else { &[1, 2, 0x80] });
        }
        3 => fill(g, filling(format, ftype), octets),
        _ => change_a_bit(g, octets),
    }
}

/// Filling bits of a frame.
fn filling(format: u64, ftype: u64) -> usize {
    let before = if format == 2 { 5 } else { 0 };
    (8 - (before + frame::core_bits(ftype)) % 8) % 8
}

/// Makes one of so many filling bits 1.
pub fn fill(g: &mut Random, filling: usize, octets: &mut [u8]) {
    if filling > 0 {
        g.kind("filling bit 1");
        *octets.last_mut().expect("octets with filling bits") |= 1 << g.index(filling);
    }
}

pub fn change_a_bit(g: &mut Random, octets: &mut [u8]) {
    if !octets.is_empty() {
        let i = g.index(8 * octets.len());
        octets[i / 8] ^= 128 >> (i % 8);
    }
}

/// A packed core of a type: mostly right, else with a filling bit 1, a SID mode above 8 or another length.
pub fn some_core(g: &mut Random, ftype: u64) -> Vec<u8> {
    let mut core = frame::pack(&right_frame(g, 2, ftype).core);
    match g.below(16) {
        0..=1 => fill(g, filling(3, ftype), &mut core),
        2..=5 if ftype == 9 => {
            g.kind("SID mode 9 to 15");
            core[4] = core[4] & 0xF0 | 9 + g.below(7) as u8;
        }
        6 => change_length(g, &mut core),
        _ => {}
    }
    core
}

/// Gives a core or a row another length.
pub fn change_length(g: &mut Random, octets: &mut Vec<u8>) {
    g.kind("core or row of another length");
    let n = octets.len();
    let others = [0, 1, n / 2, n.saturating_sub(1), n + 1, n + 1, n + 8];
    octets.resize(g.one_of(&others), 0);
}
