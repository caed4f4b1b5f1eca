//! What the comparison draws by chance: seeded numbers, octets and lengths of buffers, with counts of what was drawn; and what a buffer
//! holds before a call.
use std::collections::BTreeMap;

/// The frame types that are not reserved.
pub const TYPES: [u64; 12] = [0, 1, 2, 3, 4, 5, 6, 7, 8, 9, 14, 15];

/// The kinds of octets, and of lists of calls, that must come.
const KINDS: [&str; 64] = [
    "right frame",
    "frame with one bit changed",
    "frame cut",
    "frame lengthened",
    "frame of random octets",
    "spare bit 1",
    "filling bit 1",
    "wrong CRC",
    "reserved type",
    "indication 9 to 15",
    "indication of a SID frame",
    "request 9 to 15",
    "SID mode 9 to 15",
    "right recording",
    "recording with wrong frames",
    "recording with one bit changed",
    "recording cut",
    "recording lengthened",
    "recording of random octets",
    "wrong header",
    "recording merged with itself",
    "first recording damaged",
    "second recording damaged",
    "both recordings damaged",
    "shorter second recording",
    "second recording of equal length",
    "longer second recording",
    "core or row of another length",
    "sub-flow of another length",
    "right sheet",
    "sheet with a number twice",
    "sheet with a number too large",
    "sheet of another length",
    "no sheet",
    "sheet of random numbers",
    "right text of a sheet",
    "text for a mode that has no sheet",
    "text with several faults",
    "text with a number twice",
    "text with a number from K on",
    "text with 65536 or somewhat more",
    "text with 2^32 or somewhat more",
    "text with about 2^64",
    "text with a number of 40 digits",
    "text with another mode",
    "text with other bits",
    "text with a leading zero",
    "text with a line not ended",
    "text with a carriage return",
    "text with a space or a sign",
    "text with a line numbered wrong",
    "text with two lines changed places",
    "text without a line",
    "text with a line twice",
    "text with one octet changed",
    "text with one octet removed",
    "text with one octet inserted",
    "text cut",
    "text with octets behind its end",
    "text of random octets",
    "list of calls from a fresh link",
    "list of link calls from a state that no call gave",
    "list of console calls from a fresh state",
    "list of console calls from a state that no call gave",
];

/// A stream of numbers, the same for the same seed.
pub struct Random {
    state: u64,
    kinds: [u64; KINDS.len()],
    /// Of each numeric argument: how often it was its limit, one more, and 2^64-1.
    numbers: BTreeMap<&'static str, [u64; 3]>,
    /// Of each buffer: how often it was none, one octet short, exact, and longer.
    rooms: BTreeMap<&'static str, [u64; 4]>,
}

impl Random {
    pub fn new(seed: u64) -> Random {
        let state = seed.wrapping_mul(0x9E37_79B9_7F4A_7C15) | 1;
        Random { state, kinds: [0; KINDS.len()], numbers: BTreeMap::new(), rooms: BTreeMap::new() }
    }

    pub fn next(&mut self) -> u64 {
        self.state ^= self.state << 13;
        self.state ^= self.state >> 7;
        self.state ^= self.state << 17;
        self.state
    }

    pub fn below(&mut self, n: u64) -> u64 {
        (self.next() >> 11) % n
    }

    pub fn index(&mut self, len: usize) -> usize {
        self.below(len as u64) as usize
    }

    pub fn one_in(&mut self, n: u64) -> bool {
        self.below(n) == 0
    }

    pub fn one_of<T: Copy>(&mut self, list: &[T]) -> T {
        list[self.index(list.len())]
    }

    pub fn octets(&mut self, n: usize) -> Vec<u8> {
        (0..n).map(|_| self.next() as u8).collect()
    }

    /// Counts an input of a kind.
    pub fn kind(&mut self, kind: &str) {
        let i = KINDS.iter().position(|k| *k == kind).expect("one of the kinds");
        self.kinds[i] += 1;
    }

    /// A numeric argument that may be up to a limit: mostly in its range, sometimes beyond it, or in it by its low bits only.
    pub fn number(&mut self, argument: &'static str, limit: u64) -> u64 {
        let right = self.below(limit + 1);
        let n = match self.below(48) {
            0 => limit + 1,
            1 => u64::MAX,
            2 => {
                let any = self.next();
                self.one_of(&[limit + 2, 2 * limit + 1, 15, 16, 255, 256, u64::MAX - 1, any])
            }
            3 => right + self.one_of(&[1 << 8, 1 << 16, 1 << 32, 1 << 63]),
            4..=6 => limit,
            _ => right,
        };
        self.note(argument, n, limit);
        n
    }

    /// Counts a numeric argument that is at its limit, one above it or the highest number.
    pub fn note(&mut self, argument: &'static str, n: u64, limit: u64) {
        let counts = self.numbers.entry(argument).or_default();
        counts[0] += (n == limit) as u64;
        counts[1] += (Some(n) == limit.checked_add(1)) as u64;
        counts[2] += (n == u64::MAX) as u64;
    }

    /// A format, at times one out of its range.
    pub fn format(&mut self, argument: &'static str) -> u64 {
        let format = self.number(argument, 3);
        if format == 0 && !self.one_in(8) { 1 } else { format }
    }

    /// Octets of a buffer for a call that needs so many: often just these, one fewer or none.
    pub fn room(&mut self, buffer: &'static str, need: usize) -> usize {
        let room = match self.below(12) {
            0 => need.saturating_sub(1),
            1 => self.index(need + 1),
            2 => 0,
            3 => need + 1,
            4 => need + 1 + self.index(100),
            _ => need,
        };
        let counts = self.rooms.entry(buffer).or_default();
        counts[0] += (room == 0) as u64;
        counts[1] += (room + 1 == need) as u64;
        counts[2] += (room == need) as u64;
        counts[3] += (room > need) as u64;
        room
    }

    /// Prints what was drawn; false where some kind never came.
    pub fn show(&self) -> bool {
        let kinds: Vec<String> = KINDS.iter().zip(self.kinds).map(|(kind, count)| format!("{kind} {count}")).collect();
        println!("kinds of input: {}", kinds.join(", "));
        let numbers: Vec<String> = self.numbers.iter().map(|(argument, counts)| format!("{argument} {counts:?}")).collect();
        println!("numbers at the limit, one above, 2^64-1: {}", numbers.join(", "));
        let rooms: Vec<String> = self.rooms.iter().map(|(buffer, counts)| format!("{buffer} {counts:?}")).collect();
        println!("buffers of no octets, one short, exact, longer: {}", rooms.join(", "));
        self.kinds.iter().all(|count| *count > 0)
            && self.numbers.values().flatten().all(|count| *count > 0)
            && self.rooms.values().flatten().all(|count| *count > 0)
    }
}

/// What a buffer holds before a call.
fn pattern(n: usize) -> Vec<u8> {
    (0..n).map(|i| (i as u8).wrapping_mul(37) ^ 0xA7).collect()
}

/// Octets behind the lent ones of a buffer, which must stay too.
const BEHIND: usize = 16;

/// A buffer with what lies behind it, as a call leaves it that writes these octets.
pub fn written(room: usize, octets: &[u8]) -> Vec<u8> {
    let mut buffer = pattern(room + BEHIND);
    buffer[..octets.len()].copy_from_slice(octets);
    buffer
}
