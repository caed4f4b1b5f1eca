//! Compares the link with the second program: the answer, the next state with all its places, and every lent octet.
use crate::frame;
use crate::library::{link_calls, LinkAnswer};
use crate::link::{self, Combination, Down, Link, RfcSet, PLACES};
use crate::printed_subflows::Row;
use crate::random::{written, Random};
use crate::random_frames::right_frame;
use crate::random_links::{combination, right_set, strange_link, wrong_set, EXAMPLES, LINK_TYPES};
use crate::random_links::{some_fqc, some_frame, some_frame_room, some_rfci, some_rooms, some_subflows};
use crate::tally::{agree, Refusals, Tally};

/// The level that has the link.
const LEVEL: usize = 3;

/// The sizes at the borders of octets and of a core of so many bits, and the rest behind, between or before two of them.
fn border_sizes(bits: u64) -> Vec<[u64; 3]> {
    let borders = [0, 1, 7, 8, 9, bits];
    let pairs = borders.into_iter().flat_map(|one| borders.into_iter().map(move |other| (one, other)));
    let fit = pairs.filter(|(one, other)| one + other <= bits);
    fit.flat_map(|(one, other)| {
        let rest = bits - one - other;
        [[one, other, rest], [one, rest, other], [rest, one, other]]
    })
    .collect()
}

/// The calls of the link, in lists: each is handed the state that the last one gave.
pub struct Links {
    link: Link,
    /// Calls to come in the list.
    left: u64,
    /// Whether the list began with a state that no call gave, and the answers in such lists.
    strange: bool,
    in_strange: Refusals,
    /// Accepted Downs that forward nothing, and those that forward a request.
    forwards: [u64; 2],
}

impl Links {
    pub fn new() -> Links {
        Links { link: link::fresh(), left: 0, strange: false, in_strange: Refusals::default(), forwards: [0; 2] }
    }

    /// One call by chance; true where the library and the second program agree.
    pub fn compare(&mut self, g: &mut Random, tally: &mut Tally) -> bool {
        if self.left == 0 && !self.begin(g, tally) {
            return false;
        }
        self.left -= 1;
        let none = self.link.set.count == 0;
        match g.below(24) {
            0 => self.release(tally),
            1..=2 => self.rate(tally, g.number("link_rate mode", 8)),
            3..=4 => self.some_assign(g, tally),
            5..=6 => self.some_up(g, tally),
            7..=8 => self.some_down(g, tally),
            _ if none => self.some_assign(g, tally),
            9..=15 => self.some_up(g, tally),
            _ => self.some_down(g, tally),
        }
    }

    /// Begins a list of calls, with a fresh link or with a state that no call gave.
    fn begin(&mut self, g: &mut Random, tally: &mut Tally) -> bool {
        self.strange = g.one_in(2);
        if self.strange {
            g.kind("list of link calls from a state that no call gave");
            self.left = 1 + g.below(8);
            self.link = strange_link(g);
            return true;
        }
        g.kind("list of calls from a fresh link");
        self.left = 1 + g.below(50);
        self.fresh(tally)
    }

    fn some_assign(&mut self, g: &mut Random, tally: &mut Tally) -> bool {
        let numbers = if g.one_in(3) { wrong_set(g) } else { right_set(g).concat() };
        for row in numbers.chunks_exact(5) {
            g.note("link_assign RFCI", row[0], 63);
            g.note("link_assign type", row[1], 15);
            if LINK_TYPES.contains(&row[1]) {
                let bits = frame::core_bits(row[1]) as u64;
                g.note("link_assign size 1", row[2], bits);
                g.note("link_assign size 2", row[3], bits);
                g.note("link_assign size 3", row[4], bits);
            }
        }
        self.assign(tally, &numbers)
    }

    fn some_up(&mut self, g: &mut Random, tally: &mut Tally) -> bool {
        let fqc = some_fqc(g);
        let rfci = some_rfci(g, &self.link);
        let subflows = some_subflows(g, &self.link, rfci);
        let room = some_frame_room(g, &self.link, fqc, rfci);
        self.up(tally, fqc, rfci, &subflows, room).is_some()
    }

    fn some_down(&mut self, g: &mut Random, tally: &mut Tally) -> bool {
        let octets = some_frame(g, &self.link);
        let rooms = some_rooms(g, &self.link, &octets);
        self.down(tally, &octets, rooms).is_some()
    }

    fn count(&mut self, refusal: u64) {
        if self.strange {
            self.in_strange.count(refusal);
        }
    }

    fn fresh(&mut self, tally: &mut Tally) -> bool {
        let got = unsafe { (link_calls().fresh)() };
        self.link = link::fresh();
        tally.compared("link_fresh", LEVEL, 0, got == self.link, || format!("{got:?}"))
    }

    /// Whether the answer of a call that only moves the state is the second program's; takes the next state on.
    fn moved(
        &mut self, tally: &mut Tally, name: &'static str, got: LinkAnswer, done: Result<Link, u64>, kept: bool,
        call: impl FnOnce() -> String,
    ) -> bool {
        let before = self.link;
        let refusal = done.err().unwrap_or(0);
        self.count(refusal);
        self.link = done.unwrap_or(before);
        let (got, next) = ([got.refusal, got.frame, got.octet], got.link);
        let same = got == [refusal, 0, 0] && next == self.link && kept;
        let shown = || format!("{} in {before:?}: {got:?} {next:?} and not {refusal} {:?}", call(), self.link);
        tally.compared(name, LEVEL, refusal, same, shown)
    }

    fn assign(&mut self, tally: &mut Tally, numbers: &[u64]) -> bool {
        let kept = numbers.to_vec();
        let got = unsafe { (link_calls().assign)(self.link, numbers.as_ptr(), numbers.len()) };
        let done = link::assign(&self.link, &kept);
        self.moved(tally, "link_assign", got, done, numbers == kept, || format!("{kept:?}"))
    }

    fn release(&mut self, tally: &mut Tally) -> bool {
        let got = unsafe { (link_calls().release)(self.link) };
        self.moved(tally, "link_release", got, link::release(&self.link), true, String::new)
    }

    fn rate(&mut self, tally: &mut Tally, mode: u64) -> bool {
        let got = unsafe { (link_calls().rate)(self.link, mode) };
        self.moved(tally, "link_rate", got, link::rate(&self.link, mode), true, || format!("{mode}"))
    }

    /// The second program's frame or refusal; None where the library differs.
    fn up(&mut self, tally: &mut Tally, fqc: u64, rfci: u64, subflows: &[Vec<u8>; 3], room: usize) -> Option<Result<Vec<u8>, u64>> {
        let kept = subflows.clone();
        let [s1, s2, s3] = subflows.each_ref().map(|s| s.as_ptr());
        let [n1, n2, n3] = subflows.each_ref().map(Vec::len);
        let mut out = written(room, &[]);
        let got = unsafe { (link_calls().up)(self.link, fqc, rfci, s1, n1, s2, n2, s3, n3, out.as_mut_ptr(), room) }.fields();
        let done = link::up(&self.link, fqc, rfci, &kept, room);
        let want = done.as_ref().map_or_else(|number| [*number, 0, 0, 0, 0], |done| [0, 0, 0, 0, done.len() as u64]);
        self.count(want[0]);
        let same = got == want && *subflows == kept && out == written(room, done.as_deref().unwrap_or_default());
        let call = || format!("FQC {fqc} RFCI {rfci} {kept:02X?} into {room} octets in {:?}", self.link);
        tally.compared("link_up", LEVEL, want[0], same, || format!("{}: {got:?} and not {want:?}", call())).then_some(done)
    }

    /// The second program's sub-flows or refusal; None where the library differs. Takes the next state on.
    fn down(&mut self, tally: &mut Tally, octets: &[u8], rooms: [usize; 3]) -> Option<Result<[Vec<u8>; 3], u64>> {
        let before = self.link;
        let kept = octets.to_vec();
        let mut buffers = rooms.map(|room| written(room, &[]));
        let [s1, s2, s3] = buffers.each_mut().map(Vec::as_mut_ptr);
        let [n1, n2, n3] = rooms;
        let got = unsafe { (link_calls().down)(before, octets.as_ptr(), octets.len(), s1, n1, s2, n2, s3, n3) };
        let (got, next) = (got.fields.fields(), got.link);
        let done = link::down(&before, &kept, rooms);
        let want = down_fields(&done);
        self.count(want[0]);
        if let Ok(done) = &done {
            self.forwards[done.forwarded.is_some() as usize] += 1;
            self.link = done.link;
        }
        let done = done.map(|done| done.subflows);
        let subflows = done.clone().unwrap_or_default();
        let lent = octets == kept && (0..3).all(|i| buffers[i] == written(rooms[i], &subflows[i]));
        let same = got == want && next == self.link && lent;
        let call = || format!("{kept:02X?} into {rooms:?} octets in {before:?}");
        let shown = || format!("{}: {got:?} {next:?} and not {want:?} {:?}", call(), self.link);
        tally.compared("link_down", LEVEL, want[0], same, shown).then_some(done)
    }

    /// The examples of TS 26.202, sizes at the borders for every type, and cases written out; true where both agree on them.
    pub fn compare_fixed(&mut self, tally: &mut Tally) -> bool {
        let borders = LINK_TYPES.into_iter().flat_map(|ftype| {
            let sizes = border_sizes(frame::core_bits(ftype) as u64);
            sizes.into_iter().map(move |[size1, size2, size3]| [63, ftype, size1, size2, size3])
        });
        EXAMPLES.iter().all(|rows| self.compare_set(tally, rows))
            && borders.into_iter().all(|row| self.compare_set(tally, &[row]))
            && self.compare_cases(tally)
    }

    /// Assigns a set, splits a frame of each of its types, and joins the sub-flows again.
    fn compare_set(&mut self, tally: &mut Tally, rows: &[Row]) -> bool {
        let request = 5;
        let mut places = [Combination::default(); PLACES];
        for (place, row) in places.iter_mut().zip(rows) {
            *place = combination(row);
        }
        let set = RfcSet { places, count: rows.len() as u32 };
        let ready = self.fresh(tally) && self.assign(tally, &rows.concat()) && self.rate(tally, request) && self.link.set == set;
        agree(ready && rows.iter().all(|row| self.there_and_back(tally, row, request)), || format!("a frame split and joined by {rows:?}"))
    }

    fn there_and_back(&mut self, tally: &mut Tally, row: &Row, request: u64) -> bool {
        let [rfci, ftype, ..] = *row;
        let mut x = right_frame(&mut Random::new(1 + ftype), 1, ftype);
        x.quality = 1;
        x.indication = if ftype <= 8 { ftype } else { 0 };
        x.request = if ftype <= 9 { request } else { 0 };
        let octets = frame::layout(1, &x);
        let sizes = [row[2], row[3], row[4]].map(|size| size as usize);
        let Some(Ok(subflows)) = self.down(tally, &octets, sizes.map(|size| (size + 7) / 8)) else { return false };
        let starts = [0, sizes[0], sizes[0] + sizes[1]];
        let split = (0..3).all(|i| {
            let u = frame::bits(&subflows[i]);
            u.len() == (sizes[i] + 7) / 8 * 8 && (1..=sizes[i]).all(|k| u[k - 1] == x.core[k - 1 + starts[i]])
        });
        split && self.up(tally, 0, rfci, &subflows, octets.len()) == Some(Ok(octets))
    }

    /// Document 01's SID frame joined from one sub-flow; frames without data; a third sub-flow, which begins at size 1 + size 2.
    fn compare_cases(&mut self, tally: &mut Tally) -> bool {
        let none = [vec![], vec![], vec![]];
        let joined = self.fresh(tally)
            && self.assign(tally, &[63, 9, 40, 0, 0, 0, 15, 0, 0, 0])
            && self.rate(tally, 2)
            && self.up(tally, 0, 63, &[vec![0, 0, 0, 0, 0x13], vec![], vec![]], 8) == Some(Ok(vec![0x98, 0x02, 0xA5, 0, 0, 0, 0, 0x13]))
            && self.up(tally, 1, 63, &none, 1) == Some(Ok(vec![0xF0]))
            && self.up(tally, 0, 0, &none, 1) == Some(Ok(vec![0xF8]))
            && self.up(tally, 2, 0, &none, 1) == Some(Ok(vec![0xF0]))
            && self.down(tally, &[0xF8], [0; 3]) == Some(Ok(none));
        let core = frame::bits(&[0x12, 0x34, 0x56, 0x78, 0x93]);
        let octets = frame::layout(1, &frame::Frame { ftype: 9, quality: 0, indication: 0, request: 0, core });
        let split = self.release(tally)
            && self.assign(tally, &[0, 9, 8, 16, 16])
            && self.down(tally, &octets, [1, 2, 2]) == Some(Ok([vec![0x12], vec![0x34, 0x56], vec![0x78, 0x93]]));
        agree(joined && split, || "a case that is written out".to_string())
    }

    /// Prints what came; false where something never did.
    pub fn show(&self) -> bool {
        println!("link_down accepted: {} forward nothing, {} a request", self.forwards[0], self.forwards[1]);
        let possible = [0, 1, 2, 3, 4, 5, 6, 7, 10, 11, 13, 14, 15, 16, 17];
        self.in_strange.show("link calls from a state that no call gave", &possible) && self.forwards.iter().all(|count| *count > 0)
    }
}

/// The second program's answer as the library gives it.
fn down_fields(done: &Result<Down, u64>) -> [u64; 10] {
    match done {
        Err(number) => [*number, 0, 0, 0, 0, 0, 0, 0, 0, 0],
        Ok(done) => {
            let [n1, n2, n3] = done.subflows.each_ref().map(|subflow| subflow.len() as u64);
            let forwarded = done.forwarded.is_some() as u64;
            [0, 0, 0, done.fqc, done.rfci, n1, n2, n3, forwarded, done.forwarded.unwrap_or(0)]
        }
    }
}
