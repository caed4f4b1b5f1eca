//! Compares the consoles with the second program: the answer and the next state. What document 02 says of any list of calls is counted here
//! and not by the second program.
use crate::consoles::{self, Consoles, CONSOLES};
use crate::library::console_calls;
use crate::random::Random;
use crate::tally::{agree, Tally};

/// "up to 100 frames waiting"
const MOST: usize = 100;

/// "served within eight slots"
const WITHIN: usize = 8;

/// A call without its state.
#[derive(Clone, Copy, Debug)]
enum Call {
    Add(u64),
    Slot,
}

use Call::{Add, Slot};

/// A refusal, or the console that was served, if one was.
type Reply = Result<Option<u64>, u64>;

/// A call of a list that is written out.
type Step = (Call, Reply);

const NOBODY: Step = (Slot, Ok(None));

/// What the answers of a list from a fresh state say of each console.
#[derive(Default)]
struct Counts {
    /// Frames taken in, and frames served.
    taken: [usize; CONSOLES],
    served: [usize; CONSOLES],
    /// Slots since the console began to wait or was served last.
    passed: [usize; CONSOLES],
}

impl Counts {
    fn note(&mut self, call: Call, reply: Reply) {
        match (call, reply) {
            (Add(console), Ok(_)) => self.taken[console as usize] += 1,
            (Slot, Ok(served)) => self.slot(served),
            (_, Err(_)) => {}
        }
    }

    fn slot(&mut self, served: Option<u64>) {
        for console in 0..CONSOLES {
            if served == Some(console as u64) {
                self.served[console] += 1;
                self.passed[console] = 0;
            } else if self.taken[console] > self.served[console] {
                self.passed[console] += 1;
            }
        }
    }

    /// Whether "frames taken in equal frames served plus frames waiting, for each console", no more than 100 wait, and each is served in time.
    fn holds(&self, consoles: &Consoles) -> bool {
        (0..CONSOLES).all(|console| {
            let waiting = consoles.waiting[console] as usize;
            self.taken[console] == self.served[console] + waiting && waiting <= MOST && self.passed[console] < WITHIN
        })
    }
}

/// What came in lists of one kind: for each console, adds refused by 27 and slots that served it; slots with nobody waiting.
#[derive(Default, Debug)]
struct Came {
    full: [u64; CONSOLES],
    served: [u64; CONSOLES],
    nobody: u64,
}

impl Came {
    fn note(&mut self, call: Call, reply: Reply) {
        match (call, reply) {
            (Add(console), Err(27)) => self.full[console as usize] += 1,
            (Slot, Ok(Some(console))) => self.served[console as usize] += 1,
            (Slot, Ok(None)) => self.nobody += 1,
            _ => {}
        }
    }

    fn all(&self) -> bool {
        self.nobody > 0 && self.full.iter().chain(&self.served).all(|count| *count > 0)
    }
}

/// The calls of the consoles, in lists: each is handed the state that the last one gave.
pub struct ConsoleLists {
    consoles: Consoles,
    /// Calls to come in the list.
    left: u64,
    /// Whether the list began with a state that no call gave.
    strange: bool,
    /// How calls are drawn: adds among 16 calls, and the console that most of these are for, if one is.
    adds: u64,
    favoured: Option<u64>,
    /// Of the list, where it began with a fresh state.
    counts: Counts,
    /// What came in lists from a fresh state, and in others.
    came: [Came; 2],
    /// In lists from a fresh state: how often so many frames waited, and so many slots passed before a console was served.
    waiting_came: [u64; MOST + 1],
    passed_came: [u64; WITHIN],
}

impl ConsoleLists {
    pub fn new() -> ConsoleLists {
        ConsoleLists {
            consoles: consoles::fresh(),
            left: 0,
            strange: false,
            adds: 0,
            favoured: None,
            counts: Counts::default(),
            came: Default::default(),
            waiting_came: [0; MOST + 1],
            passed_came: [0; WITHIN],
        }
    }

    /// One call by chance; true where the libraries and the second program agree.
    pub fn compare(&mut self, g: &mut Random, tally: &mut Tally) -> bool {
        if self.left == 0 && !self.begin(g, tally) {
            return false;
        }
        self.left -= 1;
        if g.one_in(150) {
            self.lean(g);
        }
        let call = if g.below(16) < self.adds { Add(self.some_console(g)) } else { Slot };
        self.call(tally, call).is_some()
    }

    /// Begins a list of calls, with a fresh state or with one that no call gave.
    fn begin(&mut self, g: &mut Random, tally: &mut Tally) -> bool {
        self.lean(g);
        self.strange = !g.one_in(8);
        if self.strange {
            g.kind("list of console calls from a state that no call gave");
            self.left = 1 + g.below(20);
            self.consoles = strange_consoles(g);
            return true;
        }
        g.kind("list of console calls from a fresh state");
        self.left = 1 + g.below(1500);
        self.fresh(tally)
    }

    /// Mostly adds, mostly slots, or both; for one console mostly, or for all alike.
    fn lean(&mut self, g: &mut Random) {
        self.adds = g.one_of(&[1, 8, 9, 15, 15]);
        self.favoured = if g.one_in(2) { Some(g.below(CONSOLES as u64)) } else { None };
    }

    fn some_console(&self, g: &mut Random) -> u64 {
        match self.favoured {
            Some(console) if !g.one_in(4) => console,
            _ => g.number("consoles_add console", 7),
        }
    }

    fn fresh(&mut self, tally: &mut Tally) -> bool {
        self.consoles = consoles::fresh();
        self.counts = Counts::default();
        console_calls().all(|(level, calls)| {
            let got = unsafe { (calls.fresh)() };
            tally.compared("consoles_fresh", level, 0, got == self.consoles, || format!("{got:?}"))
        })
    }

    /// The second program's reply; None where a library differs, or the list breaks what document 02 says. Takes the next state on.
    fn call(&mut self, tally: &mut Tally, call: Call) -> Option<Reply> {
        let before = self.consoles;
        let name = match call {
            Add(_) => "consoles_add",
            Slot => "consoles_slot",
        };
        let (reply, next) = answered(&before, call);
        let (refusal, served) = (reply.err().unwrap_or(0), reply.ok().flatten());
        let want = [refusal, 0, 0, served.is_some() as u64, served.unwrap_or(0)];
        let same = console_calls().all(|(level, calls)| {
            let answer = match call {
                Add(console) => unsafe { (calls.add)(before, console) },
                Slot => unsafe { (calls.slot)(before) },
            };
            let (got, after) = (answer.fields.fields(), answer.consoles);
            let shown = || format!("{call:?} in {before:?}: {got:?} {after:?} and not {want:?} {next:?}");
            tally.compared(name, level, refusal, got == want && after == next, shown)
        });
        self.consoles = next;
        (same && self.counted(call, reply)).then_some(reply)
    }

    /// Counts a reply; false where the list breaks what document 02 says of it.
    fn counted(&mut self, call: Call, reply: Reply) -> bool {
        self.came[self.strange as usize].note(call, reply);
        if self.strange {
            return true;
        }
        let passed_before = self.counts.passed;
        self.counts.note(call, reply);
        if !self.counts.holds(&self.consoles) {
            let wrong = "a frame is lost or made, too many wait, or a console waits too long";
            println!("{call:?} to {:?}: {wrong}, {passed_before:?} slots before", self.consoles);
            return false;
        }
        self.consoles.waiting.iter().for_each(|waiting| self.waiting_came[*waiting as usize] += 1);
        if let Ok(Some(console)) = reply {
            self.passed_came[passed_before[console as usize]] += 1;
        }
        true
    }

    /// Lists that are written out; true where all agree on them.
    pub fn compare_fixed(&mut self, tally: &mut Tally) -> bool {
        // console 0 comes first, whichever waited first, and then the turn goes around the ring
        let ring = [adds(&[7, 3, 0, 0]), slots(&[0, 3, 7, 0]), vec![NOBODY]].concat();
        // the console that was served last comes last
        let last = [adds(&[2, 2, 2]), slots(&[2]), adds(&[1]), slots(&[1, 2, 2])].concat();
        // a slot with nobody waiting leaves the turn
        let empty = [vec![NOBODY], adds(&[1, 0]), slots(&[0, 1]), vec![NOBODY], adds(&[1, 2]), slots(&[2, 1])].concat();
        // each of eight is served in every eighth slot
        let eight = [adds(&[7, 6, 5, 4, 3, 2, 1, 0]).repeat(2), slots(&[0, 1, 2, 3, 4, 5, 6, 7]).repeat(2)].concat();
        let full = (0..CONSOLES as u64).map(full_at);
        [ring, last, empty, eight].into_iter().chain(full).all(|list| self.compare_list(tally, &list)) && self.compare_strange(tally)
    }

    /// From a fresh state.
    fn compare_list(&mut self, tally: &mut Tally, list: &[Step]) -> bool {
        self.strange = false;
        let same = self.fresh(tally) && self.compare_calls(tally, list);
        agree(same, || format!("console calls that are written out: {list:?}"))
    }

    fn compare_calls(&mut self, tally: &mut Tally, list: &[Step]) -> bool {
        list.iter().all(|(call, reply)| self.call(tally, *call) == Some(*reply))
    }

    /// States that no call gave: next is taken around the ring, more than 100 frames wait, and nobody waits.
    fn compare_strange(&mut self, tally: &mut Tally) -> bool {
        self.strange = true;
        self.consoles = Consoles { waiting: [255, 101, 0, 0, 0, 101, 100, 0], next: 13 };
        let list = [refused(27, &[0, 5]), slots(&[5]), refused(27, &[5]), slots(&[6]), adds(&[6]), slots(&[0])].concat();
        let after = Consoles { waiting: [254, 101, 0, 0, 0, 100, 100, 0], next: 1 };
        let waits = self.compare_calls(tally, &list) && self.consoles == after;
        let empty = Consoles { waiting: [0; CONSOLES], next: 13 };
        self.consoles = empty;
        let idle = self.compare_calls(tally, &[NOBODY]) && self.consoles == empty;
        agree(waits && idle, || "console calls from a state that no call gave".to_string())
    }

    /// Prints what came; false where something never did.
    pub fn show(&self) -> bool {
        let [fresh, strange] = &self.came;
        println!("consoles from a fresh state: {fresh:?}");
        println!("consoles from a state that no call gave: {strange:?}");
        let rarest = self.waiting_came.iter().min().copied().unwrap_or(0);
        println!("0 to {MOST} frames waiting: each {rarest} times or more");
        println!("consoles served by the slots that passed them before, 0 to {}: {:?}", WITHIN - 1, self.passed_came);
        fresh.all() && strange.all() && rarest > 0 && self.passed_came.iter().all(|count| *count > 0)
    }
}

/// What the second program answers, and the state after it.
fn answered(before: &Consoles, call: Call) -> (Reply, Consoles) {
    match call {
        Add(console) => match consoles::add(before, console) {
            Ok(after) => (Ok(None), after),
            Err(refusal) => (Err(refusal), *before),
        },
        Slot => match consoles::slot(before) {
            Some((console, after)) => (Ok(Some(console)), after),
            None => (Ok(None), *before),
        },
    }
}

/// Frames that are taken in.
fn adds(consoles: &[u64]) -> Vec<Step> {
    consoles.iter().map(|console| (Add(*console), Ok(None))).collect()
}

fn refused(refusal: u64, consoles: &[u64]) -> Vec<Step> {
    consoles.iter().map(|console| (Add(*console), Err(refusal))).collect()
}

/// Slots that serve these consoles.
fn slots(consoles: &[u64]) -> Vec<Step> {
    consoles.iter().map(|console| (Slot, Ok(Some(*console)))).collect()
}

/// 27 for the 101st frame of a console until a slot serves it, 11 for numbers above 7, most of them this console's in their low bits; the next
/// console still has room.
fn full_at(console: u64) -> Vec<Step> {
    let above = [8, 256 + console, (1 << 32) + console, (1 << 63) + console, u64::MAX];
    let full = [adds(&[console; MOST]), refused(27, &[console]), refused(11, &above)].concat();
    [full, slots(&[console]), adds(&[console]), refused(27, &[console]), adds(&[(console + 1) % CONSOLES as u64])].concat()
}

/// A state of any value; in half of them most consoles have none waiting, and counts are often at a limit.
fn strange_consoles(g: &mut Random) -> Consoles {
    let any = g.next() as u8;
    let next = g.one_of(&[any, any, 7, 8, 255]);
    let few = g.one_in(2);
    let waiting = [0; CONSOLES].map(|_| {
        let any = g.next() as u8;
        if few && !g.one_in(8) { 0 } else { g.one_of(&[0, 1, 99, 100, 101, 255, any]) }
    });
    Consoles { waiting, next }
}
