//! Eight consoles that share one adapter, written from the papers (document 02, m) in the plainest way. It shares no code with crates/ or
//! benches/.

/// How many consoles there are.
pub const CONSOLES: usize = 8;

/// How many frames wait at a console at most.
const MOST: u8 = 100;

/// How many frames wait at each console, and the console at which the next slot begins to look. The state is laid out as in the C interface, and
/// its fields may hold anything.
#[repr(C)]
#[derive(Clone, Copy, PartialEq, Debug)]
pub struct Consoles {
    pub waiting: [u8; CONSOLES],
    pub next: u8,
}

pub fn fresh() -> Consoles {
    Consoles { waiting: [0; CONSOLES], next: 0 }
}

/// Takes in a frame of a console.
pub fn add(consoles: &Consoles, console: u64) -> Result<Consoles, u64> {
    if console >= CONSOLES as u64 {
        return Err(11);
    }
    let mut after = *consoles;
    let waiting = &mut after.waiting[console as usize];
    if *waiting >= MOST {
        return Err(27);
    }
    *waiting += 1;
    Ok(after)
}

/// Serves the first console around the ring at which a frame waits: the console and the state after it, or None where nobody waits.
pub fn slot(consoles: &Consoles) -> Option<(u64, Consoles)> {
    // above 7 only in a state that no call gave
    let first = consoles.next as usize % CONSOLES;
    let mut ring = (first..CONSOLES).chain(0..first);
    let served = ring.find(|console| consoles.waiting[*console] > 0)?;
    let mut after = *consoles;
    after.waiting[served] -= 1;
    after.next = if served == CONSOLES - 1 { 0 } else { served as u8 + 1 };
    Some((served as u64, after))
}
