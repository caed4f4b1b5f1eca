//! Counts of the compared calls: by call, level and refusal.
use crate::library::LEVELS;
use std::collections::BTreeMap;

/// How often each refusal came; 0 is an accepted call.
#[derive(Default)]
pub struct Refusals([u64; 28]);

impl Refusals {
    pub fn count(&mut self, refusal: u64) {
        self.0[refusal as usize] += 1;
    }

    /// Prints the counts; false where one of the possible answers never came, or another one did.
    pub fn show(&self, name: &str, possible: &[usize]) -> bool {
        let counts: Vec<String> = possible.iter().map(|n| format!("{n}: {}", self.0[*n])).collect();
        println!("{name} by refusal (0 accepted): {}", counts.join(", "));
        self.0.iter().enumerate().all(|(n, count)| possible.contains(&n) == (*count > 0))
    }
}

/// Every call, the first level that has it, and the refusals that it can give.
const CALLS: [(&str, usize, &[usize]); 24] = [
    ("validate", 1, &[0, 2, 3, 5, 6, 7, 8, 9, 11]),
    ("convert", 1, &[0, 2, 3, 5, 6, 7, 8, 9, 10, 11]),
    ("convert_length", 1, &[0, 2, 3, 5, 6, 7, 8, 9, 11]),
    ("merge", 1, &[0, 2, 3, 5, 6, 7, 8, 9, 10, 11]),
    ("read_frame", 1, &[0, 1, 2, 3, 4, 5, 6, 7, 10, 11]),
    ("build_if1", 1, &[0, 2, 5, 6, 10, 11]),
    ("build_if2", 1, &[0, 2, 5, 6, 10, 11]),
    ("build_stored", 2, &[0, 2, 5, 6, 10, 11]),
    ("class", 2, &[0, 2, 11]),
    ("order_to_core", 2, &[0, 10, 11, 12, 24]),
    ("order_to_row", 2, &[0, 5, 10, 11, 12, 24]),
    ("sheet_read", 2, &[0, 10, 23, 24]),
    ("view_open", 2, &[0, 8, 9, 11]),
    ("view_next", 2, &[0, 2, 3, 5, 6, 7, 10, 11]),
    ("report", 2, &[0, 2, 3, 5, 6, 8, 9]),
    ("consoles_fresh", 2, &[0]),
    ("consoles_add", 2, &[0, 11, 27]),
    ("consoles_slot", 2, &[0]),
    ("link_fresh", 3, &[0]),
    ("link_assign", 3, &[0, 11, 15]),
    ("link_release", 3, &[0, 14]),
    ("link_rate", 3, &[0, 11]),
    ("link_up", 3, &[0, 6, 10, 11, 13, 14, 16, 17]),
    ("link_down", 3, &[0, 1, 2, 3, 4, 5, 6, 7, 10, 14, 16]),
];

#[derive(Default)]
pub struct Tally {
    counts: BTreeMap<(&'static str, usize), Refusals>,
    /// Compared calls of each level, and of the link.
    levels: [u64; LEVELS.len()],
    links: u64,
}

impl Tally {
    /// Counts a compared call with the second program's refusal, and prints it where the library differs.
    pub fn compared(&mut self, call: &'static str, level: usize, refusal: u64, same: bool, shown: impl FnOnce() -> String) -> bool {
        self.counts.entry((call, level)).or_default().count(refusal);
        self.levels[level] += 1;
        self.links += call.starts_with("link_") as u64;
        if !same {
            println!("{}: {call} {}, or a lent octet", LEVELS[level], shown());
        }
        same
    }

    pub fn total(&self) -> u64 {
        self.levels.iter().sum()
    }

    pub fn links(&self) -> u64 {
        self.links
    }

    /// Prints the counts; false where the answers of some call, in a level that has it, are not all the possible ones.
    pub fn show(&self) -> bool {
        let mut all = true;
        for (call, first, possible) in CALLS {
            for level in first..LEVELS.len() {
                // level one has no header to refuse
                let possible: Vec<usize> = possible.iter().copied().filter(|n| *n != 8 || level > 1).collect();
                let name = format!("{}: {call}", LEVELS[level]);
                all &= self.counts.get(&(call, level)).is_some_and(|refusals| refusals.show(&name, &possible));
            }
        }
        let [_, one, two, three] = self.levels;
        println!("calls: level one {one}, level two {two}, level three {three}, of these the link's {}", self.links);
        all
    }
}

/// Prints what is wrong, if something is.
pub fn agree(same: bool, wrong: impl FnOnce() -> String) -> bool {
    if !same {
        println!("{}", wrong());
    }
    same
}
