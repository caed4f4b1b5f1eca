//! `adapter merge`: one recording of two of the same talk. The library judges and merges; which frames came from the second is found here, for
//! the message alone.
use crate::arguments::Options;
use crate::files::{identities, Input};
use crate::format::{told, Format};
use crate::inputs::{output_apart, read};
use crate::library::{self, Viewer, LIMIT};
use crate::refusal::{time, Refusal};
use crate::target::Target;
use crate::trouble::{say, Status, Trouble};
use std::io::Write;

/// What trouble with neither of the two is named by.
const COMMAND: &str = "adapter: merge";

/// Trouble, and what its message names: an input, or the command.
type Named = (String, Trouble);

fn of_command(trouble: impl Into<Trouble>) -> Named {
    (COMMAND.to_string(), trouble.into())
}

/// One of the two.
struct Recording {
    name: String,
    octets: Vec<u8>,
}

impl Recording {
    fn read(input: &Input) -> Result<Recording, Named> {
        match read(input) {
            Ok(octets) => Ok(Recording { name: input.name(), octets }),
            Err(trouble) => Err((input.name(), trouble)),
        }
    }

    fn misused(&self, what: String) -> Named {
        (self.name.clone(), Trouble::Misused(what))
    }
}

pub fn merge(options: &Options) -> Status {
    match merge_two(options) {
        Ok(()) => Status::Done,
        Err((name, trouble)) => trouble.tell(&name),
    }
}

fn merge_two(options: &Options) -> Result<(), Named> {
    let [first, second] = &options.inputs[..] else {
        return Err(of_command(Trouble::Misused("two recordings must be named, FIRST and SECOND; see adapter merge --help".to_string())));
    };
    let target = Target::named(options.output.as_deref());
    target.check(&identities(&options.inputs)).map_err(of_command)?;
    let mut out = output_apart(&options.inputs)?;
    let (first, second) = (Recording::read(first)?, Recording::read(second)?);
    let format = format(options.from, &first, &second)?;
    let merged = library::merge(format, &first.octets, &second.octets);
    let (frames, octets) = merged.map_err(|(which, refusal)| refused(refusal, [&first, &second][which]))?;
    // both are valid, so that the viewer refuses no frame
    let runs = taken(format, &first.octets, &second.octets).map_err(|r| of_command(Trouble::Refused(r, String::new())))?;
    target.write(&octets, &mut out).map_err(of_command)?;
    out.flush().map_err(of_command)?;
    say(&format!("{}: {frames} frames, {} octets, {}\n{}", target.name(), octets.len(), time(frames), listed(&second.name, &runs)));
    Ok(())
}

/// The format of both. Where it is not named, each must tell it, which only a stored recording does.
fn format(named: Option<Format>, first: &Recording, second: &Recording) -> Result<Format, Named> {
    let not_as = |stored: &Recording| {
        let name = &stored.name;
        format!("it is not known to be stored, as {name} is, and both must have one format: name it by --from, or convert one first")
    };
    match (told(named, &first.octets), told(named, &second.octets)) {
        (Ok(format), Ok(_)) => Ok(format),
        (Ok(_), Err(_)) => Err(second.misused(not_as(first))),
        (Err(_), Ok(_)) => Err(first.misused(not_as(second))),
        (Err(what), Err(_)) => Err(first.misused(what)),
    }
}

/// A refusal of a recording. 9 of one that is not too long is the result's.
fn refused(refusal: Refusal, recording: &Recording) -> Named {
    let name = match refusal.number {
        9 if recording.octets.len() <= LIMIT => COMMAND.to_string(),
        _ => recording.name.clone(),
    };
    (name, Trouble::refused(refusal, &recording.octets))
}

/// Frames from the second, one behind the other: the first one's number, the number behind the last one's, and how many are lost or empty.
struct Run {
    start: u64,
    end: u64,
    gaps: u64,
}

/// The frames that came from the second, by the rule that the library has: those where the first's is lost or empty, or where it has ended.
fn taken(format: Format, first: &[u8], second: &[u8]) -> Result<Vec<Run>, Refusal> {
    let (mut first, mut second) = (Viewer::open(format, first)?, Viewer::open(format, second)?);
    let mut runs: Vec<Run> = Vec::new();
    while let Some(frame) = second.next()? {
        if first.next()?.is_some_and(|kept| !kept.is_gap()) {
            continue;
        }
        let (number, gaps) = (frame.number, u64::from(frame.is_gap()));
        match runs.last_mut() {
            Some(run) if run.end == number => (run.end, run.gaps) = (number + 1, run.gaps + gaps),
            _ => runs.push(Run { start: number, end: number + 1, gaps }),
        }
    }
    Ok(runs)
}

/// How many frames came from the second, and where. Two recorders of one talk have the same silence, so runs that are all lost or empty are
/// many: they are only counted.
fn listed(name: &str, runs: &[Run]) -> String {
    let (frames, gaps) = runs.iter().fold((0, 0), |(frames, gaps), run| (frames + run.end - run.start, gaps + run.gaps));
    let (silent, filled): (Vec<&Run>, Vec<&Run>) = runs.iter().partition(|run| run.gaps == run.end - run.start);
    let mut text = format!("from {name}: {frames} frames{}", of_them(gaps));
    text.push_str(if filled.is_empty() { "\n" } else { ":\n" });
    for Run { start, end, gaps } in &filled {
        let frames = if end - start == 1 { start.to_string() } else { format!("{start} to {}", end - 1) };
        text.push_str(&format!("  {frames}, {} to {}{}\n", time(*start), time(*end), of_them(*gaps)));
    }
    if !filled.is_empty() && !silent.is_empty() {
        text.push_str(&format!("  and {} runs that are all lost or empty\n", silent.len()));
    }
    text
}

fn of_them(gaps: u64) -> String {
    match gaps {
        0 => String::new(),
        _ => format!(", {gaps} of them lost or empty"),
    }
}
