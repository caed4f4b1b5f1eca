//! `adapter report`: document 01's report, and the same lines for longer recordings and other formats.
use crate::arguments::Options;
use crate::files::Input;
use crate::format::Format;
use crate::inputs::{open, over, read};
use crate::library::{self, Counts, Viewer, LIMIT, REPORT_LIMIT, SID};
use crate::output::StandardOutput;
use crate::refusal::Refusal;
use crate::trouble::{Status, Trouble};
use std::io::Write;

pub fn report(options: &Options) -> Status {
    if options.from.is_some() && !options.long {
        return Trouble::Misused("--from needs --long; see adapter report --help".to_string()).tell("adapter: report");
    }
    over(&options.inputs, false, |input, out| {
        if options.inputs.len() > 1 {
            writeln!(out, "{}:", input.name())?;
        }
        report_one(options, input, out)
    })
}

fn report_one(options: &Options, input: &Input, out: &mut StandardOutput) -> Result<(), Trouble> {
    let (recording, format, counts) = match options.long {
        true => {
            let (recording, format) = open(input, options.from)?;
            let counts = count(format, &recording);
            (recording, format, counts)
        }
        false => {
            let recording = read(input)?;
            let counts = library::report(&recording);
            (recording, Format::Stored, counts)
        }
    };
    match counts {
        Ok(counts) => Ok(print_counts(format, &counts, out)?),
        Err(refusal) => {
            writeln!(out, "refusal={}\nframe={}\noctet={}", refusal.number, refusal.frame, refusal.octet)?;
            Err(explained(refusal, &recording))
        }
    }
}

/// The limit of the report is not the limit of a recording.
fn explained(refusal: Refusal, recording: &[u8]) -> Trouble {
    match refusal.number == 9 && recording.len() <= LIMIT {
        true => Trouble::Refused(refusal, format!("without --long a report takes at most {REPORT_LIMIT} octets")),
        false => Trouble::refused(refusal, recording),
    }
}

/// As the library's report counts, but frame by frame, so without its limit.
fn count(format: Format, recording: &[u8]) -> Result<Counts, Refusal> {
    let mut viewer = Viewer::open(format, recording)?;
    let mut counts = Counts { octets: recording.len() as u64, ..Counts::default() };
    while let Some(frame) = viewer.next()? {
        counts.frames += 1;
        match frame.frame_type {
            0..SID => counts.speech += 1,
            SID => counts.comfort += 1,
            14 => counts.lost += 1,
            _ => counts.empty += 1,
        }
    }
    Ok(counts)
}

fn print_counts(format: Format, c: &Counts, out: &mut StandardOutput) -> std::io::Result<()> {
    writeln!(out, "format={}\noctets={}\nframes={}", format as u64, c.octets, c.frames)?;
    writeln!(out, "speech={}\ncomfort={}\nlost={}\nempty={}", c.speech, c.comfort, c.lost, c.empty)
}
