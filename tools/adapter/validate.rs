//! `adapter validate`.
use crate::arguments::Options;
use crate::files::Input;
use crate::inputs::{open, over};
use crate::library;
use crate::output::StandardOutput;
use crate::refusal::time;
use crate::trouble::{Status, Trouble};
use std::io::Write;

pub fn validate(options: &Options) -> Status {
    over(&options.inputs, false, |input, out| validate_one(options, input, out))
}

fn validate_one(options: &Options, input: &Input, out: &mut StandardOutput) -> Result<(), Trouble> {
    let (recording, format) = open(input, options.from)?;
    let frames = library::validate(format, &recording).map_err(|r| Trouble::refused(r, &recording))?;
    let (name, octets) = (input.name(), recording.len());
    Ok(writeln!(out, "{name}: valid, {}, {frames} frames, {octets} octets, {}", format.name(), time(frames))?)
}
