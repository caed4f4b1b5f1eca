//! `adapter round-trip`: to another format and back, and what that changed. Only IF1 has something to lose: the mode indication and the
//! mode request, which the other formats do not carry.
use crate::arguments::Options;
use crate::files::Input;
use crate::format::{Format, FORMATS};
use crate::inputs::{open, over};
use crate::library::{self, Frame, Viewer, SID};
use crate::output::StandardOutput;
use crate::refusal::{place, Refusal};
use crate::trouble::{Status, Trouble};
use std::io::Write;

pub fn round_trip(options: &Options) -> Status {
    over(&options.inputs, false, |input, out| round_trip_one(options, input, out))
}

fn round_trip_one(options: &Options, input: &Input, out: &mut StandardOutput) -> Result<(), Trouble> {
    let (recording, from) = open(input, options.from)?;
    if options.via == Some(from) {
        return Err(Trouble::Misused(format!("--via {} is its own format", from.name())));
    }
    let frames = library::validate(from, &recording).map_err(|r| Trouble::refused(r, &recording))?;
    let mut changed = Vec::new();
    for via in FORMATS.into_iter().filter(|f| *f != from && options.via.unwrap_or(*f) == *f) {
        let trip = format!("{} to {} and back", from.name(), via.name());
        match there_and_back(from, via, options.request, &recording) {
            Ok(()) => writeln!(out, "{}: {trip}: unchanged, {frames} frames", input.name())?,
            Err(what) => changed.push(format!("{trip}: {what}")),
        }
    }
    match changed.is_empty() {
        true => Ok(()),
        false => Err(Trouble::Changed(changed)),
    }
}

/// An error says what changed, or which conversion was refused. The recording is valid, so only lengths can be.
fn there_and_back(from: Format, via: Format, request: u64, recording: &[u8]) -> Result<(), String> {
    let step = |a: Format, b: Format, octets: &[u8]| {
        library::convert(a, b, request, octets).map_err(|refusal| Trouble::refused(refusal, octets).lines().concat())
    };
    let there = step(from, via, recording)?;
    let back = step(via, from, &there)?;
    match back == recording {
        true => Ok(()),
        false => Err(first_change(from, request, recording, &back).unwrap_or_else(|r| r.to_string())),
    }
}

/// Both have frames of the same types in the same places.
fn first_change(format: Format, request: u64, recording: &[u8], back: &[u8]) -> Result<String, Refusal> {
    let mut viewer = Viewer::open(format, recording)?;
    let mut first = None;
    let (mut changed, mut frames) = (0, 0);
    while let Some(frame) = viewer.next()? {
        frames += 1;
        if back.get(frame.offset..frame.end) != Some(&recording[frame.offset..frame.end]) {
            changed += 1;
            first.get_or_insert(frame);
        }
    }
    let Some(first) = first else { return Ok("changed outside its frames".to_string()) };
    let (place, reasons) = (place(first.number, first.offset as u64), reasons(&first, request));
    Ok(format!("changed in {changed} of {frames} frames, first in {place}: {reasons}"))
}

/// Why a frame does not come back as it was.
fn reasons(frame: &Frame, request: u64) -> String {
    let indication = if frame.frame_type == SID { 0 } else { frame.frame_type };
    let mut reasons = Vec::new();
    if frame.indication != indication {
        reasons.push(format!("its mode indication is {}, not its type {indication}", frame.indication));
    }
    if frame.request != request {
        reasons.push(format!("its mode request is {}, not {request}", frame.request));
    }
    match reasons.is_empty() {
        true => "for no reason that is known".to_string(),
        false => reasons.join(", and "),
    }
}
