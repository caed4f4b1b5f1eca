//! `adapter frames`: a line for each frame.
use crate::arguments::Options;
use crate::files::Input;
use crate::inputs::{open, over};
use crate::library::{Frame, Viewer};
use crate::output::StandardOutput;
use crate::refusal::FRAME_MS;
use crate::trouble::{Status, Trouble};
use std::io::Write;

/// By the number of the class, from 1.
const CLASSES: [&str; 7] = ["speech good", "speech bad", "comfort first", "comfort update", "comfort bad", "lost", "empty"];

pub fn frames(options: &Options) -> Status {
    over(&options.inputs, false, |input, out| {
        if options.inputs.len() > 1 {
            writeln!(out, "{}:", input.name())?;
        }
        list(options, input, out)
    })
}

fn list(options: &Options, input: &Input, out: &mut StandardOutput) -> Result<(), Trouble> {
    let (recording, format) = open(input, options.from)?;
    let refused = |refusal| Trouble::refused(refusal, &recording);
    let mut viewer = Viewer::open(format, &recording).map_err(refused)?;
    while let Some(frame) = viewer.next().map_err(refused)? {
        let Frame { number, offset, frame_type, quality, class, .. } = frame;
        let class = CLASSES[class as usize - 1];
        writeln!(out, "{number}\t{}\t{offset}\t{frame_type}\t{quality}\t{class}", number * FRAME_MS)?;
    }
    Ok(())
}
