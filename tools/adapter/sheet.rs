//! `adapter sheet check`.
use crate::arguments::Options;
use crate::files::Input;
use crate::inputs::{over, read};
use crate::library::{self, LIMIT};
use crate::output::StandardOutput;
use crate::refusal::Refusal;
use crate::sheet_fault::{form_fault, number_faults};
use crate::trouble::{Status, Trouble};
use std::io::Write;

pub fn sheet(options: &Options) -> Status {
    over(&options.inputs, false, check)
}

fn check(input: &Input, out: &mut StandardOutput) -> Result<(), Trouble> {
    let text = read(input)?;
    let sheet = library::sheet(&text).map_err(|r| explained(r, &text))?;
    Ok(writeln!(out, "{}: valid, mode {}, {} bits", input.name(), sheet.mode, sheet.numbers)?)
}

/// The library decides, and the number stands also where no fault is found.
fn explained(refusal: Refusal, text: &[u8]) -> Trouble {
    let fault = match refusal.number {
        _ if text.len() > LIMIT => Some(format!("it has more than {LIMIT} octets")),
        23 => form_fault(text),
        24 => number_faults(text),
        _ => None,
    };
    Trouble::Refused(refusal, fault.unwrap_or_default())
}
