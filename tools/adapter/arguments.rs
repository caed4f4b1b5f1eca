//! The command line: a command's options and inputs. Names of files need not be UTF-8.
use crate::files::{shown, Input};
use crate::format::Format;
use crate::trouble::Status;
use std::collections::HashMap;
use std::ffi::{OsStr, OsString};
use std::os::unix::ffi::OsStrExt;
use std::path::PathBuf;

pub struct Command {
    pub name: &'static str,
    /// The word that must stand behind the name, where there is one.
    pub action: Option<&'static str>,
    pub options: &'static [&'static str],
    pub help: &'static str,
    pub run: fn(&Options) -> Status,
}

pub struct Options {
    pub from: Option<Format>,
    pub to: Option<Format>,
    pub via: Option<Format>,
    pub request: u64,
    pub output: Option<PathBuf>,
    pub into: Option<PathBuf>,
    pub long: bool,
    pub inputs: Vec<Input>,
}

pub enum Parsed {
    Help,
    Run(Options),
}

/// The options as they came, by name; one without a value has an empty one.
type Values = HashMap<&'static str, OsString>;

/// An error is the message on wrong use.
pub fn parse(command: &Command, arguments: Vec<OsString>) -> Result<Parsed, String> {
    let mut values = Values::new();
    let mut inputs = Vec::new();
    let mut arguments = arguments.into_iter();
    if let Some(action) = command.action {
        match arguments.next() {
            Some(word) if word == action => (),
            Some(word) if word == "--help" || word == "-h" => return Ok(Parsed::Help),
            _ => return Err(format!("the next word must be {action}")),
        }
    }
    while let Some(argument) = arguments.next() {
        match argument.as_bytes() {
            b"--" => inputs.extend(arguments.by_ref().map(input)),
            b"--help" | b"-h" => return Ok(Parsed::Help),
            b"-" => inputs.push(Input::Standard),
            [b'-', ..] => option(command, &argument, &mut arguments, &mut values)?,
            _ => inputs.push(input(argument)),
        }
    }
    if inputs.is_empty() {
        inputs.push(Input::Standard);
    }
    if inputs.iter().filter(|i| **i == Input::Standard).count() > 1 {
        return Err("standard input can be read only once".to_string());
    }
    Ok(Parsed::Run(options(values, inputs)?))
}

fn input(argument: OsString) -> Input {
    match argument.as_bytes() {
        b"-" => Input::Standard,
        _ => Input::File(PathBuf::from(argument)),
    }
}

/// One option with its value, which stands behind `=` or is the next argument.
fn option(command: &Command, argument: &OsStr, rest: &mut impl Iterator<Item = OsString>, values: &mut Values) -> Result<(), String> {
    let (name, value) = match argument.as_bytes().iter().position(|octet| *octet == b'=') {
        Some(i) => (&argument.as_bytes()[..i], Some(OsStr::from_bytes(&argument.as_bytes()[i + 1..]).to_os_string())),
        None => (argument.as_bytes(), None),
    };
    let long: &[u8] = match name {
        b"-o" => b"--output",
        b"--format" => b"--from",
        _ => name,
    };
    let Some(known) = command.options.iter().find(|o| o.as_bytes() == long) else {
        return Err(format!("no option {}", shown(OsStr::from_bytes(name))));
    };
    let value = match (*known, value) {
        ("--long", Some(_)) => return Err("--long takes no value".to_string()),
        ("--long", None) => OsString::new(),
        (_, Some(value)) => value,
        (_, None) => rest.next().ok_or(format!("{known} needs a value"))?,
    };
    match values.insert(known, value) {
        Some(_) => Err(format!("{known} is given twice")),
        None => Ok(()),
    }
}

fn options(mut values: Values, inputs: Vec<Input>) -> Result<Options, String> {
    Ok(Options {
        from: format(&values, "--from")?,
        to: format(&values, "--to")?,
        via: format(&values, "--via")?,
        request: request(&values)?,
        output: file(&mut values, "--output")?,
        into: file(&mut values, "--into")?,
        long: values.contains_key("--long"),
        inputs,
    })
}

fn format(values: &Values, name: &str) -> Result<Option<Format>, String> {
    let Some(value) = values.get(name) else { return Ok(None) };
    match value.to_str().and_then(Format::of_name) {
        Some(format) => Ok(Some(format)),
        None => Err(format!("{name} takes if1, if2 or stored, not {}", shown(value))),
    }
}

/// A codec mode; 0 where none is given.
fn request(values: &Values) -> Result<u64, String> {
    let Some(value) = values.get("--request") else { return Ok(0) };
    match value.as_bytes() {
        [digit @ b'0'..=b'8'] => Ok(u64::from(digit - b'0')),
        _ => Err(format!("--request takes a mode, 0 to 8, not {}", shown(value))),
    }
}

fn file(values: &mut Values, name: &str) -> Result<Option<PathBuf>, String> {
    match values.remove(name) {
        Some(value) if value.is_empty() => Err(format!("{name} needs a name")),
        value => Ok(value.map(PathBuf::from)),
    }
}
