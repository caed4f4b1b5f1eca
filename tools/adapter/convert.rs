//! `adapter convert`. Wrong use is told before anything is written.
use crate::arguments::Options;
use crate::files::{identities, identity, shown, Identity, Input};
use crate::format::Format;
use crate::inputs::{open, over};
use crate::library;
use crate::output::StandardOutput;
use crate::target::Target;
use crate::trouble::{Status, Trouble};
use std::collections::HashMap;
use std::fs;
use std::io::ErrorKind;
use std::path::{Path, PathBuf};

pub fn convert(options: &Options) -> Status {
    let to = match prepare(options) {
        Ok(to) => to,
        Err(trouble) => return trouble.tell("adapter: convert"),
    };
    over(&options.inputs, true, |input, out| convert_one(options, to, input, out))
}

fn convert_one(options: &Options, to: Format, input: &Input, out: &mut StandardOutput) -> Result<(), Trouble> {
    let (recording, from) = open(input, options.from)?;
    let octets = library::convert(from, to, options.request, &recording).map_err(|r| Trouble::refused(r, &recording))?;
    target(options, to, input)?.write(&octets, out)
}

/// The format to write. Every target is known to be allowed then.
fn prepare(options: &Options) -> Result<Format, Trouble> {
    let misused = |what: &str| Err(Trouble::Misused(format!("{what}; see adapter convert --help")));
    let Some(to) = options.to else { return misused("--to is missing") };
    match (&options.output, &options.into, options.inputs.len()) {
        (Some(_), Some(_), _) => return misused("--output and --into exclude each other"),
        (_, None, 2..) => return misused("several inputs need --into"),
        (_, Some(folder), _) => check_folder(folder)?,
        _ => (),
    }
    check_targets(options, to)?;
    Ok(to)
}

fn check_folder(folder: &Path) -> Result<(), Trouble> {
    let failed = |e| Err(Trouble::Failed(shown(folder.as_os_str()), e));
    match fs::metadata(folder) {
        Ok(metadata) if metadata.is_dir() => Ok(()),
        Ok(_) => failed(ErrorKind::NotADirectory.into()),
        Err(e) => failed(e),
    }
}

/// No two inputs may have one output, and no output may be an input.
fn check_targets(options: &Options, to: Format) -> Result<(), Trouble> {
    let inputs = identities(&options.inputs);
    let mut paths: HashMap<PathBuf, &Input> = HashMap::new();
    let mut files: HashMap<Identity, &Input> = HashMap::new();
    for input in &options.inputs {
        let target = target(options, to, input)?;
        target.check(&inputs)?;
        let Target::File(path) = target else { continue };
        let name = shown(path.as_os_str());
        let other = identity(&path).and_then(|file| files.insert(file, input)).or(paths.insert(path, input));
        if let Some(other) = other {
            return Err(Trouble::Misused(format!("{} and {} would both be written to {name}", other.name(), input.name())));
        }
    }
    Ok(())
}

/// Where an input's conversion goes. In a folder it has the input's name with the format's extension.
fn target(options: &Options, to: Format, input: &Input) -> Result<Target, Trouble> {
    let Some(folder) = &options.into else { return Ok(Target::named(options.output.as_deref())) };
    let name = match input {
        Input::File(path) => path.file_name(),
        Input::Standard => None,
    };
    match name {
        Some(name) => Ok(Target::File(folder.join(Path::new(name).with_extension(to.extension())))),
        None => Err(Trouble::Misused(format!("{} has no file name, which --into needs", input.name()))),
    }
}
