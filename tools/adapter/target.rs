//! Where a command writes octets: to standard output, or to a file that appears whole or not at all.
use crate::files::{identity, shown, Identity};
use crate::output::{write_whole, StandardOutput};
use crate::trouble::Trouble;
use std::collections::HashSet;
use std::ffi::OsStr;
use std::io::{self, IsTerminal, Write};
use std::path::{Path, PathBuf};

pub enum Target {
    Standard,
    File(PathBuf),
}

impl Target {
    /// What --output names: none, or -, is standard output.
    pub fn named(output: Option<&Path>) -> Target {
        match output {
            Some(path) if path.as_os_str() != OsStr::new("-") => Target::File(path.to_path_buf()),
            _ => Target::Standard,
        }
    }

    pub fn name(&self) -> String {
        match self {
            Target::Standard => "standard output".to_string(),
            Target::File(path) => shown(path.as_os_str()),
        }
    }

    /// Refuses a terminal, and an input under whatever name or link. Standard output that is an input is told where it is opened.
    pub fn check(&self, inputs: &HashSet<Identity>) -> Result<(), Trouble> {
        match self {
            Target::Standard if io::stdout().is_terminal() => {
                Err(Trouble::Misused("octets are not written to a terminal; name an --output file".to_string()))
            }
            Target::File(path) if identity(path).is_some_and(|file| inputs.contains(&file)) => {
                Err(Trouble::Misused(format!("{} is an input, which is never written", self.name())))
            }
            _ => Ok(()),
        }
    }

    pub fn write(&self, octets: &[u8], out: &mut StandardOutput) -> Result<(), Trouble> {
        match self {
            Target::Standard => Ok(out.write_all(octets)?),
            Target::File(path) => write_whole(path, octets).map_err(|e| Trouble::Failed(self.name(), e)),
        }
    }
}
