//! Inputs: files and standard input, their names, and which file they are.
use crate::library::LIMIT;
use std::collections::HashSet;
use std::ffi::OsStr;
use std::fmt::Write;
use std::fs::{self, File, Metadata};
use std::io::{self, Read};
use std::os::fd::AsFd;
use std::os::unix::ffi::OsStrExt;
use std::os::unix::fs::MetadataExt;
use std::path::{Path, PathBuf};

#[derive(PartialEq)]
pub enum Input {
    Standard,
    File(PathBuf),
}

/// A regular file by device and inode, which all its names and links share.
pub type Identity = (u64, u64);

impl Input {
    pub fn name(&self) -> String {
        match self {
            Input::Standard => "standard input".to_string(),
            Input::File(path) => shown(path.as_os_str()),
        }
    }

    /// The octets, up to one above the limit of a recording: enough for refusal 9.
    pub fn read(&self) -> io::Result<Vec<u8>> {
        let file = match self {
            Input::Standard => stream(&io::stdin())?,
            Input::File(path) => File::open(path)?,
        };
        let mut octets = Vec::new();
        file.take(LIMIT as u64 + 1).read_to_end(&mut octets)?;
        Ok(octets)
    }

    /// None where it is no regular file, or is not there.
    pub fn identity(&self) -> Option<Identity> {
        match self {
            Input::Standard => stream(&io::stdin()).and_then(|f| f.metadata()).ok().and_then(regular),
            Input::File(path) => identity(path),
        }
    }
}

/// Standard input or output as a file: Rust's own has no metadata, and writes by lines.
pub fn stream(standard: &impl AsFd) -> io::Result<File> {
    Ok(File::from(standard.as_fd().try_clone_to_owned()?))
}

pub fn identities(inputs: &[Input]) -> HashSet<Identity> {
    inputs.iter().filter_map(Input::identity).collect()
}

pub fn identity(path: &Path) -> Option<Identity> {
    fs::metadata(path).ok().and_then(regular)
}

pub fn regular(metadata: Metadata) -> Option<Identity> {
    metadata.is_file().then(|| (metadata.dev(), metadata.ino()))
}

/// A name for messages: control characters, and octets that are not UTF-8, as \xNN.
pub fn shown(name: &OsStr) -> String {
    let mut text = String::new();
    for chunk in name.as_bytes().utf8_chunks() {
        for c in chunk.valid().chars() {
            match c.is_control() {
                true => escape(&mut text, c.to_string().as_bytes()),
                false => text.push(c),
            }
        }
        escape(&mut text, chunk.invalid());
    }
    text
}

fn escape(text: &mut String, octets: &[u8]) {
    for octet in octets {
        let _ = write!(text, "\\x{octet:02x}");
    }
}
