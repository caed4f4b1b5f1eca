//! The three formats, by name and by number, and what the octets tell of the format.
use crate::library;

#[derive(Clone, Copy, PartialEq, Eq)]
pub enum Format {
    If1 = 1,
    If2 = 2,
    Stored = 3,
}

pub const FORMATS: [Format; 3] = [Format::If1, Format::If2, Format::Stored];

const HEADER: &[u8] = b"#!AMR-WB\n";

impl Format {
    pub fn name(self) -> &'static str {
        match self {
            Format::If1 => "if1",
            Format::If2 => "if2",
            Format::Stored => "stored",
        }
    }

    /// Of the files that `convert --into` writes.
    pub fn extension(self) -> &'static str {
        match self {
            Format::If1 => "if1",
            Format::If2 => "if2",
            Format::Stored => "awb",
        }
    }

    pub fn of_name(name: &str) -> Option<Format> {
        FORMATS.into_iter().find(|f| f.name().eq_ignore_ascii_case(name))
    }
}

/// The named format, or else the one that the octets tell for certain. IF1 and IF2 have no mark. The storage format's header can be no
/// IF1 recording's begin, for its first octet has spare bits 1, but it can be an IF2 recording's: so the rest must not be valid IF2.
pub fn told(named: Option<Format>, recording: &[u8]) -> Result<Format, String> {
    if let Some(format) = named {
        return Ok(format);
    }
    if !recording.starts_with(HEADER) {
        return Err("no header of the storage format, so its format must be named: --from if1, if2 or stored".to_string());
    }
    match library::validate(Format::If2, recording) {
        Ok(_) => Err("begins with the header of the storage format, but is valid in IF2 too: name its format with --from".to_string()),
        Err(_) => Ok(Format::Stored),
    }
}
