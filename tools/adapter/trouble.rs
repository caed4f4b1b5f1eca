//! What can go wrong with an input, the messages on it, and the exit status.
use crate::library::LIMIT;
use crate::refusal::Refusal;
use std::io::{self, ErrorKind, Write};

/// The program's exit status. Of several inputs the highest counts.
#[derive(Clone, Copy, PartialEq, Eq, PartialOrd, Ord)]
pub enum Status {
    Done = 0,
    Refused = 1,
    Misused = 2,
    Failed = 3,
}

/// What kept a command from doing its work with one input.
pub enum Trouble {
    /// With a note, empty where the number is enough.
    Refused(Refusal, String),
    /// Round trips that gave other octets, a line for each.
    Changed(Vec<String>),
    Misused(String),
    /// An input or an output file, with its name where it is not the input's.
    Failed(String, io::Error),
    /// Standard output, which all inputs share.
    Output(io::Error),
}

/// For `?` where a command writes to standard output.
impl From<io::Error> for Trouble {
    fn from(error: io::Error) -> Trouble {
        Trouble::Output(error)
    }
}

impl Trouble {
    pub fn status(&self) -> Status {
        match self {
            Trouble::Refused(..) | Trouble::Changed(_) => Status::Refused,
            Trouble::Misused(_) => Status::Misused,
            Trouble::Failed(..) | Trouble::Output(_) => Status::Failed,
        }
    }

    /// A refusal of a recording. 9 leaves open what is too long: what was read, or what would be written.
    pub fn refused(refusal: Refusal, recording: &[u8]) -> Trouble {
        let note = match refusal.number {
            9 if recording.len() > LIMIT => format!("it has more than {LIMIT} octets"),
            9 => format!("what would be written has more than {LIMIT} octets"),
            _ => String::new(),
        };
        Trouble::Refused(refusal, note)
    }

    /// In lines: round trips that changed have one each.
    pub fn lines(&self) -> Vec<String> {
        vec![match self {
            Trouble::Refused(refusal, note) if note.is_empty() => refusal.to_string(),
            Trouble::Refused(refusal, note) => format!("{refusal}: {note}"),
            Trouble::Changed(lines) => return lines.clone(),
            Trouble::Misused(what) => what.clone(),
            Trouble::Failed(file, error) if file.is_empty() => error.to_string(),
            Trouble::Failed(file, error) => format!("{file}: {error}"),
            Trouble::Output(error) => error.to_string(),
        }]
    }

    /// The message, with a margin; none where the reader of standard output has closed it, as `head` does.
    pub fn message(&self, margin: &str, name: &str) -> String {
        let name = match self {
            Trouble::Output(error) if error.kind() == ErrorKind::BrokenPipe => return String::new(),
            Trouble::Output(_) => "standard output",
            _ => name,
        };
        self.lines().iter().map(|line| format!("{margin}{name}: {line}\n")).collect()
    }

    pub fn tell(&self, name: &str) -> Status {
        say(&self.message("", name));
        self.status()
    }
}

/// To standard error. Where that fails too, the message is lost.
pub fn say(text: &str) {
    let _ = io::stderr().write_all(text.as_bytes());
}
