//! A command over its inputs, one after another, with progress and a summary.
use crate::files::{self, Input};
use crate::format::{told, Format};
use crate::output::{self, StandardOutput};
use crate::trouble::{say, Status, Trouble};
use std::io::{self, IsTerminal, Write};

/// An input's octets, and its format.
pub fn open(input: &Input, named: Option<Format>) -> Result<(Vec<u8>, Format), Trouble> {
    let recording = read(input)?;
    let format = told(named, &recording).map_err(Trouble::Misused)?;
    Ok((recording, format))
}

pub fn read(input: &Input) -> Result<Vec<u8>, Trouble> {
    input.read().map_err(|e| Trouble::Failed(String::new(), e))
}

/// The line `12 of 40` on a terminal, which the next one replaces.
struct Progress {
    shown: usize,
    on: bool,
}

impl Progress {
    /// Only where there are several inputs, and standard output does not fill the same terminal with results.
    fn new(inputs: usize, silent: bool) -> Progress {
        let on = inputs > 1 && io::stderr().is_terminal() && (silent || !io::stdout().is_terminal());
        Progress { shown: 0, on }
    }

    fn show(&mut self, at: usize, inputs: usize, troubles: usize) {
        if !self.on {
            return;
        }
        let line = match troubles {
            0 => format!("{at} of {inputs}"),
            _ => format!("{at} of {inputs}, {troubles} not done"),
        };
        self.clear();
        say(&line);
        self.shown = line.len();
    }

    fn clear(&mut self) {
        if self.shown > 0 {
            say(&format!("\r{:1$}\r", "", self.shown));
            self.shown = 0;
        }
    }
}

/// Runs a command over every input in turn; silent is one that prints nothing. Trouble with one input does not stop the others, but for
/// trouble with standard output.
pub fn over(inputs: &[Input], silent: bool, command: impl Fn(&Input, &mut StandardOutput) -> Result<(), Trouble>) -> Status {
    let mut out = match output_apart(inputs) {
        Ok(out) => out,
        Err((name, trouble)) => return trouble.tell(&name),
    };
    let mut progress = Progress::new(inputs.len(), silent);
    let mut troubles = Vec::new();
    for (i, input) in inputs.iter().enumerate() {
        progress.show(i + 1, inputs.len(), troubles.len());
        let done = command(input, &mut out);
        // first what was printed up to the trouble, then the message
        let written = out.flush();
        let Err(trouble) = written.map_err(Trouble::Output).and(done) else { continue };
        progress.clear();
        let status = trouble.tell(&input.name());
        if let Trouble::Output(_) = trouble {
            return status;
        }
        troubles.push((input, trouble));
    }
    progress.clear();
    if inputs.len() > 1 && !troubles.is_empty() {
        summarize(inputs.len(), &troubles);
    }
    troubles.iter().map(|(_, trouble)| trouble.status()).max().unwrap_or(Status::Done)
}

/// Standard output, which must be no input: that would be written while it is read.
pub fn output_apart(inputs: &[Input]) -> Result<StandardOutput, (String, Trouble)> {
    let out = output::standard().map_err(|e| (String::new(), Trouble::Output(e)))?;
    let output = out.get_ref().metadata().ok().and_then(files::regular);
    match inputs.iter().find(|input| output.is_some() && input.identity() == output) {
        Some(input) => Err((input.name(), Trouble::Misused("is standard output too; an input is never written".to_string()))),
        None => Ok(out),
    }
}

/// How many inputs had trouble, of each kind that there is.
fn counts(troubles: &[(&Input, Trouble)]) -> String {
    let kinds = [(Status::Refused, "refused"), (Status::Misused, "wrongly used"), (Status::Failed, "failed")];
    let count = |status| troubles.iter().filter(|(_, trouble)| trouble.status() == status).count();
    kinds.iter().filter(|k| count(k.0) > 0).map(|k| format!(", {} {}", count(k.0), k.1)).collect()
}

fn summarize(inputs: usize, troubles: &[(&Input, Trouble)]) {
    say(&format!("adapter: {inputs} inputs{}:\n", counts(troubles)));
    for (input, trouble) in troubles {
        say(&trouble.message("  ", &input.name()));
    }
}
