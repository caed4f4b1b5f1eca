//! The adapter on the command line: converts, merges, validates, reports on, lists and round-trips AMR-WB recordings, and checks sheets. The
//! library (level three) decides everything about frames and sheets; here are arguments, files and messages only.
//!
//! The modules lie in adapter/, and are named by path because this file is the program's root.
#[path = "adapter/arguments.rs"]
mod arguments;
#[path = "adapter/convert.rs"]
mod convert;
#[path = "adapter/files.rs"]
mod files;
#[path = "adapter/format.rs"]
mod format;
#[path = "adapter/frames.rs"]
mod frames;
#[path = "adapter/help.rs"]
mod help;
#[path = "adapter/inputs.rs"]
mod inputs;
#[path = "adapter/library.rs"]
mod library;
#[path = "adapter/merge.rs"]
mod merge;
#[path = "adapter/output.rs"]
mod output;
#[path = "adapter/refusal.rs"]
mod refusal;
#[path = "adapter/report.rs"]
mod report;
#[path = "adapter/round_trip.rs"]
mod round_trip;
#[path = "adapter/sheet.rs"]
mod sheet;
#[path = "adapter/sheet_fault.rs"]
mod sheet_fault;
#[path = "adapter/target.rs"]
mod target;
#[path = "adapter/trouble.rs"]
mod trouble;
#[path = "adapter/validate.rs"]
mod validate;

use arguments::{Command, Parsed};
use std::ffi::OsString;
use std::process::ExitCode;
use trouble::{say, Status, Trouble};

const COMMANDS: [Command; 7] = [
    Command {
        name: "convert",
        action: None,
        options: &["--to", "--from", "--request", "--output", "--into"],
        help: help::CONVERT,
        run: convert::convert,
    },
    Command { name: "merge", action: None, options: &["--from", "--output"], help: help::MERGE, run: merge::merge },
    Command { name: "validate", action: None, options: &["--from"], help: help::VALIDATE, run: validate::validate },
    Command { name: "report", action: None, options: &["--long", "--from"], help: help::REPORT, run: report::report },
    Command { name: "frames", action: None, options: &["--from"], help: help::FRAMES, run: frames::frames },
    Command {
        name: "round-trip",
        action: None,
        options: &["--from", "--via", "--request"],
        help: help::ROUND_TRIP,
        run: round_trip::round_trip,
    },
    Command { name: "sheet", action: Some("check"), options: &[], help: help::SHEET, run: sheet::sheet },
];

fn main() -> ExitCode {
    library::report_file_size_limit();
    let status = run(std::env::args_os().skip(1).collect());
    ExitCode::from(status as u8)
}

fn run(mut arguments: Vec<OsString>) -> Status {
    if arguments.is_empty() {
        say(help::USAGE);
        return Status::Misused;
    }
    let first = arguments.remove(0);
    match first.to_str() {
        Some("--help" | "-h" | "help") => explain(arguments),
        Some("--version") => print(help::VERSION),
        name => match COMMANDS.iter().find(|c| Some(c.name) == name) {
            Some(command) => run_command(command, arguments),
            None => misused(&format!("no command {}", files::shown(&first)), "adapter --help"),
        },
    }
}

fn run_command(command: &Command, arguments: Vec<OsString>) -> Status {
    match arguments::parse(command, arguments) {
        Ok(Parsed::Help) => print(command.help),
        Ok(Parsed::Run(options)) => (command.run)(&options),
        Err(what) => misused(&format!("{}: {what}", command.name), &format!("adapter {} --help", command.name)),
    }
}

/// `adapter help` with or without the name of a command, and its action.
fn explain(arguments: Vec<OsString>) -> Status {
    let [name, ..] = &arguments[..] else { return print(help::GENERAL) };
    match COMMANDS.iter().find(|c| Some(c.name) == name.to_str()) {
        Some(command) => print(command.help),
        None => misused(&format!("no command {}", files::shown(name)), "adapter --help"),
    }
}

fn misused(what: &str, see: &str) -> Status {
    say(&format!("adapter: {what}; see {see}\n"));
    Status::Misused
}

fn print(text: &str) -> Status {
    match output::print(text) {
        Ok(()) => Status::Done,
        Err(e) => Trouble::Output(e).tell("adapter"),
    }
}
