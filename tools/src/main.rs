//! Usage: `tell COMMAND ARGUMENT..`: one of the commands for people, which `../../llinkhiro` builds and starts. What each takes and
//! prints is said by `../../llinkhiro COMMAND --help`.
//!
//! Exit status: 0, all is well; 1, something was found wrong, and was told; 2, trouble with a file, or the command was asked for
//! wrongly.

#![forbid(unsafe_code)]
#![deny(warnings)]

use std::ffi::OsString;
use std::process::ExitCode;
use tools::command::{say, Ended};
use tools::{capture, check, explain, picture, text, versions, who};

fn main() -> ExitCode {
    let arguments: Vec<OsString> = std::env::args_os().skip(1).collect();
    let Some((command, arguments)) = arguments.split_first() else {
        say("usage: tell COMMAND ARGUMENT..\n");
        return ExitCode::from(2);
    };
    let name = command.to_string_lossy();
    let ended = match name.as_ref() {
        "capture" => capture::run(arguments),
        "check" => check::run(arguments),
        "explain" => explain::run(arguments),
        "journal" => text::run(arguments),
        "picture" => picture::run(arguments),
        "versions" => versions::run(arguments),
        "who" => who::run(arguments),
        _ => Err("there is no such command".to_string()),
    };
    match ended {
        Ok(Ended::Good) => ExitCode::SUCCESS,
        Ok(Ended::Bad) => ExitCode::FAILURE,
        Err(trouble) => {
            say(format_args!("{name}: {trouble}\n"));
            ExitCode::from(2)
        }
    }
}
