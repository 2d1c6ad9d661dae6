//! The programs that make the library's calls. They are of the library's processor, which need not be this one's.

use std::env;
use std::path::Path;
use std::process::{Command, Stdio};

/// The command that starts one of them, with pipes to its output: a file in the folder LLINKHIRO_HOST, with the words of
/// LLINKHIRO_EMULATOR before it, if there are any.
pub fn program(name: &str) -> Result<Command, String> {
    let folder =
        env::var_os("LLINKHIRO_HOST").ok_or("LLINKHIRO_HOST is not set: it names the folder of the host's programs")?;
    let program = Path::new(&folder).join(name);
    let emulator = env::var("LLINKHIRO_EMULATOR").unwrap_or_default();
    let mut words = emulator.split_whitespace();
    let mut command = match words.next() {
        Some(emulator) => {
            let mut command = Command::new(emulator);
            command.args(words).arg(&program);
            command
        }
        None => Command::new(&program),
    };
    command.stdout(Stdio::piped());
    Ok(command)
}

/// What is said where one of them does not start.
pub fn unstarted(command: &Command, error: &std::io::Error) -> String {
    format!("{}: {}", Path::new(command.get_program()).display(), crate::command::reason(error))
}
