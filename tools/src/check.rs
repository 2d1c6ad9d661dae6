//! `check`: holds a partner's answers against what was asked, by the library: a response block, or a log of frames.
//!
//! Two arguments in hex are blocks; of two others each is the name of a file of frames, or `-` for standard input. What such files
//! hold is said in `log`. A name in hex is refused where there is such a file.

use crate::command::{reason, trouble, Ended, Output};
use crate::log::{Findings, Frames, Log};
use crate::verdict::{verdict, Verdict};
use crate::{face, hex};
use std::ffi::{OsStr, OsString};
use std::fs;
use std::io::{self, Read};
use std::path::Path;

/// The command, given a request and a response.
pub fn run(arguments: &[OsString]) -> Result<Ended, String> {
    let [request, response] = arguments else {
        return Err("takes a request and a response: two blocks in hex, or two files of frames".to_string());
    };
    face::start()?;
    let findings = match (block(request)?, block(response)?) {
        (Some(request), Some(response)) => blocks(&request, &response),
        (None, None) => log(request, response)?,
        (Some(_), None) => return Err(unlike(request, response)),
        (None, Some(_)) => return Err(unlike(response, request)),
    };
    let mut output = Output::new();
    for line in &findings.lines {
        output.line(line)?;
    }
    output.flush()?;
    Ok(if findings.good { Ended::Good } else { Ended::Bad })
}

/// The block that an argument is in hex, none where it is the name of a file. What has spaces or commas and is no file was meant for
/// a block.
fn block(typed: &OsStr) -> Result<Option<Vec<u8>>, String> {
    let Some(text) = typed.to_str() else { return Ok(None) };
    let is_file = fs::metadata(typed).is_ok_and(|found| !found.is_dir());
    match hex::words(text).next() {
        None => Err("an argument is empty".to_string()),
        _ if hex::is_hex(text) && is_file => Err(format!(
            "'{text}' is a block in hex and also a file: type './{text}' for the file, ' {text}' for the block"
        )),
        Some(first) if hex::is_hex(text) || (first != text && !is_file) => hex::bytes(text).map(Some),
        _ => Ok(None),
    }
}

fn unlike(block: &OsStr, file: &OsStr) -> String {
    let (block, file) = (hex::cut(&block.to_string_lossy()), Path::new(file).display());
    format!("'{block}' was taken for a block in hex, and '{file}' for a file: they are two blocks or two files")
}

fn blocks(request: &[u8], response: &[u8]) -> Findings {
    let verdict = verdict(face::check(request, response), request, response);
    Findings { lines: vec![verdict.to_string()], good: verdict == Verdict::Yes }
}

fn log(sent: &OsStr, answers: &OsStr) -> Result<Findings, String> {
    if sent == "-" && answers == "-" {
        return Err("standard input is one of the two files, and not both".to_string());
    }
    let log = Log::new(frames(sent)?, frames(answers)?)?;
    Ok(log.check(face::check))
}

fn frames(name: &OsStr) -> Result<Frames, String> {
    if name == "-" {
        let mut text = Vec::new();
        io::stdin().lock().read_to_end(&mut text).map_err(trouble("standard input"))?;
        return Frames::read("standard input".to_string(), &String::from_utf8_lossy(&text));
    }
    let typed = Path::new(name).display();
    let text = fs::read(name)
        .map_err(|error| format!("'{typed}' is neither hex nor a file that can be read: {}", reason(&error)))?;
    Frames::read(typed.to_string(), &String::from_utf8_lossy(&text))
}
