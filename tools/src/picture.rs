//! `report --picture`: the season drawn. The counts come in as the lines of `report`, and one SVG goes out: no script, no font, no
//! other file.

pub mod bar;
pub mod counts;
pub mod marks;
pub mod numbers;
pub mod page;
pub mod places;
pub mod rows;
pub mod style;
pub mod texts;

use crate::command::{self, Ended, Output};
use counts::Season;
use std::ffi::OsString;
use std::io::{self, Read};

/// The command, given what the season is called; its counts are on standard input.
pub fn run(arguments: &[OsString]) -> Result<Ended, String> {
    let [title] = arguments else {
        return Err("takes a title, and the lines of 'report' on standard input".to_string());
    };
    let mut counts = Vec::new();
    io::stdin().lock().read_to_end(&mut counts).map_err(command::trouble("standard input"))?;
    let season = Season::read(&counts)?;
    let mut output = Output::new();
    output.bytes(page::drawn(&title.to_string_lossy(), &season).as_bytes())?;
    output.flush()?;
    Ok(if season.cut.is_some() { Ended::Bad } else { Ended::Good })
}

#[cfg(test)]
mod tests {
    use super::*;

    #[test]
    fn takes_one_title() {
        assert!(run(&[]).is_err());
        assert!(run(&["a".into(), "b".into()]).is_err());
    }
}
