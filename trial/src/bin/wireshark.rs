//! Puts blocks in captures and compares what Wireshark reads in them with what was meant; and tries the filters of the
//! README.
//!
//! Usage: `wireshark FOLDER README JOURNAL JOURNALS EXAMPLES...`: a folder to write in, the README, a journal, a file
//! of journals in hex and files of examples. What is compared, what is not and why is said in `trial::wireshark` and
//! its rooms.

#![forbid(unsafe_code)]
#![deny(warnings)]

use std::fs;
use std::path::Path;
use std::process::ExitCode;
use trial::wireshark::{self, examples, filters, pairs, planted, Bench};

fn main() -> ExitCode {
    let arguments: Vec<String> = std::env::args().skip(1).collect();
    let [folder, readme, journal, journals, examples @ ..] = arguments.as_slice() else {
        eprintln!("usage: wireshark FOLDER README JOURNAL JOURNALS EXAMPLES...");
        return ExitCode::from(2);
    };
    match run(Path::new(folder), readme, journal, journals, examples) {
        Ok(true) => ExitCode::SUCCESS,
        Ok(false) => ExitCode::FAILURE,
        Err(wrong) => {
            eprintln!("wireshark: {wrong}");
            ExitCode::from(2)
        }
    }
}

/// Whether all was read as it was meant, and all that was planted was found.
fn run(folder: &Path, readme: &str, journal: &str, journals: &str, files: &[String]) -> Result<bool, String> {
    fs::create_dir_all(folder).map_err(|error| format!("{}: {error}", folder.display()))?;
    println!("{}", wireshark::version()?);
    let mut bench = Bench::new(folder.join("blocks.pcap"));
    bench.journal(journal)?;
    bench.journals(journals)?;
    let examples = examples::read(files)?;
    bench.examples(&examples);
    bench.every_request()?;
    bench.requests_by_chance()?;
    bench.responses();
    let same = bench.report()?;
    let found = planted::found(folder.join("planted.pcap"))?;
    let agreed = pairs::agree(&folder.join("pairs.pcap"), &examples)?;
    let found_in_pairs = pairs::planted::found(&folder.join("planted-pairs.pcap"))?;
    let matched = filters::right(folder.join("filters.pcap"), readme)?;
    Ok(same && found && agreed && found_in_pairs && matched)
}
