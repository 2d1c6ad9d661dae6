//! The filters of the README, tried on a capture of a small journal: Wireshark must match the packets that it should by
//! the fields that were meant in them, and no others.
//!
//! A filter that Wireshark refuses, that is not known here or that matches no packet is wrong too; and so is one of
//! which a part decides nothing in that capture, since another number or field would do there as well.

mod filter;
mod journal;
mod table;

use super::capture::Capture;
use super::meant::{Meaning, Until};
use super::stations::Stations;
use super::tshark;
use filter::Filter;
use std::fs;
use std::path::PathBuf;

/// Whether each filter of the README matches what it should; prints which do not.
pub fn right(path: PathBuf, readme: &str) -> Result<bool, String> {
    let text = fs::read_to_string(readme).map_err(|error| format!("{readme}: {error}"))?;
    let filters = table::filters(&text).map_err(|wrong| format!("{readme}: {wrong}"))?;
    let capture = captured(path)?;
    let wrong = filters.iter().filter_map(|filter| Some((filter, tried(&capture, filter).err()?)));
    let wrong: Vec<(&String, String)> = wrong.collect();
    for (filter, why) in &wrong {
        println!("{readme}: `{filter}`: {why}");
    }
    println!("{} filters of {readme} tried on {} packets: {} wrong", filters.len(), capture.meant.len(), wrong.len());
    Ok(wrong.is_empty())
}

/// The journal's capture, written.
fn captured(path: PathBuf) -> Result<Capture, String> {
    let (mut stations, mut capture) = (Stations::fresh(), Capture::new(path));
    for record in journal::records() {
        capture.add("the filters' journal", stations.play(record).into_iter().map(Meaning::of_bytes));
    }
    assert!(capture.meant.iter().all(|packet| packet.until == Until::End), "all of each packet is meant");
    capture.write()?;
    Ok(capture)
}

/// What is wrong with a filter, if anything is.
fn tried(capture: &Capture, text: &str) -> Result<(), String> {
    let filter = Filter::read(text)?;
    let meant = meant(capture, &filter);
    let read = tshark::matched(&capture.path, text)?;
    if read != meant {
        return Err(format!("Wireshark matches packets {read:?}, meant {meant:?}"));
    }
    if meant.is_empty() {
        return Err("matches no packet".to_string());
    }
    if filter.weaker().iter().any(|weaker| self::meant(capture, weaker) == meant) {
        return Err("a part of it decides nothing here".to_string());
    }
    Ok(())
}

/// The numbers of the packets, from 1, that a filter should match.
fn meant(capture: &Capture, filter: &Filter) -> Vec<usize> {
    let packets = (1..).zip(&capture.meant);
    packets.filter(|(_, packet)| filter.matches(&packet.fields)).map(|(number, _)| number).collect()
}
