//! What Wireshark reads in a capture, by its program `tshark`: fields in the order of the packet's bytes, and the
//! packets that a filter matches.
//!
//! It runs with the settings it comes with, and not those of the user. Not looked at are the names that Wireshark gives
//! to numbers: some are its own (error 15 is "Response timeout", where the profile has a response that is too long;
//! error 0F is "The text array does not save right", where there is no text).

use super::fields::{self, Field, LEFT_OVER};
use std::io::{BufRead, BufReader};
use std::path::Path;
use std::process::{Command, Stdio};

/// Wireshark's version, or why it does not start. Newer builds name no commit behind it.
pub fn version() -> Result<String, String> {
    let told = Command::new("tshark").arg("--version").output().map_err(|error| format!("tshark: {error}"))?;
    let told = String::from_utf8_lossy(&told.stdout);
    let line = told.lines().next().unwrap_or_default();
    Ok(line.split(" (Git").next().unwrap_or_default().trim_end_matches('.').to_string())
}

/// The program, told to open a capture.
fn tshark(capture: &Path) -> Command {
    let mut tshark = Command::new("tshark");
    tshark
        .env("WIRESHARK_CONFIG_DIR", capture.with_extension("settings"))
        .args(["-n", "-o", "ip.check_checksum:TRUE", "-o", "udp.check_checksum:TRUE", "-r"])
        .arg(capture);
    tshark
}

/// What Wireshark reads, packet by packet.
pub(crate) fn read(capture: &Path) -> Result<Vec<Vec<Field>>, String> {
    let mut tshark = tshark(capture)
        .args(["-T", "pdml"])
        .stdout(Stdio::piped())
        .stderr(Stdio::inherit())
        .spawn()
        .map_err(|error| format!("tshark: {error}"))?;
    let mut packets: Vec<Vec<Field>> = Vec::new();
    for line in BufReader::new(tshark.stdout.take().expect("piped")).lines() {
        let line = line.map_err(|error| format!("tshark: {error}"))?;
        if line == "<packet>" {
            packets.push(Vec::new());
        }
        if let Some(packet) = packets.last_mut() {
            packet.extend(fields_on(&line)?);
        }
    }
    match tshark.wait() {
        Ok(status) if status.success() => Ok(packets),
        ended => Err(format!("tshark: {ended:?}")),
    }
}

/// The numbers of the packets, from 1, that a filter matches, or why Wireshark refuses it.
pub(crate) fn matched(capture: &Path, filter: &str) -> Result<Vec<usize>, String> {
    let arguments = ["-T", "fields", "-e", "frame.number", "-Y", filter];
    let told = tshark(capture).args(arguments).output().map_err(|error| format!("tshark: {error}"))?;
    if !told.status.success() {
        let told = String::from_utf8_lossy(&told.stderr);
        let why = told.lines().find_map(|line| line.strip_prefix("tshark: ")).unwrap_or("it does not say why");
        return Err(format!("Wireshark refuses it: {why}"));
    }
    let number = |line: &str| line.parse().map_err(|_| format!("no packet's number: {line}"));
    String::from_utf8_lossy(&told.stdout).lines().map(number).collect()
}

/// The fields on a line that are looked at: one or none, and every byte of what was left over.
fn fields_on(line: &str) -> Result<Vec<Field>, String> {
    let between = |start: &str| line.split_once(start).and_then(|(_, rest)| rest.split_once('"')).map(|(it, _)| it);
    let Some(name) = between("<field name=\"") else { return Ok(Vec::new()) };
    let shown = between(" show=\"").unwrap_or_default();
    if name.is_empty() && shown == LEFT_OVER {
        return left_over(between(" value=\"").unwrap_or_default()).ok_or(format!("no bytes: {line}"));
    }
    if let Some(name) = fields::without_number(name) {
        return Ok(vec![(name, 0)]);
    }
    let Some(name) = fields::with_number(name) else { return Ok(Vec::new()) };
    fields::number(shown).map(|number| vec![(name, number)]).ok_or(format!("no number: {line}"))
}

/// A field for each byte of a text in hex.
fn left_over(hex: &str) -> Option<Vec<Field>> {
    let byte = |pair: &[u8]| u32::from_str_radix(std::str::from_utf8(pair).ok()?, 16).ok();
    hex.as_bytes().chunks(2).map(|pair| Some((LEFT_OVER, byte(pair)?))).collect()
}

#[cfg(test)]
mod tests {
    use super::super::fields::{DO, IP_FROM, PNU, REFERENCE};
    use super::*;

    #[test]
    fn fields_on_lines() {
        let line = |name: &str, show: &str| {
            format!("  <field name=\"{name}\" showname=\"x: 1\" show=\"{show}\" value=\"07A0\"/>")
        };
        assert_eq!(fields_on(&line(REFERENCE, "0x07")), Ok(vec![(REFERENCE, 7)]));
        assert_eq!(fields_on(&line(PNU, "30001")), Ok(vec![(PNU, 30001)]));
        assert_eq!(fields_on(&line(IP_FROM, "10.47.1.2")), Ok(vec![(IP_FROM, 0x0A2F_0102)]));
        assert_eq!(fields_on(&line("pn_io.array", "")), Ok(Vec::new()));
        assert_eq!(fields_on(&line("", "Long frame")), Ok(vec![(LEFT_OVER, 0x07), (LEFT_OVER, 0xA0)]));
        assert_eq!(fields_on(&line("", "Timestamps")), Ok(Vec::new()));
        assert!(fields_on(&line(DO, "")).is_err());
    }
}
