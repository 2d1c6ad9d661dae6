//! A cycle in words.

use super::refused;
use crate::bits::{self, ACKNOWLEDGE, BY_PLC, FAULT};
use crate::face::Cycled;
use crate::journal::Inputs;
use crate::names;

/// What is remembered of an axis from one cycle to the next: all is as its last accepted cycle left it.
#[derive(Clone, Copy, Debug, PartialEq, Eq)]
pub(super) struct Axis {
    state: u8,
    status: u16,
    word: u16,
    setpoint: i16,
}

impl Default for Axis {
    /// A fresh one.
    fn default() -> Axis {
        Axis { state: 1, status: 0, word: 0, setpoint: 0 }
    }
}

impl Axis {
    /// A cycle with its answer.
    pub(super) fn told(&mut self, inputs: &Inputs, cycled: &Cycled) -> String {
        let given = self.given(inputs);
        if cycled.number != 0 {
            return format!("{given} -> {}", refused(cycled.number, false));
        }
        let before = *self;
        if inputs.stw1 & BY_PLC != 0 {
            (self.word, self.setpoint) = (inputs.stw1, inputs.nsoll);
        }
        (self.state, self.status) = (cycled.state, cycled.status);
        format!("{given} -> {}", self.answered(before, cycled.rpm))
    }

    /// What it was given, and what of that stands.
    fn given(&self, inputs: &Inputs) -> String {
        let Inputs { flags, stw1, nsoll, nist, fault } = *inputs;
        let last = format!("so the last stand in, {:04X} and {}", self.word, self.setpoint);
        let mut told = vec![bits::control(stw1), format!("setpoint {nsoll} ({})", percent(nsoll))];
        told.extend((stw1 & BY_PLC == 0).then_some(last));
        told.push(format!("actual {nist} ({})", percent(nist)));
        told.extend((fault != 0).then(|| format!("fault code {fault}")));
        told.extend((flags & 1 != 0).then(|| "standstill".to_string()));
        told.extend((flags & 2 != 0).then(|| "warning".to_string()));
        told.extend((flags > 3).then(|| format!("flags {flags:02X}")));
        told.join(", ")
    }

    /// What it came to, from what was before.
    fn answered(&self, before: Axis, rpm: i32) -> String {
        let Axis { state, status, .. } = *self;
        let from = if before.state == state { "stays in".to_string() } else { format!("S{} to", before.state) };
        let fault = self.fault_told(before);
        let state = format!("{from} S{state} {}", names::state(state));
        format!("{state}{fault}, effective setpoint {rpm} rpm, {}", bits::status(status))
    }

    /// What became of a fault. Nothing but an acknowledge takes it away, and one that is held or comes with a fault code does not.
    fn fault_told(&self, before: Axis) -> &'static str {
        match (before.status & FAULT != 0, self.status & FAULT != 0) {
            (true, false) => ", fault acknowledged",
            (true, true) if self.word & ACKNOWLEDGE != 0 => ", fault not acknowledged",
            (false, true) => ", a fault came",
            _ => "",
        }
    }
}

/// A normalised figure, of which 16384 is 100 %.
fn percent(n2: i16) -> String {
    format!("{:.2} %", f64::from(n2) * 100.0 / 16384.0)
}

#[cfg(test)]
mod tests {
    use super::*;
    use crate::explain::tests::told;
    use crate::played::made_up::cycle;

    const RUN: Inputs = Inputs { flags: 0, stw1: 0x047F, nsoll: -8192, nist: 0, fault: 0 };

    fn with(state: u8, status: u16, number: u8) -> Cycled {
        Cycled { rpm: -750, status, state, number }
    }

    #[test]
    fn cycles() {
        let odd = Inputs { flags: 0xF3, nist: 1, fault: 9, ..RUN };
        let lines = told(vec![
            cycle(16, RUN, with(4, 0x0237, 0)),
            cycle(16, RUN, with(4, 0x0237, 0)),
            cycle(16, odd, with(0, 0, 12)),
            cycle(17, RUN, with(0, 0, 1)),
        ]);
        let sent = format!("{}, setpoint -8192 (-50.00 %), actual", bits::control(0x047F));
        let answer = format!("S4 operation, effective setpoint -750 rpm, {}", bits::status(0x0237));
        let flags = "fault code 9, standstill, warning, flags F3";
        assert_eq!(
            lines,
            [
                format!("axis 16, {sent} 0 (0.00 %) -> S1 to {answer}"),
                format!("axis 16, {sent} 0 (0.00 %) -> stays in {answer}"),
                format!("axis 16, {sent} 1 (0.01 %), {flags} -> refused: unknown flags (12)"),
                format!("axis 17, {sent} 0 (0.00 %) -> refused: no such farm or axis (1)"),
            ]
        );
    }

    #[test]
    fn the_word_that_stands_in_is_the_last_accepted() {
        let quiet = Inputs { stw1: 0x0001, nsoll: 5, ..RUN };
        let refused = Inputs { stw1: 0x04FF, nsoll: 7, ..RUN };
        let good = with(4, 0x0237, 0);
        let lines = told(vec![
            cycle(1, quiet, good),
            cycle(1, RUN, good),
            cycle(1, refused, with(0, 0, 12)),
            cycle(1, quiet, good),
            cycle(1, quiet, good),
        ]);
        let last = |line: &String| {
            line.split(", actual").next().and_then(|line| line.split("(0.03 %)").nth(1)).map(str::to_string)
        };
        let stands = |word: &str| Some(format!(", so the last stand in, {word}"));
        let run = "047F and -8192";
        assert_eq!(
            lines.iter().map(last).collect::<Vec<_>>(),
            [stands("0000 and 0"), None, None, stands(run), stands(run)]
        );
    }

    #[test]
    fn what_becomes_of_a_fault() {
        let acknowledge = Inputs { stw1: 0x04FE, ..RUN };
        let (fault, none) = (with(1, 0x0248, 0), with(2, 0x0231, 0));
        let lines = told(vec![
            cycle(1, acknowledge, none),
            cycle(1, RUN, fault),
            cycle(1, RUN, fault),
            cycle(1, acknowledge, fault),
            cycle(1, acknowledge, none),
            cycle(1, RUN, none),
        ]);
        let told = |line: &String| {
            line.split("-> ").nth(1).and_then(|line| line.split(", effective").next()).map(str::to_string)
        };
        let inhibited = "S1 switching on inhibited";
        let lines: Vec<String> = lines.iter().filter_map(told).collect();
        assert_eq!(
            lines,
            [
                "S1 to S2 ready".to_string(),
                format!("S2 to {inhibited}, a fault came"),
                format!("stays in {inhibited}"),
                format!("stays in {inhibited}, fault not acknowledged"),
                "S1 to S2 ready, fault acknowledged".to_string(),
                "stays in S2 ready".to_string(),
            ]
        );
    }
}
